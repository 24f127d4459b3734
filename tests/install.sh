#!/bin/sh
# Tries, with stand-ins for the program and the toolchain: that ./p21 builds the program where it has to, and runs the one
# that stands where P21_KEEP says so; which files making/install copies; and that making/build-library builds the library where
# it has to, and what it copies. It stands beside the gate.

cd "$(dirname -- "$(readlink -f -- "$0")")/.." || exit
unset P21 P21_KEEP P21_OVER_KEPT
here=$(mktemp -d)
trap 'rm -rf "$here"' EXIT
failed=0

# A repository with a program that says its arguments, and sources that are newer.
tree=$here/tree
mkdir -p "$tree/crates/p21/out" "$tree/crates/p21/src" "$tree/tools" "$tree/making"
cp p21 "$tree/p21"
cp making/install making/building.sh making/build-library "$tree/making"
cp LICENSE "$tree/LICENSE"
program=$tree/crates/p21/out/p21
printf '#!/bin/sh\necho "stands: $*"\n' > "$program"
chmod +x "$program"
printf '#!/bin/sh\necho "other: $*"\n' > "$here/other"
chmod +x "$here/other"
touch -d '2001-01-01' "$tree/crates/p21/out/begun"
touch "$tree/crates/p21/src/main.rt" "$tree/crates.txt"

# A path with the programs that the scripts call, and no toolchain.
mkdir "$here/path"
for name in sh awk basename cut env cat cp dirname find grep install ln mkdir mktemp readlink rm sed sha256sum sort touch; do
    ln -s "$(command -v "$name")" "$here/path/$name"
done

# expect NAME STATUS TEXT COMMAND..: the command ends with this status, and its output has the text.
expect() {
    name=$1 wanted=$2 text=$3
    shift 3
    output=$(PATH=$here/path "$@" 2>&1)
    status=$?
    case $output in
        *"$text"*) [ "$status" -eq "$wanted" ] && { echo "$name: as it must be"; return; } ;;
    esac
    echo "$name: status $status; output: $output" >&2
    failed=1
}

expect 'newer sources' 127 'rt of the toolchain is not in PATH' "$tree/p21" check s f
expect 'newer sources, and the program is kept' 0 'stands: check s f' env P21_KEEP=1 "$tree/p21" check s f
expect 'another word than 1 keeps nothing' 127 'rt of the toolchain is not in PATH' env P21_KEEP=0 "$tree/p21" check s f
touch -d '2000-01-01' "$tree/crates/p21/src/main.rt" "$tree/crates.txt"
expect 'older sources' 0 'stands: check s f' "$tree/p21" check s f
rm "$tree/crates/p21/out/begun"
expect 'a program of unknown age is kept' 0 'stands: faults' env P21_KEEP=1 "$tree/p21" faults
expect 'a program of unknown age' 127 'rt of the toolchain is not in PATH' "$tree/p21" faults

# files NAME LINES: the files and links below the folder `prefix`.
files() {
    found=$(cd "$here/prefix" 2> /dev/null && find . ! -type d | sort)
    if [ "$found" = "$2" ]; then
        echo "$1: as it must be"
    else
        printf '%s: files: %s\n' "$1" "$found" >&2
        failed=1
    fi
    rm -rf "$here/prefix"
}

expect 'no folder' 2 'usage: making/install PREFIX' "$tree/making/install"
expect 'two folders' 2 'usage: making/install PREFIX' "$tree/making/install" "$here/prefix" "$here/other"

expect 'a program alone' 0 'there is no README.md' "$tree/making/install" "$here/prefix"
files 'the files of a program alone' './bin/p21
./share/doc/p21/LICENSE'

mkdir -p "$tree/man" "$tree/completions" "$tree/docs/dev" "$tree/examples/refused"
for part in README.md CHANGELOG.md man/p21.1 man/p21-a.1 docs/dev/CODE.md docs/CANONICAL.md docs/FAULTS.md docs/RECIPES.md \
    docs/SCHEMAS.md completions/p21.bash completions/_p21 completions/p21.fish completions/p21-a.bash completions/_p21-a \
    completions/p21-a.fish examples/one.step examples/refused/two.step tools/shared.py tools/p21-a tools/p21-b; do
    echo "$part" > "$tree/$part"
done
expect 'each part' 0 "$here/prefix/bin/p21" "$tree/making/install" "$here/prefix"
expect 'the program that was copied' 0 'stands: check s f' "$here/prefix/bin/p21" check s f
expect 'a tool by its link' 0 'tools/p21-b' cat "$here/prefix/bin/p21-b"
expect 'each part once more' 0 "$here/prefix/bin/p21" "$tree/making/install" "$here/prefix"
files 'the files of each part' './bin/p21
./bin/p21-a
./bin/p21-b
./lib/p21/p21-a
./lib/p21/p21-b
./lib/p21/shared.py
./share/bash-completion/completions/p21
./share/bash-completion/completions/p21-a
./share/doc/p21/CANONICAL.md
./share/doc/p21/CHANGELOG.md
./share/doc/p21/FAULTS.md
./share/doc/p21/LICENSE
./share/doc/p21/README.md
./share/doc/p21/RECIPES.md
./share/doc/p21/SCHEMAS.md
./share/doc/p21/examples/one.step
./share/doc/p21/examples/refused/two.step
./share/fish/vendor_completions.d/p21-a.fish
./share/fish/vendor_completions.d/p21.fish
./share/man/man1/p21-a.1
./share/man/man1/p21.1
./share/zsh/site-functions/_p21
./share/zsh/site-functions/_p21-a'

# The tools themselves, with the program that they find beside them.
rm "$tree"/tools/p21-*
cp tools/p21-* tools/*.py "$tree/tools/"
ln -s "$(python3 -c 'import sys; print(sys.executable)')" "$here/path/python3"
expect 'the tools that there are' 0 "$here/prefix/lib/p21/p21-where" "$tree/making/install" "$here/prefix"
expect 'a tool runs the program that is installed with it' 0 'stands: check --where --format jsonl -- s f' "$here/prefix/bin/p21-where" s f
expect 'a tool runs another program where it is told to' 0 'other: check --where --format jsonl -- s f' \
    env P21="$here/other" "$here/prefix/bin/p21-where" s f
rm -rf "$here/prefix"

rm "$program"
expect 'no program to keep' 127 'rt of the toolchain is not in PATH' env P21_KEEP=1 "$tree/p21" faults
expect 'no program to copy' 1 'the program is not built' "$tree/making/install" "$here/prefix"
files 'no file where there is no program' ''

# A toolchain that has proved one crate before, proves two functions of the program, and builds it.
cat > "$here/path/rt" <<'END'
#!/bin/sh
[ "$*" != version ] || { echo 'a toolchain'; exit; }
[ "$*" = ci ] && [ -z "$FAILS" ] || { echo 'rt: p21: error'; exit 1; }
echo 'rt: p21_a is kept: an earlier run on this machine proved the same files over the same libraries'
printf 'fn p21::%s: proved\n' first second
echo 'rt: p21 proved'
mkdir -p crates/p21/out
printf '#!/bin/sh\necho "built of %s: $*"\n' "$(cd crates && echo *)" > crates/p21/out/p21
chmod +x crates/p21/out/p21
echo 'object code' > crates/p21/out/p21.o
echo '2 passed, 0 failed'
END
chmod +x "$here/path/rt"
for name in tail tee wc mv chmod; do
    ln -s "$(command -v "$name")" "$here/path/$name"
done
mkdir -p "$tree/crates/p21_a/src" "$tree/crates/p21_b/src"
printf '%s\n' '# crates' 'p21_a: thiserror' 'p21_b: p21_a' 'p21: p21_a' > "$tree/crates.txt"
touch "$tree/HANDLES"
expect 'a build that fails' 126 'the program could not be built' env FAILS=1 "$tree/p21" check s f
expect 'a build' 0 'p21: p21_a is proved (1 of 2)
p21: p21 is proved (2 of 2)
built of p21 p21_a: check s f' env P21_KEEP=1 "$tree/p21" check s f
sum=$(cd "$tree/crates/p21/out" && sha256sum p21 p21.o | sed 's/^/file /')
expect 'what is known of the build' 0 "proved p21_a
proved p21
gate 2 passed, 0 failed
$sum" cat "$tree/crates/p21/out/record"
expect 'the toolchain of the build' 0 'toolchain a toolchain' cat "$tree/crates/p21/out/record"
sources() {
    sh -c 'root=$1; . "$root/making/building.sh"; sum_of_sources "$root" p21' sources "$tree"
}
expect 'the sources of the build' 0 "sources $(sources)" cat "$tree/crates/p21/out/record"
echo 'fn a() {}' > "$tree/crates/p21_a/src/lib.rt"
[ "$(sources)" != "$(sed -n 's/^sources //p' "$tree/crates/p21/out/record")" ] || { echo 'other sources have the same checksum' >&2; failed=1; }
rm "$tree/crates/p21_a/src/lib.rt" "$here/path/rt"
touch "$tree/crates/p21/out/begun"
expect 'the program that was built' 0 'built of p21 p21_a: check s f' "$tree/p21" check s f

# The same toolchain builds the program where it stands, over what its checks kept.
cat > "$here/path/rt" <<'END'
#!/bin/sh
[ "$*" != version ] || { echo 'a toolchain'; exit; }
[ "$*" = 'run -- --version' ] && [ -z "$FAILS" ] || { echo "rt: error in $(basename "$PWD")"; exit 1; }
printf '#!/bin/sh\necho "built over kept work: $*"\n' > out/p21
chmod +x out/p21
echo 'object code' > out/p21.o
[ -z "$EDITS" ] || echo 'fn a() {}' > src/lib.rt
END
chmod +x "$here/path/rt"
touch "$tree/crates.txt"
expect 'a build over kept work that fails' 126 'rt: error in p21' env FAILS=1 P21_OVER_KEPT=1 "$tree/p21" check s f
expect 'no program of it' 1 '' test -e "$program" -o -e "$tree/crates/p21/out/record"
expect 'a build over kept work while sources change' 126 'sources changed while the program was built' \
    env EDITS=1 P21_OVER_KEPT=1 "$tree/p21" check s f
rm "$tree/crates/p21/src/lib.rt"
touch "$tree/crates.txt"
expect 'a build over kept work' 0 'built over kept work: check s f' env P21_OVER_KEPT=1 "$tree/p21" check s f
expect 'what is known of it' 0 "toolchain a toolchain
sources $(sources)
proved p21_a
proved p21
checks over kept work
$(cd "$tree/crates/p21/out" && sha256sum p21 p21.o | sed 's/^/file /')" cat "$tree/crates/p21/out/record"
rm "$here/path/rt"
expect 'the program that was built so' 0 'built over kept work: check s f' "$tree/p21" check s f

# A toolchain that proves the library's two crates; and a compiler and a linker that write what they are told.
mkdir -p "$here/bin" "$here/toolchain/bin" "$here/c" "$tree/crates/p21_c/src" "$tree/include" "$tree/python/p21"
touch "$tree/crates/p21_c/src/lib.rt" "$here/c/liblibc_c.a" "$tree/include/p21.hpp"
echo '#define P21_VERSION "1.2.3"' > "$tree/include/p21.h"
cp -R making/library "$tree/making"
echo 'p21_c staticlib: p21_a' >> "$tree/crates.txt"
expect 'no toolchain for the library' 127 'rt of the toolchain is not in PATH' "$tree/making/build-library" "$here/prefix"
printf '#!/bin/sh\n[ "$1" != ci ] || mkdir -p crates/p21_a/out/rlib/p21_a.rlib\nprintf "rt: %%s proved\\n" p21_a p21_c\n' > "$here/path/rt"
printf '#!/bin/sh\n[ -z "$FAILS" ] && echo "$*" > out/libp21_c.a\n' > "$here/bin/rattle"
printf '#!/bin/sh\necho "$*" > "$3"\n' > "$here/toolchain/bin/ld.lld"
printf '#!/bin/sh\nread -r create file\ncat > "$file"\n' > "$here/toolchain/bin/llvm-ar"
chmod +x "$here/path/rt" "$here/bin/rattle" "$here/toolchain/bin/ld.lld" "$here/toolchain/bin/llvm-ar"
ln -s "$(command -v sleep)" "$here/path/sleep"
expect 'a library that fails' 126 'the library could not be built' env FAILS=1 "$tree/making/build-library" "$here/prefix"
expect 'a library' 0 "p21: p21_c is proved (2 of 2)
p21: making the library of what is proved, some 10 minutes
p21: the library is made
$here/prefix/include/p21.h" "$tree/making/build-library" "$here/prefix"
expect 'what it is compiled over' 0 '--extern p21_a=../p21_a/out/rlib/p21_a.rlib' cat "$tree/crates/p21_c/out/libp21_c.a"
expect 'what the shared one is linked of' 0 "$tree/crates/p21_c/out/libp21_c.a" cat "$here/prefix/lib/libp21.so"
expect 'the name in the shared one' 0 '-soname libp21.so.0' cat "$here/prefix/lib/libp21.so.0"
expect 'what the static one is joined of' 0 "ADDLIB $tree/crates/p21_c/out/libp21_c.a
ADDLIB $here/c/liblibc_c.a" cat "$here/prefix/lib/libp21.a"
expect 'the version for pkg-config' 0 'Version: 1.2.3' cat "$here/prefix/lib/pkgconfig/p21.pc"
expect 'the file for CMake' 0 'lib/libp21.so.1.2.3' cat "$here/prefix/lib/cmake/p21/p21Config.cmake"
expect 'the version for CMake' 0 'PACKAGE_VERSION "1.2.3"' cat "$here/prefix/lib/cmake/p21/p21ConfigVersion.cmake"
expect 'a library once more' 0 "$here/prefix/lib/libp21.a" env FAILS=1 "$tree/making/build-library" "$here/prefix"
files 'the files of the library' './include/p21.h
./include/p21.hpp
./lib/cmake/p21/p21Config.cmake
./lib/cmake/p21/p21ConfigVersion.cmake
./lib/libp21.a
./lib/libp21.so
./lib/libp21.so.0
./lib/libp21.so.1.2.3
./lib/pkgconfig/p21.pc'
expect 'the library that was built' 0 "$tree/python/p21/libp21.so" env FAILS=1 "$tree/making/build-library"
touch "$tree/crates/p21_c/src/lib.rt"
expect 'newer sources of the library' 126 'the library could not be built' env FAILS=1 "$tree/making/build-library"
expect 'newer sources, and the library is kept' 0 "$tree/python/p21/libp21.so" env FAILS=1 P21_KEEP=1 "$tree/making/build-library"

expect 'a folder that may not be written' 1 '' "$tree/making/install" /proc/none

exit "$failed"
