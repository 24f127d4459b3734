# shellcheck shell=sh disable=SC2154
# Builds what stands above all other crates, the program or the library for C, as the gate proves it. ./p21 and
# making/build-library read this file; `root` is the folder of the repository.

# The crates of the repository that a crate is built of, each behind those that it stands on: needed_crates CRATE
needed_crates() {
    awk -v crate="$1" '
        function visit(name, parts, count, at) {
            if (!(name in below)) return
            count = split(below[name], parts, " ")
            delete below[name]
            for (at = 1; at <= count; at++) visit(parts[at])
            print name
        }
        { sub(/#.*/, "") }
        /:/ { at = index($0, ":"); split(substr($0, 1, at - 1), head, " "); below[head[1]] = substr($0, at + 1) }
        END { visit(crate) }
    ' "$root/crates.txt"
}

# The sources that are newer than a build: newer_sources BEGUN
newer_sources() {
    find "$root/crates.txt" "$root"/crates/*/src "$root"/crates/*/specs "$root"/crates/*/proofs \
        -type f -newer "$1" 2> /dev/null
}

# A checksum of all that the gate reads of a crate and of those below it in a folder: sum_of_sources FOLDER CRATE
sum_of_sources() (
    cd "$1" || exit
    {
        cat HANDLES
        for name in $(needed_crates "$2"); do
            grep "^${name}[ :]" crates.txt
            find "crates/$name" \( -path "crates/$name/out" -o -path "crates/$name/must-fail" \) -prune -o -type f -exec sha256sum {} + |
                LC_ALL=C sort -k 2
        done
    } | sha256sum | cut -d ' ' -f 1
)

# What is known of a build of a crate: the toolchain, the sources, each crate that the gate proved, how the gate ended, and the
# files that were built: record FOLDER CRATE FILE..
record() (
    folder=$1 crate=$2 out=$root/crates/$2/out
    shift 2
    echo "toolchain $(rt version)"
    echo "sources $(sum_of_sources "$folder" "$crate")"
    sed -n -E 's/^rt: ([a-z0-9_]+) (proved|is kept.*)$/proved \1/p; s/^([0-9]+ passed, [0-9]+ failed)$/gate \1/p' "$out/build.log"
    cd "$out" && sha256sum "$@" | sed 's/^/file /'
)

# Compiles a crate, in its folder, over the libraries that the gate has left around it; the compiler proves the crate itself once
# more: compile_again CRATE SOURCE OUTPUT WORD..
compile_again() {
    compiled=$1 source=$2 output=$3
    shift 3
    kit=$(dirname -- "$(dirname -- "$(readlink -f -- "$(command -v rt)")")")
    for name in $(needed_crates "$compiled"); do
        [ "$name" = "$compiled" ] || set -- "$@" -L "dependency=../$name/out/rlib"
    done
    for name in $(sed -n "s/^${compiled}[ :].*: *//p; s/^${compiled}: *//p" "$root/crates.txt"); do
        rlib=../$name/out/rlib/$name.rlib
        [ -d "$rlib" ] || rlib=$kit/rlibs/$name.rlib
        set -- "$@" --extern "$name=$rlib"
    done
    mkdir -p out && "$kit/bin/rattle" build --crate-name "$compiled" --extern "std=$kit/rlibs/std.rlib" -L "dependency=$kit/rlibs" "$@" \
        --antt-project "$kit/rattle/logic/antt-project.json" --logic-built "$kit/logic_built" --jobs 2 \
        --toolchain "$kit/toolchain" --backend llvm -o "$output" "$source"
}

# Compiles the object code of the program, in its folder, where the gate kept the program from an earlier run and so left none.
object_of_program() {
    [ -f out/p21.o ] || compile_again p21 src/main.rt out/p21.o
}

# What is known of a build over kept work, as `record` says it of the gate's, with the checksum of its sources:
# record_kept CRATE SUM FILE..
record_kept() (
    crate=$1 sum=$2
    shift 2
    echo "toolchain $(rt version)"
    echo "sources $sum"
    needed_crates "$crate" | sed 's/^/proved /'
    echo 'checks over kept work'
    cd "$root/crates/$crate/out" && sha256sum "$@" | sed 's/^/file /'
)

# Whether the file that was built of a crate is used as it stands: stands CRATE FILE
stands() {
    [ -f "$root/crates/$1/out/$2" ] || return
    [ "$P21_KEEP" = 1 ] && return
    [ -e "$root/crates/$1/out/begun" ] && [ -z "$(newer_sources "$root/crates/$1/out/begun")" ]
}

# Says every half a minute how long something has been made of what is proved, until it is: tell_time WHAT PROCESS
tell_time() {
    seconds=0
    echo "p21: making $1 of what is proved, some 10 minutes" >&2
    while kill -0 "$2" 2> /dev/null; do
        sleep 1
        seconds=$((seconds + 1))
        [ $((seconds % 30)) -ne 0 ] || echo "p21: making $1, $((seconds / 60)) min $((seconds % 60)) s" >&2
    done
}

# Proves and builds a crate: build CRATE WHAT FILE [MAKE]
#
# The gate runs over a copy of the crates that it needs, without wrong bodies, as many side by side as the machine has
# processors and memory for. Where the toolchain keeps what it proved, the next build and the whole gate prove only what has
# changed. FILE is what the gate then leaves in the crate's folder `out`, or what MAKE, a command that is run in the
# crate's folder, makes there of what is proved. The object code of a program is left beside it, and `record` says what both
# were built of.
build() {
    crate=$1 what=$2 file=$3 make=${4:-true}
    out=$root/crates/$crate/out
    log=$out/build.log
    copy=$(mktemp -d) || return
    mkdir -p "$copy/.git" "$copy/crates"
    cp "$root/HANDLES" "$copy"
    for name in $(needed_crates "$crate"); do
        grep "^${name}[ :]" "$root/crates.txt" >> "$copy/crates.txt"
        mkdir "$copy/crates/$name"
        for part in "$root/crates/$name"/*; do
            case $part in
                */out | */must-fail) ;;
                *) cp -R "$part" "$copy/crates/$name/" ;;
            esac
        done
    done
    count=$(wc -l < "$copy/crates.txt")
    echo "p21: proving and building $what: $count crates, some 40 minutes on four processors, or only what has changed where" \
        "the toolchain keeps what it proved; the log is $log" >&2
    proved=0
    (cd "$copy" && rt ci) 2>&1 | tee "$log" | while read -r who name result; do
        case $who$result in
            rt:proved | 'rt:is kept'*)
                proved=$((proved + 1))
                echo "p21: $name is proved ($proved of $count)" >&2
                ;;
        esac
    done
    (cd "$copy/crates/$crate" && "$make") >> "$log" 2>&1 &
    [ "$make" = true ] || tell_time "$what" $!
    wait $!
    if [ ! -f "$copy/crates/$crate/out/$file" ]; then
        rm -rf "$copy"
        tail -n 20 "$log" >&2
        return 1
    fi
    [ "$make" = true ] || echo "p21: $what is made" >&2
    set --
    for made in "$crate" "$crate.o" "lib$crate.a"; do
        [ ! -f "$copy/crates/$crate/out/$made" ] || set -- "$@" "$made"
    done
    for made in "$@"; do
        mv -f "$copy/crates/$crate/out/$made" "$out/$made"
    done
    record "$copy" "$crate" "$@" > "$out/record"
    rm -rf "$copy"
}

# Proves and builds a crate where it stands, over what earlier checks kept in the folders `out`: build_kept CRATE WHAT FILE
#
# Each crate below is a library by then, and the toolchain makes a library of what is proved alone. Of a crate that has the
# sources of its last check nothing is proved again, by whichever toolchain.
build_kept() {
    crate=$1 what=$2 file=$3
    out=$root/crates/$crate/out
    log=$out/build.log
    echo "p21: proving and building $what over what earlier checks kept; the log is $log" >&2
    # Without its stamp a program is linked anew, and its object code is left.
    rm -f "$out/$file" "$out/$crate.stamp" "$out/record"
    sum=$(sum_of_sources "$root" "$crate")
    set -- lib
    [ ! -f "$root/crates/$crate/src/main.rt" ] || set -- run -- --version
    if ! (cd "$root/crates/$crate" && rt "$@") > "$log" 2>&1 || [ ! -f "$out/$file" ]; then
        tail -n 20 "$log" >&2
        return 1
    fi
    if [ "$(sum_of_sources "$root" "$crate")" != "$sum" ]; then
        echo "p21: sources changed while $what was built" >&2
        return 1
    fi
    set --
    for made in "$crate" "$crate.o" "lib$crate.a"; do
        [ ! -f "$out/$made" ] || set -- "$@" "$made"
    done
    record_kept "$crate" "$sum" "$@" > "$out/record"
}

# Builds a crate where what was built of it is missing or older than the sources; with P21_KEEP=1 in the environment only
# where it is missing, and with P21_OVER_KEPT=1 over kept work: build_if_old CRATE WHAT FILE [MAKE], as `build`
build_if_old() {
    stands "$1" "$3" && return
    if ! command -v rt > /dev/null; then
        echo "p21: the command rt of the toolchain is not in PATH" >&2
        return 127
    fi
    begun=$root/crates/$1/out/begun
    mkdir -p "$root/crates/$1/out"
    touch "$begun.now"
    how=build
    [ "$P21_OVER_KEPT" != 1 ] || how=build_kept
    if ! "$how" "$@"; then
        echo "p21: $2 could not be built" >&2
        return 126
    fi
    mv -f "$begun.now" "$begun"
}
