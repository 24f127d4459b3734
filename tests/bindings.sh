#!/bin/sh
# Tries the library for other programs: that the header declares what is exported and names the refusals as docs/FAULTS.md
# does; that the interface is the one that is written down; that a C program that calls each function finds what it must and
# touches no memory that isn't its own; that no call leaves a block of memory, whatever is let go first; that eight threads use
# one schema at once; that the structs stand as the header has them; that C++ programs of two compilers find what they must, under
# their sanitizers too; that pkg-config and CMake find the library; that the programs of README and docs/LIBRARY.md do what these
# pages say; that mypy finds no fault in the Python package and its users' programs; and that the package's tests pass.
#
#   tests/bindings.sh [PREFIX]     what making/build-library has put below PREFIX is tried; without one it is built
#
# It wants a C compiler (CC) and, without PREFIX, `rt`. Where something else isn't here (valgrind, g++, clang++, libabigail, pkg-config, CMake, mypy, or
# pytest for the Python of PYTHON, with numpy, pandas and distributed), what wants it is left out, the last line says so, and the status
# is 77. All of these are packages of Debian, whose Python is /usr/bin/python3. The tasks that ask the program, P21 or that of the clone,
# are left out where it isn't built.

root=$(cd "$(dirname -- "$(readlink -f -- "$0")")/.." && pwd) || exit
if [ $# -eq 0 ] && ! command -v rt > /dev/null; then
    echo 'skipped: there is no rt, which builds the library'
    exit 77
fi
here=$(mktemp -d) || exit
trap 'rm -rf "$here"' EXIT
prefix=$here/built
if [ $# -gt 0 ]; then
    prefix=$(readlink -f -- "$1")
else
    "$root/making/build-library" "$prefix" || exit
fi
shared=$prefix/lib/libp21.so
static=$prefix/lib/libp21.a
# The Python is that of PYTHON, or else the first one that has pytest.
for python in ${PYTHON:-python3 /usr/bin/python3}; do
    "$python" -m pytest --version > /dev/null 2>&1 && break
done
parts=0
wrong=0
left_out=

# part NAME COMMAND..: runs a part, and says whether it passed.
part() {
    name=$1
    shift
    parts=$((parts + 1))
    if "$@" > "$here/log" 2>&1; then
        echo "$name: as it must be"
    else
        echo "$name: wrong"
        cat "$here/log"
        wrong=$((wrong + 1))
    fi
}

# leave_out NAME WHY: names a part that can't be run here.
leave_out() {
    echo "$1: left out: $2"
    left_out="$left_out; left out: $1"
}

# same_lists FIRST SECOND: whether two lists are one.
same_lists() {
    [ -s "$1" ] && diff "$1" "$2"
}

# The functions that the header declares, and those that each library exports.
sed -n 's/^[a-z0-9_]* \(p21_[a-z_]*\)(.*/\1/p' "$root/include/p21.h" | sort > "$here/declared"
nm -g --defined-only "$static" | sed -n 's/.* T \(p21_.*\)/\1/p' | sort > "$here/static"
nm -D --defined-only "$shared" | sed -n 's/.* T \(p21_[a-z_]*\).*/\1/p' | sort > "$here/shared"
part 'the names of the static library' same_lists "$here/declared" "$here/static"
part 'the names of the shared library' same_lists "$here/declared" "$here/shared"

# The refusals: SCREAMING_NAMES of the header as the names of the page, with their numbers. Some come from no call.
words() {
    sed -E 's/([a-z0-9])([A-Z])/\1_\2/g' | tr '[:lower:]' '[:upper:]'
}
sed -n 's/^### \([0-9]*\) \([A-Za-z0-9]*\)$/\2 \1/p' "$root/docs/FAULTS.md" | grep -v -E ' (12|13|91|92)$' | words | sort > "$here/wanted"
sed -n '/refusals of files/,/^};/s/^    P21_\([A-Z0-9_]*\) = \([0-9]*\),\{0,1\}$/\1 \2/p' "$root/include/p21.h" | sort > "$here/found"
part 'the refusals of files' same_lists "$here/wanted" "$here/found"
sed -n 's/^### S\([0-9]*\) \([A-Za-z0-9]*\)$/\2 \1/p' "$root/docs/FAULTS.md" | words | sort > "$here/wanted"
sed -n '/refusals of schemas/,/^};/s/^    P21_SCHEMA_\([A-Z0-9_]*\) = \([0-9]*\),\{0,1\}$/\1 \2/p' "$root/include/p21.h" | sort > "$here/found"
part 'the refusals of schemas' same_lists "$here/wanted" "$here/found"

# The interface that is written down.
if command -v abidiff > /dev/null && command -v gcc > /dev/null; then
    part 'the interface is the one that is written down' "$root/tests/bindings/abi.sh" "$shared"
else
    leave_out 'the interface that is written down' 'libabigail or gcc is not here'
fi

# The libraries that the header says to link.
installed() {
    names=$(sed -n '/To link:/,/\*\//p' "$root/include/p21.h" | grep -o 'lib[a-z0-9_]*\.\(so\|a\)' | sort -u)
    [ -n "$names" ] && for name in $names; do
        ls "$prefix/lib/$name" || return
    done
}
part 'the libraries that the header names' installed

# The version of the header: its parts, and what they are together.
version=$(sed -n 's/.*VERSION: &str = "\([^ "]*\).*/\1/p' "$root/crates/p21_command_line/src/help.rt")
sed -n 's/^#define P21_VERSION_[A-Z]* \([0-9]*\)$/\1/p' "$root/include/p21.h" | paste -sd . > "$here/found"
sed -n 's/^#define P21_VERSION "\(.*\)"$/\1/p' "$root/include/p21.h" >> "$here/found"
printf '%s\n%s\n' "$version" "$version" > "$here/wanted"
part 'the version of the header' same_lists "$here/wanted" "$here/found"

# compile PROGRAM FILE LIBRARY..: a C program.
compile() {
    "${CC:-cc}" -std=c11 -O1 -g -Wall -Wextra -Werror "-I$root/include" -o "$@"
}

# statically PROGRAM FILE: a C program over the static library.
statically() {
    compile "$@" "$static"
}

# says TEXT COMMAND..: the command ends well, and a line of what it prints is this text.
says() {
    text=$1
    shift
    "$@" > "$here/said" 2>&1
    status=$?
    cat "$here/said"
    [ "$status" -eq 0 ] && grep -qxF -- "$text" "$here/said"
}

# fails TEXT COMMAND..: the command ends with status 1, and a line of what it prints is this text.
fails() {
    text=$1
    shift
    "$@" > "$here/said" 2>&1
    status=$?
    cat "$here/said"
    [ "$status" -eq 1 ] && grep -qxF -- "$text" "$here/said"
}

# The program that calls each function, over the static and over the shared library.
calls=$root/tests/bindings/calls.c
part 'the C program is compiled over the static library' statically "$here/static_calls" "$calls"
part 'the C program is compiled over the shared library' compile "$here/shared_calls" "$calls" "$shared" "-Wl,-rpath,$prefix/lib"
part 'the C program over the static library' says "version $version" "$here/static_calls" "$root/examples"
part 'the C program over the shared library' says "version $version" "$here/shared_calls" "$root/examples"
if command -v valgrind > /dev/null; then
    part 'the C program under valgrind' says "version $version" valgrind -q --error-exitcode=9 --leak-check=full \
        --show-leak-kinds=all --errors-for-leak-kinds=all "$here/static_calls" "$root/examples"
else
    leave_out 'the C program under valgrind' 'valgrind is not here'
fi

# Threads.
threads=$root/tests/bindings/threads.c
part 'the program of threads is compiled over the static library' statically "$here/static_threads" "$threads" -pthread
part 'the program of threads is compiled over the shared library' compile "$here/shared_threads" "$threads" "$shared" "-Wl,-rpath,$prefix/lib" -pthread
part 'threads over the static library' says 'each thread finds what it must' "$here/static_threads" "$root/examples"
part 'threads of which the last lets go of the schema' says 'each thread finds what it must' "$here/static_threads" "$root/examples" early
part 'threads over the shared library' says 'each thread finds what it must' "$here/shared_threads" "$root/examples"
if command -v valgrind > /dev/null; then
    part 'threads under helgrind' says 'each thread finds what it must' valgrind --tool=helgrind -q --error-exitcode=9 "$here/static_threads" "$root/examples"
else
    leave_out 'threads under helgrind' 'valgrind is not here'
fi

# The blocks of memory that the calls leave, counted in front of the C library, and where the structs have their fields.
counting=$here/counting.so
blocks=$root/tests/bindings/blocks.c
layout=$root/tests/bindings/layout.c
part 'what counts blocks is compiled' "${CC:-cc}" -std=c11 -O1 -Wall -Wextra -Werror -shared -fPIC -o "$counting" "$root/tests/bindings/counting.c"
part 'the program that leaves no block is compiled over the static library' \
    compile "$here/static_blocks" "$blocks" "$counting" "-Wl,-rpath,$here" "$static"
part 'the program that leaves no block is compiled over the shared library' \
    compile "$here/shared_blocks" "$blocks" "$counting" "-Wl,-rpath,$here" "$shared" "-Wl,-rpath,$prefix/lib"
part 'no block is left by the static library' says 'no block is left' "$here/static_blocks" "$root/examples"
part 'no block is left by the shared library' says 'no block is left' "$here/shared_blocks" "$root/examples"
# The model in hand: its calls, and all that it tells of files by the plain reading.
model_calls=$root/tests/bindings/model_calls.c
model=$root/tests/bindings/model.c
part 'the program over the model is compiled over the static library' \
    compile "$here/static_model" "$model_calls" "$counting" "-Wl,-rpath,$here" "$static" -pthread
part 'the program over the model is compiled over the shared library' \
    compile "$here/shared_model" "$model_calls" "$counting" "-Wl,-rpath,$here" "$shared" "-Wl,-rpath,$prefix/lib" -pthread
part 'the model over the static library' says 'the model is as it must be' "$here/static_model"
part 'the model over the shared library' says 'the model is as it must be' "$here/shared_model"
part 'the program that prints a model is compiled' statically "$here/model" "$model"
part 'all that a model tells' "$python" "$root/tests/bindings/model.py" --program "$here/model"
if command -v valgrind > /dev/null; then
    part 'all that a model tells under valgrind' says 'status 0' sh -c 'valgrind -q --error-exitcode=9 --leak-check=full --errors-for-leak-kinds=all "$@" > /dev/null; echo "status $?"' sh \
        "$here/model" "$root/examples/product.exp" "$root/examples/product.step"
fi
part 'the program over the structs is compiled' statically "$here/layout" "$layout"
part 'the structs stand as the header has them' says 'all stands where the header has it' "$here/layout" "$root/examples" "$version"

# The fields of a struct that C and the library share, with their types and in their order: of the header, and of the sources.
fields_in_c() {
    sed -n "/^typedef struct $1 {/,/^}/s/^    \([a-z0-9_ ]*[ *]\)\([a-z]*\(\[[0-9]*\]\)\{0,1\}\);.*/\2 \1/p" "$root/include/p21.h" | sed 's/ *$//'
}
fields_in_source() {
    sed -n "/^#\[repr(C)\]/,/^}/{/pub struct $2 {/,/^}/{s/^    pub \([a-z]*\): u\([0-9]*\),\$/\1 uint\2_t/p;s/^    pub \([a-z]*\): i\([0-9]*\),\$/\1 int\2_t/p;s/^    pub \([a-z]*\): usize,\$/\1 size_t/p;s/^    pub \([a-z]*\): Span,\$/\1 p21_span/p;s/^    pub \([a-z]*\): \*const u8,\$/\1 const uint8_t */p;s/^    pub \([a-z]*\): \[u\([0-9]*\); \([0-9]*\)\],\$/\1[\3] uint\2_t/p}}" "$root/crates/$1"
}
fields_in_c p21_report > "$here/declared"
fields_in_source p21_c/src/answers.rt Report > "$here/found"
part 'the fields of a report' same_lists "$here/declared" "$here/found"
fields_in_c p21_place > "$here/declared"
fields_in_source p21_c/src/places.rt Place > "$here/found"
part 'the fields of a place' same_lists "$here/declared" "$here/found"
fields_in_c p21_parts > "$here/declared"
fields_in_source p21_c/src/versions.rt Version > "$here/found"
part 'the fields of a version' same_lists "$here/declared" "$here/found"
fields_in_c p21_cursor > "$here/declared"
fields_in_source p21_stream_output/src/cursor.rt Cursor > "$here/found"
part 'the fields of a cursor' same_lists "$here/declared" "$here/found"
while read -r struct file name; do
    fields_in_c "p21_$struct" > "$here/declared"
    fields_in_source "p21_c/src/$file.rt" "$name" > "$here/found"
    part "the fields of p21_$struct" same_lists "$here/declared" "$here/found"
done << 'STRUCTS'
span spans Span
line model_instances InstanceLine
attribute model_instances AttributeValue
use model_users UseOf
digits model_values NumberDigits
type model_types TypeParts
declared model_types Declared
member model_types Member
STRUCTS

# C++: the program over each class of p21.hpp, by each compiler, and with its sanitizers.
cpp() {
    compiler=$1
    shift
    "$compiler" -std=c++17 -O1 -g -Wall -Wextra -Wpedantic -Wshadow -Werror "-I$prefix/include" -pthread -o "$@"
}
classes=$root/tests/bindings/classes.cpp
for compiler in g++ clang++; do
    if ! command -v "$compiler" > /dev/null; then
        leave_out "C++ by $compiler" "$compiler is not here"
        continue
    fi
    part "the C++ program is compiled by $compiler" cpp "$compiler" "$here/classes" "$classes" "$shared" "-Wl,-rpath,$prefix/lib"
    part "the C++ program by $compiler" says 'all is as it must be' "$here/classes" "$root/examples"
    for sanitizer in address,undefined thread; do
        part "the C++ program is compiled by $compiler with $sanitizer" cpp "$compiler" "$here/sanitized" "$classes" "$static" "-fsanitize=$sanitizer" -fno-sanitize-recover=all
        part "the C++ program by $compiler with $sanitizer" says 'all is as it must be' "$here/sanitized" "$root/examples"
    done
done

# What says how to link.
if command -v pkg-config > /dev/null; then
    by_pkg_config() {
        PKG_CONFIG_PATH=$prefix/lib/pkgconfig
        export PKG_CONFIG_PATH
        # shellcheck disable=SC2046
        pkg-config --exact-version "$version" p21 && "${CC:-cc}" -o "$here/found" "$calls" $(pkg-config --cflags --libs p21) "-Wl,-rpath,$prefix/lib"
    }
    part 'a program by pkg-config is compiled' by_pkg_config
    part 'a program by pkg-config' says "version $version" "$here/found" "$root/examples"
else
    leave_out 'pkg-config' 'pkg-config is not here'
fi
if command -v cmake > /dev/null; then
    by_cmake() {
        mkdir -p "$here/cmake" && cat > "$here/cmake/CMakeLists.txt" << CODE &&
cmake_minimum_required(VERSION 3.16)
project(own C CXX)
find_package(p21 ${version%.*} REQUIRED)
find_package(Threads REQUIRED)
add_executable(calls "$calls")
target_link_libraries(calls PRIVATE p21::p21)
add_executable(static_calls "$calls")
target_link_libraries(static_calls PRIVATE p21::p21_static)
add_executable(classes "$classes")
target_compile_features(classes PRIVATE cxx_std_17)
target_link_libraries(classes PRIVATE p21::p21 Threads::Threads)
CODE
            cmake -S "$here/cmake" -B "$here/cmake/made" "-DCMAKE_PREFIX_PATH=$prefix" && cmake --build "$here/cmake/made"
    }
    # Another version than the one that is there isn't found.
    other_by_cmake() {
        sed "s/find_package(p21 ${version%.*}/find_package(p21 9.9/" "$here/cmake/CMakeLists.txt" > "$here/CMakeLists.txt" &&
            mkdir -p "$here/other" && mv "$here/CMakeLists.txt" "$here/other" &&
            ! cmake -S "$here/other" -B "$here/other/made" "-DCMAKE_PREFIX_PATH=$prefix"
    }
    part 'programs by CMake are compiled' by_cmake
    part 'a program by CMake over the shared library' says "version $version" "$here/cmake/made/calls" "$root/examples"
    part 'a program by CMake over the static library' says "version $version" "$here/cmake/made/static_calls" "$root/examples"
    part 'a C++ program by CMake' says 'all is as it must be' "$here/cmake/made/classes" "$root/examples"
    part 'another version by CMake' other_by_cmake
else
    leave_out 'CMake' 'cmake is not here'
fi

# page LANGUAGE NUMBER: one of the programs of docs/LIBRARY.md.
page() {
    awk -v language="$1" -v number="$2" '$0 == "```" language { found++; on = found == number; next } /^```$/ { on = 0 } on' "$root/docs/LIBRARY.md"
}
# below TITLE LANGUAGE: the first program below a title of that page.
below() {
    awk -v title="### $1" -v language="$2" '$0 == title { found = 1 } found && $0 == "```" language { on = 1; next } on && /^```$/ { exit } on' "$root/docs/LIBRARY.md"
}
receive() {
    "$here/receive" "$root/examples/product.exp" < "$root/examples/product.step"
}
page c 1 > "$here/program.c"
page c 2 > "$here/receive.c"
page cpp 1 > "$here/program.cpp"
part 'the first program of docs/LIBRARY.md is compiled' statically "$here/program" "$here/program.c"
part 'the first program of docs/LIBRARY.md' says 'accepted, instances 128' "$here/program" "$root/examples/product.exp" "$root/examples/product.step"
part 'the first program of docs/LIBRARY.md, refused' fails 'refused 45 Count in #3' "$here/program" "$root/examples/product.exp" "$root/examples/refused/Count.step"
part 'the second program of docs/LIBRARY.md is compiled' statically "$here/receive" "$here/receive.c"
part 'the second program of docs/LIBRARY.md' says '#1=DIMENSIONAL_EXPONENTS(1.,0.,0.);' receive

if command -v g++ > /dev/null; then
    part 'the C++ program of docs/LIBRARY.md is compiled' cpp g++ "$here/program" "$here/program.cpp" "$static"
    part 'the C++ program of docs/LIBRARY.md' says 'accepted, instances 128' "$here/program" "$root/examples/product.exp" "$root/examples/product.step"
    part 'the C++ program of docs/LIBRARY.md, refused' fails 'refused 45 Count in #3' "$here/program" "$root/examples/product.exp" "$root/examples/refused/Count.step"
else
    leave_out 'the C++ program of docs/LIBRARY.md' 'g++ is not here'
fi

# The tasks of docs/LIBRARY.md, in each language. The tools that some of them run ask the program, where there is one.
program=${P21:-$root/crates/p21/out/p21}
unset P21
[ ! -x "$program" ] || export P21="$program"
tasks() {
    part "the tasks of docs/LIBRARY.md in $1" "$python" "$root/tests/bindings/tasks.py" "$2" "$3" "$4" "$5" -O1 -g -Wall -Wextra -Werror
    told=$(sed -n '$s/.*left out: //p' "$here/log")
    [ -z "$told" ] || leave_out "some tasks in $1" "$told"
}
tasks C c "$static" "${CC:-cc}" -std=c11
if command -v g++ > /dev/null; then
    tasks C++ cpp "$static" g++ -std=c++17
else
    leave_out 'the tasks of docs/LIBRARY.md in C++' 'g++ is not here'
fi
tasks Python python "$shared"

# The lines of README in C, within a program that reads a schema and a file.
{
    cat << 'CODE'
#include <inttypes.h>
#include <stdio.h>
#include "p21.h"

static uint8_t express[1 << 16], file[1 << 16];

static size_t read_text(const char *path, uint8_t *text) {
    FILE *opened = fopen(path, "rb");
    if (opened == NULL) {
        return 0;
    }
    size_t length = fread(text, 1, sizeof express, opened);
    fclose(opened);
    return length;
}

int main(int count, char **words) {
    if (count != 3) {
        return 2;
    }
    size_t express_length = read_text(words[1], express);
    size_t file_length = read_text(words[2], file);
CODE
    sed -n '/^In C,/,/^In Python,/s/^    //p' "$root/README.md"
    echo '}'
} > "$here/lines.c"
part 'the lines of README in C are compiled' statically "$here/lines" "$here/lines.c"
part 'the lines of README in C' says 'accepted, instances 128' "$here/lines" "$root/examples/product.exp" "$root/examples/product.step"

# The program of docs/LIBRARY.md in Rattle, in a copy of the crates, with no proof.
if command -v rt > /dev/null; then
    in_rattle() (
        mkdir -p "$here/clone/.git" "$here/clone/crates" && cp "$root/HANDLES" "$root/crates.txt" "$here/clone" &&
            (cd "$root" && tar -cf - --exclude=out --exclude=proofs --exclude=must-fail crates) | tar -xf - -C "$here/clone" &&
            mkdir -p "$here/clone/crates/mine/src" && echo 'mine: p21_stream' >> "$here/clone/crates.txt" &&
            page rust 1 > "$here/clone/crates/mine/src/main.rt" &&
            cp "$root/examples/product.exp" "$root/examples/product.step" "$here/clone/crates/mine" && cd "$here/clone/crates/mine" &&
            says 'accepted, instances 128' rt try -- product.exp product.step
    )
    part 'the program of docs/LIBRARY.md in Rattle' in_rattle
    over_model() (
        sed -i 's/^mine: .*/mine: p21_model p21_express_graph p21_stream/' "$here/clone/crates.txt" &&
            below 'What do the instances of a file say?' rust > "$here/clone/crates/mine/src/main.rt" && cd "$here/clone/crates/mine" &&
            says 'used by #16 PRODUCT_DEFINITION.OF_PRODUCT' rt try -- product.exp product.step 15
    )
    part 'the program of docs/LIBRARY.md in Rattle over a model' over_model
else
    leave_out 'the programs of docs/LIBRARY.md in Rattle' 'rt is not in PATH'
fi

# The Python package, and a program of a user of it.
if command -v mypy > /dev/null; then
    checked() {
        MYPYPATH=$root/python mypy --strict --no-error-summary "--cache-dir=$here/mypy" "$@"
    }
    page python 1 > "$here/program.py"
    part 'mypy over the Python package' checked -p p21
    part 'mypy over a program of the page and one of a user' checked "$here/program.py" "$root/tests/bindings/typed.py"
else
    leave_out 'mypy' 'mypy is not here'
fi

# The tests of the Python package run the programs of both pages in Python, as docs/LIBRARY.md says: in a clone, by the library
# that making/build-library puts into the package. What they lack is named.
in_clone() (
    mkdir "$here/repository" && ln -s "$root"/* "$here/repository" && rm "$here/repository/python" &&
        cp -R "$root/python" "$here/repository" && cp "$shared" "$here/repository/python/p21/libp21.so" && cd "$here/repository" &&
        unset P21_LIBRARY PYTHONPATH && PYTHONDONTWRITEBYTECODE=1 "$python" -m pytest -q -rs -p no:cacheprovider python
)
if "$python" -m pytest --version > /dev/null 2>&1; then
    part 'the Python package' in_clone
    tail -n 1 "$here/log"
    skipped=$(sed -n 's/^SKIPPED \[[0-9]*\] [^ ]* //p' "$here/log" | sort -u | paste -sd ,)
    [ -z "$skipped" ] || leave_out 'tests of the Python package' "$skipped"
else
    leave_out 'the Python package' "$python has no pytest"
fi
echo "$parts parts, $wrong wrong$left_out"
[ "$wrong" -eq 0 ] || exit 1
[ -z "$left_out" ] || exit 77
