#!/bin/sh
# Writes down the interface of the shared library, or holds a library against what is written: tests/bindings/abi.sh [--write] LIBRARY
#
# symbols.txt has the SONAME and each symbol with its version, as the library itself has them. p21.abi has the functions with their
# parameters, the structs with sizes and offsets, and the enumerations with their numbers: as libabigail (abidw) reads them from a
# library that has the header's functions with empty bodies, since what is proved is compiled without such records. What differs
# is printed, and the status is 1 then. A change that is meant is written by --write: one that adds to the end needs no more, and one
# that takes away or moves something needs another SONAME.

here=$(dirname -- "$(readlink -f -- "$0")")
include=$(readlink -f -- "$here/../../include")
work=$(mktemp -d) || exit
trap 'rm -rf "$work"' EXIT
if [ "$1" = --write ]; then
    symbols=$here/symbols.txt types=$here/p21.abi
    shift
else
    symbols=$work/symbols.txt types=
fi
library=$1

{
    readelf -d "$library" | sed -n 's/.*Library soname: \[\(.*\)\]/soname \1/p'
    nm -D --defined-only --with-symbol-versions "$library" | sed -n 's/^[0-9a-f]* \([TDBRW]\) /symbol \1 /p' | LC_ALL=C sort
} > "$symbols"

# The header's functions with empty bodies.
{
    echo '#include "p21.h"'
    sed -n '/^[a-z].*p21_[a-z_]*(/{:more;/);$/!{N;b more;};p;}' "$include/p21.h" | sed '/^void /s/);$/) {}/; s/);$/) { return 0; }/'
} > "$work/empty.c"
echo 'P21_0 { global: p21_*; local: *; };' > "$work/exported"
gcc -std=c11 -g -O0 -w -fno-eliminate-unused-debug-types -shared -fPIC -fdebug-prefix-map="$work=." -fdebug-prefix-map="$include=." -I "$include" \
    -Wl,-soname,libp21.so.0 "-Wl,--version-script=$work/exported" -o "$work/libp21.so" "$work/empty.c" || exit 2
if [ -n "$types" ]; then
    abidw --load-all-types --no-corpus-path --no-comp-dir-path --no-show-locs --out-file "$types" "$work/libp21.so"
    exit
fi
# Two types of the system's headers that no function has are none of ours, and that of p21_lines.h is the caller's own.
printf '[suppress_type]\n  name_regexp = ^(__fsid_t|max_align_t|p21_position)$\n' > "$work/ours"
diff "$here/symbols.txt" "$symbols"
same_symbols=$?
abidiff --non-reachable-types --no-show-locs --suppressions "$work/ours" "$here/p21.abi" "$work/libp21.so"
same_types=$?
[ "$same_symbols" -eq 0 ] && [ "$same_types" -eq 0 ]
