#!/bin/sh
# Runs the tests of p21_test_values for want of memory with the first allocation of each refused, then with the second, and
# so on, and stops at the first test that doesn't pass. It ends where no test meets a refusal: a copy of the tests, in which
# an answer for want of memory is a failure, says which do. It takes some three minutes.

root=$(cd "$(dirname -- "$(readlink -f -- "$0")")/.." && pwd) || exit
if ! command -v rt > /dev/null; then
    echo 'skipped: there is no rt'
    exit 77
fi
here=$(mktemp -d) || exit
trap 'rm -rf "$here"' EXIT
tests=$root/crates/p21_test_values/src/tests/want_of_memory.rt

# A repository of the crates, and one more with these tests alone.
(cd "$root" && tar -cf - --exclude=out --exclude=must-fail crates crates.txt HANDLES) | tar -xf - -C "$here" || exit
echo 'p21_refusals: p21_values' >> "$here/crates.txt"
mkdir -p "$here/crates/p21_refusals/src/tests" || exit
cd "$here/crates/p21_refusals" || exit
printf '#![tactic(auto)]\n\n#[cfg(test)]\nmod tests;\n' > src/lib.rt
printf 'mod met;\nmod want_of_memory;\n' > src/tests.rt
cp "$tests" src/tests/want_of_memory.rt
sed -e 's/return true;/return false;/' -e 's/=> out.as_slice() == BEFORE,/=> false,/' \
    -e 's/Err(fault) => fault == ValueFault::NoMemory,/Err(_fault) => false,/' \
    -e 's/assert_eq!(rt; text.len(), before);/assert_eq!(rt; text.len(), before.wrapping_add(1));/' "$tests" > src/tests/met.rt
count=$(grep -c '^#\[test\]' "$tests")

refused=1
while true; do
    rt try --test --fail-alloc "$refused" > log 2>&1
    passed=$(grep -c '^test tests::want_of_memory::.* ok$' log)
    met=$(grep -c '^test tests::met::.* FAILED$' log)
    if [ "$passed" -ne "$count" ]; then
        cat log
        echo "allocation $refused: $passed of $count tests pass" >&2
        exit 1
    fi
    echo "allocation $refused: all $count tests pass, and $met meet a refusal"
    [ "$met" -eq 0 ] && exit
    refused=$((refused + 1))
done
