#!/bin/sh
# Holds the scripts against Debian's checkers: pyflakes3 over all Python, mypy --strict over the tools and what makes and builds, whose
# functions all have type hints, and shellcheck over all scripts of a shell. The tools run on Python 3.8; what makes and builds has
# no such promise, and is checked as for the Python that is here. The page is put together around a file that is no module, which
# fails where two of its scripts declare one name. Without one of the three checkers the part is skipped.

cd "$(dirname -- "$(readlink -f -- "$0")")/.." || exit
for checker in pyflakes3 mypy shellcheck; do
    if ! command -v "$checker" > /dev/null; then
        echo "skipped: there is no $checker, which Debian has as a package of that name"
        exit 77
    fi
done
rattle=$(dirname -- "$(readlink -f -- "$(command -v rt)")")/rattle
if [ ! -x "$rattle" ]; then
    echo "skipped: there is no toolchain beside rt"
    exit 77
fi
failed=0

# with FIRST_LINE FOLDER..: the files below these folders that begin so, but for what is made.
with() {
    pattern=$1
    shift
    find "$@" -type f -not -path '*/out/*' -not -path '*/__pycache__/*' -exec awk -v pattern="$pattern" '
        FNR == 1 && $0 ~ pattern { print FILENAME }
        { nextfile }
    ' {} + | sort
}

python=$({ with '^#!.*python' tools making tests benchmarks; find tools making tests benchmarks python -name '*.py'; } | sort -u)
echo "$python" | xargs -d '\n' pyflakes3 || failed=1

made=$(mktemp -d) || exit
trap 'rm -rf "$made"' EXIT
making/build-page --module web/product-broken.step "$made/page.html" > "$made/said" 2>&1 || { failed=1 && cat "$made/said"; }

MYPYPATH=tools:making
MYPY_CACHE_DIR=$made
export MYPYPATH MYPY_CACHE_DIR
mypy --strict --no-error-summary --python-version 3.8 --scripts-are-modules tools/*.py tools/p21-* || failed=1
for maker in $(with '^#!.*python' making); do
    mypy --strict --no-error-summary --scripts-are-modules "$maker" || failed=1
done

{ with '^#!.*(sh|bash)$' making tests benchmarks .ci p21; echo making/building.sh; } |
    xargs -d '\n' shellcheck --severity=warning || failed=1

find crates -name out -prune -o \( -name '*.rt' -o -name '*.antt' \) -type f -print0 | xargs -0 -n 1000 "$rattle" fmt --check || failed=1

[ "$failed" -eq 0 ] && echo "lint: $(echo "$python" | wc -l) files of Python, all scripts of a shell, and the page's as one"
exit "$failed"
