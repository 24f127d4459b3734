#!/bin/sh
# Whether man/ and completions/ are what making/make-pages makes of the program's help and of the tools' options, and what the
# completions offer. Give another program than ./p21 as the first argument. What a shell that isn't there would say is left
# out, and the status is then 77.

cd "$(dirname -- "$(readlink -f -- "$0")")/.." || exit
failed=0
left_out=

making/make-pages --check "${1:-./p21}" || failed=1

# offers WORDS.. WANTED: bash completes the last of the words so.
offers() {
    found=$(bash -c '
        . "completions/$1.bash"
        COMP_WORDS=("${@:1:$# - 1}") COMP_CWORD=$(($# - 2))
        compopt() { :; }
        "_${1//-/_}"
        echo "${COMPREPLY[*]}"
    ' offers "$@")
    for wanted in "$@"; do :; done
    if [ "$found" = "$wanted" ]; then
        echo "completed: $*"
    else
        echo "completed: $*: $found" >&2
        failed=1
    fi
}

offers p21 c 'check canon'
offers p21 --v '--version'
offers p21 show --n '--name'
offers p21 check f ''
offers p21 faults 5 '5 50 51 52 53 54 55 56 57 58 59'
offers p21 faults Un 'Unexpected UnknownEntity UnknownItem UnknownName'
offers p21 help s 'syntax schema show same'
offers p21-where --sc '--schemas --schema'
offers p21-where a.exp f ''
offers p21-diff --da '--data'
offers p21-table --fo '--format'
offers p21-table --format t 'text tsv'
offers p21-table --jobs 1 ''
offers p21-table --schema a ''

# leave_out PROGRAM: it isn't here, which is said once.
leave_out() {
    case "$left_out " in
        *" $1 "*) ;;
        *) left_out="$left_out $1" ;;
    esac
}

# reads PROGRAM WORDS..: the program finds nothing wrong.
reads() {
    if ! command -v "$1" > /dev/null; then
        leave_out "$1"
        return
    fi
    if wrong=$("$@" 2>&1) && [ -z "$wrong" ]; then
        echo "read by $*"
    else
        echo "$*: $wrong" >&2
        failed=1
    fi
}

for page in man/*.1; do
    name=$(basename "$page" .1)
    reads bash -n "completions/$name.bash"
    reads zsh -n "completions/_$name"
    reads fish --no-execute "completions/$name.fish"
    reads mandoc -T lint -W error "$page"
    reads groff -man -ww -z "$page"
    grep -q '^\.SH SEE ALSO$' "$page" || { echo "$page: no SEE ALSO" >&2; failed=1; }
done

# zsh and fish offer what they have read: the options of a tool, and the values of one.
# shows TEXT COMMAND..: the command prints a line with this text.
shows() {
    text=$1
    shift
    if ! command -v "$1" > /dev/null; then
        leave_out "$1"
    elif "$@" 2>&1 | grep -qF -- "$text"; then
        echo "shown by $1: $text"
    else
        echo "not shown by $1: $text" >&2
        failed=1
    fi
}
shows '--files-from' fish -c 'source completions/p21-table.fish; complete -C "p21-table --f"'
shows 'tsv' fish -c 'source completions/p21-table.fish; complete -C "p21-table --format t"'

if [ -n "$left_out" ]; then
    echo "left out, since they are not here:$left_out"
    [ "$failed" -ne 0 ] || exit 77
fi
exit "$failed"
