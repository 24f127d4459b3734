#!/bin/sh
# Runs the program over real devices: directories, FIFOs, devices, closed and full streams, a full disk, limits of a
# process, and signals. Each run has to end with its status and its lines. Where the machine lacks what a run wants, it is named and
# left out, the last line says so, and the status is 77: another user and a small disk want root. The environment variable P21 names
# the program.

root=$(cd "$(dirname -- "$(readlink -f -- "$0")")/../.." && pwd) || exit
"${P21:-$root/p21}" --version > /dev/null || exit
program=$(readlink -f -- "${P21:-$root/crates/p21/out/p21}")
here=$(mktemp -d) || exit
trap 'umount "$here/disk" 2> /dev/null; rm -rf "$here"' EXIT
cd "$here" || exit
count=0
failed=0
left_out=

cp "$root/examples/demo.exp" demo.exp
head='ISO-10303-21;
HEADER;
FILE_DESCRIPTION(('\'\''),'\''2;1'\'');
FILE_NAME('\'\'','\'\'',('\'\''),('\'\''),'\'\'','\'\'','\'\'');
FILE_SCHEMA(('\''DEMO'\''));
ENDSEC;
DATA;'
end='ENDSEC;
END-ISO-10303-21;'
accepted='accepted, instances 1, canonical bytes 171'
printf '%s\n' "$head" '#2 = POINT($, 1.0, 10.E-1);' "$end" > point
printf '%s\n' "$head" '#2=POINT($,1.,1.);' "$end" > canonical
printf '%s\n' "$head" '#2=POINT($,1.,2.);' "$end" > other
printf '%s' '+012.500E+03' > real
printf '%s' '1 2' > two

# expect NAME STATUS OUTPUT ERROR: what the last run left in `status`, `output` and `error`, but for the reasons behind a fault.
expect() {
    count=$((count + 1))
    wrong=
    [ "$status" -eq "$2" ] || wrong="status $status, not $2"
    [ "$(cat output)" = "$3" ] || wrong="$wrong; output: $(head -c 200 output)"
    [ "$(grep -v '^note: ' error)" = "$4" ] || wrong="$wrong; error: $(head -c 200 error)"
    if [ -n "$wrong" ]; then
        echo "$1: $wrong"
        failed=$((failed + 1))
    fi
}

run() {
    "$program" "$@" > output 2> error < /dev/null
    status=$?
}

# within SECONDS ARGUMENTS: a run that is ended behind so many seconds, with status 124.
within() {
    seconds=$1
    shift
    timeout "$seconds" "$program" "$@" > output 2> error < /dev/null
    status=$?
}

# What a path may name.
run check demo.exp .
expect 'a directory as a file' 3 '' 'read fault'
run schema .
expect 'a directory as a schema' 3 '' 'read fault'
run check . point
expect 'a directory as the schema of a file' 3 '' 'read fault'
run param .
expect 'a directory as a parameter' 3 '' 'read fault'
run same demo.exp point .
expect 'a directory as the second file' 3 '' 'read fault'
run check demo.exp ''
expect 'an empty path' 3 '' 'cannot open '
run check demo.exp 'no
where'
expect 'a path with a line break' 3 '' 'cannot open no\nwhere'
long=$(printf '%05000d' 0)
run check demo.exp "$long"
expect 'a path of 5,000 bytes' 3 '' "cannot open $long"
run check demo.exp point/more
expect 'a file as a directory' 3 '' 'cannot open point/more'
ln -s circle circle
run check demo.exp circle
expect 'a link to itself' 3 '' 'cannot open circle'
run check demo.exp -- -x
expect 'a path like an option' 3 '' 'cannot open -x'
run check demo.exp /dev/null
expect 'nothing as a file' 1 '' 'refused 24 EndsEarly at statement 1'
run schema /dev/null
expect 'nothing as a schema' 1 '' 'schema refused S2 Syntax'
run param /dev/null
expect 'nothing as a parameter' 1 '' 'refused 24 EndsEarly'
run check demo.exp /proc/self/mem
expect 'a file whose reads fail' 3 '' 'read fault'
within 20 schema /dev/zero
expect 'bytes without end as a schema' 1 '' 'schema refused S9 TooLarge'
within 20 param /dev/zero
expect 'bytes without end as a parameter' 1 '' 'refused 23 FileTooLong'

# Several files.
run check demo.exp point . /dev/null /proc/self/mem none point
expect 'several files, of which most cannot be read' 3 "point: $accepted
point: $accepted" '.: read fault
.: note: a folder
/dev/null: refused 24 EndsEarly at statement 1
/proc/self/mem: read fault
/proc/self/mem: note: Input/output error (os error 5)
none: cannot open none
none: note: no such file'
mkfifo names
printf '%s\n' point other > names &
run check demo.exp @names
expect 'a list from a FIFO' 0 "point: $accepted
other: $accepted" ''
rm names

# One file by two names.
ln point point.linked
ln -s point point.symbolic
for second in point ./point point.linked point.symbolic "$here/point" /dev/stdin; do
    "$program" same demo.exp point "$second" > output 2> error < point
    status=$?
    expect "a file with itself as $second" 0 same ''
done
run same demo.exp point.linked other
expect 'another file' 1 different ''

# No right to read.
cp point unreadable
chmod 000 unreadable
chmod 755 .
if [ "$(id -u)" -ne 0 ]; then
    run check demo.exp unreadable
    expect 'a file without the right to read it' 3 '' 'cannot open unreadable'
elif command -v setpriv > /dev/null; then
    cp "$program" program
    setpriv --reuid=65534 --regid=65534 --clear-groups ./program check demo.exp unreadable > output 2> error
    status=$?
    expect 'a file without the right to read it' 3 '' 'cannot open unreadable'
else
    left_out="$left_out; left out: a file without the right to read it (no setpriv)"
fi

# Standard input, by its path.
"$program" check demo.exp /dev/stdin < point > output 2> error
status=$?
expect 'a file from standard input' 0 "$accepted" ''
printf '%s\n' "$head" '#2 = POINT($, 1.0, 10.E-1);' "$end" | "$program" check demo.exp /dev/stdin > output 2> error
status=$?
expect 'a file from a pipe' 0 "$accepted" ''

# FIFOs: whole, in two pieces, by a writer that dies, and without end.
mkfifo fifo
cat point > fifo &
within 20 check demo.exp fifo
expect 'a file from a FIFO' 0 "$accepted" ''
wait
(head -c 90 point; sleep 0.2; tail -c +91 point) > fifo &
within 20 canon demo.exp fifo
expect 'a file from a FIFO in two pieces' 0 "$(cat canonical)" ''
wait
(head -c 60 demo.exp; sleep 0.2; tail -c +61 demo.exp) > fifo &
within 20 check fifo point
expect 'a schema from a FIFO in two pieces' 0 "$accepted" ''
wait
head -c 100 point > fifo &
within 20 check demo.exp fifo
expect 'a FIFO whose writer ends early' 1 '' 'refused 24 EndsEarly at statement 5'
wait
sh -c 'head -c 140 point; kill -KILL $$' > fifo 2> /dev/null &
within 20 check demo.exp fifo
expect 'a FIFO whose writer dies' 1 '' 'refused 24 EndsEarly at statement 8'
wait
cat canonical > fifo &
within 20 same demo.exp fifo point
expect 'a FIFO as the first file' 0 same ''
wait
tr '\0' ' ' < /dev/zero > fifo 2> /dev/null &
within 20 param fifo
expect 'spaces without end as a parameter' 1 '' 'refused 23 FileTooLong'
wait
tr '\0' ' ' < /dev/zero > fifo 2> /dev/null &
within 20 check fifo point
expect 'spaces without end as a schema' 1 '' 'schema refused S9 TooLarge'
wait
within 1 check demo.exp fifo
expect 'a FIFO without a writer' 124 '' ''

# Full and closed streams, and a pipe that nobody reads: status 3, with `write fault` where it can be said.
[ -w /dev/full ] || echo 'passed over: full streams (no /dev/full)'
mkfifo unread
exec 8<> unread 9> unread 8<&-
: > output
while read -r line; do
    # The words of a line are those of a command line.
    # shellcheck disable=SC2086
    set -- $line
    if [ -w /dev/full ]; then
        "$program" "$@" > /dev/full 2> error < /dev/null
        status=$?
        expect "a full output: $line" 3 '' 'write fault'
    fi
    "$program" "$@" >&- 2> error < /dev/null
    status=$?
    expect "a closed output: $line" 3 '' 'write fault'
    "$program" "$@" >&9 2> error < /dev/null
    status=$?
    expect "an output that nobody reads: $line" 3 '' 'write fault'
    "$program" "$@" <&- >&- 2>&-
    status=$?
    : > error
    expect "no stream: $line" 3 '' ''
done << LINES
param real
schema demo.exp
check demo.exp point
canon demo.exp point
show demo.exp point --name 2
same demo.exp point canonical
same demo.exp point other
faults
--help
--version
LINES
: > error
while read -r line; do
    # shellcheck disable=SC2086
    set -- $line
    if [ -w /dev/full ]; then
        "$program" "$@" > output 2> /dev/full < /dev/null
        status=$?
        expect "a full stream of errors: $line" 3 '' ''
    fi
    "$program" "$@" > output 2>&- < /dev/null
    status=$?
    expect "a closed stream of errors: $line" 3 '' ''
    "$program" "$@" > output 2>&9 < /dev/null
    status=$?
    expect "a stream of errors that nobody reads: $line" 3 '' ''
    "$program" "$@" <&- >&- 2>&-
    status=$?
    expect "no stream: $line" 3 '' ''
done << LINES
param two
check demo.exp real
check demo.exp nowhere
show demo.exp point --name 3
schema point
frob
show demo.exp point --name +2

LINES
exec 9>&-

# Signals while a FIFO is read: the program ends by them, and nothing is written; SIGPIPE is ignored. `nohup`, say, hands on
# a signal that is ignored, so each is set to what the system does by itself.
for signal in 1 9 10 15; do
    sleep 5 > fifo &
    writer=$!
    env --default-signal "$program" check demo.exp fifo > output 2> error < /dev/null &
    process=$!
    sleep 0.3
    kill -"$signal" "$process"
    wait "$process" 2> /dev/null
    status=$?
    kill "$writer"
    wait "$writer" 2> /dev/null
    expect "signal $signal" $((128 + signal)) '' ''
done
(sleep 0.6; cat point) > fifo &
"$program" check demo.exp fifo > output 2> error < /dev/null &
process=$!
sleep 0.2
kill -PIPE "$process"
kill -STOP "$process"
sleep 0.2
kill -CONT "$process"
wait "$process"
status=$?
expect 'signals PIPE, STOP and CONT' 0 "$accepted" ''
wait

# A disk that fills up, and limits of the process. SIGXFSZ ends the program unless it is ignored.
{ echo "$head"; seq -f '#%.0f=POINT($,1.,1.);' 1 20000; echo "$end"; } > many
mkdir disk
if mount -t tmpfs -o size=64k tmpfs disk 2> /dev/null; then
    "$program" canon demo.exp many > disk/out 2> error
    status=$?
    : > output
    expect 'a full disk' 3 '' 'write fault'
    head -c "$(wc -c < disk/out)" many | cmp - disk/out || failed=$((failed + 1))
    [ -s disk/out ] || { echo 'a full disk: nothing was written'; failed=$((failed + 1)); }
    umount disk
else
    left_out="$left_out; left out: a full disk (no right to mount)"
fi
: > output
sh -c 'trap "" XFSZ; ulimit -f 1; exec "$0" canon demo.exp many > limited' "$program" 2> error
status=$?
cp error written
: > error
expect 'a limit on files' 3 '' ''
head -c "$(wc -c < limited)" many | cmp - limited || failed=$((failed + 1))
sh -c 'ulimit -f 0; exec "$0" canon demo.exp point > limited' "$program" 2> /dev/null
status=$?
expect 'no files at all' 153 '' ''
sh -c 'ulimit -n 4; exec "$0" check demo.exp point' "$program" > output 2> error < /dev/null
status=$?
expect 'a limit on open files' 3 '' 'cannot open point'

echo "$count runs, $failed wrong$left_out"
[ "$failed" -eq 0 ] || exit 1
[ -z "$left_out" ] || exit 77
