#!/bin/sh
# Guided fuzzing: tests/guided.sh [MINUTES [OUT]]
#
# Without MINUTES it runs the inputs that stand in git (tests/guided/corpus) through the program and the plain reading. With them
# it builds two drivers (tests/guided/build.py, some minutes), goes on from those inputs with libFuzzer, half of the minutes for
# files and half for schemas, and runs what was found through the program and the plain reading too. Inputs are kept for a branch
# that no other one takes, and for a cost for each byte that no other one has. A driver stops at a fault: at another answer for
# other pieces, at a canonical file that isn't its own, or at a cost beyond all bounds; the input then stands in OUT/FAULT-...
#
# OUT holds the drivers and all that was found, by default p21-guided in the folder for temporary files; a second run goes on
# from it. `tests/guided.sh 0 OUT` only puts what OUT has found into the corpus: the fewest inputs that reach as much.

root=$(cd "$(dirname -- "$(readlink -f -- "$0")")/.." && pwd) || exit
here=$root/tests/guided
if [ "$#" -eq 0 ]; then
    exec python3 "$here/replay.py"
fi
minutes=$1
out=${2:-${TMPDIR:-/tmp}/p21-guided}
mkdir -p "$out" || exit
[ -x "$out/schemas" ] || python3 "$here/build.py" "$out" || exit
status=0
for kind in files schemas; do
    mkdir -p "$out/found/$kind"
    if [ "$minutes" -eq 0 ]; then
        mkdir -p "$out/least/$kind" "$out/all/$kind"
        cp "$here/corpus/$kind"/* "$out/found/$kind"/* "$out/all/$kind" 2> /dev/null
        "$out/$kind" -set_cover_merge=1 -use_counters=0 -use_cmp=0 -max_len=2000 "$out/least/$kind" "$out/all/$kind" \
            2> /dev/null || status=1
        rm -f "$here/corpus/$kind"/*
        cp "$out/least/$kind"/* "$here/corpus/$kind"
        continue
    fi
    "$out/$kind" -max_total_time=$((minutes * 30)) -max_len=8000 -timeout=60 -rss_limit_mb=4096 -print_final_stats=1 \
        -dict="$here/words_of_$kind" -artifact_prefix="$out/FAULT-$kind-" \
        "$out/found/$kind" "$here/corpus/$kind" 2> "$out/$kind.log" || status=1
    grep -E 'stat::number_of_executed_units|FAULT|SUMMARY|DONE' "$out/$kind.log"
done
[ "$minutes" -eq 0 ] || python3 "$here/replay.py" "$out/found" || status=1
exit "$status"
