#!/usr/bin/env bash
# Runs a mission once for each allocation that its run makes, or for each EVERY-th, and lets just that one fail. The status has
# to be 8, and what was written a proper front of the whole report; or 0 with the whole report, where the system could do
# without (a thread that is not made). Prints how often each came, and each answer that is neither.
#   tools/failing_memory/run.sh missions/sum.toml [EVERY]
# It needs a C compiler, and nothing of the gate runs it.
set -eu
top=$(cd "$(dirname "$0")/../.." && pwd)
mission=$1
every=${2-1}
work=$(mktemp -d)
trap 'rm -rf "$work"' EXIT
cc -O2 -shared -fPIC -o "$work/fail.so" "$top/tools/failing_memory/fail.c" -ldl
"$top/guards" run <"$mission" >"$work/whole"
program=$top/crates/guards_cli/out/guards_cli
COUNT_TO=$work/count LD_PRELOAD=$work/fail.so "$program" run <"$mission" >/dev/null
count=$(cat "$work/count")
echo "$mission: $count allocations"
fronts=0 wholes=0 wrong=0
for at in $(seq 1 "$every" "$count"); do
    status=0
    FAIL_AT=$at LD_PRELOAD=$work/fail.so timeout 60 "$program" run <"$mission" >"$work/part" 2>"$work/said" || status=$?
    size=$(stat -c %s "$work/part")
    if [ "$status" = 0 ] && cmp -s "$work/part" "$work/whole"; then
        wholes=$((wholes + 1))
    elif [ "$status" = 8 ] && [ "$size" -lt "$(stat -c %s "$work/whole")" ] && cmp -s -n "$size" "$work/part" "$work/whole"; then
        fronts=$((fronts + 1))
    else
        wrong=$((wrong + 1))
        echo "allocation $at: status $status, $size bytes: $(head -c 200 "$work/said")"
    fi
done
echo "status 8 with a front: $fronts, status 0 with the whole report: $wholes, neither: $wrong"
[ "$wrong" = 0 ]
