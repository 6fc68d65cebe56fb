#!/usr/bin/env bash
# How fast the world runs: the demo mission of a number, 7 channels over 400 cycles, some times over. Prints the frames per
# second of each run, with all that the program does: the log of the bus, two workers a channel, and the summary.
#   tools/world_benchmark/run.sh [NUMBER [TIMES]]
# No bus keeps its contract without a log. What the log costs is told by the bus alone: with the word `log` the program in
# bus.txt is proved and built in a copy of the crates, and its carries are timed over a bus that keeps its log and over one
# that is made anew in each cycle.
#   tools/world_benchmark/run.sh log [TIMES]
# Nothing of the gate runs this.
set -eu
top=$(cd "$(dirname "$0")/../.." && pwd)

# Times a command, and prints how many frames it carried in a second; the first words tell what was run.
timed() {
    local what=$1
    shift
    local began frames ms
    began=$(date +%s%N)
    frames=$("$@" | sed -n 's/^frames //p')
    ms=$((($(date +%s%N) - began) / 1000000))
    echo "$what: $frames frames in $ms ms, $((frames * 1000 / (ms > 0 ? ms : 1))) frames a second"
}

if [ "${1-}" = log ]; then
    work=$(mktemp -d)
    trap 'rm -rf "$work"' EXIT
    (cd "$top" && tar cf - --exclude=out crates crates.txt HANDLES) | tar xf - -C "$work"
    echo "bus_benchmark: icn_bus guards_base guards_model" >>"$work/crates.txt"
    crate=$work/crates/bus_benchmark
    mkdir -p "$crate/src"
    cp "$top/tools/world_benchmark/bus.txt" "$crate/src/main.rt"
    (cd "$crate" && rt run </dev/null >"$work/build.log" 2>&1) || { tail -n 20 "$work/build.log" >&2; exit 1; }
    for _ in $(seq "${2-5}"); do
        timed "the bus with its log" "$crate/out/bus_benchmark"
        timed "the bus made anew in each cycle" "$crate/out/bus_benchmark" anew
    done
    exit 0
fi

number=${1-1}
for _ in $(seq "${2-5}"); do
    timed "demo $number" "$top/guards" demo "$number"
done
