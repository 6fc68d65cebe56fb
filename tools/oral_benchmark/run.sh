#!/usr/bin/env bash
# What a cycle of put and resolve costs one of seven channels. In a copy of the crates it proves and builds the program
# in main.txt, and times it with and without put and resolve. Nothing of the gate runs this.
set -eu
top=$(cd "$(dirname "$0")/../.." && pwd)
work=$(mktemp -d)
trap 'rm -rf "$work"' EXIT
(cd "$top" && tar cf - --exclude=out crates crates.txt HANDLES) | tar xf - -C "$work"
echo "oral_benchmark: oral_messages icn_frames guards_base guards_model" >>"$work/crates.txt"
crate=$work/crates/oral_benchmark
mkdir -p "$crate/src" "$crate/proofs/cycle" "$crate/proofs/run"
cp "$top/tools/oral_benchmark/main.txt" "$crate/src/main.rt"
cp "$top/tools/oral_benchmark/cycle_invariants.txt" "$crate/proofs/cycle/Invariants.antt"
cp "$top/tools/oral_benchmark/run_invariants.txt" "$crate/proofs/run/Invariants.antt"
touch "$crate/proofs/Lib.antt"
(cd "$crate" && rt run </dev/null >"$work/build.log" 2>&1) || { tail -n 20 "$work/build.log" >&2; exit 1; }
echo "with put and resolve:"
time "$crate/out/oral_benchmark"
echo "without, that is restarting the tree and judging the frames alone:"
time "$crate/out/oral_benchmark" judge
