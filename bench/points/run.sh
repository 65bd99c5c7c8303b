#!/usr/bin/env bash
# Builds main.rt.txt unproved, in a scratch copy of the repository, and prints for each program: nodes, sites, edges, microseconds to judge, for points-to,
# and for dependences. Sizes may be given: run.sh 2 4.
# The program that `rt try` builds checks every address, and is some twenty times slower than one that was proved: compare, don't quote.
set -e
here="$(cd "$(dirname "$0")" && pwd)"
root="$(cd "$here/../.." && pwd)"
scratch="$(mktemp -d)"
trap 'rm -rf "$scratch"' EXIT
cp -r "$root/crates" "$root/crates.txt" "$root/HANDLES" "$scratch"
mkdir -p "$scratch/programs" "$scratch/crates/px_bench/src" "$scratch/crates/px_bench/specs" "$scratch/crates/px_bench/proofs"
python3 "$here/programs.py" "$scratch/programs" "$@"
cp "$here/main.rt.txt" "$scratch/crates/px_bench/src/main.rt"
touch "$scratch/crates/px_bench/specs/Lib.antt" "$scratch/crates/px_bench/proofs/Lib.antt"
line="$(grep "^px_lowering_cases:" "$root/crates.txt")"
echo "px_bench: px_outside px_depend px_flow_points px_constraints ${line#*: }" >> "$scratch/crates.txt"
cd "$scratch/crates/px_bench"
rt try -- "$scratch"/programs/* | sed "s|.*/programs/||" | grep -v "^rt:" | column -t
