#!/usr/bin/env bash
# Runs COUNT random scenarios from each of the given seeds through the program and the second reading, and compares.
# usage: scripts/compare_outside.sh COUNT SEED..     (after `rt run` in crates/linenplane, which leaves the program there)
set -euo pipefail
cd "$(dirname "$0")/.."
count=$1; shift
dir=$(mktemp -d)
trap 'rm -rf "$dir"' EXIT
for seed in "$@"; do
    python3 scripts/fuzz_outside.py "$seed" "$count" > "$dir/in"
    python3 scripts/reference.py < "$dir/in" > "$dir/reference"
    crates/linenplane/out/linenplane < "$dir/in" > "$dir/program"
    cmp "$dir/reference" "$dir/program" || { echo "seed $seed differs"; diff "$dir/reference" "$dir/program" | head -20; exit 1; }
    echo "seed $seed: $count scenarios, $(wc -l < "$dir/program") lines, alike"
done
