#!/usr/bin/env bash
# Times the DIMACS reader against the same work in Rust: benches/dimacs.sh [RT]
# RT is the command of the kit, rt where none is given. It works on a copy, and changes nothing here.
set -euo pipefail
rt=${1:-rt}
top=$(cd "$(dirname "$0")/.." && pwd)
work=$(mktemp -d)
trap 'rm -rf "$work"' EXIT
mkdir -p "$work/crates/dimacs_bench/src"
cp -r "$top/crates/sat_rules" "$top/crates/sat_formula" "$work/crates/"
cp "$top/benches/dimacs/main.rt.txt" "$work/crates/dimacs_bench/src/main.rt"
grep -E '^(sat_rules|sat_formula):' "$top/crates.txt" > "$work/crates.txt"
echo 'dimacs_bench: sat_rules sat_formula anyhow' >> "$work/crates.txt"
echo 'Rattle:'
(cd "$work/crates/dimacs_bench" && "$rt" run 2> "$work/log" | grep 'ms$') || { tail -5 "$work/log"; exit 1; }
echo 'Rust:'
rustc --edition 2021 -O -o "$work/twin" "$top/benches/dimacs/main.rs"
"$work/twin"
