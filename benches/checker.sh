#!/usr/bin/env bash
# Times the checker on a long chain and on widths that stay: benches/checker.sh [RT]
# RT is the command of the kit, rt where none is given. It works on a copy, and changes nothing here.
set -euo pipefail
rt=${1:-rt}
top=$(cd "$(dirname "$0")/.." && pwd)
work=$(mktemp -d)
trap 'rm -rf "$work"' EXIT
mkdir -p "$work/crates/checker_bench/src"
for crate in checker_rules sat_formula proof_bytes checker_parts clause_store checker_steps varisat_checker; do
  cp -r "$top/crates/$crate" "$work/crates/"
done
cp "$top/benches/checker/main.rt.txt" "$work/crates/checker_bench/src/main.rt"
grep -E '^(checker_rules|sat_formula|proof_bytes|checker_parts|clause_store|checker_steps|varisat_checker):' "$top/crates.txt" > "$work/crates.txt"
echo 'checker_bench: checker_rules sat_formula proof_bytes checker_parts clause_store checker_steps varisat_checker anyhow log' >> "$work/crates.txt"
(cd "$work/crates/checker_bench" && "$rt" try 2> "$work/log") || { tail -20 "$work/log"; exit 1; }
