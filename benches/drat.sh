#!/usr/bin/env bash
# Counts the instructions that `drat_check` takes for eight proofs, and compares them with the table of README.md:
#
#   benches/drat.sh [OTHER.cc]
#
# OTHER.cc is compiled by `g++ -O2` and called with a formula, a proof, and `--chains`; without it only `drat_check` is
# counted. The formulas are made by seeds, and all proofs but one by cadical. A figure that is more than three parts in a
# hundred above the table makes the status 1. So does a proof that has another number of bytes than the table says, as by
# another cadical: it can't be compared. The program is the one that `rt run` left in out/; PROGRAM may name another, and
# TABLE another file with the table. It needs valgrind, python3 and cadical.
set -euo pipefail
top=$(cd "$(dirname "$0")/.." && pwd)
program=${PROGRAM:-$top/crates/drat_check_main/out/drat_check_main}
table=${TABLE:-$top/benches/README.md}
work=$(mktemp -d)
trap 'rm -rf "$work"' EXIT

made() {
  python3 -B "$top/benches/drat_formulas.py" "$@"
}

# instructions WANTED COMMAND..: what the whole program takes, which must print this, if it is not empty
instructions() {
  local said
  said=$(valgrind --tool=callgrind --callgrind-out-file=/dev/null "${@:2}" 2> "$work/log") || true
  if [[ -n $1 && $said != "$1" ]]; then
    echo "${*:2}: ${said:-no verdict}" >&2
    tail -5 "$work/log" >&2
    return 1
  fi
  sed -n 's/^==[0-9]*== Collected : \([0-9]*\)$/\1/p' "$work/log"
}

# told NAME: the bytes of the proof and the instructions of `drat_check` that the table says
told() {
  tr -d '`,' < "$table" | awk -F' *[|] *' -v name="$1" '
    !/^[|]/ { column = 0 }
    $2 == "instructions for a proof" { for (i = 2; i <= NF; i++) if ($i == "drat_check") column = i; next }
    column && $2 == name { print $3, $column }'
}

# compared NAME BYTES INSTRUCTIONS: whether the figure is not much above the table
compared() {
  local bytes before
  if ! read -r bytes before < <(told "$1"); then
    echo "$1: the table has no figure" >&2
    return 1
  elif (($2 != bytes)); then
    echo "$1: the proof has $2 bytes, and that of the table $bytes" >&2
    return 1
  elif ((100 * $3 > 103 * before)); then
    echo "$1: more than 3 % worse than $before" >&2
    return 1
  fi
}

made random 200 4.8 1 > "$work/random.cnf"
made pigeons 8 > "$work/pigeons.cnf"
made multiplier 7 > "$work/multiplier.cnf"
made pigeons 20 > "$work/extended.cnf"
made extended 20 > "$work/extended.drat"
made wide 48 1150 1 > "$work/wide.cnf"
made progressions 3 9 77 > "$work/progressions.cnf"
made langford 9 > "$work/langford.cnf"
made sorters 18 > "$work/sorters.cnf"
solved=(random pigeons multiplier wide progressions langford sorters)
for name in "${solved[@]}"; do
  cadical -q --no-binary "$work/$name.cnf" "$work/$name.drat" > "$work/said" || true
done
if (($# > 0)); then
  g++ -O2 -std=c++17 -o "$work/other" "$1"
fi
status=0
printf '%-12s %10s %14s %14s\n' proof bytes drat_check other
for name in "${solved[@]}" extended; do
  files=("$work/$name.cnf" "$work/$name.drat")
  bytes=$(stat -c %s "$work/$name.drat")
  ours=$(instructions 's VERIFIED UNSAT' "$program" "${files[@]}")
  other=
  if (($# > 0)); then
    other=$(instructions '' "$work/other" "${files[@]}" --chains)
  fi
  printf '%-12s %10d %14d %14s\n' "$name" "$bytes" "$ours" "$other"
  compared "$name" "$bytes" "$ours" || status=1
done
exit "$status"
