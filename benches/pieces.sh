#!/usr/bin/env bash
# DRAT proofs in pieces beside the whole, and while they are written.
#
#   benches/pieces.sh [--while] CNF PROOF [OPTION..]
#
# A line for a proof: its megabytes; seconds of a processor and megabytes of `drat_check` on the whole; how many pieces `drat_cut`
# makes of it, by its options, with its seconds and megabytes; for `drat_check` on all pieces the seconds in sum and of the longest
# one, and the megabytes at most; the same with the last piece first, where each shows only what the one behind it has used; and the
# megabytes of the clauses between them. With --while cadical solves the formula again by `checked --while`, and the line ends with the
# seconds that the solver took by the clock, and those from its end to the verdict.
# All pieces must be verified, and the last one refuted: else the line says so, and the script ends with status 1.
#
# The programs are those that `rt run` left in out/. It needs Debian's `time`, and cadical for --while.
set -euo pipefail
top=$(cd "$(dirname "$0")/.." && pwd)
meanwhile=
if [[ ${1-} == --while ]]; then
  meanwhile=1
  shift
fi
cnf=$(realpath "$1")
proof=$(realpath "$2")
shift 2
work=$(mktemp -d)
trap 'rm -rf "$work"' EXIT
mkdir "$work/bin"
for program in drat_check drat_cut join_check model_check; do
  ln -s "$top/crates/${program}_main/out/${program}_main" "$work/bin/$program"
done
ln -s "$top/tools/checked" "$top/tools/pieces" "$work/bin"
export PATH=$work/bin:$PATH

# taken COMMAND..: seconds and megabytes in two words
taken() {
  /usr/bin/time -o "$work/time" -f '%U %S %M' "$@" > "$work/said" 2> "$work/errors" || true
  awk 'NF == 3 { printf "%.2f %.1f", $1 + $2, $3 / 1024 }' "$work/time"
}

# megabytes FILE..: how much they have
megabytes() {
  cat "$@" | wc -c | awk '{ printf "%.1f", $1 / 1e6 }'
}

printf '%-8s %6s MB, whole %s' "$(basename "$cnf" .cnf)" "$(megabytes "$proof")" "$(taken drat_check "$cnf" "$proof")"
if [[ $(cat "$work/said") != 's VERIFIED UNSAT' ]]; then
  printf ' WRONG: the whole is not verified\n'
  exit 1
fi
cut=$(taken drat_cut "$cnf" "$proof" "$work/" "$@")
count=$(wc -l < "$work/said")
before=$cnf
for ((n = 1; n <= count; n++)); do
  if ((n < count)); then
    taken drat_check --drat "$before" "$work/$n.drat" --holds "$work/$((n + 1)).cnf" >> "$work/pieces"
    wanted='s VERIFIED PIECE'
  else
    taken drat_check --drat "$before" "$work/$n.drat" >> "$work/pieces"
    wanted='s VERIFIED UNSAT'
  fi
  echo >> "$work/pieces"
  if [[ $(cat "$work/said") != "$wanted" ]]; then
    printf ' WRONG: piece %d of %d: %s\n' "$n" "$count" "$(cat "$work/errors")"
    exit 1
  fi
  before=$work/$((n + 1)).cnf
done
behind=/dev/null
for ((n = count; n >= 1; n--)); do
  before=$work/$n.cnf
  ((n > 1)) || before=$cnf
  taken drat_check --drat "$before" "$work/$n.drat" --holds "$behind" --core "$work/core" >> "$work/backward"
  echo >> "$work/backward"
  if [[ $(cat "$work/said") != 's VERIFIED '@(PIECE|UNSAT) || ($n == "$count" && $(cat "$work/said") != 's VERIFIED UNSAT') ]]; then
    printf ' WRONG: with the last one first, piece %d of %d: %s\n' "$n" "$count" "$(cat "$work/errors")"
    exit 1
  fi
  mv "$work/core" "$work/behind"
  behind=$work/behind
done
rm -f "$work/1.cnf"
printf ', %d pieces, cut %s, checked' "$count" "$cut"
awk '{ sum += $1; if ($1 > long) long = $1; if ($2 > most) most = $2 } END { printf " %.2f %.2f %.1f", sum, long, most }' "$work/pieces"
printf ', last first'
awk '{ sum += $1; if ($1 > long) long = $1; if ($2 > most) most = $2 } END { printf " %.2f %.2f %.1f", sum, long, most }' "$work/backward"
printf ', between %s' "$(shopt -s nullglob && megabytes "$work"/*.cnf /dev/null)"
if [[ $meanwhile ]]; then
  solver=$(command -v cadical)
  printf '#!/bin/sh\ns=0; "%s" "$@" || s=$?; date +%%s.%%N > "%s/ended"; exit $s\n' "$solver" "$work" > "$work/bin/cadical"
  chmod +x "$work/bin/cadical"
  began=$(date +%s.%N)
  if [[ $(checked --while cadical "$cnf" 2> "$work/errors") != 's VERIFIED UNSAT BY '*' RECEIPTS' ]]; then
    printf ' WRONG: while it is written: %s\n' "$(cat "$work/errors")"
    exit 1
  fi
  ended=$(cat "$work/ended")
  printf ', solver %.1f, after it %.1f' "$(echo "$ended - $began" | bc)" "$(echo "$(date +%s.%N) - $ended" | bc)"
fi
echo
