#!/usr/bin/env bash
# Runs `drat_check` on formulas and DRAT proofs that cost as much as they can:
#
#   benches/drat_hostile.sh [OTHER.cc] [CASE..]
#
# A line for each case of benches/drat_hostile.py: bytes of the proof, seconds of a processor, megabytes at most, what the
# program says. With OTHER.cc, which is compiled by `g++ -O2` and called with a formula, a proof, a file for its lines and
# `--chains`, the seconds and megabytes of that one too. A run may take LIMIT seconds (120) and ROOM kilobytes (12 GB). The
# program is the one that `rt run` left in out/; PROGRAM may name another. It needs python3 and Debian's `time`.
set -euo pipefail
top=$(cd "$(dirname "$0")/.." && pwd)
program=${PROGRAM:-$top/crates/drat_check_main/out/drat_check_main}
work=$(mktemp -d)
trap 'rm -rf "$work"' EXIT
cases() {
  python3 -B "$top/benches/drat_hostile.py" "$@"
}

# limited COMMAND..: the output in $work/said, and in $work/time what the run took
limited() {
  (
    ulimit -v "${ROOM:-12582912}" -t "${LIMIT:-120}"
    /usr/bin/time -o "$work/time" -f '%U %S %M' "$@" > "$work/said" 2>&1
  ) || true
}

# taken: seconds and megabytes
taken() {
  awk 'NF == 3 { printf "%.2f | %.0f", $1 + $2, $3 / 1024 }' "$work/time"
}

other=
if [[ ${1:-} == *.cc || ${1:-} == *.cpp ]]; then
  other=$work/other
  g++ -O2 -std=c++17 -o "$other" "$1"
  shift
fi
names=("$@")
if (($# == 0)); then
  mapfile -t names < <(cases)
fi
for name in "${names[@]}"; do
  cases "$name" "$work/cnf" "$work/drat"
  limited "$program" "$work/cnf" "$work/drat"
  said=$(head -1 "$work/said")
  line="| \`$name\` | $(stat -c %s "$work/drat") | $(taken) | ${said:-over the limit} |"
  if [[ -n $other ]]; then
    limited "$other" "$work/cnf" "$work/drat" /dev/null --chains
    line+=" $(taken) |"
  fi
  echo "$line"
done
