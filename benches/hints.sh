#!/usr/bin/env bash
# Times a proof of 14 MB, with and without the text of hints written, and the check of that text: benches/hints.sh
# It takes the two programs as `rt run` leaves them in their crates, and python3; other programs by CHECK and HINTS.
set -euo pipefail
top=$(cd "$(dirname "$0")/.." && pwd)
check=${CHECK:-$top/crates/varisat_check_main/out/varisat_check_main}
hints=${HINTS:-$top/crates/hint_check_main/out/hint_check_main}
work=$(mktemp -d)
trap 'rm -rf "$work"' EXIT
python3 "$top/benches/hints/make.py" "$work/cnf" "$work/proof"

# least NAME COMMAND..: the least user time of seven runs, in milliseconds
least() {
  local name=$1 TIMEFORMAT=%U
  shift
  for _ in 1 2 3 4 5 6 7; do
    { time "$@" > "$work/line" 2> "$work/errors" || { cat "$work/errors" >&2; exit 1; }; } 2>> "$work/times"
  done
  echo "$name: $(sort -n "$work/times" | head -1 | awk '{ print 1000 * $1 }') ms, $(cat "$work/line")"
  rm "$work/times"
}

least 'proof checked' "$check" "$work/cnf" "$work/proof"
least 'proof checked, hints written' "$check" "$work/cnf" "$work/proof" "$work/lrat"
least 'hints checked' "$hints" "$work/cnf" "$work/lrat"
wc -c "$work/proof" "$work/lrat"
