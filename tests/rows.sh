#!/usr/bin/env bash
# Plays the rows of `tests/rows`: texts with what the programs answer, at once and by few bytes a read, where reads and writes fail too.
#
# The programs must be built: `rt ci` does it, or `rt run` in their folders. It needs `cc`.
set -euo pipefail
. "$(dirname "$0")/lib.sh"
for rows in "$top"/tests/rows/*.rows; do
  for name in $(sed -n 's/^call \([a-z_]*\).*/\1/p' "$rows" | sort -u); do
    needs "$name"
  done
done
"${CC:-cc}" -O2 -Wall -shared -fPIC -o "$work/fail.so" "$top/tests/failing_files/fail.c" -ldl
python3 -B "$top/tests/rows/play.py" "$top/crates" "$work/fail.so" "$top"/tests/rows/*.rows
