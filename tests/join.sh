#!/usr/bin/env bash
# What `join_check` says of receipts of parts of random formulas, and of random chains of pieces. Which parts can be satisfied, and
# which digests lead to one that is refuted, is found in `tests/join/judge.py`, by all assignments and by a search of its own.
#
#   tests/join.sh [COUNT [SEED]]
#
# The program must be built: `rt ci` does it, or `rt run` in its folder.
set -euo pipefail
. "$(dirname "$0")/lib.sh"
built=$(built join_check)
exec python3 -B "$top/tests/join/judge.py" "$built" "${1:-150}" "${2:-1}"
