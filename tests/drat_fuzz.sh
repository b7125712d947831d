#!/usr/bin/env bash
# Some hundred random formulas and DRAT proofs, and as many with DPR proofs, half of them damaged, by `drat_check` and by the
# definitions of DRAT and DPR; and a few that delete many clauses with one literal.
#
#   tests/drat_fuzz.sh [COUNT [SEED]]
#
# The programs must be built: `rt ci` does it, or `rt run` in their folders.
set -euo pipefail
. "$(dirname "$0")/lib.sh"
check=$(built drat_check)
lrat_check=$(built lrat_check)
python3 -B "$top/tests/drat/fuzz.py" "$check" "${1:-400}" "${2:-1}" || wrong=1
python3 -B "$top/tests/drat/dpr.py" "$check" "$lrat_check" "${1:-400}" "${2:-1}" || wrong=1
python3 -B "$top/tests/drat/long_lists.py" "$check" || wrong=1
exit "$wrong"
