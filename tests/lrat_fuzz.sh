#!/usr/bin/env bash
# Tries random and damaged LRAT texts on the programs: no verdict over a formula that can be satisfied, every answer of
# `lrat_check`, `hint_check` and `lrat_to_proof` as the rules say, and where there is no RAT step, `varisat_check` agrees. They
# also get the lines as binary ones, with plain or doubled ids, damaged too, and beginnings of the texts of solvers as such.
#
#   tests/lrat_fuzz.sh [--texts N] [--first SEED] [--lrat-check PROGRAM] ..    the seeds are fixed; a minute at most
#
# The programs must be built: `rt ci` does it, or `rt run` in their folders. It needs `python3`.
# needs: tests/data
set -euo pipefail
exec python3 -B "$(dirname "$0")/lrat_fuzz/main.py" "$@"
