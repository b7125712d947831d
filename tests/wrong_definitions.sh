#!/usr/bin/env bash
# Tries the turned definitions of crates/definition_rows/wrong-definitions.txt, each a paragraph there: rows have to refuse each.
#
#   tests/wrong_definitions.sh              all of them: some 30 processor seconds each; notes by which row each was refused
#   tests/wrong_definitions.sh NAME ..      these alone
#   tests/wrong_definitions.sh --records    whether what was noted is still of what stands there; it tries nothing
set -euo pipefail
exec python3 -B "$(dirname "$0")/wrong_bodies/definitions.py" "$@"
