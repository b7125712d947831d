#!/usr/bin/env bash
# What `follows_check` and `minimal_check` say of random formulas and claims, and of random cores. What has to be said is found by
# going over all assignments, in `tests/follows/judge.py`, and the proofs are made of all assignments too. Then the formula for the
# solver with cadical, and a core by picomus, where these are installed (Debian: cadical picosat).
#
#   tests/follows.sh [COUNT [SEED]]
#
# The programs must be built: `rt ci` does it, or `rt run` in their folders.
set -euo pipefail
. "$(dirname "$0")/lib.sh"
needs follows_check minimal_check
follows=$top/crates/follows_check_main/out/follows_check_main
minimal=$top/crates/minimal_check_main/out/minimal_check_main
for name in cadical picomus; do
  has "$name" || true
done
python3 -B "$top/tests/follows/judge.py" "$follows" "$minimal" "${1:-150}" "${2:-1}"
