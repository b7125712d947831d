#!/usr/bin/env bash
# Times the program on formulas and proofs that cost as much as they can: benches/hostile.sh [CASE..]
# It proves and builds the program where that was not done before, and needs python3. RT may name another `rt`.
set -euo pipefail
top=$(cd "$(dirname "$0")/.." && pwd)
program=$top/crates/varisat_check_main/out/varisat_check_main
if [[ ! -x $program ]]; then
  (cd "$top/crates/varisat_check_main" && "${RT:-rt}" run > /dev/null)
fi
exec python3 "$top/benches/hostile.py" "$program" "$@"
