#!/usr/bin/env bash
# The package `lib/cefindrato`, which the scripts of tools/ share: its parts alone, and that mypy
# finds types in all of it.
# needs: lib
set -euo pipefail
. "$(dirname "$0")/lib.sh"

case_parts() {
  export PYTHONPATH=$top/lib:$top/tests/python_package
  python3 -B -m unittest parts splitting > "$work/said" 2>&1 || fault "$(cat "$work/said")"
  grep -q '^Ran [1-9][0-9]* tests in ' "$work/said" || fault "no tests: $(cat "$work/said")"
}

case_answers() {
  PYTHONPATH=$top/lib python3 -B "$top/tests/python_package/answers.py" > "$work/said" 2>&1 || fault "$(cat "$work/said")"
}

case_types() {
  only_with mypy
  (cd "$work" && mypy --strict --python-version 3.8 "$top/lib/cefindrato") > "$work/said" || fault "$(cat "$work/said")"
}

# A script of the repository or an installed one leaves nothing beside the package.
case_no_leavings() {
  as_installed cubes
  printf '1 0\n' > "$work/cubes"
  alone/bin/cubes names formula "$work/cubes" > "$work/said"
  same 'the names' $'1\nclosing' "$(cat "$work/said")"
  same 'what is left' '' "$(find alone -name '__pycache__')"
}

cd "$work"
try_cases
