#!/usr/bin/env bash
# Runs the commands of the README, of USING, of PORT and of HINTS, and compares what they print with what is below them there; and the
# calls that programs and tools name as examples by `--help`.
#
#   tests/examples.sh [FOLDER]    with the programs of FOLDER, as one into which they were installed
#
# Without FOLDER the programs must be built: `rt ci` does it, or `rt run` in their folders.
set -euo pipefail
folder=${1:+$(realpath "$1")}
cd "$(dirname "$0")/.."
exec python3 -B tests/documents/examples.py --calls "$folder" README.md docs/USING.md docs/PORT.md docs/reference/HINTS.md
