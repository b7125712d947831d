#!/usr/bin/env bash
set -euo pipefail
./install.sh --dist "$PREFIX"
rm -r "$PREFIX/share/cefindrato"
