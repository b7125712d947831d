#!/usr/bin/env bash
# Links the object of a proved program as `rt` does.
#
#   link.sh OBJECT PROGRAM
#
# RT may name another `rt`.
set -euo pipefail
kit=$(dirname "$(dirname "$(readlink -f "$(command -v "${RT:-rt}")")")")
said=$("$kit/bin/rattle-link" --target x86_64-unknown-linux-gnu --toolchain "$kit/toolchain" -o "$2" "$1" \
  "$kit/c/libos_c.a" "$kit/c/liblibc_c.a" 2>&1) || {
  echo "$said" >&2
  exit 1
}
