#!/usr/bin/env bash
# CaDiCaL 2 for tests, from two packages of Debian, of which the sums stand here:
#
#   cadical2.sh FOLDER
#
# FOLDER/bin has a `c++` that compiles and links with it, and its program `cadical`, if that runs here. Where the packages are not to be had
# within 30 seconds, or not for this machine, it says so, and its status is 1.
set -euo pipefail

from=http://deb.debian.org/debian/pool/main/c/cadical
mkdir -p "$1/bin" "$1/lib"
cd "$1"
cat > sums << 'END'
a87259c8fa8b5a19e90607a0077227b3a4c64777affd59ed34d22437c996bc25  cadical_2.1.3-3_amd64.deb
19c5fb9ac819e3975342bbdd8d0912b1b7d498ea5ffe766652819ccef170921f  libcadical-dev_2.1.3-3_amd64.deb
END

fetched() {
  [[ $(uname -sm) == 'Linux x86_64' ]] &&
    timeout 30 curl -fsS --remote-name-all "$from/cadical_2.1.3-3_amd64.deb" "$from/libcadical-dev_2.1.3-3_amd64.deb" &&
    sha256sum --quiet -c sums &&
    dpkg-deb -x cadical_2.1.3-3_amd64.deb . &&
    dpkg-deb -x libcadical-dev_2.1.3-3_amd64.deb .
}
if ! fetched 2> said; then
  echo 'CaDiCaL 2 is not to be had'
  exit 1
fi

# (it was compiled for a newer C library, of which it calls one function that older ones lack)
cc -O2 -fPIC -x c -c -o scanf.o - << 'END'
#include <stdarg.h>
#include <stdio.h>
int __isoc23_fscanf(FILE *file, const char *format, ...);
int __isoc23_fscanf(FILE *file, const char *format, ...) {
    va_list list;
    va_start(list, format);
    int count = vfscanf(file, format, list);
    va_end(list);
    return count;
}
END
cp usr/lib/*/libcadical.a lib/libcadical.a
ar rs lib/libcadical.a scanf.o 2> said
printf '#!/bin/sh\nexec %q "$@" -I%q -L%q\n' "$(command -v c++)" "$PWD/usr/include" "$PWD/lib" > bin/c++
chmod +x bin/c++
if usr/bin/cadical --version > said 2>&1; then
  ln -s "$PWD/usr/bin/cadical" bin/cadical
fi
