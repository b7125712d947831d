#!/usr/bin/env bash
# Counts the instructions of a check by the program `lrat_check`, and by a caller in C of the library.
#
#   benches/bindings.sh CNF LRAT
#
# Both must be built: `rt run` in crates/lrat_check_main, and `rt lib` in the crate of the library. It needs cc and valgrind.
set -euo pipefail

top=$(cd "$(dirname "$0")/.." && pwd)
work=$(mktemp -d)
trap 'rm -rf "$work"' EXIT
"$top/bindings/build.sh" --built "$work"
cat > "$work/caller.c" << 'END'
#include "cefindrato.h"
#include <stdio.h>
#include <stdlib.h>

static char *whole_file(const char *name, size_t *len) {
    FILE *file = fopen(name, "rb");
    char *bytes;
    if (!file || fseek(file, 0, SEEK_END) != 0)
        exit(2);
    *len = (size_t)ftell(file);
    rewind(file);
    bytes = malloc(*len + 1);
    if (!bytes || fread(bytes, 1, *len, file) != *len)
        exit(2);
    fclose(file);
    return bytes;
}

int main(int count, char **names) {
    size_t cnf_len, proof_len;
    char *cnf = whole_file(names[1], &cnf_len), *proof = whole_file(names[count - 1], &proof_len);
    return cefindrato_check(cnf, cnf_len, proof, proof_len, NULL, 0).status;
}
END
cc -O2 -I"$top/bindings/c" -o "$work/caller" "$work/caller.c" "$work/libcefindrato.a"

# counted NAME COMMAND..: the instructions of a run that verifies
counted() {
  valgrind --tool=callgrind --callgrind-out-file="$work/out" "${@:2}" > "$work/said" 2> "$work/err"
  printf '%-8s %s\n' "$1" "$(sed -n 's/^==[0-9]*== Collected : //p' "$work/err")"
}
counted program "$top/crates/lrat_check_main/out/lrat_check_main" "$1" "$2"
counted caller "$work/caller" "$1" "$2"
