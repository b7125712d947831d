#!/usr/bin/env python3
"""One C file of a program: what wasm2c made of it, the runtime of wabt, and the host.

c_file.py NAME PROGRAM.c > NAME.c
"""

import os
import re
import sys

FOLDERS = ("/usr/share/wabt/wasm2c", "/usr/src/wasm2c", "/usr/include/wabt", "/usr/include")
HEAD = """/* {name}: a proved checker as one C file.
 *
 *   cc -O2 -o {name} {name}.c -lm
 *
 * It was made by wasm2c of wabt, of WebAssembly that was made of the proved program; parts of it are the runtime of wabt, under the
 * Apache License 2.0. What is proved is the program's source, not this file: docs/TRUST.md. Don't edit it. */
#define _GNU_SOURCE
#ifdef __TINYC__
int __builtin_clz(unsigned), __builtin_clzll(unsigned long long), __builtin_ctz(unsigned), __builtin_ctzll(unsigned long long);
#endif
"""
OWN = os.path.dirname(os.path.abspath(__file__))


def text_of(name):
    with open(name, encoding="utf-8") as file:
        return file.read()


def runtime(name):
    """A file of wabt's runtime, wherever this Debian has it."""
    for folder in FOLDERS:
        if os.path.isfile(f"{folder}/{name}"):
            return f"{folder}/{name}"
    raise SystemExit(f"{name} of wabt is in none of {' '.join(FOLDERS)}")


def main(name, program):
    parts = [runtime("wasm-rt.h"), program.removesuffix(".c") + ".h", runtime("wasm-rt-impl.h")]
    parts += [runtime("wasm-rt-impl.c"), program, f"{OWN}/host.c"]
    whole = "\n".join(re.sub(r'(?m)^#include "[^"]*"\n', "", text_of(part)) for part in parts)
    sys.stdout.write(HEAD.format(name=name) + whole)


main(*sys.argv[1:])
