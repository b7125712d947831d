#!/usr/bin/env python3
"""Overwrites words that stand once in a file, by others of the same length.

stamp.py FILE WORDS OTHERS
"""

import sys


def main(name, words, others):
    old, new = words.encode(), others.encode()
    with open(name, "rb") as file:
        held = file.read()
    if held.count(old) != 1 or len(old) != len(new):
        sys.exit(f"{name}: '{words}' stands there {held.count(old)} times, and once is needed, for '{others}'")
    with open(name, "wb") as file:
        file.write(held.replace(old, new))


main(*sys.argv[1:])
