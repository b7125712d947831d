#!/usr/bin/env python3
"""Writes a proof of an interaction in binary: the header as it is, and then for each line its letter and its numbers.

binary.py TEXT BINARY

The status is 3 where the text says something that has no binary form, as words that are no numbers, or a list without its end.

A number has seven bits a byte, the low ones first, and each byte but the last is 128 more. A literal is written as twice its
variable, and 1 more if it is negative; an id as it is. A list ends with a byte 0. A status has its word, and no end.
"""

import sys

LITERALS, CLAUSE, IDS = "literals", "clause", "ids"
# What the lists of a line have, by its letter.
IDRUP = {kind: (LITERALS,) for kind in "iqldwrmue"}
LIDRUP = {kind: (LITERALS,) for kind in "qme"} | {kind: (IDS,) for kind in "dwr"}
LIDRUP |= {"i": (CLAUSE,), "l": (CLAUSE, IDS), "u": (LITERALS, IDS)}


class NoBinary(Exception):
    """The text has no binary form."""


def number(value):
    out = bytearray()
    while value > 127:
        out.append(value % 128 + 128)
        value //= 128
    return bytes([*out, value])


def literal(value):
    return number(-2 * value + 1 if value < 0 else 2 * value)


def identity(value):
    if value < 0:
        raise NoBinary
    return number(value)


def lists(words):
    """The lists of a line, each without its 0."""
    found, last = [], []
    for word in words:
        if word.removeprefix("-")[:1] == "0" and word != "0" or not word.removeprefix("-").isdecimal():
            raise NoBinary
        if word == "0":
            found.append(last)
            last = []
        else:
            last.append(int(word))
    if last:
        raise NoBinary
    return found


def line(text, shapes):
    kind, *words = text.split()
    if kind == "s" and words in (["SATISFIABLE"], ["UNSATISFIABLE"], ["UNKNOWN"]):
        return f"s{words[0]}".encode()
    if kind == "U" and len(words) == 1 and words[0].isdecimal() and words[0][0] != "0":
        return b"U" + number(int(words[0]))
    if kind not in shapes:
        raise NoBinary
    out, found = kind.encode(), lists(words)
    if len(found) != len(shapes[kind]):
        raise NoBinary
    for shape, values in zip(shapes[kind], found):
        if shape == CLAUSE and not values:
            raise NoBinary
        ids = len(values) if shape == IDS else 1 if shape == CLAUSE else 0
        out += b"".join([*map(identity, values[:ids]), *map(literal, values[ids:]), b"\0"])
    return out


def twin(text):
    """The proof in binary, or None."""
    header, *lines = text.split("\n")
    if header not in ("p idrup", "p lidrup") or lines[-1:] != [""]:
        return None
    try:
        return f"{header}\n".encode() + b"".join(line(it, IDRUP if header == "p idrup" else LIDRUP) for it in lines[:-1])
    except (NoBinary, ValueError):
        return None


def main(source, target):
    with open(source, encoding="latin-1", newline="") as file:
        made = twin(file.read())
    if made is None:
        return 3
    with open(target, "wb") as file:
        file.write(made)
    return 0


if __name__ == "__main__":
    sys.exit(main(*sys.argv[1:]))
