"""Sessions of queries to a solver: the lines of an interaction (ICNF) and of a proof (IDRUP or
LIDRUP), which may be binary."""

import os
import re
from typing import Iterator, List, Tuple

from . import files
from .faults import Damaged, Fault

# The ends of the names of both files.
INTERACTION_ENDS, PROOF_ENDS = (".icnf",), (".idrup", ".lidrup")
# (a number has at most 20 digits, or in binary nine bytes)
LINE = re.compile(r"[ \t\r]*([a-z])((?:[ \t]+-?[1-9][0-9]{0,19})*[ \t]+0)[ \t\r]*")
HINTED = re.compile(
    r"[ \t\r]*([lu])((?:[ \t]+-?[1-9][0-9]{0,19})*[ \t]+0)"
    r"((?:[ \t]+[1-9][0-9]{0,19})*)[ \t]+0[ \t\r]*"
)
STATUS = re.compile(r"[ \t\r]*s[ \t]+(SATISFIABLE|UNSATISFIABLE|UNKNOWN)[ \t\r]*")
SEVERAL = re.compile(r"[ \t\r]*U[ \t]+([1-9][0-9]{0,19})[ \t\r]*")
HEADER = re.compile(r"[ \t\r]*p[ \t]+([a-z]+)[ \t\r]*")
BINARY_STATUS = re.compile(rb"s ?(SATISFIABLE|UNSATISFIABLE|UNKNOWN)\n?")
BINARY_SEVERAL = re.compile(rb"U([\x80-\xff]{0,8}[\x01-\x7f])")


def opposite(literal: str) -> str:
    return literal[1:] if literal[0] == "-" else f"-{literal}"


def text_of(name: str) -> str:
    """The text of a file, unpacked if its name is that of a packed one."""
    try:
        return files.content_of(name).decode("latin-1")
    except Damaged as why:
        raise Fault(str(why)) from None


def kind_by_name(name: str) -> str:
    """Which proof a file is that has no header, as CaDiCaL writes it."""
    base, end = os.path.splitext(name)
    end = os.path.splitext(base)[1] if files.packer_of(name) else end
    if end not in PROOF_ENDS:
        raise Fault("proof: line 1: no header, and the name does not end in .idrup or .lidrup")
    return end[1:]


def rows(name: str, kind: str) -> Iterator[Tuple[int, str]]:
    """The lines of a file that say something, with their numbers: first the header's word."""
    text = text_of(name)
    head, _, rest = text.partition("\n")
    header = HEADER.fullmatch(head)
    if kind == "proof" and "\0" in (rest if header else text):
        word = header[1] if header else kind_by_name(name)
        yield 1, word
        data = (rest if header else text).encode("latin-1")
        yield from binary_rows(data, word == "lidrup", 2 if header else 1)
        return
    lines = text.split("\n")
    if lines.pop():
        raise Fault(f"{kind}: line {len(lines) + 1}: cut off, it has no line end")
    said = (
        (number, line)
        for number, line in enumerate(lines, 1)
        if line[:1] != "c" and line and not line.isspace()
    )
    number, first = next(said, (1, ""))
    header = HEADER.fullmatch(first)
    if header:
        yield number, header[1]
    elif kind == "proof" and first:
        yield number, kind_by_name(name)
        yield number, first
    else:
        raise Fault(f"{kind}: line {number}: no header")
    yield from said


def numbers(data: bytes) -> List[int]:
    """The numbers of a list in binary, seven bits a byte, the low ones first: a byte from 128 on is
    not the last one."""
    found, number, shift = [], 0, 0
    for byte in data:
        if shift == 63:
            raise Fault("malformed")
        number |= (byte & 127) << shift
        shift += 7
        if byte < 128:
            found.append(number)
            number, shift = 0, 0
    if shift:
        raise Fault("malformed")
    return found


def signed(code: int) -> str:
    """The literal of a code as text: twice the variable, and one more where it is negative."""
    if code < 2:
        raise Fault("malformed")
    return f"-{code // 2}" if code % 2 else str(code // 2)


def binary_line(data: bytes, place: int, hinted: bool) -> Tuple[str, int]:
    """A line of a binary proof as text, and the place behind it."""
    if found := BINARY_STATUS.match(data, place):
        return f"s {found[1].decode()}", found.end()
    if found := BINARY_SEVERAL.match(data, place):
        return f"U {numbers(found[1])[0]}", found.end()
    kind, lists, place = chr(data[place]), [], place + 1
    for _ in range(2 if hinted and kind in "lu" else 1):
        end = data.find(0, place)
        if end < 0:
            raise Fault("malformed")
        lists.append(numbers(data[place:end]))
        place = end + 1
    # Ids are written as they are: that of a clause comes before its literals, a deletion has
    # nothing else.
    ids = {"i": 1, "l": 1, "d": None, "w": None, "r": None}.get(kind, 0) if hinted else 0
    words = [*map(str, lists[0][:ids]), *map(signed, [] if ids is None else lists[0][ids:]), "0"]
    words += [str(it) for each in lists[1:] for it in [*each, 0]]
    return " ".join([kind, *words]), place


def binary_rows(data: bytes, hinted: bool, number: int) -> Iterator[Tuple[int, str]]:
    """The lines of a binary proof as text, numbered from this one on. A malformed one is empty, and
    the last."""
    place = 0
    while place < len(data):
        try:
            line, place = binary_line(data, place, hinted)
        except Fault:
            line, place = "", len(data)
        yield number, line
        number += 1
