#!/usr/bin/env python3
"""The assembly of an object for Linux on x86-64: its bytes as numbers, and what the linker puts among them.

assembly.py OBJECT

What the program loads is written, in the order of the object, and `.comment`, which names the logic in which it is proved. An object that
is made of this text gives the same text again, and the same linker makes the same program of it. Where an object has what this text can't
say, that is an error.
"""

import collections
import hashlib
import re
import struct
import sys

PROGBITS, SYMTAB, RELA, NOBITS = 1, 2, 4, 8
SECTION = 3
FLAGS = {1: "w", 2: "a", 4: "x", 0x10: "M", 0x20: "S"}
ALLOC, MERGE = 2, 0x10
# Relocations: a place; how far it is from here, also by way of the linker's jumps; and how far its entry in the linker's table of places is
R_64, R_PC32, R_PLT32 = 1, 2, 4
MARKS = {R_PLT32: "@PLT", 9: "@GOTPCREL", 41: "@GOTPCREL", 42: "@GOTPCREL"}
WIDTHS = {8: ".quad", 4: ".long", 2: ".short", 1: ".byte"}
HEAD = """# Written by tools/dist.sh: a proved program, for Linux on x86-64.
#if !defined(__x86_64__) || defined(__ILP32__)
#error "this program is for x86-64"
#endif"""

Section = collections.namedtuple("Section", "name kind flags size link info align width bytes")
Symbol = collections.namedtuple("Symbol", "name binding is_section section value")


def text_at(table, at):
    return table[at : table.index(b"\0", at)].decode()


def sections_of(data):
    if data[:6] != b"\x7fELF\2\1" or struct.unpack_from("<HH", data, 16) != (1, 62):
        sys.exit("no object for x86-64")
    start, count, names = *struct.unpack_from("<Q", data, 40), *struct.unpack_from("<HH", data, 60)
    heads = [struct.unpack_from("<IIQQQQIIQQ", data, start + 64 * at) for at in range(count)]
    table = data[heads[names][4] :]
    for name, kind, flags, _, place, size, link, info, align, width in heads:
        held = b"" if kind == NOBITS else data[place : place + size]
        yield Section(text_at(table, name), kind, flags, size, link, info, align, width, held)


def symbols_of(sections):
    for table in sections:
        if table.kind == SYMTAB:
            names = sections[table.link].bytes
            for name, info, _, section, value, _ in struct.iter_unpack("<IBBHQQ", table.bytes):
                yield Symbol(text_at(names, name), info >> 4, info & 15 == SECTION, section, value)


def is_here(symbol):
    return symbol.section and not symbol.binding


class Text:
    def __init__(self, data):
        self.sections = list(sections_of(data))
        self.symbols = list(symbols_of(self.sections))
        # (short, and the same as long as a section has this name)
        self.labels = [".L" + hashlib.sha256(it.name.encode()).hexdigest()[:8] for it in self.sections]
        self.changes = collections.defaultdict(dict)
        for it in self.sections:
            if it.kind == RELA:
                for place, info, added in struct.iter_unpack("<QQq", it.bytes):
                    self.changes[it.info][place] = (info & 0xFFFFFFFF, self.symbols[info >> 32], added)

    def label(self, at, place=0):
        """The label of a place in a section, by default of its beginning."""
        return self.labels[at] + (f"_{place:x}" if place else "")

    def meant(self, kind, symbol, added):
        """Returns the place in a section that a change means, and what is added to it. Of what a linker may merge that is where a piece begins."""
        if not self.sections[symbol.section].flags & MERGE:
            return 0, symbol.value + added
        if not symbol.is_section:
            return symbol.value, added
        if kind != R_64:
            sys.exit(f"{self.sections[symbol.section].name}: not said which place is meant")
        return added, 0

    def referred(self):
        """The sections to which what the program loads refers, with the places. Of these sections an empty one is needed too."""
        found = collections.defaultdict(set)
        for at, changes in self.changes.items():
            for kind, symbol, added in changes.values() if self.sections[at].flags & ALLOC else ():
                if is_here(symbol):
                    found[symbol.section].add(self.meant(kind, symbol, added)[0])
        return found

    def lines(self):
        yield HEAD
        referred = self.referred()
        kept = {at: it for at, it in enumerate(self.sections) if (it.size or at in referred) and it.flags & ALLOC}
        if len(kept) != len({self.labels[at] for at in kept}):
            sys.exit("two sections with one label")
        for at, it in kept.items():
            yield from self.section(at, it, referred[at])
        for it in self.sections:
            if it.name == ".comment":
                yield from (f'.ident "{comment}"' for comment in comments(it.bytes))
        yield '.section .note.GNU-stack,"",@progbits'

    def section(self, at, it, referred):
        if it.kind not in (PROGBITS, NOBITS) or it.flags & ~sum(FLAGS):
            sys.exit(f"{it.name}: a section of another kind: {it.kind}, {it.flags:#x}")
        flags = "".join(letter for flag, letter in FLAGS.items() if it.flags & flag)
        width = f",{it.width}" if it.flags & MERGE else ""
        yield f'.section "{it.name}","{flags}",@{"nobits" if it.kind == NOBITS else "progbits"}{width}'
        if it.align > 1:
            yield f".balign {it.align}"
        yield f"{self.label(at)}:"
        shared = {one.value: one.name for one in self.symbols if one.section == at and one.binding}
        marked = referred - {0}
        begin = 0
        for place in sorted({*shared, *marked, *self.changes[at], it.size}):
            yield from spelled(it, begin, place)
            begin = place
            if place in marked:
                yield f"{self.label(at, place)}:"
            if place in shared:
                yield f".globl {shared[place]}\n{shared[place]}:"
            if place in self.changes[at]:
                line, width = self.changed(*self.changes[at][place])
                if it.bytes[place : place + width] != bytes(width):
                    sys.exit(f"{it.name}: no zeros at {place}")
                yield line
                begin += width

    def changed(self, kind, symbol, added):
        """Returns the line for a number that the linker writes, and how many bytes it has."""
        name = symbol.name
        if is_here(symbol):
            place, added = self.meant(kind, symbol, added)
            name = self.label(symbol.section, place)
        plus = f"{added:+d}" if added else ""
        if kind == R_64:
            return f".quad {name}{plus}", 8
        if is_here(symbol) and kind in (R_PC32, R_PLT32):
            return f".long {name}{plus}-.", 4
        if kind not in MARKS:
            sys.exit(f"{name}: a relocation of another kind: {kind}")
        return f".long {name}{MARKS[kind]}{plus}", 4


def comments(held):
    """The texts of `.comment`, as an assembler writes them: a zero, and each with its zero."""
    first, *texts, last = held.decode("ascii").split("\0")
    if first or last or not all(re.fullmatch(r"[\w =.-]+", it) for it in texts):
        sys.exit(".comment: not such texts")
    return texts


def spelled(section, begin, end):
    """The lines for some bytes of a section."""
    if section.kind == NOBITS and begin < end:
        yield f".zero {end - begin}"
        return
    for width, word in WIDTHS.items():
        while end - begin >= width:
            count = min((end - begin) // width, 32 // width)
            some = section.bytes[begin : begin + width * count]
            numbers = [int.from_bytes(some[at : at + width], "little") for at in range(0, len(some), width)]
            yield f"{word} " + ",".join(f"{it:#x}" for it in numbers)
            begin += len(some)


def main(name):
    with open(name, "rb") as file:
        text = Text(file.read())
    print(*text.lines(), sep="\n")


main(*sys.argv[1:])
