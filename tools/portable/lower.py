#!/usr/bin/env python3
"""Makes a WebAssembly module with a memory and a table of 64 bits into one with 32 bits, which every engine runs.

lower.py IN.wasm OUT.wasm

Each address is cut to its low 32 bits where it is used. No address that the program may use is above them, since the memory ends
before 2^32: it gets at most MOST_PAGES, and what would be below its start is then beyond its end. Only what clang writes for wasm64
without vectors, exceptions and atomics is known; all else stops it. No proof covers this.
"""

import sys

MOST_PAGES = 61440  # 3.75 GB
I32, I64, F32, F64 = 0x7F, 0x7E, 0x7D, 0x7C
END, CALL_INDIRECT, LOCAL_GET, LOCAL_SET = b"\x0b", 0x11, b"\x20", b"\x21"
I32_CONST, I64_CONST, I64_ADD, WRAP, EXTEND = b"\x41", b"\x42", b"\x7c", b"\xa7", b"\xac"
STORES = {0x36: I32, 0x37: I64, 0x38: F32, 0x39: F64, 0x3A: I32, 0x3B: I32, 0x3C: I64, 0x3D: I64, 0x3E: I64}
BLOCKS, BR_TABLE, SELECT = (0x02, 0x03, 0x04), 0x0E, 0x1C
ONE_INDEX = (0x0C, 0x0D, 0x10, 0x20, 0x21, 0x22, 0x23, 0x24, 0xD2)
NO_OPERAND = {0x00, 0x01, 0x05, 0x0B, 0x0F, 0x1A, 0x1B, *range(0x45, 0xC5)}
MEMORY_SIZE, MEMORY_GROW, PREFIX = 0x3F, 0x40, 0xFC
MEMORY_COPY, MEMORY_FILL, LAST_TRUNCATION = 10, 11, 7


def stop(what):
    raise SystemExit(f"lower.py: {what}")


class Reader:
    def __init__(self, data, at=0):
        self.data, self.at = data, at

    def byte(self):
        self.at += 1
        return self.data[self.at - 1]

    def number(self, signed=False):
        value = shift = 0
        while True:
            byte = self.byte()
            value |= (byte & 127) << shift
            shift += 7
            if byte < 128:
                return value - (1 << shift) if signed and byte & 64 else value

    def take(self, count):
        self.at += count
        return self.data[self.at - count : self.at]

    def want(self, byte, what):
        if self.byte() != byte:
            stop(what)


def number(value):
    out = bytearray()
    while value > 127:
        out.append(value & 127 | 128)
        value >>= 7
    return bytes([*out, value])


def signed(value):
    """A number below 2^64, as a signed one of 64 bits."""
    value = value - (1 << 64) if value >> 63 else value
    out = bytearray()
    while not -64 <= value < 64:
        out.append(value & 127 | 128)
        value >>= 7
    return bytes([*out, value & 127])


class Body:
    """The code of a function, while it is made anew. Values that stand above an address wait in locals of its own."""

    def __init__(self, text, parameters):
        self.source, self.made, self.added = Reader(text), bytearray(), {}
        self.groups = self.source.number()
        start, self.count = self.source.at, parameters
        for _ in range(self.groups):
            self.count += self.source.number()
            self.source.byte()
        self.locals = text[start : self.source.at]
        while self.source.at < len(text):
            self.instruction()

    def text(self):
        added = b"".join(b"\x01" + bytes([kind]) for kind, _ in self.added)
        return number(self.groups + len(self.added)) + self.locals + added + bytes(self.made)

    def spare(self, kind, which=0):
        return number(self.added.setdefault((kind, which), self.count + len(self.added)))

    def instruction(self):
        source, start = self.source, self.source.at
        op = source.byte()
        if 0x28 <= op <= 0x3E:
            self.access(op, source.number(), source.number())
            return
        if op == CALL_INDIRECT:
            source.number(), source.number()
            self.made += WRAP
        elif op in (MEMORY_SIZE, MEMORY_GROW):
            source.byte()
            self.made += (WRAP if op == MEMORY_GROW else b"") + source.data[start : source.at] + EXTEND
            return
        elif op == PREFIX:
            self.bulk(source.number())
        else:
            self.pass_operands(op)
        self.made += source.data[start : source.at]

    def access(self, op, align, offset):
        """A load or a store: op with its alignment, and an offset that is added to the address."""
        add = b""
        if offset >> 31:  # such a sum is made in 64 bits, and cut then
            add, offset = I64_CONST + signed(offset) + I64_ADD, 0
        if op in STORES:
            value = self.spare(STORES[op])
            self.made += LOCAL_SET + value + add + WRAP + LOCAL_GET + value
        else:
            self.made += add + WRAP
        self.made += bytes([op]) + number(align) + number(offset)

    def bulk(self, op):
        first, second = self.spare(I32), self.spare(I32, 1)
        if op == MEMORY_COPY:
            self.source.take(2)
            self.made += WRAP + LOCAL_SET + first + WRAP + LOCAL_SET + second + WRAP + LOCAL_GET + second + LOCAL_GET + first
        elif op == MEMORY_FILL:
            self.source.take(1)
            self.made += WRAP + LOCAL_SET + first + LOCAL_SET + second + WRAP + LOCAL_GET + second + LOCAL_GET + first
        elif op > LAST_TRUNCATION:
            stop(f"an instruction that is not known: fc {op}")

    def pass_operands(self, op):
        source = self.source
        if op in BLOCKS or op in (0x41, 0x42):
            source.number(True)
        elif op in ONE_INDEX:
            source.number()
        elif op == BR_TABLE:
            for _ in range(source.number() + 1):
                source.number()
        elif op == SELECT:
            source.take(source.number())
        elif op in (0x43, 0x44):
            source.take(4 if op == 0x43 else 8)
        elif op not in NO_OPERAND:
            stop(f"an instruction that is not known: {op:#x}")


def limits(part, most=None):
    """How large a memory or a table is, without the flag of 64 bits."""
    flags, least = part.byte(), part.number()
    most = part.number() if flags & 1 else most
    return bytes([most is not None]) + number(least) + (number(most) if most is not None else b"")


def place(part):
    """Where a segment goes: i64.const N end, as i32.const N end."""
    part.want(I64_CONST[0], "the place of a segment is no constant")
    value = part.number(True)
    part.want(END[0], "the place of a segment is no constant")
    if not 0 <= value < 1 << 31:
        stop("a segment above 2 GB")
    return b"\x00" + I32_CONST + signed(value) + END


def types(part):
    """The count of parameters of each type of function."""
    for _ in range(part.number()):
        part.want(0x60, "a type that is no function's")
        count = part.number()
        part.take(count)
        part.take(part.number())
        yield count


def elements(part):
    part.want(0, "elements that are not a table's")
    made, start = place(part), part.at
    for _ in range(part.number()):
        part.number()
    return made + part.data[start : part.at]


def data(part):
    part.want(0, "data that is not the memory's")
    made, size = place(part), part.number()
    return made + number(size) + part.take(size)


def lowered(source):
    """The module, section by section."""
    yield source.take(8)
    parameters, functions = [], iter(())
    each = {
        4: lambda part: bytes([part.byte()]) + limits(part),
        5: lambda part: limits(part, MOST_PAGES),
        9: elements,
        11: data,
    }
    while source.at < len(source.data):
        kind, size = source.byte(), source.number()
        part = Reader(source.take(size))
        body = part.data
        if kind == 1:
            parameters = list(types(part))
        elif kind == 3:
            functions = iter([parameters[part.number()] for _ in range(part.number())])
        elif kind == 10:
            made = [Body(part.take(part.number()), next(functions)).text() for _ in range(part.number())]
            body = number(len(made)) + b"".join(number(len(text)) + text for text in made)
        elif kind in each:
            count = part.number()
            body = number(count) + b"".join(each[kind](part) for _ in range(count))
        yield bytes([kind]) + number(len(body)) + body


def main(name, to):
    with open(name, "rb") as file:
        made = b"".join(lowered(Reader(file.read())))
    with open(to, "wb") as file:
        file.write(made)


main(*sys.argv[1:])
