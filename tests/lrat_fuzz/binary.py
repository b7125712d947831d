"""Binary LRAT: docs/reference/FORMATS.md again, in a few lines, and shared with no program.

Lines are as `rules` reads them: (id, clause, hints) or (ids,).
"""
LOOKED_AT = 4096
MOST_BYTES = 9
TOP_VARIABLE = 2**28
TEXT = set(b"\t\n\r") | set(range(0x20, 0x7F))


def written_number(value):
    written = bytearray()
    while value > 127:
        written.append(value & 127 | 128)
        value >>= 7
    written.append(value)
    return bytes(written)


def signed(value):
    return written_number(2 * abs(value) + (value < 0))


def written(lines, doubled, zero=b"\0"):
    """The lines as binary ones. A 0 at the end of a list is spelled so."""
    parts = []
    for read in lines:
        if len(read) == 1:
            parts += [b"d", *(written_number(number << doubled) for number in read[0]), zero]
        else:
            name, clause, hints = read
            parts += [b"a", written_number(name << doubled), *map(signed, clause), zero, *map(signed, hints), zero]
    return b"".join(parts)


class Reader:
    """The numbers of binary lines; a ValueError for one that can't be read."""

    def __init__(self, data, doubled):
        self.data, self.place, self.doubled = data, 0, doubled

    def byte(self):
        if self.place == len(self.data):
            raise ValueError("the input ends")
        self.place += 1
        return self.data[self.place - 1]

    def number(self):
        value = 0
        for place in range(MOST_BYTES):
            byte = self.byte()
            value |= (byte & 127) << 7 * place
            if byte < 128:
                return value
        raise ValueError("too large")

    def id(self):
        value = self.number()
        if self.doubled and value % 2:
            raise ValueError("odd")
        return value >> self.doubled

    def signed(self):
        value = self.number()
        if value == 1:
            raise ValueError("-0")
        return -(value // 2) if value % 2 else value // 2

    def lit(self):
        lit = self.signed()
        if abs(lit) > TOP_VARIABLE:
            raise ValueError("too large")
        return lit

    def line(self):
        letter = self.byte()
        if letter == ord("d"):
            return (list(iter(self.id, 0)),)
        if letter != ord("a"):
            raise ValueError("letter")
        name = self.id()
        if name == 0:
            raise ValueError("no id")
        return name, list(iter(self.lit, 0)), list(iter(self.signed, 0))


def lines_of(data, doubled):
    """The lines, each with its number and what it says."""
    reader = Reader(data, doubled)
    number = 0
    while reader.place < len(data):
        number += 1
        try:
            yield number, reader.line()
        except ValueError:
            yield number, "unread"
            return


def is_binary(data):
    return data[:1] == b"a" or (data[:1] == b"d" and not set(data[:LOOKED_AT]) <= TEXT)


def number_at(data, place):
    """The bytes of the number at a place, as far as they go."""
    end = place
    while end < len(data) and data[end] > 127:
        end += 1
    return data[place : end + 1]


def is_number(spelled, value):
    """Whether these bytes are a whole number, and this one, whatever zeros stand behind its highest bit."""
    return spelled[-1:] < b"\x80" and spelled != b"" and sum((byte & 127) << 7 * place for place, byte in enumerate(spelled)) == value


def are_doubled(data, clauses):
    """Whether every id among the first bytes is even, and no line has the next id after those of the formula."""
    data, place = data[:LOOKED_AT], 0
    while data[place : place + 1] in (b"a", b"d"):
        adds = data[place : place + 1] == b"a"
        place += 1
        if adds:
            number = number_at(data, place)
            place += len(number)
            if number[:1] and number[0] % 2 or is_number(number, clauses + 1):
                return False
        for _ in range(2 if adds else 1):
            number = None
            while number != b"" and not (number and is_number(number, 0)):
                number = number_at(data, place)
                place += len(number)
                if number and number[0] % 2 and not adds:
                    return False
    return True


def damaged(rng, data):
    place = rng.randrange(len(data))
    kind = rng.randrange(4)
    if kind == 0:
        return data[:place]
    if kind == 1:
        return data[:place] + data[place + 1 :]
    if kind == 2:
        return data[:place] + bytes([rng.randrange(256)]) + data[place:]
    return data[:place] + bytes([data[place] ^ 1 << rng.randrange(8)]) + data[place + 1 :]
