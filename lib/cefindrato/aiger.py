"""Circuits in AIGER, read, written and simulated by another hand than the programs: from the report
on the format alone.

Reading goes line by line with Python's own split and int, so that it shares no form with the
programs' reader.
"""

import re
from typing import Callable, Dict, Iterable, List, NoReturn, Optional, Sequence, Tuple

from . import faults

LIMIT = 1 << 28
ORDER = "a gate reads literals below its own, the larger one first"
NUMBERED = "inputs, latches and gates are numbered in this order, as aigtoaig does it"
EARLY = "the text ends too early"

# A literal, what it is next, and its reset, which is 0, 1 or None.
Latch = Tuple[int, int, Optional[int]]
# A literal, and the two of which it is the conjunction, the larger one first.
Gate = Tuple[int, int, int]
# What is done with each number of a line: its place, its value, and what follows it.
Check = Callable[[int, int, bytes], None]


class Fault(faults.Fault):
    """The first fault of a text: where it is, and what it is."""

    def __init__(self, where: str, kind: str) -> None:
        super().__init__(f"{where}: {kind}")


class Circuit:
    """Inputs, latches and gates, which are variables in this order, and lists of literals."""

    def __init__(
        self,
        inputs: int = 0,
        latches: Iterable[Latch] = (),
        outputs: Iterable[int] = (),
        bad: Iterable[int] = (),
        constraints: Iterable[int] = (),
        gates: Iterable[Gate] = (),
    ) -> None:
        self.inputs = inputs
        self.latches, self.outputs = list(latches), list(outputs)
        self.bad, self.constraints = list(bad), list(constraints)
        self.gates = list(gates)

    def maximum(self) -> int:
        return self.inputs + len(self.latches) + len(self.gates)

    def both(self, one: int, other: int) -> int:
        """Returns the literal of the conjunction of two, for which a gate is added if it takes
        one."""
        left, right = max(one, other), min(one, other)
        if right == 1 or left == right:
            return left
        if right == 0 or left == right ^ 1:
            return 0
        out = 2 * (self.maximum() + 1)
        self.gates.append((out, left, right))
        return out

    def either(self, one: int, other: int) -> int:
        return self.both(one ^ 1, other ^ 1) ^ 1

    def values(self, inputs: Sequence[object], latches: Sequence[object] = ()) -> List[bool]:
        """The values of all literals, as a list by the literal."""
        of = [False, True]
        for value in [*inputs, *latches]:
            of += [bool(value), not value]
        for output, left, right in self.gates:
            assert output == len(of)
            result = of[left] and of[right]
            of += [result, not result]
        return of

    def show(self) -> str:
        """One line with all that the text says."""
        latches = [f"{a} {b} {2 if r is None else r}" for a, b, r in self.latches]
        gates = [f"{a} {b} {c}" for a, b, c in self.gates]
        parts = ["inputs", str(self.inputs), "latches", *latches]
        parts += ["outputs", *map(str, self.outputs), "bad", *map(str, self.bad)]
        parts += ["constraints", *map(str, self.constraints)]
        return " ".join([*parts, "gates", *gates])


def leb(n: int) -> bytes:
    out = bytearray()
    while n > 127:
        out.append(n & 127 | 128)
        n >>= 7
    return bytes(out + bytes([n]))


def write_text(c: Circuit, tail: bytes = b"") -> bytes:
    """The circuit in the text form."""
    lines = ["aag " + " ".join(map(str, counts_of(c)))]
    lines += [str(2 * (k + 1)) for k in range(c.inputs)]
    for lit, follows, reset in c.latches:
        begin = "" if reset == 0 else f" {lit if reset is None else reset}"
        lines.append(f"{lit} {follows}{begin}")
    lines += [str(lit) for lit in [*c.outputs, *c.bad, *c.constraints]]
    lines += [f"{out} {left} {right}" for out, left, right in c.gates]
    return "\n".join(lines).encode() + b"\n" + tail


def counts_of(c: Circuit) -> List[int]:
    counts = [c.maximum(), c.inputs, len(c.latches), len(c.outputs), len(c.gates)]
    if c.bad or c.constraints:
        counts.append(len(c.bad))
    if c.constraints:
        counts.append(len(c.constraints))
    return counts


def write(c: Circuit, tail: bytes = b"") -> bytes:
    """The circuit in the binary form."""
    lines = ["aig " + " ".join(map(str, counts_of(c)))]
    for lit, follows, reset in c.latches:
        lines.append(str(follows) + ("" if reset == 0 else f" {lit if reset is None else reset}"))
    lines += [str(lit) for lit in [*c.outputs, *c.bad, *c.constraints]]
    gates = b"".join(leb(a - b) + leb(b - d) for a, b, d in c.gates)
    return "\n".join(lines).encode() + b"\n" + gates + tail


class Text:
    """The lines of a text that is read."""

    def __init__(self, data: bytes) -> None:
        self.data, self.at, self.line = data, 0, 0

    def next(self) -> Tuple[bytes, bool]:
        """The next line without its line feed, and whether there was one."""
        end = self.data.find(b"\n", self.at)
        whole = end >= 0
        end = end if whole else len(self.data)
        line, self.at = self.data[self.at : end], end + whole
        self.line += 1
        return line, whole

    def fault(self, kind: str) -> Fault:
        return Fault(f"line {self.line}", kind)


def numbers(text: Text, line: bytes, whole: bool, check: Check) -> None:
    """Each number of a line, given to check(index, value, what follows) in its order."""
    at = index = 0
    while True:
        found = re.match(rb"[0-9]*", line[at:])
        digits = found.group() if found else b""
        at += len(digits)
        if at == len(line) and not whole:
            raise text.fault(EARLY)
        if not digits:
            raise text.fault("malformed")
        follows = line[at : at + 1] or b"\n"
        check(index, int(digits), follows)
        if follows == b"\n":
            return
        if follows != b" ":
            raise text.fault("malformed")
        at, index = at + 1, index + 1


def read_header(text: Text) -> List[int]:
    """The nine counts of the first line."""
    data = text.data
    text.line = 1
    for at, byte in enumerate(b"aig "):
        if at >= len(data):
            raise text.fault(EARLY)
        if data[at] != byte and (at, data[at]) != (1, ord("a")):
            raise text.fault("no header of an AIGER file")
    text.at, text.line = 4, 0
    counts: List[int] = []

    def check(index: int, value: int, follows: bytes) -> None:
        if value >= LIMIT:
            raise text.fault("number too large")
        counts.append(value)
        if index == 4 and counts[0] != counts[1] + counts[2] + value:
            raise text.fault("the maximal variable is not the number of inputs, latches and gates")
        if index == 7 and value:
            raise text.fault("justice properties, which are not checked")
        if index == 8 and value:
            raise text.fault("fairness constraints, which are not checked")
        if follows == b" " and index == 8 or follows == b"\n" and index < 4:
            raise text.fault("malformed")

    numbers(text, *text.next(), check)
    return counts + [0] * (9 - len(counts))


class Reader:
    """What reads a text behind its header."""

    def __init__(self, data: bytes) -> None:
        self.text = Text(data)
        self.top, self.inputs, self.latches, *self.counts = read_header(self.text)
        self.is_text = data[1] == ord("a")

    def circuit(self) -> Circuit:
        outputs, gates, bad, constraints = self.counts[:4]
        c = Circuit(self.inputs)
        for k in range(self.inputs if self.is_text else 0):
            numbers(self.text, *self.text.next(), self.own_first(2 * (k + 1), True))
        for k in range(self.latches):
            own = 2 * (self.inputs + 1 + k)
            said = [*self.one_line(own), 0]
            c.latches.append((own, said[0], None if said[1] == own else said[1]))
        c.outputs = [self.one_line(None)[0] for _ in range(outputs)]
        c.bad = [self.one_line(None)[0] for _ in range(bad)]
        c.constraints = [self.one_line(None)[0] for _ in range(constraints)]
        for k in range(gates):
            own = 2 * (self.inputs + self.latches + 1 + k)
            c.gates.append(self.gate_line(own) if self.is_text else self.gate_bytes(own))
        kinds = (self.inputs, self.latches, outputs, bad, constraints, 0, 0)
        read_rest(self.text, dict(zip(b"ilobcjf", kinds)))
        return c

    def own_first(self, own: int, last: bool) -> Check:
        """The first number of a line, where it is the own literal: the checks of those after it
        count from 0 again."""

        def check(_: int, value: int, follows: bytes) -> None:
            if value != own:
                raise self.text.fault(NUMBERED)
            if (follows == b"\n") != last:
                raise self.text.fault("malformed")

        return check

    def gate_line(self, own: int) -> Gate:
        said: List[int] = []

        def check(index: int, value: int, follows: bytes) -> None:
            if index == 0:
                return self.own_first(own, False)(index, value, follows)
            if value > 2 * self.top + 1:
                raise self.text.fault("literal out of range")
            if value >= own:
                kind = "a gate reads itself or a later gate, which aigtoaig puts in order"
                raise self.text.fault(kind)
            if (follows == b"\n") != (index == 2):
                raise self.text.fault("malformed")
            said.append(value)

        numbers(self.text, *self.text.next(), check)
        return own, said[0], said[1]

    def one_line(self, own: Optional[int]) -> List[int]:
        """A line with a literal, and of a latch perhaps its reset."""
        said: List[int] = []

        def check(index: int, value: int, follows: bytes) -> None:
            if self.is_text and own is not None:
                if index == 0:
                    return self.own_first(own, False)(index, value, follows)
                index -= 1
            if index == 0:
                if value > 2 * self.top + 1:
                    raise self.text.fault("literal out of range")
                if follows == b" " and own is None:
                    raise self.text.fault("malformed")
            else:
                if follows != b"\n":
                    raise self.text.fault("malformed")
                if value not in (0, 1, own):
                    raise self.text.fault("a reset is 0, 1 or the latch itself")
            said.append(value)

        numbers(self.text, *self.text.next(), check)
        return said

    def gate_bytes(self, own: int) -> Gate:
        less = self.number(own)
        if not 0 < less <= own:
            self.fail(own, ORDER)
        left = own - less
        less = self.number(own)
        if less > left:
            self.fail(own, ORDER)
        return own, left, left - less

    def fail(self, own: int, kind: str) -> NoReturn:
        raise Fault(f"gate of variable {own // 2}", kind)

    def number(self, own: int) -> int:
        text = self.text
        value = shift = 0
        while True:
            if text.at >= len(text.data):
                self.fail(own, EARLY)
            byte = text.data[text.at]
            text.at += 1
            value |= (byte & 127) << shift
            shift += 7
            if byte < 128:
                return value
            if shift == 35:
                self.fail(own, "number too large")


def read(data: bytes) -> Circuit:
    """The circuit of a text, or its first fault as an exception."""
    return Reader(data).circuit()


def read_rest(text: Text, counts: Dict[int, int]) -> None:
    """The symbols and the comment, which say nothing here."""
    while text.at < len(text.data):
        line, whole = text.next()
        if line == b"c":
            if not whole:
                raise text.fault(EARLY)
            return
        if not line or line[0] not in counts:
            raise text.fault("malformed")
        found = re.match(rb"[0-9]*", line[1:])
        digits = found.group() if found else b""
        rest = line[1 + len(digits) :]
        if not rest and not whole:
            raise text.fault(EARLY)
        if not digits or not rest.startswith(b" "):
            raise text.fault("malformed")
        if int(digits) >= counts[line[0]]:
            raise text.fault("symbol out of range")
        if not whole:
            raise text.fault(EARLY)
