"""A formula that is split into the parts of cubes: their texts and their receipts."""

import hashlib
import re
from typing import List, Optional, Tuple

from . import files
from .faults import Unusable
from .receipts import receipt

# The name of the part that shows that the cubes leave nothing out.
CLOSING = "closing"
HEADER = re.compile(rb"[ \t\r]*p[ \t\r]+cnf[ \t\r]+\d+[ \t\r]+\d+[ \t\r]*")
CUBE = re.compile(r"\s*(?:a\s+)?(?:-?[1-9][0-9]{0,19}\s+)*0\s*")
CLAUSES = re.compile(r"[-0-9\s]+")
# A clause as a part has it; empty ones before another one in a line; a number.
PLAIN = re.compile(rb"(?:-?[1-9][0-9]* )*0")
EMPTY = re.compile("^(?:0 )+", re.MULTILINE)
NUMBER = re.compile(rb"-?[0-9]{1,20}")


def line_of(literals: List[int]) -> str:
    return " ".join(map(str, [*literals, 0])) + "\n"


def greatest(numbers: List[int]) -> int:
    """Returns the greatest of the absolute values, 0 of none."""
    return max(max(numbers, default=0), -min(numbers, default=0))


def numbers_of(name: str, text: bytes) -> List[int]:
    """Returns the numbers of which a text consists."""
    words = text.split()
    try:
        if text.translate(None, b"-0123456789 \t\n\r\v\f"):
            raise ValueError
        numbers = [int(it) for it in words]
        if greatest(numbers) >= 10**20:
            raise ValueError
        return numbers
    except ValueError:
        word = next(it for it in words if not NUMBER.fullmatch(it))[:40]
        why = f"a word that is no number: {word.decode(errors='replace')}"
        raise Unusable(f"{name}: {why}") from None


def clauses_text(numbers: List[int]) -> bytes:
    """Returns clauses that end in a 0, a line each."""
    text = " ".join(map(str, numbers)).replace(" 0 ", " 0\n") + "\n" * bool(numbers)
    return EMPTY.sub(lambda it: it[0].replace(" ", "\n"), text).encode()


class Formula:
    """A formula: its text, and its clauses, a line each.

    Comments, the header, and what follows a line `%` are left out. The last clause has to be ended:
    else the first clause of what is added would be read as more of it.
    """

    def __init__(self, name: str) -> None:
        self.name, self.text = name, files.content_of(name)
        self.sum = hashlib.sha256(self.text).hexdigest()
        lines, is_plain = self.lines()
        self.clauses = b"\n".join([*lines, b""])
        numbers = numbers_of(name, self.clauses)
        if numbers and numbers[-1] != 0:
            raise Unusable(f"{name}: the last clause has no 0")
        self.top, self.count = greatest(numbers), numbers.count(0)
        if not is_plain:
            self.clauses = clauses_text(numbers)
        self.begun = hashlib.sha256(self.clauses)

    def lines(self) -> Tuple[List[bytes], bool]:
        """Returns the lines of clauses, and whether each is a clause as a part has it."""
        lines: List[bytes] = []
        has_header, is_plain = False, True
        for number, line in enumerate(self.text.split(b"\n"), 1):
            if PLAIN.fullmatch(line):
                lines.append(line)
                continue
            first = line.strip(b" \t\r")[:1]
            if first == b"%":
                break
            if first == b"p" and not lines and not has_header and HEADER.fullmatch(line):
                has_header = True
            elif first == b"p":
                header = line.decode(errors="replace").strip()
                raise Unusable(f"{self.name}: line {number}: bad header: {header}")
            elif first and first != b"c":
                lines.append(line)
                is_plain = False
        return lines, is_plain

    def part(self, added: List[List[int]]) -> Tuple[bytes, bytes, bytes]:
        """Returns the text of this formula with more clauses behind its own: a header, its clauses,
        and the others."""
        top = max([self.top, *(abs(it) for clause in added for it in clause)])
        head = f"p cnf {top} {self.count + len(added)}\n"
        return head.encode(), self.clauses, "".join(map(line_of, added)).encode()

    def digest(self, added: List[List[int]]) -> str:
        """Returns the sum (SHA-256) of this text without its header. What all such texts have in
        common is taken once."""
        found = self.begun.copy()
        found.update("".join(map(line_of, added)).encode())
        return found.hexdigest()


def cube_of(line: str, is_incremental: bool) -> Optional[List[str]]:
    """Returns the cube that a line has, or None."""
    words = line.split()
    if not CUBE.fullmatch(line) or (is_incremental and words[0] != "a"):
        return None
    return [it for it in words[:-1] if it != "a"]


def cubes_of(name: str) -> List[List[str]]:
    """Returns the cubes of a file. Behind a header `p inccnf` a line without an `a` is a formula's
    clause, and no cube."""
    cubes: List[List[str]] = []
    is_incremental = False
    text = files.content_of(name).decode(errors="replace")
    for number, line in enumerate(text.split("\n"), 1):
        words = line.split()
        if words == ["p", "inccnf"] and not cubes:
            is_incremental = True
        elif words[:1] == ["p"]:
            raise Unusable(f"{name}: line {number}: bad header: {line.strip()}")
        elif (cube := cube_of(line, is_incremental)) is not None:
            cubes.append(cube)
        elif words[:1] not in ([], ["c"]) and not (is_incremental and CLAUSES.fullmatch(line)):
            raise Unusable(f"{name}: line {number}: not literals up to a 0")
    return cubes


class Split:
    """A formula and its cubes; the parts are named by the numbers of the cubes, and the last one is
    the closing one."""

    def __init__(self, formula: str, cubes: str) -> None:
        self.inputs = (formula, cubes)
        self.formula = Formula(formula)
        self.cubes = [list(map(int, it)) for it in cubes_of(cubes)]
        self.names = [*(str(it + 1) for it in range(len(self.cubes))), CLOSING]

    def added(self, name: str) -> List[List[int]]:
        """Returns what a part has beside the formula: units of its cube, or the clauses against all
        cubes."""
        if name == CLOSING:
            return [[-it for it in cube] for cube in self.cubes]
        return [[it] for it in self.cubes[int(name) - 1]]

    def text(self, name: str) -> bytes:
        """Returns the text of a part, for a solver."""
        return b"".join(self.formula.part(self.added(name)))

    def checked(self, name: str) -> bytes:
        """Returns what a checker reads of a part: no header, so that the texts of all parts begin
        alike."""
        return b"".join(self.formula.part(self.added(name))[1:])

    def receipt(self, name: str) -> str:
        """Returns what is kept of a part that was verified. It names the part's text, so that it
        fits no other one."""
        return receipt("refuted", self.formula.digest(self.added(name)))

    def model_receipt(self) -> str:
        """Returns what is kept of a part whose answer satisfies the formula."""
        return receipt("satisfied", self.formula.sum)
