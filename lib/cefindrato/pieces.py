"""Pieces of a proof: the folder that has them, and what is kept of those that were verified."""

import os
import re
from typing import List, Optional, Union

from . import files
from .faults import Unusable
from .receipts import Receipts, receipt

RECEIPTS = Receipts("refuted", "carries")
# What the file `cut` of a folder begins with.
MARK = "pieces of a proof, written by pieces\n"
OWN_FILE = re.compile(
    r"([0-9]+\.(cnf|all|drat|receipt|core)|count|cut)(\.([0-9a-f]+\.)?new)?"
)


def keep(path: str, text: str) -> None:
    files.keep(path, text.encode())


def read(path: str) -> Optional[str]:
    """Returns what a file has, or None."""
    try:
        with open(path, errors="replace") as file:
            return file.read()
    except OSError:
        return None


def is_whole(path: str) -> bool:
    """Whether a file of clauses has as many lines as its header announces, and their end."""
    try:
        with open(path, "rb") as file:
            header, last, count = file.readline().split(), b"", 0
            for last in file:
                count += 1
    except OSError:
        return False
    is_ended = not count or last.endswith(b"0\n")
    return header[:2] == [b"p", b"cnf"] and header[3:] == [b"%d" % count] and is_ended


class Kept:
    """What is kept of a piece that was verified: the sums of the clauses before it and behind it.

    A piece that comes to a conflict has none behind it.
    """

    def __init__(self, before: str, behind: Optional[str]) -> None:
        self.before, self.behind = before, behind

    def text(self) -> str:
        if self.behind:
            return receipt("carries", self.before, self.behind)
        return receipt("refuted", self.before)


def kept_of(text: Optional[str]) -> Optional[Kept]:
    """Returns what a receipt says, or None if the text is none."""
    parts = RECEIPTS.parts_of(text)
    return Kept(parts[1], parts[2] if len(parts) > 2 else None) if parts else None


def is_receipt(path: str) -> bool:
    """Whether a file has the form of a receipt, or of the beginning of one."""
    text = read(path) if os.path.isfile(path) else None
    return bool(kept_of(text) or RECEIPTS.is_cut_off(text))


class Pieces:
    """A folder of pieces.

    Of a packed formula `plain` names a file that has no name of its own, and is deleted at the end.
    """

    def __init__(self, formula: str, folder: str) -> None:
        self.formula, self.folder, self.plain = formula, folder, formula
        if files.packer_of(formula):
            self.unpacked = files.unpacked(formula)
            self.plain = files.name_of(self.unpacked)

    def file(self, name: str) -> str:
        return os.path.join(self.folder, name)

    def path(self, name: int, ending: str) -> str:
        return self.file(f"{name}.{ending}")

    def before(self, name: int) -> str:
        """Returns the file of the clauses before a piece."""
        return self.plain if name == 1 else self.path(name, "cnf")

    def count(self) -> int:
        path = self.file("count")
        try:
            with open(path) as file:
                return int(file.read())
        except (OSError, ValueError):
            why = "the proof is not cut, or was not to its end"
            raise Unusable(f"cannot read {path}: {why}") from None

    def kept(self, name: int) -> Optional[Kept]:
        """Returns what is kept of a piece, or None."""
        return kept_of(read(self.path(name, "receipt")))

    def is_checked(self, name: int, is_last: bool) -> bool:
        """Whether the receipt of a piece is of the clauses that lie before it, and of those that
        the receipt of the next one has."""
        found, behind = self.kept(name), None if is_last else self.kept(name + 1)
        if not found or (found.behind and not (behind and found.behind == behind.before)):
            return False
        if os.path.exists(self.before(name)):
            return files.sum_of(self.before(name)) == found.before
        return not os.path.exists(self.path(name, "all"))

    def own_files(self, proof: str) -> List[str]:
        """Returns what an earlier cut left in the folder, which is made where it is not there: all
        that is written over or deleted."""
        os.makedirs(self.folder, exist_ok=True)
        found = [self.file(it) for it in sorted(os.listdir(self.folder)) if OWN_FILE.fullmatch(it)]
        mark, count = (read(self.file(it)) or "" for it in ("cut", "count"))
        is_marked = mark.startswith(MARK) or re.fullmatch("[0-9]+\n", count)
        inputs: List[Union[str, int]] = [self.formula, 0 if proof == "-" else proof]
        files.refuse_writing(
            found, inputs, lambda path: is_marked and not os.path.isdir(path), "pieces"
        )
        return found

    def clear(self, proof: str) -> None:
        """Deletes what an earlier cut left in the folder, and nothing else; first what says that it
        was cut to its end. The mark stays."""
        mark, count = self.file("cut"), self.file("count")
        found = self.own_files(proof)
        keep(mark, MARK)
        for path in sorted(found, key=lambda it: it != count):
            if path != mark:
                os.remove(path)

    def forget(self, name: int) -> None:
        """Deletes the files of a piece that are not kept."""
        for ending in "all", "cnf", "drat":
            if os.path.exists(self.path(name, ending)):
                os.remove(self.path(name, ending))
