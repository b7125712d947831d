"""Which pieces of a proof are verified, and what their receipts show together."""

import os
import re
import subprocess
import sys
from typing import Callable, Iterator, List, Optional, Tuple, Union

from . import files, programs
from .faults import Unusable
from .pieces import RECEIPTS, Kept, Pieces, is_receipt, is_whole, keep, read

REFUTED, HELD = b"s VERIFIED UNSAT\n", b"s VERIFIED PIECE\n"
JOINED = re.compile(rb"s VERIFIED UNSAT BY [0-9]+ RECEIPTS\n")


def number_of(word: str) -> Optional[int]:
    """Returns the number that a word is, or None. No number of anything has more than 20 digits."""
    return int(word) if re.fullmatch("[0-9]{1,20}", word) else None


def replace(path: str, by: str) -> None:
    """Renames a file to one that is there."""
    try:
        os.rename(path, by)
    except OSError as why:
        raise Unusable(f"cannot write {by}: {why.strerror}") from None


class PieceChecks:
    """The checks of pieces, by `checker`. `tell` is called with each piece that is verified."""

    def __init__(self, checker: str, pieces: Pieces, tell: Callable[[int], object]) -> None:
        self.checker, self.pieces, self.tell = checker, pieces, tell

    def verdict_of(
        self, before: str, piece: str, behind: Optional[str], receipt: str, core: Optional[str]
    ) -> Tuple[Optional[bytes], str]:
        """Returns what the checker shows of a piece, HELD or REFUTED, or else None and what it
        says. It writes the receipt, or a core.

        The verdict is one of the core too: so it has to be told that this is a piece, also of the
        last one, which has nothing behind it. A limit on the size of files fails its write, and
        does not end it.
        """
        held = ["--holds", behind or os.devnull] if behind or core else []
        kept = ["--core", core] if core else ["--receipt", receipt]
        words = [self.checker, files.operand(before), files.operand(piece), *held, *kept]
        ran = programs.run(words, stdin=subprocess.DEVNULL, restore_signals=False)
        said = programs.said_by(ran, ran.stderr, ran.stdout, of=f" for {piece}")
        if ran.stderr.startswith((b"error writing", b"cannot rename")):
            raise Unusable(f"cannot write {core or receipt}: {said}")
        if ran.returncode == 0 and (ran.stdout == REFUTED or (behind and ran.stdout == HELD)):
            return ran.stdout, ""
        if ran.returncode == 0 and ran.stdout == HELD:
            return None, "it comes to no conflict"
        return None, said

    def check(self, name: int, is_last: bool, core: Optional[str] = None) -> Optional[str]:
        """Checks a piece, keeps its receipt where it is verified, and else returns the reason.

        A core that is written takes the place of the clauses before the piece. These stay beside
        it: over the core alone the same steps may be rejected, since a deletion takes no effect
        where its clause is a reason, or stands twice.
        """
        pieces = self.pieces
        before, behind = pieces.before(name), None if is_last else pieces.path(name + 1, "cnf")
        piece, receipt = pieces.path(name, "drat"), pieces.path(name, "receipt")
        if core and os.path.exists(pieces.path(name, "all")):
            before = pieces.path(name, "all")
        for path in (piece, before, behind):
            if path and not os.path.exists(path):
                return f"no file {path}"
        if os.path.lexists(receipt):
            os.remove(receipt)
        behind_sum = files.sum_of(behind) if behind and core else None
        verdict, why = self.verdict_of(before, piece, behind, receipt, core)
        if verdict and core and not is_whole(core):
            verdict, why = None, "the clauses that it used are not whole"
        if verdict is None:
            if core and os.path.exists(core):
                os.remove(core)
            return f"{piece} is rejected: {why}"
        if core:
            if behind_sum != (files.sum_of(behind) if behind else None):
                os.remove(core)
                return f"{behind} was changed meanwhile"
            self.keep_core(name, before, core, behind_sum if verdict == HELD else None)
        self.tell(name)
        return None

    def keep_core(self, name: int, before: str, core: str, behind_sum: Optional[str]) -> None:
        """Puts the core of a piece that was verified in place of the clauses before it, and keeps
        the receipt of the core. The sum is that of the clauses behind the piece, unless it comes to
        a conflict."""
        replace(before, self.pieces.path(name, "all"))
        replace(core, self.pieces.before(name))
        made = Kept(files.sum_of(self.pieces.before(name)), behind_sum)
        keep(self.pieces.path(name, "receipt"), made.text())

    def check_named(self, words: List[str]) -> int:
        """Checks the pieces of these names, prints why one is not verified, and returns the
        status."""
        pieces, count = self.pieces, self.pieces.count()
        names = [number_of(it) or 0 for it in words]
        for word, name in zip(words, names):
            if not 0 < name <= count:
                raise Unusable(f"there is no piece {word}")
        kept = {name: pieces.path(name, "receipt") for name in names}
        inputs: List[Union[str, int]] = [pieces.formula, pieces.file("count")]
        for name in names:
            inputs += [pieces.before(name), pieces.path(name, "drat"), pieces.path(name + 1, "cnf")]
        files.refuse_writing(kept.values(), inputs, is_receipt, "pieces")
        status = 0
        for name in names:
            if os.path.lexists(kept[name]):
                os.remove(kept[name])
            if why := self.check(name, name == count):
                print(f"{name}: {why}", flush=True)
                status = 1
        return status


def unverified(pieces: Pieces) -> Iterator[Tuple[Union[int, str], str]]:
    """Yields the pieces that are not verified, each with the reason. Those behind one that comes to
    a conflict are not needed."""
    known, before = True, files.sum_of(pieces.plain)
    for name in range(1, pieces.count() + 1):
        found = pieces.kept(name)
        here = name == 1 or os.path.exists(pieces.path(name, "cnf"))
        if known and found and found.before != before:
            of = "other clauses" if name > 1 else "another formula"
            yield name, f"what is kept is of {of}"
        elif not found and RECEIPTS.is_cut_off(read(pieces.path(name, "receipt"))):
            yield name, "its receipt is cut off"
        elif not found:
            is_there = here and os.path.exists(pieces.path(name, "drat"))
            yield name, "not verified" if is_there else "no piece"
        elif not found.behind:
            return
        known, before = bool(found), found.behind if found and found.behind else ""
    if known and before:
        yield "the last piece", "it comes to no conflict"


def print_left(pieces: Pieces) -> int:
    """Prints the names of the pieces that are not verified, a line each."""
    names = (f"{name}\n" for name, _ in unverified(pieces) if isinstance(name, int))
    print(*names, sep="", end="")
    return 0


def join(joiner: str, pieces: Pieces, receipts: str) -> int:
    """Prints what receipts show, by the program that joins them."""
    words = [joiner, files.operand(pieces.plain), "-"]
    ran = programs.run(words, input=receipts.encode())
    if ran.returncode == 0 and JOINED.fullmatch(ran.stdout):
        sys.stdout.write(ran.stdout.decode())
        return 0
    said = programs.first_line(ran.stderr, ran.stdout)
    print(f"the receipts are not joined: {said or f'{joiner} ended with status {ran.returncode}'}")
    return 1


def report(joiner: str, pieces: Pieces) -> int:
    """Prints which pieces are not verified, or else what the receipts of all show."""
    lacks, count = list(unverified(pieces)), pieces.count()
    for name, why in lacks:
        print(f"{name}: {why}")
    if lacks:
        print(f"{len(lacks)} of {count} pieces are not verified")
        return 1
    receipts = []
    for number in range(1, count + 1):
        kept = pieces.kept(number)
        receipts.append(kept.text() if kept else "")
        # what is behind a piece that comes to a conflict was not looked at
        if not (kept and kept.behind):
            break
    return join(joiner, pieces, "".join(receipts))
