"""A proof on its way to the program that cuts it into pieces."""

import fcntl
import math
import os
import re
import subprocess
import sys
import threading
from typing import Iterator, List, Optional

from . import files
from .faults import Unusable
from .pieces import Pieces, keep

# Lemmas of a piece that the cutter makes by itself, and the fewest that a run asks for.
LEMMAS, FEWEST_LEMMAS = 20000, 1000
# A proof is handed on in portions of at most so many bytes, by a pipe that has place for as many: a
# page, the least that Linux has. (Python has the name of the call from 3.10 on.)
PORTION, F_SETPIPE_SZ = 1 << 12, 1031
FRAT = re.compile(rb"\s*(?:[c%][^\n]*\n\s*)*[oflr]")
TOLD = re.compile(rb"piece ([0-9]+): .*\n")


def opened(proof: str) -> int:
    """Returns the descriptor of a proof, to read it."""
    if proof == "-" and sys.stdin is None:
        raise Unusable("cannot open standard input: it is closed")
    try:
        return 0 if proof == "-" else os.open(proof, os.O_RDONLY)
    except OSError as why:
        raise Unusable(f"cannot open {proof}: {why.strerror}") from None


def blocks_of(proof: str) -> Iterator[bytes]:
    """Yields what a proof has, as it comes, block by block."""
    if files.packer_of(proof):
        yield from files.blocks_of(proof)
        return
    source = opened(proof)
    try:
        while block := os.read(source, files.BLOCK):
            yield block
    except OSError as why:
        raise Unusable(f"cannot read {proof}: {why.strerror}") from None
    finally:
        if source:
            os.close(source)


def begin_of(proof: str, blocks: Iterator[bytes]) -> bytes:
    """Returns the first block of a proof, unless that is FRAT, of which the cutter would only say
    that it is malformed."""
    found = next(blocks, b"")
    if FRAT.match(found):
        name = "standard input" if proof == "-" else proof
        raise Unusable(f"{name} begins as FRAT: DRAT and DPR are cut, FRAT is not")
    return found


class Feed:
    """A proof that is handed on to the cutter as long as there are not too many pieces.

    What is under way besides is a portion, as much in the pipe, and as much in the cutter, which
    reads no more at once.
    """

    def __init__(self, pieces: Pieces, proof: str, most: float) -> None:
        self.pieces, self.most, self.name = pieces, most, proof
        self.turn = threading.Condition()
        self.fault: Optional[Unusable] = None
        self.last, self.done = 0, 0
        self.is_packed, self.blocks = files.packer_of(proof) is not None, blocks_of(proof)
        self.block = begin_of(proof, self.blocks)
        self.thread = threading.Thread(target=self.hand, daemon=True)
        self.into = -1

    def came(self, name: int) -> None:
        """This piece was cut."""
        with self.turn:
            self.last = max(self.last, name)

    def went(self) -> None:
        """One was checked, and another one may come."""
        with self.turn:
            self.done += 1
            self.turn.notify_all()

    def has_room(self) -> bool:
        """Whether no more pieces are there that were not checked than may be, those included that
        were not told yet: the cutter is faster than its lines are read."""
        while os.path.exists(self.pieces.path(self.last + 1, "drat")):
            self.last += 1
        return self.last - self.done <= self.most

    def start(self) -> int:
        """Begins to hand the proof on, and returns what the cutter reads."""
        out, self.into = os.pipe()
        fcntl.fcntl(self.into, F_SETPIPE_SZ, PORTION)
        self.thread.start()
        return out

    def portions(self) -> Iterator[bytes]:
        while self.block:
            for place in range(0, len(self.block), PORTION):
                yield self.block[place : place + PORTION]
            self.block = next(self.blocks, b"")

    def hand(self) -> None:
        """Hands the proof on, until it ends or the cutter does."""
        try:
            with open(self.into, "wb") as cutter:
                for portion in self.portions():
                    with self.turn:
                        self.turn.wait_for(self.has_room)
                    cutter.write(portion)
                    cutter.flush()
        except BrokenPipeError:
            pass
        except OSError as why:
            self.fault = Unusable(f"cannot read {self.name}: {why.strerror}")
        except Unusable as fault:
            self.fault = fault

    def finish(self, is_cut: bool) -> None:
        """The cutter has ended: raises the fault if the proof could not be read. One that is packed
        and cut is read to its end, so that it is known to be whole."""
        if self.is_packed:
            self.thread.join()
            for _ in self.blocks if is_cut else ():
                pass
        if self.fault:
            raise self.fault


class Cutting:
    """What cuts a proof into pieces: `cutter`, with these options."""

    def __init__(self, cutter: str, pieces: Pieces, proof: str, options: List[str]) -> None:
        self.cutter, self.pieces, self.proof, self.options = cutter, pieces, proof, options

    def told(self, feed: Optional[Feed]) -> Iterator[int]:
        """Has the proof cut, and yields the name of each piece once it is whole, and of which it is
        known by then that another one follows."""
        pieces = self.pieces
        if not os.path.isfile(pieces.formula):
            raise Unusable(f"cannot open {pieces.formula}: it is no file")
        pieces.clear(self.proof)
        name = 0
        with self.started(feed) as ran:
            assert ran.stdout
            for line in ran.stdout:
                if found := TOLD.fullmatch(line):
                    name = int(found.group(1))
                    yield name
        self.finish(ran.returncode, feed)
        keep(pieces.file("count"), f"{name}\n")

    def started(self, feed: Optional[Feed]) -> "subprocess.Popen[bytes]":
        """Starts the cutter, which reads what is handed on, or else the proof itself."""
        proof = "-" if feed else files.operand(self.proof)
        folder = files.operand(self.pieces.file(""))
        call = [self.cutter, files.operand(self.pieces.plain), proof, folder, *self.options]
        source = feed.start() if feed else None
        try:
            return subprocess.Popen(call, stdin=source, stdout=subprocess.PIPE)
        except OSError as why:
            raise Unusable(f"cannot run {self.cutter}: {why.strerror}") from None
        finally:
            if source is not None:
                os.close(source)

    def finish(self, status: int, feed: Optional[Feed]) -> None:
        """The cutter has ended with this status: raises the fault if the proof is not cut."""
        pieces, is_cut = self.pieces, status in (0, 3)
        if feed:
            feed.finish(is_cut)
        if not is_cut:
            whys = ["the proof could not be cut"]
            if pieces.plain != pieces.formula:
                whys.append(f"{pieces.plain} is {pieces.formula}")
            if feed and feed.is_packed:
                whys.append(f"standard input is {self.proof}")
            raise Unusable("; ".join(whys))
        if status == 3:
            print("the proof ends without a conflict", flush=True)

    def is_file(self) -> bool:
        """Whether the proof is a file that the cutter can read itself."""
        is_plain = self.proof != "-" and not files.packer_of(self.proof)
        return is_plain and os.path.isfile(self.proof)

    def run(self) -> None:
        """Has the proof cut at once. One that is no file is handed on, since what it begins with is
        read here, and one that is packed."""
        feed = None
        if self.is_file():
            blocks = blocks_of(self.proof)
            begin_of(self.proof, blocks)
        else:
            feed = Feed(self.pieces, self.proof, math.inf)
        for _ in self.told(feed):
            pass


def lemmas_in(path: str) -> int:
    """Returns about how many lemmas a proof has, by samples from all of it. In a binary proof each
    step ends by a byte 0, and no other byte is 0."""
    size, sample, places = os.path.getsize(path), 1 << 14, 64
    with open(path, "rb") as file:
        starts = [place * size // places for place in range(places)]
        blocks = [os.pread(file.fileno(), sample, start) for start in starts]
    end = b"\0" if any(b"\0" in block for block in blocks) else b"\n"
    found = sum(block.count(end) - block.count(end + b"d") for block in blocks)
    return found * size // max(1, sum(len(block) for block in blocks))


def lemmas_of_piece(path: str, jobs: int) -> int:
    """Returns how many lemmas a piece of a proof has, so that the pieces are a multiple of the
    jobs, twice as many at least, and are near to those that the cutter makes by itself. Pieces of
    few lemmas do not pay."""
    lemmas = lemmas_in(path)
    turns = max(2, round(lemmas / (LEMMAS * jobs)))
    return max(FEWEST_LEMMAS, lemmas // (turns * jobs))
