"""Plays rows: runs of programs over small files, and what each must answer.

play.py CRATES FAIL ROWS..

CRATES is the folder of the crates, in which the programs are built, and FAIL is `tests/failing_files/fail.c` as a library. A line of ROWS
is one of these, or a comment after `#`:

    call PROGRAM WORD..   how the rows below call the program. Words in capitals are files
    NAME: TEXT            what the file NAME has from here on. \\n, \\\\ and \\xHH stand for bytes
    more NAME FIRST LAST: TEXT
                          appends TEXT to that file for each number from FIRST to LAST, which stands in place of {}
    limits: NAME=NUMBER.. limits of FAIL for the next row, which is otherwise played at once, and with 1, 2, 3 and 7 bytes a read
    prints: TEXT          what the next row writes to standard output, if it is not the line of the verdict alone
    then: TEXT            the second line of standard error after the next row, which is passed over otherwise
    warns: TEXT           the warning of headers of the next row, or that there is none; they are passed over otherwise
    breaks NAME OTHER..: TEXT
                          the rows below, up to the next call, are also played with the read after each byte of the file NAME failing,
                          which is read behind the files OTHER. TEXT is the fault, up to a byte from which on the row's answer comes
    says: TEXT            the first line of standard error after the next row, if it has a verdict
    writes NAME: TEXT     what stands in the file NAME after the next row; `writes NAME not`: there is none
    pipes NAME: TEXT      what goes through NAME in the next row, where it is a pipe
    status: NUMBER        the exit status of the next row, if it is neither that of the verdict, nor 1 of a fault
    => TEXT               the row: the line of the verdict, or the first line of standard error, or nothing
"""

import codecs
import os
import subprocess
import sys
import tempfile


def bytes_of(text):
    return codecs.escape_decode(text.encode("ascii"))[0]


def status_of(answer):
    """The exit status of a run with this verdict, or text of a fault."""
    if answer == b"s VERIFIED FOLLOWS":
        return 20
    if answer == b"s VERIFIED NOT FOLLOWS":
        return 10
    if answer.startswith(b"s NOT ") or b" WITH " in answer:
        return 3
    return 0 if not answer or answer.startswith(b"s ") else 1


class Row:
    """What a row expects beside its answer."""

    def __init__(self):
        self.limits, self.status, self.prints, self.says, self.then, self.warns = None, None, None, b"", None, None
        self.written, self.piped = {}, {}


class Player:
    """The rows of one file, up to a line."""

    def __init__(self, crates, fail, room):
        self.crates, self.fail, self.room = crates, fail, room
        self.program, self.words, self.files, self.row, self.broken = None, [], {}, Row(), None
        self.rows, self.wrong = 0, []

    def take(self, line):
        head, _, rest = line.partition(" ")
        if head == "call":
            program, *self.words = rest.split()
            self.program, self.files, self.broken = f"{self.crates}/{program}_main/out/{program}_main", {}, None
        elif head == "=>":
            self.play(bytes_of(rest))
        elif head == "writes" and rest.endswith(" not"):
            self.row.written[rest.split()[0]] = None
        elif head in ("writes", "pipes"):
            name, _, text = rest.partition(":")
            (self.row.written if head == "writes" else self.row.piped)[name] = bytes_of(text[1:])
        elif head == "limits:":
            self.row.limits = dict(word.split("=") for word in rest.split())
        elif head == "more":
            words, _, text = rest.partition(": ")
            name, first, last = words.split()
            self.files[name] += b"".join(bytes_of(text.replace("{}", str(number))) for number in range(int(first), int(last) + 1))
        elif head == "breaks":
            names, _, fault = rest.partition(": ")
            self.broken = names.split(), bytes_of(fault)
        elif head == "prints:":
            self.row.prints = bytes_of(rest)
        elif head == "then:":
            self.row.then = bytes_of(rest)
        elif head == "warns:":
            self.row.warns = bytes_of(rest)
        elif head == "says:":
            self.row.says = bytes_of(rest)
        elif head == "status:":
            self.row.status = int(rest)
        elif head.endswith(":") and head[:-1] in self.words:
            self.files[head[:-1]] = bytes_of(rest)
        else:
            raise ValueError(f"not a line of rows: {line}")

    def play(self, answer):
        row, self.row = self.row, Row()
        self.rows += 1
        verdict = answer if answer.startswith(b"s ") else b""
        status = status_of(answer) if row.status is None else row.status
        said = row.says if verdict else answer
        printed = row.prints if row.prints is not None else verdict + b"\n" if verdict else b""
        wanted = (status, printed, said, row.written, row.piped)
        for limits in [row.limits] if row.limits else [{}, *({"SHORT_READS": size} for size in "1237")]:
            found = self.run(row, limits)
            if found != wanted:
                self.wrong.append(f"{self.program} {self.words} {self.files} {limits}:\nnot {wanted}\nbut {found}")
        if self.broken and not row.limits:
            self.play_broken(row, wanted)

    def play_broken(self, row, wanted):
        """Plays the row with the read after each byte failing: the fault is told, or from some byte on what the row answers."""
        (name, *others), fault = self.broken
        before = sum(len(self.files[other]) + 1 for other in others)
        told = False
        for place in range(len(self.files[name]) + 1):
            limits = {"SHORT_READS": "1", "FAIL_READ": str(before + place + 1)}
            found = self.run(row, limits)
            told = told or found == wanted
            begun = found[1] == b"" or row.prints is not None and row.prints.startswith(found[1])
            if found != wanted if told else found[0] != 1 or found[2] != fault or not begun:
                self.wrong.append(f"{self.program} {self.words} {self.files} {limits}:\nneither {wanted} nor {fault}\nbut {found}")

    def run(self, row, limits):
        """The exit status, standard output, the first line of standard error, and what is written."""
        with tempfile.TemporaryDirectory(dir=self.room) as folder:
            for name, text in self.files.items():
                with open(f"{folder}/{name}", "wb") as file:
                    file.write(text)
            pipes = [Pipe(f"{folder}/{name}") for name in row.piped]
            ran = subprocess.run(
                [self.program, *self.words], cwd=folder, env={**limits, "LD_PRELOAD": self.fail}, capture_output=True, check=False
            )
            through = {name: pipe.end() for name, pipe in zip(row.piped, pipes)}
            lines = [it for it in ran.stderr.split(b"\n") if not it.startswith(b"warning: ")]
            warned = [it for it in ran.stderr.split(b"\n") if it.startswith(b"warning: ")]
            if row.then is not None and lines[1:2] != [row.then]:
                lines = lines[1:] or [b"no second line"]
            if row.warns is not None and warned != [row.warns] * (row.warns != b""):
                lines = warned or [b"no warning"]
            written = {name: text_of(f"{folder}/{name}") for name in row.written}
            return ran.returncode, ran.stdout, lines[0], written, through


class Pipe:
    """A pipe, which holds what a program writes to it."""

    def __init__(self, path):
        os.mkfifo(path)
        self.file = os.open(path, os.O_RDWR | os.O_NONBLOCK)

    def end(self):
        try:
            return os.read(self.file, 1 << 16)
        except BlockingIOError:
            return b""
        finally:
            os.close(self.file)


def text_of(path):
    try:
        with open(path, "rb") as file:
            return file.read()
    except FileNotFoundError:
        return None


def main(crates, fail, *paths):
    failed = False
    for path in paths:
        with tempfile.TemporaryDirectory() as room, open(path, encoding="ascii") as file:
            player = Player(crates, fail, room)
            for line in file.read().splitlines():
                if line and not line.startswith("#"):
                    player.take(line)
        print(*player.wrong, f"{os.path.basename(path)}: {player.rows} rows, {len(player.wrong)} wrong", sep="\n")
        failed = failed or player.wrong or not player.rows
    return 1 if failed else 0


sys.exit(main(*sys.argv[1:]))
