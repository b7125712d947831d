"""The rows of `checked_all`: of each run one, a line of JSON with a sum of its own."""

import fcntl
import hashlib
import json
import os
import shutil
import stat
from typing import Any, Dict, List, Mapping, Optional, Tuple, Union

from .faults import Unusable

VERDICTS = {20: "s VERIFIED UNSAT", 10: "s VERIFIED SAT"}
NO_ANSWER, NOT_CHECKED, REJECTED, MALFORMED = "no answer", "not checked", "rejected", "malformed"
OUTCOMES = (*VERDICTS.values(), NO_ANSWER, NOT_CHECKED, REJECTED, MALFORMED)
LIMIT, CHECK_LIMIT = "limit", "check limit"
BEGIN = b'{"formula": '
NUMBER = (int, float)
FIELDS: Dict[str, Any] = {
    "formula": str,
    "solver": list,
    "options": list,
    "limit": (*NUMBER, type(None)),
    "check_limit": (*NUMBER, type(None)),
    "outcome": str,
    "reason": str,
    "status": int,
    "seconds": NUMBER,
    "processor": NUMBER,
    "memory": int,
    "solving": (dict, type(None)),
    "checking": (dict, type(None)),
    "sums": list,
}
# Fields that rows of version 0.4 and before don't have.
LATER = {"check_limit", "solving", "checking"}
OLD_FIELDS = [it for it in FIELDS if it not in LATER]
TOOK = {"seconds": NUMBER, "processor": NUMBER, "memory": int}

Row = Dict[str, Any]
Rows = Dict[Tuple[Optional[str], ...], Row]
Known = Mapping[Optional[Tuple[int, int]], Union[str, int]]


class Sums:
    """SHA-256 sums of files. A file is read again only where it has changed."""

    def __init__(self) -> None:
        self.known: Dict[str, Tuple[Tuple[int, ...], str]] = {}

    def of(self, path: str) -> str:
        with open(path, "rb") as file:
            about = os.fstat(file.fileno())
            place = about.st_dev, about.st_ino
            state = (*place, about.st_size, about.st_mtime_ns, about.st_ctime_ns)
            before = self.known.get(path)
            if before and before[0] == state:
                return before[1]
            digest = hashlib.sha256()
            for block in iter(lambda: file.read(1 << 20), b""):
                digest.update(block)
        self.known[path] = state, digest.hexdigest()
        return digest.hexdigest()

    def now(self, path: str) -> str:
        """Returns the sum of a file, or why there is none."""
        try:
            return self.of(path)
        except OSError as why:
            return f"cannot open {path}: {why.strerror}"


def found_on_path(word: str) -> Optional[str]:
    """Returns the file that a word names as a command, or None."""
    path = shutil.which(word)
    return os.path.abspath(path) if path else None


def is_verified(row: Row) -> bool:
    return row["outcome"] in VERDICTS.values()


def key_of(row: Row) -> Tuple[Optional[str], ...]:
    """Returns the formula and the words of the call. Of the rows with one key the last one
    counts."""
    return (row["formula"], *row["solver"], None, *row["options"])


def line_of(row: Row) -> str:
    """Returns a row as a line, with its own sum."""
    own = hashlib.sha256(json.dumps(row).encode()).hexdigest()
    return json.dumps({**row, "row": own}) + "\n"


def row_of(line: Union[str, bytes]) -> Optional[Row]:
    """Returns the row that a line has, or None. One that does not fit its own sum claims
    nothing."""
    try:
        row = json.loads(line)
        own = row.pop("row")
        edited = own != hashlib.sha256(json.dumps(row).encode()).hexdigest()
        if list(row) == OLD_FIELDS:
            row = {it: row.get(it) for it in FIELDS}
        if list(row) != list(FIELDS) or not has_types(row, FIELDS):
            return None
        if row["outcome"] not in OUTCOMES:
            return None
        if not is_measured(row["solving"]) or not is_measured(row["checking"]):
            return None
        texts = [*row["solver"], *row["options"]]
        texts += [it[field] for it in row["sums"] for field in ("of", "file", "sha256")]
    except (ValueError, KeyError, TypeError, AttributeError, RecursionError):
        return None
    row["edited"] = edited
    if edited:
        row.update(outcome=NO_ANSWER, reason="this row was edited")
    return row if all(isinstance(it, str) for it in texts) else None


def has_types(row: Row, fields: Dict[str, Any]) -> bool:
    return all(isinstance(row[it], kind) for it, kind in fields.items())


def is_measured(took: Optional[Row]) -> bool:
    """Whether this is what a run took, or None where nobody knows."""
    return took is None or (list(took) == list(TOOK) and has_types(took, TOOK))


def rows_of(name: str, text: bytes) -> Tuple[Rows, int]:
    """Returns the rows of a file's text by their keys, and the length of its whole lines: a run
    that was killed may leave a beginning of one."""
    whole = text.rfind(b"\n") + 1
    rows: Rows = {}
    for number, line in enumerate(text[:whole].split(b"\n")[:-1], 1):
        row = row_of(line)
        if row is None:
            raise Unusable(f"{name}: line {number}: it is no row of checked_all")
        rows.pop(key_of(row), None)
        rows[key_of(row)] = row
    rest = text[whole:]
    if not rest.startswith(BEGIN[: len(rest)]):
        raise Unusable(f"{name}: the last line is no row of checked_all")
    return rows, whole


def read_rows(name: str) -> List[Row]:
    try:
        with open(name, "rb") as file:
            rows = rows_of(name, file.read())[0]
    except OSError as why:
        raise Unusable(f"cannot open {name}: {why.strerror}") from None
    if not rows:
        raise Unusable(f"{name} has no row")
    return list(rows.values())


class Table:
    """The file of rows. Nothing but whole rows is in it, and no other call writes there
    meanwhile."""

    def __init__(self, name: Optional[str], inputs: Known) -> None:
        self.name = name
        self.rows: Rows = {}
        if name in (None, "-"):
            return
        assert name is not None
        try:
            self.file = os.open(name, os.O_RDWR | os.O_APPEND | os.O_CREAT, 0o666)
            about = os.fstat(self.file)
            same = inputs.get((about.st_dev, about.st_ino))
            if same is not None:
                raise Unusable(f"cannot write {name}: it is a file that is read, {same}")
            if not stat.S_ISREG(about.st_mode):
                raise Unusable(f"cannot write {name}: it is no regular file")
            fcntl.flock(self.file, fcntl.LOCK_EX | fcntl.LOCK_NB)
            with open(self.file, "rb", closefd=False) as file:
                self.rows, whole = rows_of(name, file.read())
            os.ftruncate(self.file, whole)
        except BlockingIOError:
            raise Unusable(f"cannot write {name}: another call writes it") from None
        except OSError as why:
            raise Unusable(f"cannot write {name}: {why.strerror}") from None

    def files(self) -> List[str]:
        """Returns the names of the file of rows: one, or none."""
        return [] if self.name in (None, "-") else [str(self.name)]

    def append(self, row: Row) -> None:
        line = line_of(row)
        if self.name == "-":
            print(line, end="", flush=True)
        elif self.name is not None:
            try:
                size = os.fstat(self.file).st_size
                if os.write(self.file, line.encode()) < len(line):
                    os.ftruncate(self.file, size)
                    raise Unusable(f"cannot write {self.name}: there is no room")
            except OSError as why:
                raise Unusable(f"cannot write {self.name}: {why.strerror}") from None
        self.rows[key_of(row)] = row
