"""Files that are read, packed or not, and files that are written only once they are whole."""

import contextlib
import hashlib
import importlib
import os
import secrets
import shutil
import subprocess
import tempfile
from io import BufferedReader
from typing import IO, Any, Callable, Iterable, Iterator, List, Optional, Tuple, Union

from .faults import Damaged, Unopened, Unusable

# What unpacks a file, by the end of its name; and modules of Python that do the same.
PACKERS = {".gz": "gzip", ".xz": "xz", ".bz2": "bzip2", ".lzma": "lzma", ".zst": "zstd"}
MODULES = {"gzip": "gzip", "xz": "lzma", "bzip2": "bz2", "lzma": "lzma"}
BLOCK = 1 << 16

# A file's name, or the number of its descriptor.
Path = Union[str, int]


def packer_of(path: str) -> Optional[str]:
    """Returns what unpacks a file, or None if its name is none of a packed file."""
    return PACKERS.get(os.path.splitext(path)[1])


def opened(path: str) -> BufferedReader:
    try:
        return open(path, "rb")
    except OSError as why:
        raise Unopened(f"cannot open {path}: {why.strerror}") from None


def blocks_of(path: str) -> Iterator[bytes]:
    """Returns what a file holds, unpacked if its name is that of a packed one, in blocks that
    are not empty.

    It raises Unusable at once if its packer is missing, and Unopened if it can't be opened;
    Damaged at the block that can't be unpacked.
    """
    packer = packer_of(path)
    if packer is None:
        return plain_blocks(opened(path), path)
    if packer in MODULES:
        try:
            module = importlib.import_module(MODULES[packer])
        except ImportError:
            raise Unusable(f"cannot import {MODULES[packer]}, which unpacks {path}") from None
        return module_blocks(module, opened(path), path)
    if not shutil.which(packer):
        raise Unusable(f"cannot run {packer}, which unpacks {path}")
    return program_blocks(packer, opened(path), path)


def plain_blocks(file: BufferedReader, path: str) -> Iterator[bytes]:
    with file:
        try:
            while block := file.read(BLOCK):
                yield block
        except OSError as why:
            raise Unusable(f"cannot open {path}: {why.strerror}") from None


def module_blocks(module: Any, file: BufferedReader, path: str) -> Iterator[bytes]:
    """Yields what a module of Python unpacks."""
    with file:
        try:
            if not file.peek(1):
                raise EOFError("it is empty")
            is_xz = module.__name__ == "lzma"
            yield from xz_blocks(module, file) if is_xz else opened_blocks(module, file)
        except Exception as why:
            # (each module has errors of its own; those of the system have a text)
            text = getattr(why, "strerror", None) or why
            raise Damaged(f"cannot unpack {path}: {text}") from None


def opened_blocks(module: Any, file: BufferedReader) -> Iterator[bytes]:
    with module.open(file) as plain:
        while block := plain.read(BLOCK):
            yield block


def xz_blocks(lzma: Any, file: BufferedReader) -> Iterator[bytes]:
    """Yields what is in one stream after the other. (`lzma.open` passes over a stream whose first
    bytes are damaged.)"""
    packed = file.read(BLOCK)
    while packed:
        stream = lzma.LZMADecompressor()
        while not stream.eof:
            if stream.needs_input and not packed:
                packed = file.read(BLOCK)
                if not packed:
                    raise EOFError("it is cut off")
            if block := stream.decompress(packed, BLOCK):
                yield block
            packed = b""
        packed = stream.unused_data.lstrip(b"\0")
        while not packed and (more := file.read(BLOCK)):
            packed = more.lstrip(b"\0")


def program_blocks(packer: str, file: BufferedReader, path: str) -> Iterator[bytes]:
    """Yields what a program unpacks. One whose output nobody reads any more is ended."""
    pipe = subprocess.PIPE
    with file, subprocess.Popen([packer, "-dcq"], stdin=file, stdout=pipe, stderr=pipe) as ran:
        assert ran.stdout and ran.stderr
        while block := ran.stdout.read(BLOCK):
            yield block
        said = ran.stderr.read().decode(errors="replace").strip()
    if ran.returncode:
        said = said or f"{packer} ended with status {ran.returncode}"
        raise Damaged(f"cannot unpack {path}: {said.splitlines()[0]}")


def lines_of(path: str) -> Iterator[bytes]:
    """Yields the lines of a file, unpacked, without their ends."""
    parts: List[bytes] = []
    for block in blocks_of(path):
        first, *others = block.split(b"\n")
        parts.append(first)
        if others:
            yield b"".join(parts)
            yield from others[:-1]
            parts = others[-1:]
    if any(parts):
        yield b"".join(parts)


def content_of(path: str) -> bytes:
    """Returns all that a file holds, unpacked."""
    return b"".join(blocks_of(path))


def unpacked(path: str) -> IO[bytes]:
    """Returns what a packed file holds, as a file without a name that its last reader deletes."""
    plain = tempfile.TemporaryFile()
    for block in blocks_of(path):
        plain.write(block)
    plain.flush()
    plain.seek(0)
    return plain


def name_of(file: IO[bytes]) -> str:
    """Returns a name by which programs can open a file without one, while it is open here."""
    return f"/proc/{os.getpid()}/fd/{file.fileno()}"


@contextlib.contextmanager
def named(text: bytes) -> Iterator[str]:
    """The name of a file that has this text, and is deleted then."""
    with tempfile.TemporaryFile() as file:
        file.write(text)
        file.flush()
        yield name_of(file)


def sum_of(path: str) -> str:
    """Returns the sum (SHA-256) of a file, which is not unpacked."""
    found = hashlib.sha256()
    with opened(path) as file:
        for block in plain_blocks(file, path):
            found.update(block)
    return found.hexdigest()


def operand(path: str) -> str:
    """Returns a file's name as a program takes it, which reads standard input for -, and an option
    where a name begins so."""
    return os.path.join(".", path) if path.startswith("-") else path


def known_as(path: Path) -> Optional[Tuple[int, int]]:
    """Returns by what the system knows a file, whatever its name is; None where there is none."""
    try:
        found = os.stat(path)
    except OSError:
        return None
    return found.st_dev, found.st_ino


def refuse_writing(
    outputs: Iterable[str], inputs: Iterable[Path], is_own: Callable[[str], object], writer: str
) -> None:
    """Decides what may be written or deleted, before anything is: no file that is read, by
    whatever name, and of what is there only what this writer, a script, wrote. An input that is
    standard input is named by its descriptor.
    """
    read_files = {known_as(it): it for it in inputs}
    for path in outputs:
        if not os.path.lexists(path):
            continue
        same = known_as(path)
        if same and same in read_files:
            name = read_files[same] or "standard input"
            raise Unusable(f"cannot write {path}: it is a file that is read, {name}")
        if not is_own(path):
            raise Unusable(f"cannot write {path}: there is a file that {writer} did not write")


def destination(name: str, inputs: Iterable[str]) -> str:
    """Returns where an output is written: the file that its name leads to, unless that is one that
    is read, by any name."""
    place = os.path.realpath(name)
    for other in inputs:
        if os.path.exists(place) and os.path.samefile(place, other):
            raise Unusable(f"cannot write {name}: it is {other}, which is read")
    return place


def keep(path: str, text: bytes) -> None:
    """Writes a file under a name that no other has, and then renames it, so that a run that is cut
    off leaves none."""
    apart = f"{path}.{secrets.token_hex(4)}.new"
    try:
        with open(apart, "xb") as file:
            try:
                file.write(text)
                file.close()
                os.rename(apart, path)
            except BaseException:
                os.remove(apart)
                raise
    except OSError as why:
        raise Unusable(f"cannot write {path}: {why.strerror}") from None


def put(place: str, text: str) -> None:
    """Writes a file that has its name once it is whole, and the mode of the one before it; a pipe
    or a device is written in place."""
    if os.path.exists(place) and not os.path.isfile(place):
        with open(place, "w", encoding="utf-8") as file:
            file.write(text)
        return
    with tempfile.TemporaryDirectory(prefix=".new-", dir=os.path.dirname(place)) as folder:
        new = os.path.join(folder, "new")
        with open(new, "w", encoding="utf-8") as file:
            file.write(text)
        if os.path.exists(place):
            shutil.copymode(place, new)
        os.replace(new, place)
