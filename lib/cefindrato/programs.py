"""Programs: where they are, and what they say."""

import os
import subprocess
from typing import Any, Iterator, List

from .faults import Unusable


def beside(own: str, name: str) -> Iterator[str]:
    """The programs of this name in a script's own folder, and in dist/ beside that."""
    for folder in (own, os.path.join(own, "../dist")):
        path = os.path.join(folder, name)
        if os.access(path, os.X_OK):
            yield path


def program(own: str, name: str) -> str:
    """Returns the program that the environment names in place of this one, or else the one beside
    the script, or its name, for PATH."""
    named = os.environ.get(name.upper())
    return named if named else next(beside(own, name), name)


def run(words: List[str], **how: Any) -> "subprocess.CompletedProcess[bytes]":
    """Runs a program to its end, with both its streams taken."""
    try:
        return subprocess.run(words, stdout=subprocess.PIPE, stderr=subprocess.PIPE, **how)
    except OSError as why:
        raise Unusable(f"cannot run {words[0]}: {why.strerror}") from None


def first_line(*texts: bytes) -> str:
    """Returns the first line of what a program said, or the empty text."""
    return b"".join(texts).decode(errors="replace").split("\n")[0]


def said_by(ran: "subprocess.CompletedProcess[bytes]", *texts: bytes, of: str = "") -> str:
    """Returns the first line of what a program said. With status 2 it says nothing of what it was
    to check."""
    said = first_line(*texts) or f"{ran.args[0]} ended with status {ran.returncode}"
    if ran.returncode == 2:
        raise Unusable(f"{ran.args[0]} cannot be asked{of}: {said}")
    return said
