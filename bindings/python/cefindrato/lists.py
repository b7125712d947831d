"""Lists of numbers as callers have them: of ints, or of what `operator.index` takes for one, such as numpy's, and of no bools."""

import operator
import os
import reprlib
from mmap import mmap
from typing import Any, List, NoReturn

TEXTS = (bytes, bytearray, memoryview, mmap)
_TOP = 1 << 28


def is_text(it: Any) -> bool:
    return isinstance(it, (str, os.PathLike, *TEXTS))


def _reject(it: Any, what: str, given: List[Any], kind: str) -> NoReturn:
    """Of kind "literal" or "whole number"."""
    of_literals = ": literals are whole numbers from 1 to 2^28 or their negatives, and no 0 ends them" if kind == "literal" else ""
    raise ValueError(f"{it!r} is no {kind}, in {what} {reprlib.repr(given)}{of_literals}")


def listed(numbers: Any, what: str, kind: str = "literal") -> List[int]:
    """The numbers of a list as ints, of whatever size. What the caller's own iterator raises comes through."""
    try:
        each = None if is_text(numbers) else iter(numbers)
    except TypeError:
        each = None
    if each is None:
        raise ValueError(f"{what} is no list of {kind}s: {reprlib.repr(numbers)}")
    given = list(each)
    found = []
    for it in given:
        # (numpy 1 has an index of its bools)
        if type(it).__name__ in ("bool", "bool_"):
            _reject(it, what, given, kind)
        try:
            found.append(operator.index(it))
        except TypeError:
            _reject(it, what, given, kind)
    return found


def literals(numbers: Any, what: str) -> List[int]:
    """The literals of a clause or a model as ints."""
    found = listed(numbers, what)
    for it in found:
        if it == 0 or abs(it) > _TOP:
            _reject(it, what, found, "literal")
    return found
