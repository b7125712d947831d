"""What the library keeps for an object behind a handle, and lists of numbers for its calls, by ctypes."""

import ctypes
import threading
from typing import Any, Iterable, List, SupportsIndex

from .faults import Fault, OutOfMemory
from .library import OUT_OF_MEMORY, VERIFIED, loaded
from .lists import listed

NO_LITERAL = "a number is no literal"


class _Handle(ctypes.Structure):
    _fields_ = [("at", ctypes.c_void_p), ("held", ctypes.c_bool)]


def _array(kind: type, numbers: List[int], bits: int, least: int, why: str) -> List[object]:
    """The numbers as an array and its length. ctypes would cut off what does not fit."""
    if not all(least <= it < least + 2**bits for it in numbers):
        raise Fault(why)
    return [(kind * max(1, len(numbers)))(*numbers), ctypes.c_size_t(len(numbers))]


def literals(numbers: Iterable[SupportsIndex], what: str) -> List[object]:
    """Literals; `what` says what they are."""
    return _array(ctypes.c_int32, listed(numbers, what), 32, -(2**31), NO_LITERAL)


def words(numbers: Iterable[SupportsIndex], what: str) -> List[object]:
    """Numbers of 64 bits; `what` says what one of them is."""
    return _array(ctypes.c_uint64, listed(numbers, "the list", "whole number"), 64, 0, f"{what} has more than 64 bits or a sign")


class Handled:
    """What the library keeps for an object, also as a context manager: it begins with the object, and anew where that is made again.

    The calls are those whose names begin with `_calls`, and their answers are `_answer`. Of calls from several threads one waits for
    the other, since ctypes lets them run at once, and the library takes one at a time.
    """

    _calls: str
    _answer: Any

    def __new__(cls, *_: object, **__: object) -> Any:
        made = super().__new__(cls)
        made._handle = _Handle()
        made._alone = threading.RLock()
        return made

    def __init__(self) -> None:
        with self._alone:
            self.close()
            self._call("begin")

    def __enter__(self) -> Any:
        return self

    def __exit__(self, *_) -> None:
        self.close()

    def __del__(self) -> None:
        self.close()

    def _cause(self, answer: Any) -> str:
        """Why a call is not accepted."""
        raise NotImplementedError

    def _ask(self, name: str, kind: Any, *arguments: object) -> Any:
        """What the library answers to a call."""
        call = getattr(loaded(), f"{self._calls}_{name}")
        call.restype = kind
        with self._alone:
            return call(ctypes.byref(self._handle), *arguments)

    def _call(self, name: str, *arguments: object) -> None:
        answer = self._ask(name, self._answer, *arguments)
        if answer.status == OUT_OF_MEMORY:
            raise OutOfMemory("out of memory")
        if answer.status != VERIFIED:
            raise Fault(self._cause(answer))

    def close(self) -> None:
        """Frees what the library keeps, if there is anything."""
        if self._handle.held:
            self._ask("end", None)
