"""A session of queries to an incremental solver: each answer is checked before the caller acts on it, by ctypes over the library."""

import ctypes
from typing import Iterable, List, SupportsIndex

from .handles import NO_LITERAL, Handled, literals, words

_CAUSES = {
    1: "id is taken",
    2: "no clause has the id of a hint",
    3: "clause of a hint is not unit",
    4: "hints end without a conflict",
    5: "a literal of the core was not assumed",
    6: "the model has both signs of a variable",
    7: "the model does not have an assumption",
    8: "the model has no literal of clause {}",
    9: "there is no session",
    11: NO_LITERAL,
}


class _Answer(ctypes.Structure):
    _fields_ = [("status", ctypes.c_uint8), ("cause", ctypes.c_uint8), ("clause", ctypes.c_uint64)]


def _ids(numbers: Iterable[SupportsIndex]) -> List[object]:
    return words(numbers, "an id")


def _id(number: SupportsIndex) -> ctypes.c_uint64:
    return ctypes.c_uint64(_ids([number])[0][0])


class Session(Handled):
    """A session, also as a context manager. Literals are DIMACS numbers.

    A call that is rejected raises a Fault with the cause, OutOfMemory if there is no memory, and a ValueError that names what is no
    number; the session is then as it was. Several threads may call: one waits for the other.
    """

    _calls = "cefindrato_session"
    _answer = _Answer

    def _cause(self, answer: _Answer) -> str:
        return _CAUSES[answer.cause].format(answer.clause)

    def give(self, id: SupportsIndex, clause: Iterable[SupportsIndex]) -> None:
        """Adds a clause of the application, under an id that names none."""
        self._call("give", _id(id), *literals(clause, "the clause"))

    def derive(self, id: SupportsIndex, lemma: Iterable[SupportsIndex], hints: Iterable[SupportsIndex]) -> None:
        """Adds a lemma, which follows by propagation along the hints, under an id that names no clause."""
        self._call("derive", _id(id), *literals(lemma, "the lemma"), *_ids(hints))

    def delete(self, ids: Iterable[SupportsIndex]) -> None:
        """Deletes the clauses of these ids; ids that name none are ignored."""
        self._call("delete", *_ids(ids))

    def fails(self, assumed: Iterable[SupportsIndex], core: Iterable[SupportsIndex], hints: Iterable[SupportsIndex] = ()) -> None:
        """Checks that the clauses that were given do not allow all literals of the core, which were assumed, to be true."""
        self._call("fails", *literals(assumed, "the assumptions"), *literals(core, "the core"), *_ids(hints))

    def satisfies(self, assumed: Iterable[SupportsIndex], model: Iterable[SupportsIndex]) -> None:
        """Checks that the model has the assumptions and a literal of each clause that was given."""
        self._call("satisfies", *literals(assumed, "the assumptions"), *literals(model, "the model"))
