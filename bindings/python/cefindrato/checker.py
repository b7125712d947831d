"""The ported checker of varisat's proofs, step by step, by ctypes over the library.

With 1 and 3 false, the first clause makes 2 true, and then the second one is false. So both can't be false:

>>> checker = Checker()
>>> checker.add_clause([1, 2])
>>> checker.add_clause([1, -2, 3])
>>> checker.check_step(Step.ASSUMPTIONS, [-1, -3])
>>> checker.check_step(Step.FAILED_ASSUMPTIONS, [-1, -3], [clause_hash([1, 2]), clause_hash([1, -2, 3])])

With -3 alone there is a model. What is not shown raises a Fault:

>>> checker.check_step(Step.ASSUMPTIONS, [-3])
>>> checker.check_step(Step.MODEL, [1, -3])
>>> checker.check_step(Step.MODEL, [-1, -3])
Traceback (most recent call last):
cefindrato.faults.Fault: step 5: model does not satisfy clause
"""

import ctypes
from enum import IntEnum
from typing import Iterable, SupportsIndex

from . import lists
from .handles import NO_LITERAL, Handled, literals, words

_CAUSES = {
    2: "clause is a tautology",
    3: "no clause found for hash",
    4: "AT check failed",
    5: "delete of unit or empty clause",
    6: "delete of unknown clause",
    7: "delete of redundant clause which is irredundant",
    8: "delete of irredundant clause which is redundant",
    9: "deleted clause is not satisfied",
    10: "deleted clause is not subsumed by previous clause",
    18: "model assignment conflicts with unit clause",
    19: "model contains conflicting assignment",
    20: "model does not contain assumption",
    21: "model does not satisfy clause",
    22: "failed core contains non-assumed variables",
    23: "unknown variable",
    26: "model after unsatisfiability",
    27: "no clause id left",
    28: "clause count exhausted",
    29: "no step number left",
    30: "there is no checker",
    32: NO_LITERAL,
    34: "checker has failed",
}
_WORD = 2**64


class Step(IntEnum):
    """The kinds of a step: `cefindrato_checker.h` says when each is accepted."""

    ADD_CLAUSE = 1
    AT_CLAUSE = 2
    REDUNDANT_AT_CLAUSE = 3
    DELETE_REDUNDANT = 4
    DELETE_SATISFIED = 5
    DELETE_SIMPLIFIED = 6
    MODEL = 7
    ASSUMPTIONS = 8
    FAILED_ASSUMPTIONS = 9
    END = 10


class _Answer(ctypes.Structure):
    _fields_ = [("status", ctypes.c_uint8), ("cause", ctypes.c_uint8), ("step", ctypes.c_uint64)]


def clause_hash(clause: Iterable[SupportsIndex]) -> int:
    """The hash by which a step names a clause: the exclusive or of those of its literals."""
    hash = 0
    for it in set(lists.literals(clause, "the clause")):
        hash ^= ~(2 * abs(it) - (1 if it < 0 else 2) + 2**29) * 0x61C8864680B583EB % _WORD
    return hash


class Checker(Handled):
    """A checker, also as a context manager. Literals are DIMACS numbers.

    A call that is rejected raises a Fault with the cause and the number of the step; the checker can go on. OutOfMemory is raised if
    there is no memory: then later calls may raise a Fault that the checker has failed. What is no number is named by a ValueError.
    Several threads may call: one waits for the other.
    """

    _calls = "cefindrato_checker"
    _answer = _Answer

    def _cause(self, answer: _Answer) -> str:
        cause = _CAUSES[answer.cause]
        return f"step {answer.step}: {cause}" if answer.cause < 30 else cause

    def add_clause(self, clause: Iterable[SupportsIndex]) -> None:
        """Adds an input clause, which is no step. It changes nothing if unsatisfiability is recorded."""
        self._call("add_clause", *literals(clause, "the clause"))

    def check_step(self, step: Step, lits: Iterable[SupportsIndex] = (), hashes: Iterable[SupportsIndex] = ()) -> None:
        """Checks a step over these literals. A lemma or a failed core needs the hashes of clauses, in the order of propagation; unit
        clauses are known without."""
        self._call("check_step", ctypes.c_uint8(Step(step)), *literals(lits, "the step"), *words(hashes, "a hash"))

    def unsat(self) -> bool:
        """Whether unsatisfiability is recorded: then no assignment satisfies the clauses, and no later query has a model."""
        return self._ask("unsat", ctypes.c_bool)
