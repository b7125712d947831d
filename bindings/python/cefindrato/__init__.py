"""Proved checkers of SAT solvers' proofs and answers.

    import cefindrato
    cefindrato.check_unsat([[1, 2], [1, -2], [-1, 2], [-1, -2]], ["1 0", "0"])   # DRAT, as PySAT's get_proof() gives it
    cefindrato.check_unsat("formula.cnf", "proof.lrat", kind="lrat")
    cefindrato.check_sat([[1, 2], [-1, 3]], [1, -2, 3])                          # a model, as PySAT's get_model() gives it
    cefindrato.solve([[1, 2], [-1, 3]], solver="cadical")                        # a verified model, or None: there is none

These three run the proved programs, over files, texts or lists; a clause has no 0 behind it. In this process, by the library, `check` checks an LRAT proof against a
formula's text, `check_drat` a DRAT or FRAT proof, and `check_model` a solver's answer. `Running` checks a proof that is still being
written, `Session` each answer of an incremental solver, and `Checker` is the ported checker of varisat's proofs. A Fault says why there
is no verdict.
"""

from .checker import Checker, Step, clause_hash
from .faults import Fault, OutOfMemory
from .library import Checked, Model, check, check_drat, check_model
from .programs import check_sat, check_unsat, solve
from .running import Running, where
from .session import Session

__all__ = [
    "Checked",
    "Checker",
    "Fault",
    "Model",
    "OutOfMemory",
    "Running",
    "Session",
    "Step",
    "check",
    "check_drat",
    "check_model",
    "check_sat",
    "check_unsat",
    "clause_hash",
    "solve",
    "where",
]
__version__ = "0.4.0"
