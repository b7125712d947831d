"""The package, as the wheel has it or beside the programs that were built: each shape of a formula, a proof and a model that it
takes, by both kinds of call, and what it refuses.

    wheel.py DATA

What asks for a program that is not there is not tried.
"""

import os
import shutil
import sys
import tempfile

import cefindrato

FOUR = [[1, 2], [1, -2], [-1, 2], [-1, -2]]
TEXT = b"p cnf 2 4\n1 2 0\n1 -2 0\n-1 2 0\n-1 -2 0\n"
WRONG = "proof: step 1: clause is neither RUP nor RAT on its first literal"


class CNF:
    """As PySAT has it."""

    def __init__(self, clauses=FOUR, atmosts=()):
        self.clauses, self.atmosts = clauses, atmosts


class Index:
    """An int as numpy has it."""

    def __init__(self, number):
        self.number = number

    def __index__(self):
        return self.number


def has(name):
    try:
        return bool(cefindrato.where(name))
    except FileNotFoundError:
        return False


def refused(call, *arguments, **named):
    try:
        call(*arguments, **named)
    except cefindrato.Fault as fault:
        return str(fault).splitlines()[0]
    return "no fault"


FORMULAS = (FOUR, CNF(), TEXT, memoryview(TEXT), tuple(map(tuple, FOUR)), [list(map(Index, it)) for it in FOUR])

# What is no formula, and what the refusal names. Of each list of clauses that ends them by 0, a formula with the empty clause would
# be made: unsatisfiable, though the clauses are not.
NO_FORMULAS = (
    ([[1, 2, 0]], "0 is no literal, in clause 1 [1, 2, 0]"),
    ([[1, 2], [-1, 0]], "0 is no literal, in clause 2 [-1, 0]"),
    (CNF([[1, 0]]), "0 is no literal, in clause 1 [1, 0]"),
    ([[0]], "0 is no literal, in clause 1 [0]"),
    ([[Index(0)]], " is no literal, in clause 1 "),
    ([[1], [True]], "True is no literal, in clause 2 [True]"),
    ([[False]], "False is no literal, in clause 1 [False]"),
    ([[1.0]], "1.0 is no literal, in clause 1 [1.0]"),
    ([["1"]], "'1' is no literal, in clause 1 ['1']"),
    ([[None]], "None is no literal, in clause 1 [None]"),
    ([[1 << 28, (1 << 28) + 1]], "268435457 is no literal, in clause 1 [268435456, 268435457]"),
    ([[-(1 << 28) - 1]], "-268435457 is no literal, in clause 1 [-268435457]"),
    ([1, 2, 0], "clause 1 is no list of literals: 1"),
    (["1 2 0"], "clause 1 is no list of literals: '1 2 0'"),
    ([b"1 2 0\n"], "clause 1 is no list of literals: b'1 2 0\\n'"),
    (None, "no formula: None"),
    (5, "no formula: 5"),
    (CNF([[1, 2]], [([1, 2], 1)]), "the formula has atmosts beside its clauses, which are not checked"),
)
NO_PROOFS = (
    (None, "there is no proof: None"),
    ([1, 0], "line 1 of the proof is no text: 1"),
    (["1 0", None], "line 2 of the proof is no text: None"),
    (5, "no proof: 5"),
)
NO_MODELS = (
    (None, "there is no model: None"),
    ([1, -2, 0], "0 is no literal, in the model [1, -2, 0]"),
    ([True], "True is no literal, in the model [True]"),
    ([["1"]], "['1'] is no literal, in the model [['1']]"),
    (5, "the model is no list of literals: 5"),
)


def names(wanted, call, *arguments, **named):
    """A call has to be a ValueError that says this."""
    try:
        answer = call(*arguments, **named)
    except ValueError as why:
        assert wanted in str(why), (wanted, str(why))
        return
    raise AssertionError(f"{call.__name__} of {arguments!r}: {answer!r}")


def of_wrong_lists():
    """No program is asked of these."""
    for formula, wanted in NO_FORMULAS:
        names(wanted, cefindrato.check_unsat, formula, ["0"])
        names(wanted, cefindrato.check_sat, formula, [1])
        names(wanted, cefindrato.solve, formula)
    for proof, wanted in NO_PROOFS:
        names(wanted, cefindrato.check_unsat, FOUR, proof)
        names(wanted, cefindrato.check_unsat, FOUR, proof, kind="lrat")
    for model, wanted in NO_MODELS:
        names(wanted, cefindrato.check_sat, FOUR, model)
    names("the kind of a proof is 'drat' or 'lrat', not 'frat'", cefindrato.check_unsat, FOUR, ["0"], kind="frat")
    names("no format of a proof: 'dart'", cefindrato.check_drat, TEXT, b"", format="dart")


def of_nothing(folder):
    """No call takes None for a text, or a name."""
    cnf = os.path.join(folder, "four.cnf")
    rows = {
        "check": [(None, b""), (TEXT, None)],
        "check_drat": [(None, b""), (TEXT, None)],
        "check_model": [(None, b""), (TEXT, None)],
        "check_sat": [(None, [1]), (TEXT, None)],
        "check_unsat": [(None, ["0"]), (TEXT, None)],
        "solve": [(None,), (TEXT, None)],
        "Running": [(None,), (cnf, None)],
        "where": [(None,)],
    }
    no_texts = ("Checked", "Checker", "Fault", "Model", "OutOfMemory", "Session", "Step", "clause_hash")
    assert sorted(rows) == sorted(it for it in cefindrato.__all__ if it not in no_texts)
    for name, calls in rows.items():
        for arguments in calls:
            try:
                answer = getattr(cefindrato, name)(*arguments)
            except (TypeError, ValueError):
                continue
            raise AssertionError(f"{name} of {arguments!r}: {answer!r}")


def by_drat(folder):
    cnf, drat = os.path.join(folder, "four.cnf"), os.path.join(folder, "-four.drat")
    with open(drat, "w", encoding="ascii") as file:
        file.write("1 0\n0\n")
    for formula in (*FORMULAS, cnf):
        assert cefindrato.check_unsat(formula, ["1 0", "0"]) is True
        assert cefindrato.check_unsat(formula, drat) is True
        assert cefindrato.check_unsat(formula, b"a\x02\x00a\x00") is True
        assert cefindrato.check_unsat(formula, ["1 0"][:0]) is False
    os.chdir(folder)
    assert cefindrato.check_unsat("four.cnf", "-four.drat") is True
    assert cefindrato.check_unsat(FOUR, [b"1 0", "0"]) is True
    assert cefindrato.check_unsat((it for it in FOUR), (it for it in ("1 0", "0"))) is True
    assert refused(cefindrato.check_unsat, FOUR[:3], ["-1 0", "0"]) == WRONG
    # no fault names a file that is gone when it is read
    for arguments, wanted in (
        ((FOUR[:3], ["-1 0", "0"]), f"{WRONG}\nin the proof"),
        ((b"p cnf x\n", drat), "formula: line 1: bad header\nin the formula\nbad header: p cnf x"),
        (("four.cnf", ["x"]), "proof: step 1: malformed\nin the proof"),
    ):
        try:
            cefindrato.check_unsat(*arguments)
        except cefindrato.Fault as why:
            assert str(why) == wanted, why
    assert refused(cefindrato.check_unsat, "none.cnf", drat).startswith("cannot open ")


def by_lrat(folder):
    for formula in (*FORMULAS, os.path.join(folder, "four.cnf")):
        assert cefindrato.check_unsat(formula, ["5 1 0 1 2 0", "6 0 5 3 4 0"], kind="lrat") is True
    assert refused(cefindrato.check_unsat, FOUR, ["1 0", "0"], kind="lrat").startswith("proof: line 1")


def of_models():
    clauses = [[1, 2], [-1, 3], [-2, -3]]
    assert cefindrato.check_sat(clauses, [1, -2, 3]) is True
    assert cefindrato.check_sat(clauses, b"s SATISFIABLE\nv 1 -2 3 0\n") is True
    assert cefindrato.check_sat(clauses, (Index(1), -2, 3)) is True
    assert cefindrato.check_sat(clauses, [1, -2, -3]) is False
    assert cefindrato.check_sat([[1 << 28]], [1 << 28]) is True
    assert refused(cefindrato.check_sat, clauses, [1, -1]) != "no fault"


def by_solver():
    """Each of the few assignments is tried here too."""
    clauses = [[1, 2], [-1, 3], [-2, -3]]
    model = cefindrato.solve(clauses, solver="cadical")
    assert all(any(it in model for it in clause) for clause in clauses) and not any(-it in model for it in model)
    assert cefindrato.solve(CNF(clauses), "cadical", ["--sat"]) is not None
    for formula in FORMULAS:
        assert cefindrato.solve(formula) is None
    # a solver that lies, one that says nothing, and none
    for text, wanted in (
        ("echo 0 > $2; exit 20", "the proof that the solver wrote is not verified"),
        ("echo s SATISFIABLE; echo v 1 -2 0; exit 10", "the answer that the solver wrote is not verified"),
        ("exit 0", "the solver gave no answer: it ended with status 0"),
    ):
        with open("liar", "w", encoding="ascii") as file:
            file.write(f"#!/bin/sh\n{text}\n")
        os.chmod("liar", 0o755)
        try:
            answer = cefindrato.solve(clauses, solver="./liar")
        except cefindrato.Fault as why:
            answer = str(why).splitlines()[-1]
        assert answer == wanted, answer
    assert refused(cefindrato.solve, clauses, solver="./none") == "cannot run ./none"


def of_session():
    """What a session takes: tests/bindings/test.py has the rest."""
    with cefindrato.Session() as session:
        for call in (session.delete, lambda lits: session.give(1, lits), lambda lits: session.satisfies([], lits)):
            try:
                call(None)
            except ValueError:
                continue
            raise AssertionError("None is taken for a list")
        session.give(1, [1])
        session.satisfies([1], [1])


def by_library(data):
    for name in ("board6", "grid5", "par10"):
        with open(f"{data}/{name}.cnf", "rb") as cnf, open(f"{data}/{name}.lrat", "rb") as lrat:
            formula, proof = cnf.read(), lrat.read()
        assert cefindrato.check(formula, proof) is True
        assert cefindrato.check(formula, b"") is False
        assert refused(cefindrato.check, formula, b"x\n" + proof) == "proof: line 1: malformed line"


def while_it_is_written(folder):
    check = cefindrato.Running(os.path.join(folder, "four.cnf"))
    assert check.write(b"5 1 0 1 2 0\n6 0 5 3 4 0\n")
    assert check.finish() is True


with tempfile.TemporaryDirectory() as own:
    with open(os.path.join(own, "four.cnf"), "wb") as four:
        four.write(TEXT)
    of_wrong_lists()
    if has("lrat_check"):
        of_nothing(own)
    if has("drat_check"):
        by_drat(own)
    if has("lrat_check"):
        by_lrat(own)
        while_it_is_written(own)
    if has("model_check"):
        of_models()
    if all(map(has, ("checked", "drat_check", "model_check"))) and shutil.which("cadical"):
        os.chdir(own)
        by_solver()
    of_session()
    by_library(sys.argv[1])
