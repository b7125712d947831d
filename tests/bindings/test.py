"""The Python package by its library: real input, wrong proofs, nothing, each kind of bytes, several threads, and the command.

test.py CNF LRAT
"""

import array
import concurrent.futures
import doctest
import mmap
import os
import resource
import subprocess
import sys
import tempfile

import cefindrato

FOUR = b"1 2 0 1 -2 0 -1 2 0 -1 -2 0"


def answer(cnf, proof):
    try:
        return cefindrato.check(cnf, proof)
    except cefindrato.Fault as why:
        return str(why)


def refused(call, *arguments, **named):
    try:
        return call(*arguments, **named)
    except cefindrato.Fault as why:
        return str(why)


def of_drat():
    assert cefindrato.check_drat(FOUR, b"1 0\n0\n") == (True, None, None)
    former = cefindrato.check_drat(FOUR, b"1 0\n0\n", format="told")
    assert former == (True, None, None)
    assert cefindrato.check_drat(FOUR, b"a\x02\x00a\x00").verified is True
    assert cefindrato.check_drat(b"1 2 0", b"", lrat=True, core=True) == (False, None, None)
    checked = cefindrato.check_drat(b"3 0 " + FOUR, b"1 0\n0\n", format="drat", lrat=True, core=True)
    assert cefindrato.check(b"3 0 " + FOUR, checked.lrat) is True
    assert checked.core == b"p cnf 2 4\n1 2 0\n1 -2 0\n-1 2 0\n-1 -2 0\n"
    assert refused(cefindrato.check_drat, FOUR, b"1 x\n") == "proof: step 1: malformed"
    # one line of hints, longer than the room that is tried first
    chain = "".join(f"-{var} {var + 1} 0\n" for var in range(1, 200000))
    cnf = f"1 0\n{chain}-200000 0\n".encode()
    lines = cefindrato.check_drat(cnf, b"", lrat=True).lrat
    assert len(lines) > 1 << 20 and cefindrato.check(cnf, lines) is True


def of_models():
    said = b"s SATISFIABLE\nv 1 2 0\n"
    assert cefindrato.check_model(b"1 2 0", said) == (True, None, None)
    assert cefindrato.check_model(b"1 2 0\n-1 -2 0\n", said) == (False, 2, 2)
    assert refused(cefindrato.check_model, b"1 x", said) == "formula: line 1: bad number"


class Index:
    """An int as numpy has it."""

    def __init__(self, number):
        self.number = number

    def __index__(self):
        return self.number

    def __repr__(self):
        return f"Index({self.number})"


def names(wanted, call, *arguments):
    """A call has to be a ValueError that says this."""
    try:
        answer = call(*arguments)
    except ValueError as why:
        assert str(why).startswith(wanted), why
        return
    raise AssertionError(f"{call.__name__} of {arguments!r}: {answer!r}")


def of_numbers():
    """What is an int for `operator.index` is a number, and bools, bytes, texts and rows of a table are none. A list may be anything that
    gives numbers, and what it raises itself comes through."""
    rows = [[1, 2], [3, 4]]
    with cefindrato.Session() as session, cefindrato.Checker() as checker:
        session.give(Index(1), [Index(1), Index(-2)])
        session.give(2, array.array("i", [2]))
        session.derive(Index(3), (Index(it) for it in (1,)), {1: None, 2: None})
        session.fails([Index(-1)], [-1], [Index(3)])
        checker.add_clause([Index(1), 2])
        checker.check_step(cefindrato.Step.AT_CLAUSE, [1, 2, 3], [Index(cefindrato.clause_hash([1, 2]))])
        calls = [
            (lambda it: session.give(9, it), "the clause"),
            (lambda it: session.derive(9, it, []), "the lemma"),
            (lambda it: session.fails(it, []), "the assumptions"),
            (lambda it: session.fails([1], it), "the core"),
            (lambda it: session.satisfies([], it), "the model"),
            (checker.add_clause, "the clause"),
            (lambda it: checker.check_step(cefindrato.Step.MODEL, it), "the step"),
            (cefindrato.clause_hash, "the clause"),
        ]
        for call, what in calls:
            names(f"True is no literal, in {what} [True, 2]: literals are whole numbers", call, [True, 2])
            names(f"[1, 2] is no literal, in {what} [[1, 2], [3, 4]]", call, rows)
            names(f"1.0 is no literal, in {what} [1.0]", call, [1.0])
            names(f"'1' is no literal, in {what} ['1']", call, ["1"])
            names(f"{what} is no list of literals: '12'", call, "12")
            names(f"{what} is no list of literals: b'\\x01\\x02'", call, b"\x01\x02")
            names(f"{what} is no list of literals: None", call, None)
            try:
                call(1 // (it - 1) for it in (2, 1))
            except ZeroDivisionError:
                continue
            raise AssertionError("what the caller's generator raises is hidden")
        for call in (session.delete, lambda it: session.derive(9, [1], it), lambda it: checker.check_step(cefindrato.Step.END, [], it)):
            names("True is no whole number, in the list [True]", call, [True])
            names("the list is no list of whole numbers: b'1'", call, b"1")
            assert refused(call, [2**64]).endswith("has more than 64 bits or a sign")
        names("False is no whole number", session.give, False, [1])
        # the session is as it was
        assert refused(session.satisfies, [], [1]) == "the model has no literal of clause 2"
        session.satisfies([], [2, 1])
    for it in 0, 2**28 + 1, -(2**40):
        names(f"{it} is no literal, in the clause [{it}]", cefindrato.clause_hash, [it])
    assert cefindrato.clause_hash([Index(1), -2]) == cefindrato.clause_hash([1]) ^ cefindrato.clause_hash([-2])


def of_generators():
    """What a caller's own generator raises is not taken for a fault of its list, not even a TypeError."""

    def raising(*given):
        yield from given
        raise TypeError("the caller's own")

    calls = [
        lambda: cefindrato.check_unsat(raising([1]), ["0"]),
        lambda: cefindrato.check_unsat([raising(1)], ["0"]),
        lambda: cefindrato.check_unsat([[1]], raising("0")),
        lambda: cefindrato.check_sat([[1]], raising(1)),
        lambda: cefindrato.clause_hash(raising(1)),
        lambda: cefindrato.Session().give(1, raising(1)),
    ]
    for call in calls:
        try:
            answer = call()
        except TypeError as why:
            assert str(why) == "the caller's own", why
            continue
        raise AssertionError(answer)


def of_threads():
    """Four threads in one object: one waits for the other, and all that each gave is there. Without that this process ends."""
    with cefindrato.Session() as session, cefindrato.Checker() as checker, concurrent.futures.ThreadPoolExecutor(4) as pool:

        def gives(number):
            for at in range(5000):
                variable = 5000 * number + at + 1
                session.give(variable, [variable])
                checker.add_clause([variable, 1])
                checker.unsat()

        for _ in pool.map(gives, range(4)):
            pass
        session.satisfies([], range(1, 20001))
        assert refused(session.satisfies, [], range(1, 20000)).startswith("the model has no literal of clause ")
        checker.check_step(cefindrato.Step.MODEL, [1])

        def restarts(number):
            for _ in range(500):
                session.close() if number % 2 else session.__init__()

        for _ in pool.map(restarts, range(4)):
            pass


class Unbegun(cefindrato.Session):
    """A subclass that does not begin what it has."""

    def __init__(self):
        pass


def of_lives():
    """An object that is begun again frees what it had; one that was never begun is none."""
    session = cefindrato.Session()
    wide = range(1, 200001)
    session.give(1, wide)
    before = resource.getrusage(resource.RUSAGE_SELF).ru_maxrss
    for _ in range(60):
        session.__init__()
        session.give(1, wide)
    assert resource.getrusage(resource.RUSAGE_SELF).ru_maxrss - before < 30000
    session.satisfies([], [200000])
    unbegun = Unbegun()
    assert refused(unbegun.give, 1, [1]) == "there is no session"
    unbegun.close()
    program = "import cefindrato\nclass Mine(cefindrato.Checker):\n    def __init__(self): pass\nMine()\nMine().close()\n"
    ran = subprocess.run([sys.executable, "-c", program], capture_output=True, text=True)
    assert (ran.returncode, ran.stdout, ran.stderr) == (0, "", ""), ran


def of_sessions():
    with cefindrato.Session() as session:
        session.give(1, [1, 2])
        session.give(2**64 - 1, [-1])
        assert refused(session.give, 1, [3]) == "id is taken"
        assert refused(session.give, 3, [0]) == refused(session.give, 3, [2**40]) == "a number is no literal"
        session.derive(3, [2], [2**64 - 1, 1])
        assert refused(session.derive, 4, [-3], []) == "hints end without a conflict"
        session.fails([-2, 3], [-2], [3])
        assert refused(session.fails, [3], [-2], [3]) == "a literal of the core was not assumed"
        session.satisfies([2], [2, -1])
        assert refused(session.satisfies, [], [2]) == "the model has no literal of clause 2"
        session.delete([3, 9])
        assert refused(session.fails, [-2], [-2], [3]) == "no clause has the id of a hint"
        with cefindrato.Session() as other:
            other.satisfies([], [])
        session.fails([-2], [-2], [2**64 - 1, 1])
    assert refused(session.give, 1, [1]) == "there is no session"
    session.close()


def of_checkers():
    ran = doctest.testmod(cefindrato.checker)
    assert ran.attempted and not ran.failed
    step, named = cefindrato.Step, cefindrato.clause_hash
    with cefindrato.Checker() as checker:
        checker.add_clause([1, 2])
        checker.check_step(step.ADD_CLAUSE, [1, -2, 3])
        assert refused(checker.add_clause, [0]) == refused(checker.add_clause, [2**40]) == "a number is no literal"
        assert refused(checker.check_step, step.END, [], [-1]) == "a hash has more than 64 bits or a sign"
        checker.check_step(step.AT_CLAUSE, [1, 3], [named([2, 1, 2]), named([-2, 3, 1])])
        assert refused(checker.check_step, step.AT_CLAUSE, [-3], []) == "step 3: AT check failed"
        checker.check_step(step.DELETE_SIMPLIFIED, [1, -2, 3])
        checker.check_step(step.ASSUMPTIONS, [-1, -3, 4])
        assert refused(checker.check_step, step.FAILED_ASSUMPTIONS, [-2]) == "step 6: failed core contains non-assumed variables"
        checker.check_step(step.FAILED_ASSUMPTIONS, [-1, -3], [named([1, 3])])
        assert refused(checker.check_step, step.MODEL, [2]) == "step 8: model does not contain assumption"
        with cefindrato.Checker() as other:
            other.check_step(step.MODEL)
        checker.check_step(step.ASSUMPTIONS)
        checker.check_step(step.MODEL, [3, 2])
        assert checker.unsat() is False
        checker.add_clause([])
        assert checker.unsat() is True
    assert refused(checker.add_clause, [1]) == "there is no checker" and checker.unsat() is False
    checker.close()
    try:
        checker.check_step(11)
    except ValueError:
        return
    raise AssertionError("11 is no kind of step")


def of_bytes(cnf_name, text):
    """Each kind of bytes has the same answer, and what has none is no text."""
    with open(cnf_name, "rb") as file, mmap.mmap(file.fileno(), 0, access=mmap.ACCESS_READ) as mapped:
        formula = bytes(mapped)
        for kind in (bytes, bytearray, memoryview, lambda it: memoryview(bytearray(b"1 2 0" + it))[5:]):
            assert cefindrato.check(kind(formula), kind(text)) is True
            assert cefindrato.check(mapped, kind(text)) is True
    for kind in (bytes, bytearray, memoryview):
        assert cefindrato.check(kind(b""), kind(b"")) is False
    held = bytearray(FOUR)
    assert cefindrato.check(held, b"5 1 0 1 2 0\n6 0 5 3 4 0\n") is True
    assert cefindrato.check(held, b"a\x05\x02\0\x02\x04\0a\x06\0\x0a\x06\x08\0") is True
    held.extend(b" ")
    for wrong in (FOUR.decode(), 5, None, [1], memoryview(FOUR)[::2]):
        try:
            cefindrato.check(wrong, b"")
        except (TypeError, BufferError):
            continue
        raise AssertionError(wrong)


def of_command(cnf_name, proof_name):
    """The command says what the programs say."""

    def ran(*words):
        ended = subprocess.run([sys.executable, "-B", "-m", "cefindrato", *words], capture_output=True, text=True)
        return ended.returncode, ended.stdout, ended.stderr

    with tempfile.TemporaryDirectory() as folder:
        names = {name: os.path.join(folder, name) for name in ("four.cnf", "proof.drat", "model", "lrat", "core")}
        for name, text in ("four.cnf", FOUR), ("proof.drat", b"1 0\n0\n"), ("model", b"s SATISFIABLE\nv 1 2 0\n"):
            with open(names[name], "wb") as file:
                file.write(text)
        four, drat, model, lrat, core = names.values()
        assert ran("lrat", cnf_name, proof_name) == (0, "s VERIFIED UNSAT\n", "")
        assert ran("drat", four, drat, "--lrat", lrat, "--core", core) == (0, "s VERIFIED UNSAT\n", "")
        assert ran("lrat", four, lrat)[0] == 0 and ran("drat", core, drat, "--drat")[0] == 0
        assert ran("drat", four, model) == (1, "", "proof: step 1: malformed\n")
        told = "formula: line 1: clause 4 has no literal of the answer\n"
        assert ran("model", four, model) == (3, "s NOT VERIFIED\n", told)
        assert ran("model", folder + "/none", model)[0] == 2 and ran("lrat", four)[0] == 2
        for flag in "--version", "-V":
            assert ran(flag)[:2] == (0, f"cefindrato {cefindrato.__version__}\n")
        of_outputs(ran, folder, four, drat)


def of_outputs(ran, folder, four, drat):
    """No file that is read is written over, whatever name is given for it, nor one output by the other."""
    inside, linked, hard = (os.path.join(folder, name) for name in ("inside", "linked", "hard"))
    os.mkdir(inside)
    before = {}
    for name in four, drat:
        with open(name, "rb") as file:
            before[name] = file.read()
    for name in before:
        for link, make in (linked, os.symlink), (hard, os.link):
            if os.path.lexists(link):
                os.unlink(link)
            make(name, link)
        for other in name, f"{inside}/../{os.path.basename(name)}", linked, hard:
            for flag in "--lrat", "--core":
                status, out, err = ran("drat", four, drat, flag, other)
                assert (status, out) == (2, "") and f"cannot write {other}: {name} is the same file" in err, err
    status, out, err = ran("drat", four, drat, "--lrat", inside + "/one", "--core", inside + "/one")
    assert (status, out, os.listdir(inside)) == (2, "", []) and "is the same file" in err, err
    assert ran("drat", four, drat, "--lrat", "-")[:2] == (2, "")
    for name, text in before.items():
        with open(name, "rb") as file:
            assert file.read() == text, name


def main(cnf_name, proof_name):
    assert answer(FOUR, b"5 1 0 1 2 0\n6 0 5 3 4 0\n") is True
    assert answer(FOUR, b"5 1 0 1 2 0\n") is False
    assert answer(b"", b"") is False
    assert answer(FOUR, b"5 1 0 1 2 0\n6 0 5 3 0\n") == "proof: line 2: hints end without a conflict"
    with open(cnf_name, "rb") as cnf, open(proof_name, "rb") as proof:
        formula, text = cnf.read(), proof.read()
    cut = text[: len(text) // 2]
    unfinished = f"proof: line {cut.count(10) + 1}: unfinished line"
    assert answer(formula, text) is True
    assert answer(formula, cut) == unfinished
    with concurrent.futures.ThreadPoolExecutor(8) as pool:
        answers = list(pool.map(lambda n: answer(formula, cut if n % 2 else text), range(32)))
    assert answers == [True, unfinished] * 16
    of_drat()
    of_models()
    of_sessions()
    of_numbers()
    of_generators()
    of_threads()
    of_lives()
    of_checkers()
    of_bytes(cnf_name, text)
    of_command(cnf_name, proof_name)
    assert cefindrato.library.version() == cefindrato.__version__


main(*sys.argv[1:])
