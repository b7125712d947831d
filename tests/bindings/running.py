"""Lines that go to `lrat_check` as they are made, from Python.

running.py LRAT_CHECK FORMULA      the formula has the four clauses over two variables
"""

import concurrent.futures
import sys
import time

from cefindrato import Fault, Running


def answer(program, formula, *lines, options=()):
    check = Running(formula, program, options)
    for line in lines:
        check.write(line)
    try:
        return check.finish()
    except Fault as why:
        return str(why)


def ends(check):
    """Whether a write fails, some seconds at most after the checker has got a line at which it ends."""
    for _ in range(200):
        if not check.write(b"c\n"):
            return True
        time.sleep(0.1)
    return False


def main(program, formula):
    assert answer(program, formula, b"5 1 0 1 2 0\n", b"6 0 5 3 4 0\n") is True
    assert answer(program, formula, b"5 1 0 1 2 0\n") is False
    assert answer(program, formula) is False
    assert answer(program, f"{formula}.none") == f"cannot open {formula}.none"
    for last, wanted in ((b"6 0 5 3 0\n", "proof: line 2: hints end without a conflict"), (b"6 0 5 3 4 0\n", True)):
        check = Running(formula, program)
        assert check.write(b"5 1 0 1 2 0\n" + last)
        assert ends(check)
        try:
            assert check.finish() is wanted
        except Fault as why:
            assert str(why) == wanted
    with Running(formula, program) as check:
        assert check.write(memoryview(bytearray(b"5 1 0 1 2 0\n")))
    try:
        check.finish()
        raise AssertionError("a check that was cancelled has a verdict")
    except Fault as why:
        assert str(why) == "cancelled"
    with Running(formula, program) as check:
        assert check.finish() is False
    assert check.finish() is False
    assert answer(program, formula, options=["--no-such-option"]) not in (True, False)
    # the clauses have the ids 1 to 4, and with the second proof 5 too
    proofs = (b"6 0 5 3 0\n", b"5 1 0 1 2 0\n")
    with concurrent.futures.ThreadPoolExecutor(8) as pool:
        answers = list(pool.map(lambda n: answer(program, formula, proofs[n % 2]), range(16)))
    assert answers == ["proof: line 1: no clause has the id of a hint", False] * 8


main(*sys.argv[1:])
