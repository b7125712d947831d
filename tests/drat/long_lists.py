"""Proofs that delete many clauses with one literal, the oldest first, by `drat_check`.

long_lists.py PROGRAM

What the last steps need comes before the clauses that go. As long as it stays the proof is right by construction; where a part of it
goes first, the next lemma neither follows nor is redundant.
"""

import itertools
import pathlib
import subprocess
import sys
import tempfile

from formulas import dimacs, drat

NEEDED = [[1, 2, 3], [1, 2, -3]]
REST = [[1, -2], [-1, 4], [-1, -4]]


def judged(program, folder, count, more, spoilt):
    """Whether a proof is verified that deletes `count` clauses of the literal 1 and `more` others, and a needed one if it is spoilt."""
    many = [[1, *range(place, place + more)] for place in range(10, 10 + count)]
    gone = [*(NEEDED[:1] if spoilt else []), *many]
    steps = [(True, clause) for clause in gone] + [(False, [1, 2]), (False, [1])]
    cnf, proof = folder / "cnf", folder / "proof"
    cnf.write_text(dimacs([*NEEDED, *many, *REST]))
    proof.write_text(drat(steps))
    ran = subprocess.run([program, cnf, proof], capture_output=True, text=True)
    return ran.stdout == "s VERIFIED UNSAT\n"


def main(program):
    wrong = 0
    with tempfile.TemporaryDirectory() as name:
        for count, more, spoilt in itertools.product((3, 3_000, 20_000), (1, 2), (False, True)):
            if judged(program, pathlib.Path(name), count, more, spoilt) == spoilt:
                print(f"{count} clauses with {more} more literals, {'spoilt' if spoilt else 'right'}: wrong verdict")
                wrong = 1
    return wrong


if __name__ == "__main__":
    sys.exit(main(*sys.argv[1:]))
