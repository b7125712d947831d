"""Damaged proofs of solvers by `drat_check`, each refusal judged by `refusal.py`.

damage.py PROGRAM CNF PROOF NAME

Of the additions some go, or have a literal turned: few, many or most of them; and what is deleted stays, so that nothing is
passed over. A damaged proof may still be verified, since the formula can't be satisfied. Without any addition it shows nothing, and
is only verified if the formula's units show it. Whatever is refused has to be shown to be wrong.
"""

import random
import subprocess
import sys
import tempfile

import refusal
from formulas import drat
from fuzz import is_right


def damaged(steps, share, draw):
    """The additions, of which this share is gone or turned."""
    for _, clause in (it for it in steps if not it[0]):
        if not clause or draw.random() >= share:
            yield False, clause
        elif draw.random() < 0.5:
            at = draw.randrange(len(clause))
            yield False, [-it if n == at else it for n, it in enumerate(clause)]


def main(program, cnf, proof, name):
    steps = refusal.read_proof(proof)
    draw, refused, wrong = random.Random(name), 0, 0
    with tempfile.TemporaryDirectory() as folder:
        path = f"{folder}/drat"
        for share in (0.01, 0.1, 0.5, 0.9, 1):
            with open(path, "w") as file:
                file.write(drat(damaged(steps, share, draw)))
            ran = subprocess.run([program, cnf, path], capture_output=True, text=True, timeout=60)
            answer = ran.returncode, ran.stdout
            refused += answer != (0, "s VERIFIED UNSAT\n")
            is_wrong = answer not in ((0, "s VERIFIED UNSAT\n"), (1, ""), (3, "s NOT VERIFIED\n"))
            if is_wrong or not is_right(cnf, path, ran):
                wrong += 1
                print(f"{name}, damaged by {share}: {answer} {ran.stderr}")
    if not refused:
        print(f"{name}: no damaged proof is refused")
    return 1 if wrong or not refused else 0


if __name__ == "__main__":
    sys.exit(main(*sys.argv[1:]))
