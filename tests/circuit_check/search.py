#!/usr/bin/env python3
"""Random machines by `checked --safe berkeley-abc`, against a search of all states that their runs reach.

search.py COUNT SEED SOLVER      COUNT machines with latches that begin with 0 or 1, constraints, and one bad output or two
"""

import collections
import random
import subprocess
import sys

import aiger
from machines import Machine

ANSWERS = {False: (20, "s VERIFIED SAFE\n"), True: (10, "s VERIFIED REACHED\n")}


def drawn(draw):
    """A machine of one to three inputs, two to four latches and some gates."""
    inputs, latches = draw.randrange(1, 4), draw.randrange(2, 5)
    c = aiger.Circuit(inputs, [(2 * (inputs + 1 + k), 0, 0) for k in range(latches)])
    for _ in range(draw.randrange(4, 12)):
        one, other = (draw.randrange(2, 2 * c.maximum() + 2) for _ in range(2))
        c.both(one, other)

    def literal():
        return draw.randrange(2, 2 * c.maximum() + 2)

    c.latches = [(own, literal(), draw.randrange(2)) for own, _, _ in c.latches]
    c.bad = [c.both(literal(), c.both(literal(), literal())) for _ in range(draw.randrange(1, 3))]
    c.constraints = [c.either(literal(), literal()) for _ in range(draw.randrange(2))]
    return c


def main(count, seed, solver):
    draw = random.Random(int(seed))
    counts, wrong = collections.Counter(), 0
    for number in range(int(count)):
        c = drawn(draw)
        with open("drawn.aig", "wb") as file:
            file.write(aiger.write(c))
        reached = Machine(c).reached()[1]
        ran = subprocess.run(
            ["checked", "--safe", "--refuter", solver, "berkeley-abc", "drawn.aig"],
            capture_output=True,
            text=True,
        )
        counts[reached] += 1
        if (ran.returncode, ran.stdout) != ANSWERS[reached]:
            wrong += 1
            print(
                f"machine {number}: {reached}, but status {ran.returncode}: {ran.stdout}{ran.stderr}{c.show()}"
            )
    print(f"{counts[False]} machines are safe, {counts[True]} are not, {wrong} wrong")
    return 1 if wrong or not all(counts[it] for it in ANSWERS) else 0


sys.exit(main(*sys.argv[1:]))
