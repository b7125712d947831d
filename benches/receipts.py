"""Seconds of a processor and megabytes of `join_check` for the receipts of 2^17 cubes over a large formula, and of one pass of SHA-256 over it.

    receipts.py JOIN_CHECK FOLDER [MEGABYTES [INSTRUCTIONS]]

The clauses are random. The cubes are all values of 17 variables, and then the leaves of a tree of as many leaves, whose lengths differ;
each part and the closing part has a receipt, whoever wrote it. The pass is OpenSSL's, and `join_check`'s without cubes. With a fourth
word callgrind counts instructions too.
"""

import hashlib
import itertools
import os
import random
import re
import subprocess
import sys

BITS = 17
VARIABLES = 1_000_000


def spent(words, **how):
    """The seconds of a processor, megabytes and output of a command."""
    ran = subprocess.Popen(words, stdout=subprocess.PIPE, text=True, **how)
    said = ran.stdout.read()
    _, _, usage = os.wait4(ran.pid, 0)
    return usage.ru_utime + usage.ru_stime, usage.ru_maxrss / 1024, said


def counted(words):
    """How many instructions a command takes."""
    valgrind = ["valgrind", "--tool=callgrind", "--callgrind-out-file=/dev/null"]
    ran = subprocess.run([*valgrind, *words], stdout=subprocess.DEVNULL, stderr=subprocess.PIPE, text=True)
    return int(re.search("Collected : ([0-9]+)", ran.stderr).group(1))


def leaves(dice, count, path=()):
    """The cubes of a tree, each node of which has a third to two thirds of its leaves on one side."""
    if count == 1:
        yield path
        return
    third = max(1, count // 3)
    left, name = dice.randint(third, count - third), len(path) + 1
    yield from leaves(dice, left, (*path, name))
    yield from leaves(dice, count - left, (*path, -name))


class Formula:
    """A formula in a file."""

    def __init__(self, dice, folder, megabytes):
        clauses = [f"{dice.randrange(1, VARIABLES)} -{dice.randrange(1, VARIABLES)} {dice.randrange(1, VARIABLES)} 0\n" for _ in range(10_000)]
        rounds = megabytes * 1_000_000 // sum(map(len, clauses))
        self.body = f"{VARIABLES} 1 0\n" + "".join(clauses) * rounds
        self.folder, self.name = folder, f"{folder}/formula.cnf"
        with open(self.name, "w") as to:
            to.write(f"p cnf {VARIABLES} {1 + rounds * len(clauses)}\n{self.body}")

    def split(self, kind, cubes):
        """Writes cubes, and the receipts of all parts."""
        with open(f"{self.folder}/cubes.{kind}", "w") as to:
            to.writelines(f"{' '.join(map(str, cube))} 0\n" for cube in cubes)
        part = hashlib.sha256(self.body.encode())
        closing = part.copy()
        closing.update("".join(f"{' '.join(str(-lit) for lit in cube)} 0\n" for cube in cubes).encode())
        with open(f"{self.folder}/receipts.{kind}", "w") as to:
            for cube in cubes:
                own = part.copy()
                own.update("".join(f"{lit} 0\n" for lit in cube).encode())
                to.write(f"refuted sha256 {own.hexdigest()}\n")
            to.write(f"refuted sha256 {closing.hexdigest()}\n")


def main(join_check, folder, megabytes="100", *instructions):
    dice = random.Random(1)
    formula = Formula(dice, folder, int(megabytes))
    formula.split("equal", list(itertools.product(*((n, -n) for n in range(1, BITS + 1)))))
    formula.split("tree", list(leaves(dice, 2**BITS)))
    seconds, _, _ = spent(["openssl", "dgst", "-sha256", formula.name])
    print(f"openssl dgst -sha256: {seconds:.2f} s")
    for kind in "equal", "tree":
        words = [join_check, formula.name, f"{folder}/receipts.{kind}"]
        for options in ([], ["--cubes", f"{folder}/cubes.{kind}"]):
            call = [*words, *options]
            seconds, room, said = spent(call, stderr=subprocess.DEVNULL)
            more = f", {counted(call):,} instructions" if instructions else ""
            print(f"join_check{' --cubes' * bool(options)}, {kind}: {seconds:.2f} s{more}, {room:.0f} MB: {said.strip()}")


main(*sys.argv[1:])
