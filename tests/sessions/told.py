#!/usr/bin/env python3
"""Interactions with their proofs by `session_check`: those that were judged, and small ones, right and damaged.

told.py PROGRAM SESSIONS FOLDER FROM TO

Where `sessions` shows all answers of an interaction, the program has to, by the proof and by its binary form, of which it must say the
same. What the program shows has to be true of all assignments, with the values and cores that were reported: of the sessions of FOLDER,
and those of seed FROM to TO - 1, also where the interaction or its proof is damaged. Of several cores behind a line `U` the first counts,
where `sessions` takes a later one too.
"""

import random
import re
import subprocess
import sys
import tempfile

import binary
from called import Called
from fuzz import Maker, damaged, true_answers


def text(lines):
    return "\n".join([*lines, ""])


class Both:
    """The program, and the script."""

    def __init__(self, program, sessions, folder):
        self.program, self.called, self.folder = program, Called(sessions), folder
        self.count, self.shown, self.binary, self.wrong = 0, 0, 0, 0

    def put(self, name, data):
        with open(f"{self.folder}/{name}", "wb") as file:
            file.write(data)
        return f"{self.folder}/{name}"

    def run(self, said, proof):
        """The exit status, and what is written to both streams."""
        names = self.put("icnf", text(said).encode()), self.put("proof", proof)
        ran = subprocess.run([self.program, *names], capture_output=True, text=True, check=False)
        return ran.returncode, ran.stdout, ran.stderr

    def compare(self, what, said, proof):
        found = self.run(said, text(proof).encode())
        twin = binary.twin(text(proof))
        if twin is not None:
            self.binary += 1
            other = self.run(said, twin)
            if other != found:
                self.report(f"{what}: of the binary form another thing is said: {other}", said, proof, found)
        status, others = self.called.check(self.put("icnf", text(said).encode()), self.put("proof", text(proof).encode()))
        self.count += 1
        self.shown += found[0] == 0
        if status == 0 and found[0] != 0 and not any(line.startswith("U") for line in proof):
            self.report(f"{what}: sessions shows all: {others}", said, proof, found)
        if found[0] in (0, 3) and not self.is_true(said, found[1]):
            self.report(f"{what}: a wrong answer is shown", said, proof, found)

    def is_true(self, said, printed):
        if len(said) > 150:
            return True
        shown = [int(it) for it in re.findall(r"^q (\d+) \w+: shown$", printed, re.M)]
        return all(it for place, it in enumerate(true_answers(said), 1) if place in shown)

    def report(self, what, said, proof, printed):
        self.wrong += 1
        print(what, *said, *proof, printed, sep="\n")


def lines_of(name):
    with open(name, encoding="ascii") as file:
        return file.read().splitlines()


def judged_ones(folder):
    for line in lines_of(f"{folder}/list"):
        said, proof = line.split()[:2]
        if proof.endswith(".lidrup"):
            yield proof, lines_of(f"{folder}/{said}"), lines_of(f"{folder}/{proof}")


def main(program, sessions, judged, first, last):
    with tempfile.TemporaryDirectory() as folder:
        both = Both(program, sessions, folder)
        for name, said, proof in judged_ones(judged):
            both.compare(name, said, proof)
        for seed in range(int(first), int(last)):
            made, chance = Maker(seed), random.Random(-seed)
            both.compare(f"seed {seed}", made.said, made.hinted)
            both.compare(f"seed {seed}, another proof", made.said, damaged(chance, made.hinted))
            both.compare(f"seed {seed}, another interaction", damaged(chance, made.said), made.hinted)
    print(f"{both.count} interactions, {both.shown} of them shown, {both.binary} by binary proofs too; {both.wrong} wrong")
    return both.wrong > 0 or not both.shown or not both.binary


if __name__ == "__main__":
    sys.exit(main(*sys.argv[1:]))
