#!/usr/bin/env python3
"""Sessions by `session_check --alone`: those that were judged, and small ones, right and damaged.

alone.py PROGRAM SESSIONS FOLDER FROM TO

What the proof itself says of the application is its interaction: with that, `sessions` has to show all answers of each session of
FOLDER where the program does, and of the sessions of seed FROM to TO - 1. What the program shows has to be true of all assignments.
Proofs with a line `U` are not compared: of several cores the first counts, where `sessions` takes a later one too.
"""

import random
import re
import subprocess
import sys
import tempfile

from called import Called
from fuzz import Maker, damaged, true_answers


def interaction(proof):
    """What a proof says of the application: a model and a core as they were told."""
    lines = ["p icnf"]
    for line in proof[1:]:
        kind, *words = line.split()
        literals = words[: words.index("0") + 1] if "0" in words else words
        if kind == "i":
            lines.append(" ".join(["i", *literals[1:]]))
        elif kind in "qs":
            lines.append(line)
        elif kind in "mu":
            lines.append(" ".join(["v" if kind == "m" else "f", *literals]))
    return lines


class Both:
    """The program, and the script."""

    def __init__(self, program, sessions, folder):
        self.program, self.called, self.folder = program, Called(sessions), folder
        self.count, self.shown, self.wrong = 0, 0, 0

    def put(self, name, lines):
        with open(f"{self.folder}/{name}", "w", encoding="ascii") as file:
            file.write("\n".join([*lines, ""]))
        return f"{self.folder}/{name}"

    def run(self, proof):
        """The exit status, and the numbers of the queries whose answers are shown."""
        ran = subprocess.run([self.program, "--alone", self.put("proof", proof)], capture_output=True, text=True, check=False)
        return ran.returncode, [int(it) for it in re.findall(r"^q (\d+) \w+: shown$", ran.stdout, re.M)], ran.stdout + ran.stderr

    def compare(self, what, proof):
        said, several = interaction(proof), any(line.startswith("U") for line in proof)
        status, shown, printed = self.run(proof)
        other, others = self.called.check(self.put("icnf", said), self.put("proof", proof))
        self.count += 1
        self.shown += status == 0
        # (of no query the program says that there is none, and the script, by its status, that no answer was seen)
        is_shown = other == (0 if any(line.startswith("q") for line in said) else 3)
        if (status == 0) != is_shown and not several:
            self.report(f"{what}: status {status}, and that of sessions is {other}: {others}", proof, printed)
        asked = [line for line in said if not several or line[:1] != "f"]
        if status in (0, 3) and len(said) < 150 and not all(it for place, it in enumerate(true_answers(asked), 1) if place in shown):
            self.report(f"{what}: a wrong answer is shown", proof, printed)

    def report(self, what, proof, printed):
        self.wrong += 1
        print(what, *proof, printed, sep="\n")


def main(program, sessions, judged, first, last):
    with tempfile.TemporaryDirectory() as folder:
        both = Both(program, sessions, folder)
        with open(f"{judged}/list", encoding="ascii") as file:
            proofs = [line.split()[1] for line in file]
        for name in proofs:
            if name.endswith(".lidrup"):
                with open(f"{judged}/{name}", encoding="ascii") as file:
                    both.compare(name, file.read().splitlines())
        for seed in range(int(first), int(last)):
            made = Maker(seed)
            both.compare(f"seed {seed}", made.hinted)
            both.compare(f"seed {seed}, damaged", damaged(random.Random(-seed), made.hinted))
    print(f"{both.count} sessions, {both.shown} of them shown by both; {both.wrong} wrong")
    return both.wrong > 0 or both.shown == 0


if __name__ == "__main__":
    sys.exit(main(*sys.argv[1:]))
