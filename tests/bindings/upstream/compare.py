"""Compares the crate varisat-checker with the program varisat_check.

    compare.py PROOFS VARISAT_CHECK DATA COUNT

PROOFS is the program of proofs.rs. Both have to say the same, and to write the same LRAT text: over
each proof in DATA, over COUNT copies of it, each with one to three bytes changed, put in or left
out, and over fifty times as many random proofs.
"""

import os
import random
import re
import subprocess
import sys
import tempfile

import random_proofs


def damaged(proof, chance):
    copy = bytearray(proof)
    for _ in range(chance.randint(1, 3)):
        at = chance.randrange(len(copy))
        near = [0, 1, 2, 3, 5, 10, 13, copy[at] ^ 1, copy[at] ^ 2, chance.randrange(256)]
        kind = chance.randrange(3)
        if kind == 0:
            copy[at] = chance.choice(near)
        elif kind == 1:
            copy.insert(at, chance.choice(near))
        else:
            del copy[at]
    return bytes(copy)


def agree(program, crate):
    """Whether two lines say the same. The program's texts of rejections have no literals."""
    if not program.startswith("step ") or "Checking proof failed" not in program:
        return program == crate
    # (one text has another reason too, and one an article)
    words = program.replace("out of range or ", "").replace(" a user", " user").split()
    left = iter(crate.split())
    return words[1] == crate.split()[1] and all(word in left for word in words)


def write(path, text):
    with open(path, "wb") as file:
        file.write(text)


def read(path):
    if not os.path.exists(path):
        return None
    with open(path, "rb") as file:
        return file.read()


class Comparison:
    """What was said of proofs, and of how many otherwise."""

    def __init__(self, crate, program):
        self.crate, self.program, self.said, self.wrong = crate, program, {}, 0

    def compare(self, what, cnf, proofs):
        """Compares over proofs of one formula."""
        run = subprocess.run([self.crate, cnf, *proofs], capture_output=True, text=True)
        lines = run.stdout.splitlines()
        if run.returncode or len(lines) != len(proofs):
            sys.exit(f"{what}: {run.returncode}, {len(lines)} lines: {run.stderr}")
        for proof, line in zip(proofs, lines):
            wanted, lrat = self.of_program(cnf, proof)
            kind = re.sub(r"^step \d+: (Checking proof failed: )?", "", wanted)
            self.said[kind] = self.said.get(kind, 0) + 1
            written = read(f"{proof}.lrat") if lrat is not None else None
            if not agree(wanted, line) or written != lrat:
                self.wrong += 1
                print(f"WRONG {what}: {line} in place of {wanted}; {written} in place of {lrat}")

    def of_program(self, cnf, proof):
        """The program's line, and its LRAT text of a refutation."""
        line = self.line_of(cnf, proof, f"{proof}.other")
        if line.startswith("Error in proof processor: "):
            # (an LRAT text can't have the clauses that steps add)
            line = self.line_of(cnf, proof)
        return line, read(f"{proof}.other") if line == "s UNSATISFIABLE" else None

    def line_of(self, *files):
        run = subprocess.run([self.program, *files, "--quiet"], capture_output=True, text=True)
        return (run.stdout or run.stderr).splitlines()[0].removeprefix("proof: ")


def main():
    comparison, data, count = Comparison(sys.argv[1], sys.argv[2]), sys.argv[3], int(sys.argv[4])
    chance = random.Random(7)
    with tempfile.TemporaryDirectory() as folder:
        proofs = [os.path.join(folder, str(number)) for number in range(count + 1)]
        for name in sorted(it for it in os.listdir(data) if it.endswith(".proof")):
            whole = read(os.path.join(data, name))
            for number, proof in enumerate(proofs):
                write(proof, damaged(whole, chance) if number else whole)
            cnf = os.path.join(data, name.split(".")[0] + ".cnf")
            comparison.compare(name, cnf, proofs)
        for number in range(50 * count):
            text, proof = random_proofs.made(chance)
            path = os.path.join(folder, f"random{number}")
            write(f"{path}.cnf", text.encode())
            write(path, proof)
            comparison.compare(f"{text!r} {proof.hex()}", f"{path}.cnf", [path])
    said = sorted(comparison.said.items(), key=lambda it: -it[1])
    print(", ".join(f"{count} {what}" for what, count in said))
    sys.exit(comparison.wrong > 0)


main()
