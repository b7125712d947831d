"""What `model_check` says of answers, by the definition.

answers.py PROGRAM solved CNF ANSWER      a solver's answer to a formula, and damaged copies of it
answers.py PROGRAM random COUNT SEED      random formulas and lists of literals

The definition: each clause has a literal of the list, and the list has no two opposite ones. Where a clause has none, the first
such clause is named, with the line on which its 0 stands. A formula that has fewer clauses than its header says, or without a
header none, has no verdict.
"""

import random
import subprocess
import sys
import tempfile
from pathlib import Path

sys.path.append(str(Path(__file__).resolve().parent.parent))

import dimacs  # noqa: E402

VERIFIED, NOT_VERIFIED = "s VERIFIED SAT\n", "s NOT VERIFIED\n"


class Tries:
    def __init__(self, program, folder):
        self.program, self.folder, self.wrong, self.tried = program, Path(folder), 0, 0

    def run(self, cnf, answer):
        (self.folder / "cnf").write_text(cnf)
        (self.folder / "answer").write_text(answer)
        done = subprocess.run([self.program, "cnf", "answer"], cwd=self.folder, capture_output=True, text=True)
        return done.returncode, done.stdout, done.stderr.partition("\n")[0]

    def wants(self, name, cnf, answer, *wanted):
        self.tried += 1
        said = self.run(cnf, answer)
        if said != wanted:
            self.wrong += 1
            print(f"{name}: {said}, and not {wanted}\n{cnf[:300]}\n{answer[:300]}")

    def judged(self, name, clauses, literals):
        """A list after a status line, in `v` lines of some literals each."""
        parts = [literals[i : i + 7] for i in range(0, len(literals), 7)]
        text = "".join(f"v {' '.join(map(str, part))}\n" for part in parts)
        lines, rows = range(1, len(clauses) + 1), [2 + place // 7 for place in range(len(literals))]
        self.wants(name, dimacs.lines(clauses), f"s SATISFIABLE\n{text}v 0\n", *definition(clauses, literals, lines, rows))

    def spread(self, name, clauses, literals, source):
        """The clauses with any blanks, line ends and comments between their numbers."""
        text, lines, said = spread(clauses, source)
        wanted = definition(clauses, literals, lines, [1] * len(literals), said)
        self.wants(name, text, " ".join(map(str, [*literals, 0])), *wanted)

    def refused(self, name, cnf, answer, line, why):
        self.wants(name, cnf, answer, 1, "", f"answer: line {line}: {why}")


def spread(clauses, source):
    """A text of the clauses, the line on which each ends, and how many the header says, where there is one."""
    count = len(clauses) + source.choice((0, 0, 0, 1, 2))
    said = count if source.random() < 0.5 else None
    text = source.choice(("", "c 1 0\n")) if said is None else source.choice((f"p cnf 9 {said}\n", f" p  cnf 09 0{said}\r\n\nc\n"))
    lines = []
    for clause in clauses:
        for number in [*clause, 0]:
            text += source.choice((f"{number}", f"{number:03}")) if number >= 0 else f"{number}"
            if number == 0:
                lines.append(text.count("\n") + 1)
            text += source.choice((" ", "\n", "\t \r", "\n\n", "\nc 0 2 0\n", " \n \tc 0\n"))
    return text.rstrip() if source.random() < 0.5 else text, lines, said


def definition(clauses, literals, lines, rows, said=None):
    """What is said, where the clauses end on these lines, the literals stand on those, and a header says this many clauses."""
    seen = set()
    for literal, row in zip(literals, rows):
        if -literal in seen:
            return 1, "", f"answer: line {row}: both signs of a variable"
        seen.add(literal)
    if said is None and not clauses:
        return 1, "", "formula: it has neither a header nor a clause"
    if said is not None and len(clauses) < said:
        return 1, "", f"formula: it ends after {len(clauses)} of {said} clauses"
    for number, clause in enumerate(clauses, 1):
        if not any(it in seen for it in clause):
            return 3, NOT_VERIFIED, f"formula: line {lines[number - 1]}: clause {number} has no literal of the answer"
    return 0, VERIFIED, ""


def read_formula(text):
    numbers = [int(it) for line in text.splitlines() if line[:1] not in ("c", "p") for it in line.split()]
    clauses, clause = [], []
    for number in numbers:
        if number:
            clause.append(number)
        else:
            clauses.append(clause)
            clause = []
    return clauses


def solved(tries, cnf_name, answer_name):
    cnf, answer = Path(cnf_name).read_text(), Path(answer_name).read_text()
    clauses = read_formula(cnf)
    literals = [int(it) for line in answer.splitlines() if line[:1] == "v" for it in line.split()[1:]]
    assert literals.pop() == 0
    tries.judged("as it is", clauses, literals)
    tries.wants("bare", cnf, " ".join(map(str, [*literals, 0])), 0, VERIFIED, "")
    for place in range(0, len(literals), 5):
        before, literal, after = literals[:place], literals[place], literals[place + 1 :]
        tries.judged(f"turned {literal}", clauses, [*before, -literal, *after])
        tries.judged(f"without {literal}", clauses, before + after)
        tries.judged(f"both signs of {literal}", clauses, literals + [-literal])
    turned = [-it for it in literals]
    tries.judged("a last clause that is not met", clauses + [turned], literals)
    tries.judged("a last clause that is empty", clauses + [[]], literals)
    tries.judged("no literal", clauses, [])
    lines = answer.splitlines(keepends=True)
    status = next(i for i, line in enumerate(lines) if line[0] == "s")
    last = max(i for i, line in enumerate(lines) if line[0] == "v")
    for word, why in (
        ("UNSATISFIABLE", "the answer is UNSATISFIABLE"),
        ("UNKNOWN", "the answer is UNKNOWN"),
        ("SATISFIABL", "malformed"),
    ):
        other = [*lines[:status], f"s {word}\n", *lines[status + 1 :]]
        tries.refused(word, cnf, "".join(other), status + 1, why)
    tries.refused("no status", cnf, "".join(line for line in lines if line[0] == "v"), last - status + 1, "no status line")
    for end in range(1, last + 1):
        tries.refused("cut", cnf, "".join(lines[:end]), end + 1, "the answer ends before its last 0")
    tries.refused("cut in its last line", cnf, "".join(lines[: last + 1])[:-2], last + 1, "the answer ends before its last 0")
    tries.refused("more numbers", cnf, answer + "v 1 0\n", len(lines) + 1, "a number after the last one")


def drawn(tries, count, seed):
    source = random.Random(seed)
    for _ in range(count):
        variables = source.randint(1, 6)
        clauses = [
            [source.choice((1, -1)) * source.randint(1, variables) for _ in range(source.randint(1, 3))]
            for _ in range(source.randint(0, 5))
        ]
        names = source.sample(range(1, variables + 1), source.randint(0, variables))
        literals = [source.choice((1, -1)) * it for it in names]
        if literals and source.random() < 0.2:
            literals.append(source.choice((1, -1)) * source.choice(literals))
        tries.judged("random", clauses, literals)
        tries.spread("random, spread", clauses, literals, source)


def main(program, mode, *words):
    with tempfile.TemporaryDirectory() as folder:
        tries = Tries(program, folder)
        if mode == "solved":
            solved(tries, *words)
        else:
            drawn(tries, *map(int, words))
    print(f"{mode}: {tries.tried} tried, {tries.wrong} wrong")
    return 1 if tries.wrong else 0


if __name__ == "__main__":
    sys.exit(main(*sys.argv[1:]))
