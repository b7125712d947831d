"""What `join_check` says of receipts, by all assignments.

judge.py JOIN_CHECK COUNT SEED

Of random formulas and cubes over few variables: the text of each part is made here, and gets a receipt `refuted` where no assignment
satisfies it, and else `satisfied`. The program must name the first part without one, and with all of them the formula must have no
model. Then receipts that are wrong: one is left out, has another digest, stands twice, or stands for another text or another formula. Of random
graphs of receipts `carries`, with cycles: whether some path leads from the formula to a digest that is refuted. At the end texts that
are no receipts, formulas or cubes.
"""

import hashlib
import itertools
import os
import random
import re
import resource
import subprocess
import sys
import tempfile
from pathlib import Path

sys.path.append(os.path.dirname(os.path.dirname(os.path.abspath(__file__))))

from dimacs import dimacs, is_satisfiable, lines, variables  # noqa: E402

NOT_VERIFIED = "s NOT VERIFIED\n"
NO_PATH = "no receipts lead from the formula to one that is refuted"


def verified(count):
    return f"s VERIFIED UNSAT BY {count} RECEIPTS\n"


def digest(text):
    return hashlib.sha256(text.encode()).hexdigest()


def refuted(text):
    return f"refuted sha256 {digest(text)}\n"


def satisfied(text):
    return f"satisfied sha256 {digest(text)}\n"


def carries(text, other):
    return f"carries sha256 {digest(text)} sha256 {digest(other)}\n"


def laid_out(dice, clauses):
    """The formula as another text: comments, blanks, and clauses over several lines."""
    words = " ".join(dice.choice((f"{literal} ", f"{literal}\n", f"\nc of it\n{literal}\t")) for clause in clauses for literal in [*clause, 0])
    return f"c a formula\np cnf {variables(clauses)} {len(clauses)}\n{words}\n"


def part_text(clauses):
    """What a checker reads of a part: no header."""
    return lines(clauses)


def parts(formula, cubes):
    """The clauses of each part, with its name."""
    for number, cube in enumerate(cubes, 1):
        yield f"part {number}", [*formula, *([literal] for literal in cube)]
    yield "the closing part", [*formula, *([-literal for literal in cube] for cube in cubes)]


def is_reached(start, arcs, ends):
    """Whether some path leads from the start to one of the ends."""
    seen, left = {start}, [start]
    while left:
        at = left.pop()
        if at in ends:
            return True
        for after in (other for here, other in arcs if here == at):
            if after not in seen:
                seen.add(after)
                left.append(after)
    return False


class Tries:
    def __init__(self, program, folder):
        self.program, self.folder, self.wrong, self.tried = program, Path(folder), 0, {}

    def wants(self, kind, files, words, *wanted, program=None, env=None):
        for name, content in files.items():
            (self.folder / name).write_text(content)
        self.tried[kind] = self.tried.get(kind, 0) + 1
        call = [program or self.program, *words]
        done = subprocess.run(call, cwd=self.folder, env=env, stdin=subprocess.DEVNULL, capture_output=True, text=True, timeout=60)
        said = done.returncode, done.stdout, done.stderr
        if said != wanted:
            self.wrong += 1
            print(f"{kind}: {said}, and not {wanted}: {str(files)[:4000]}")

    def judged(self, kind, formula, cubes, receipts, missing):
        """The receipts, in any order, of a formula that is split, and the first part that is not shown."""
        files = {"formula": formula, "cubes": cubes, "receipts": "".join(receipts)}
        words = ["formula", "receipts", "--cubes", "cubes"]
        if missing is None:
            self.wants(kind, files, words, 0, verified(len(receipts)), "")
        else:
            self.wants(kind, files, words, 3, NOT_VERIFIED, f"no receipt shows {missing}\n")

    def same(self, kind, one, other):
        self.tried[kind] = self.tried.get(kind, 0) + 1
        if one != other:
            self.wrong += 1
            print(f"{kind}: {one!r}, and not {other!r}")


def random_clause(dice, count, most):
    names = dice.sample(range(1, count + 1), dice.randint(0 if dice.random() < 0.05 else 1, min(most, count)))
    return [dice.choice((name, -name)) for name in names]


def split(tries, dice):
    count = dice.randint(1, 4)
    formula = [random_clause(dice, count, 3) for _ in range(dice.randint(0, 5 * count))]
    cubes = [random_clause(dice, count + (dice.random() < 0.2), 3) for _ in range(dice.randint(0, 4))]
    if dice.random() < 0.4:
        cubes = [[name * sign for name, sign in zip(range(1, 3), signs)] for signs in itertools.product((1, -1), repeat=min(2, count))]
    text, cube_text = laid_out(dice, formula), lines(cubes)
    made = [(name, part_text(clauses), is_satisfiable(clauses)) for name, clauses in parts(formula, cubes)]
    receipts = [satisfied(part) if has_model else refuted(part) for _, part, has_model in made]
    open_parts = [name for name, _, has_model in made if has_model]
    tries.judged("receipts of parts", text, cube_text, dice.sample(receipts, len(receipts)), open_parts[0] if open_parts else None)
    if not open_parts:
        tries.same("a formula that is refuted", is_satisfiable(formula), False)
        mixed = [refuted(part_text(clauses)) for _, clauses in parts([*formula, [1]], cubes)]
        turned(tries, dice, text, cube_text, made, receipts, mixed)


def first_without(made, receipts):
    """The first part that no receipt `refuted` names."""
    return next((name for name, part, _ in made if refuted(part) not in receipts), None)


def turned(tries, dice, text, cube_text, made, receipts, mixed):
    at = dice.randrange(len(receipts))
    _, part, _ = made[at]
    others = [it for it in receipts if it != receipts[at]]
    tries.judged("a receipt is missing", text, cube_text, others, first_without(made, others))
    wrong = dice.choice("0123456789abcdef")
    places = [place for place in range(15, 79) if receipts[at][place] != wrong]
    place = dice.choice(places)
    changed = [*others, receipts[at][:place] + wrong + receipts[at][place + 1 :]]
    tries.judged("another digest", text, cube_text, changed, first_without(made, changed))
    tries.judged("a part can be satisfied", text, cube_text, [*others, satisfied(part)], first_without(made, others))
    tries.judged("a receipt of the whole formula", text, cube_text, [*others, refuted(text)], first_without(made, [*others, refuted(text)]))
    tries.judged("a receipt stands twice", text, cube_text, [*receipts, receipts[at]], None)
    tries.judged("a receipt of another formula", text, cube_text, [*others, mixed[at]], first_without(made, others))
    turned_cube = f"c\n{part}"
    tries.judged("a receipt of another text", text, cube_text, [*others, refuted(turned_cube)], first_without(made, others))
    chain = [*others, carries(part, "between"), carries("between", "end"), refuted("end")]
    tries.judged("a part in pieces", text, cube_text, dice.sample(chain, len(chain)), None)
    cycle = [*others, carries(part, "between"), carries("between", part)]
    tries.judged("a cycle", text, cube_text, cycle, first_without(made, others))


def graph(tries, dice):
    names = [f"p cnf {number} 0\n" for number in range(dice.randint(1, 8))]
    arcs = [(dice.choice(names), dice.choice(names)) for _ in range(dice.randint(0, 10))]
    ends = [name for name in names if dice.random() < 0.4]
    models = [name for name in names if name not in ends and dice.random() < 0.3]
    receipts = [*(carries(*arc) for arc in arcs), *map(refuted, ends), *map(satisfied, models)]
    dice.shuffle(receipts)
    for start in dice.sample(names, min(3, len(names))):
        files = {"formula": start, "receipts": "".join(receipts)}
        if is_reached(start, arcs, ends):
            tries.wants("pieces", files, ["formula", "receipts"], 0, verified(len(receipts)), "")
        else:
            tries.wants("no path", files, ["formula", "receipts"], 3, NOT_VERIFIED, f"{NO_PATH}\n")


def malformed(tries):
    formula, good = "p cnf 1 2\n1 0\n-1 0\n", refuted("p cnf 1 2\n1 0\n-1 0\n")
    words = ["formula", "receipts"]
    for place, (bad, why) in enumerate((
        (good[:-1], "malformed receipt"),
        (good.upper(), "no receipt of a known kind"),
        (good.replace("sha256", "sha512"), "malformed receipt"),
        ("verified\n", "no receipt of a known kind"),
        ("\n", "no receipt of a known kind"),
        (good.replace("refuted", "carries"), "malformed receipt"),
    )):
        for before in (0, place + 1):
            told = f"receipts: line {before + 1}: {why}\nin receipts\n"
            tries.wants("no receipt", {"formula": formula, "receipts": good * before + bad}, words, 1, "", told)
    files = {"formula": formula, "receipts": good, "cubes": "1 0\na 2 0\n"}
    tries.wants("no cube", files, [*words, "--cubes", "cubes"], 1, "", "cubes: line 2: bad number\nin cubes\n")
    tries.wants("one receipt", files, words, 0, verified(1), "")
    tries.wants("standard input is empty", {"formula": formula}, ["formula", "-"], 3, NOT_VERIFIED, f"{NO_PATH}\n")


def recipe(tries):
    """The command of docs/SCALE.md that joins, the last of its block, over receipts in files."""
    page = (Path(__file__).parents[2] / "docs" / "SCALE.md").read_text()
    command = re.search("^```sh receipts\n(.*?)^```$", page, re.MULTILINE | re.DOTALL).group(1).splitlines()[-1]
    formula, cubes = [[1, 2], [1, -2], [-1, 2], [-1, -2]], [[1], [-1]]
    (tries.folder / "parts").mkdir()
    (tries.folder / "bin").mkdir()
    (tries.folder / "bin" / "join_check").symlink_to(tries.program)
    files = {"formula.cnf": dimacs(formula), "cubes.txt": lines(cubes)}
    made = [refuted(part_text(clauses)) for _, clauses in parts(formula, cubes)]
    files.update({f"parts/{number}.receipt": receipt for number, receipt in enumerate(made)})
    path = f"{tries.folder / 'bin'}:{os.environ['PATH']}"
    tries.wants("the command of SCALE", files, ["-c", command], 0, verified(3), "", program="sh", env={**os.environ, "PATH": path})


def many_cubes(tries):
    """Every cube of eleven variables."""
    count = 11
    cubes = [[name * sign for name, sign in zip(range(1, count + 1), signs)] for signs in itertools.product((1, -1), repeat=count)]
    formula = [[count + 1], [-count - 1]]
    receipts = [refuted(part_text(clauses)) for _, clauses in parts(formula, cubes)]
    tries.judged("many cubes", dimacs(formula), lines(cubes), receipts, None)
    tries.judged("many cubes", dimacs(formula), lines(cubes), receipts[:-1], "the closing part")


def many_pieces(tries, dice):
    """Chains of pieces, from the first to the last, as `pieces` writes them, from the last to the first, and shuffled: how long they take is
    to grow with their number, where it grows by eight, and not with its square. The margins are wide, since a machine may do more beside."""
    for order in (lambda chain: chain, lambda chain: chain[::-1], lambda chain: dice.sample(chain, len(chain))):
        took = []
        for count in (12500, 25000, 50000, 100000):
            names = [f"p cnf {number} 0\n" for number in range(count)]
            receipts = order([*map(carries, names, names[1:]), refuted(names[-1])])
            begin = resource.getrusage(resource.RUSAGE_CHILDREN).ru_utime
            tries.wants("many pieces", {"formula": names[0], "receipts": "".join(receipts)}, ["formula", "receipts"], 0, verified(count), "")
            took.append(resource.getrusage(resource.RUSAGE_CHILDREN).ru_utime - begin)
        tries.same("pieces in 2 s, and eight times as many in 24 times the time", took[-1] <= min(2, 24 * max(took[0], 0.02)), True)


def main(program, count, seed):
    dice = random.Random(int(seed))
    with tempfile.TemporaryDirectory() as folder:
        tries = Tries(program, folder)
        for _ in range(int(count)):
            split(tries, dice)
            graph(tries, dice)
        malformed(tries)
        recipe(tries)
        many_cubes(tries)
        many_pieces(tries, dice)
    print("; ".join(f"{kind}: {times}" for kind, times in tries.tried.items()))
    if tries.wrong:
        print(f"{tries.wrong} wrong")
    return min(tries.wrong, 1)


if __name__ == "__main__":
    sys.exit(main(*sys.argv[1:]))
