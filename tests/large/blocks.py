"""Formulas of more than a megabyte, with texts for each program, right and damaged.

blocks.py FOLDER

Block i says that t[i] implies t[i+1], which no unit shows: with t[i] there are the four clauses of two literals over a[i] and
b[i], and the last of them may have t[i+1] too. The first t holds, and the last one does not. Two steps a block refute it:
[-t[i], a[i]] by the first two clauses, and [-t[i], t[i+1]] by that and the others. The last block comes first, so that no step
makes a long chain true. The clauses stand in a random order, the variables have random numbers.

The damage is in block DAMAGED: its first step is missing from the DRAT proof; its second line of hints ends one hint before.
The satisfiable formula lacks the last clause, and all its variables may be true. In the damaged answer t[DAMAGED] is false, so
the last clause of the block before has no true literal.

Written are: cnf, drat, damaged.drat, lrat, damaged.lrat, unnamed.lrat (a hint that names no clause), sat.cnf, answer,
damaged.answer, and `places`: the numbers of the step, the line and the clause where a fault has to be found, and of
the last step, which is wrong after the satisfiable formula.
"""

import os
import random
import sys

sys.path.append(os.path.dirname(os.path.dirname(os.path.abspath(__file__))))

from dimacs import dimacs, line, lines  # noqa: E402

BLOCKS, DAMAGED = 13000, 6500


def place(block):
    """How many steps come before those of a block."""
    return 2 * (BLOCKS - 1 - block)


class Formula:
    def __init__(self):
        draw = random.Random(50)
        names = list(range(1, 3 * BLOCKS + 2))
        draw.shuffle(names)
        self.t, self.a, self.b = names[: BLOCKS + 1], names[BLOCKS + 1 : 2 * BLOCKS + 1], names[2 * BLOCKS + 1 :]
        rows = [("first", [self.t[0]])]
        for i in range(BLOCKS):
            t, a, b, after = self.t[i], self.a[i], self.b[i], self.t[i + 1]
            four = [-t, a, b], [-t, a, -b], [-t, -a, b], [-t, -a, -b, after]
            rows += [((i, n), clause) for n, clause in enumerate(four)]
        draw.shuffle(rows)
        rows.append(("last", [-self.t[BLOCKS]]))
        self.clauses = [clause for _, clause in rows]
        self.ids = {name: n for n, (name, _) in enumerate(rows, 1)}

    def steps(self):
        """Each step's clause with its hints."""
        for i in reversed(range(BLOCKS)):
            t, a, after = self.t[i], self.a[i], self.t[i + 1]
            one, two, three, four = (self.ids[i, n] for n in range(4))
            yield [-t, a], [one, two]
            yield [-t, after], [len(self.clauses) + place(i) + 1, three, four]
        units = [len(self.clauses) + place(i) + 2 for i in range(BLOCKS)]
        yield [], [self.ids["first"], *units, self.ids["last"]]


def lrat(first, steps):
    return "".join(line([n, *clause, 0, *hints]) for n, (clause, hints) in enumerate(steps, first))


def answer(literals):
    rows = [literals[at : at + 20] for at in range(0, len(literals), 20)]
    return "s SATISFIABLE\n" + "".join(f"v {' '.join(map(str, it))}\n" for it in rows) + "v 0\n"


def main(folder):
    formula = Formula()
    steps, count, variables = list(formula.steps()), len(formula.clauses), 3 * BLOCKS + 1
    clauses = [clause for clause, _ in steps]
    at = place(DAMAGED)
    short = [(it, hints[:-1] if n == at + 1 else hints) for n, (it, hints) in enumerate(steps)]
    unnamed = [(it, [10**6, *hints] if n == at + 1 else hints) for n, (it, hints) in enumerate(steps)]
    model = [*formula.t, *formula.a, *formula.b]
    damaged = [-it if it == formula.t[DAMAGED] else it for it in model]
    texts = {
        "cnf": dimacs(formula.clauses, variables),
        "drat": lines(clauses),
        "damaged.drat": lines(clauses[:at] + clauses[at + 1 :]),
        "lrat": lrat(count + 1, steps),
        "damaged.lrat": lrat(count + 1, short),
        "unnamed.lrat": lrat(count + 1, unnamed),
        "sat.cnf": dimacs(formula.clauses[:-1], variables),
        "answer": answer(model),
        "damaged.answer": answer(damaged),
        "places": f"{at + 1} {at + 2} {formula.ids[DAMAGED - 1, 3]} {len(steps)}\n",
    }
    for name, text in texts.items():
        with open(f"{folder}/{name}", "w") as file:
            file.write(text)


if __name__ == "__main__":
    main(*sys.argv[1:])
