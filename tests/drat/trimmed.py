"""The steps of DRAT that the lines of an LRAT proof are, as text: what `drat_check --trim` has to write.

trimmed.py CNF LRAT      to standard output
"""

import sys

from refusal import read_formula


def step(clause, before=""):
    return before + " ".join(map(str, [*clause, 0]))


def steps_of(formula, lines):
    """Each added clause without its id and hints; for each id that is deleted, its clause, once a clause was added."""
    clauses, has_begun = dict(enumerate(formula, 1)), False
    for words in map(str.split, lines):
        if words[1] == "d":
            gone = list(map(int, words[2:-1]))
            yield from (step(clauses[key], "d ") for key in gone if has_begun and key in clauses)
            for key in gone:
                clauses.pop(key, None)
        else:
            clause = list(map(int, words[1 : words.index("0", 1)]))
            clauses[int(words[0])] = clause
            has_begun = True
            yield step(clause)


def main(cnf, lrat):
    with open(lrat) as lines:
        for line in steps_of(read_formula(cnf), lines):
            print(line)


if __name__ == "__main__":
    sys.exit(main(*sys.argv[1:]))
