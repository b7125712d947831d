"""A table of many solvers against what each says by itself: `tests/checked_all.sh`.

paper.py FOLDER CSV PLOT REPORT STATUSES SOLVER..

Each solver is run on each formula of the folder once more, and its status is what the row must have:
UNSAT or SAT, or REJECTED where it refutes and writes no proof. Sums and scores are computed from the
rows, and points of the plot are counted.
"""

import csv
import os
import re
import subprocess
import sys
import tempfile
import xml.etree.ElementTree as tree

WITHOUT_PROOFS = ("minisat", "clasp")
WORDS = {"UNSAT": "s VERIFIED UNSAT", "SAT": "s VERIFIED SAT", "REJECTED": "rejected"}
LIMIT = 100.0


def result_of(solver, formula):
    """What the solver says by itself, as the table has it."""
    with tempfile.TemporaryDirectory() as folder:
        # minisat writes its model there
        words = [solver, formula, *([os.path.join(folder, "it")] if solver == "minisat" else [])]
        status = subprocess.run(words, capture_output=True).returncode
    # (30 is the status of clasp where it has all models)
    if status in (10, 30):
        return "SAT"
    return "REJECTED" if solver in WITHOUT_PROOFS else "UNSAT"


def faults(folder, rows, solver, part, status):
    """What is wrong with the rows of a solver, and with its part of the report."""
    found = {row["instance"]: row for row in rows if row["solver"] == solver}
    names = sorted(os.path.join(folder, it) for it in os.listdir(folder))
    if list(found) != names or len(names) != 30:
        yield "its formulas"
        return
    wanted = {name: result_of(solver, name) for name in names}
    for name in names:
        if found[name]["result"] != wanted[name]:
            yield f"{name} is {found[name]['result']}, and not {wanted[name]}"
    counts = {word: list(wanted.values()).count(result) for result, word in WORDS.items()}
    for word, count in counts.items():
        if f" {count} {word}" not in part[0]:
            yield f"the sum of {word}: {part[0]}"
    solved = [float(row["solver_seconds"]) for row in found.values() if row["result"] != "REJECTED"]
    score = (sum(solved) + 2 * LIMIT * (30 - len(solved))) / 30
    printed = re.fullmatch(r"PAR2: ([0-9.]+) s, with 100 s as the limit", part[1])
    if not printed or abs(float(printed[1]) - score) > 0.0006:
        yield f"PAR2, which is {score}: {part[1]}"
    if int(status) != (1 if counts["rejected"] else 0):
        yield f"the status {status}"


def main(folder, table, plot, report, statuses, *solvers):
    with open(table, encoding="utf-8") as file:
        rows = list(csv.DictReader(file))
    with open(report, encoding="utf-8") as file:
        lines = file.read().splitlines()
    with open(statuses, encoding="utf-8") as file:
        ended = dict(line.split() for line in file)
    wrong = 0
    if len(rows) != 30 * len(solvers):
        print(f"{len(rows)} rows")
        wrong = 1
    for solver in solvers:
        # (the summary of a part follows its 30 rows and their heading)
        begin = lines.index(f"{solver}:")
        for fault in faults(folder, rows, solver, lines[begin + 32 :], ended[solver]):
            print(f"{solver}: {fault}")
            wrong = 1
    points = [it for it in tree.parse(plot).iter() if it.tag.endswith("circle")]
    if len(points) != sum(row["result"] != "REJECTED" for row in rows):
        print(f"the plot has {len(points)} points")
        wrong = 1
    return wrong


sys.exit(main(*sys.argv[1:]))
