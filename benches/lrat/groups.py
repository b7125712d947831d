"""Writes a formula and an LRAT proof of it whose lines have many groups: groups.py CNF LRAT

Each of LINES lines adds the unit 1, which CLAUSES clauses [-1, 2] are against, with a group for each of them, and deletes it.
"""
import sys

CLAUSES, LINES = 100_000, 20

with open(sys.argv[1], "w") as cnf:
    cnf.write(f"p cnf 3 {CLAUSES + 3}\n" + "-1 2 0\n" * CLAUSES + "2 0\n-2 3 0\n-3 -2 0\n")
with open(sys.argv[2], "w") as lrat:
    unit = CLAUSES + 1
    groups = " ".join(f"-{number}" for number in range(1, CLAUSES + 1))
    for number in range(CLAUSES + 4, CLAUSES + 4 + LINES):
        lrat.write(f"{number} 1 0 {unit} {groups} 0\n{number} d {number} 0\n")
    lrat.write(f"{number + 1} 0 {unit} {unit + 1} {unit + 2} 0\n")
