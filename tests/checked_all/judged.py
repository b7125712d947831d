"""Random small formulas with their truth by brute force, and rows of a table against it: `tests/checked_all.sh`.

judged.py make FOLDER COUNT SEED          writes formulas, and FOLDER.truth: of each its name and what has to be its outcome
judged.py rows TABLE TRUTH REFUTED WORD.. of each formula the last row of the call WORD.. has to be right; REFUTED is the outcome \
where the formula can't be satisfied
judged.py last TABLE FIELD..              these fields of the last row
judged.py edit TABLE NAME FIELD VALUE     the last row of this formula is edited
judged.py apart TABLE PART..              of the last row each PART, as `solving 1 1 100`, took at least these seconds, seconds of a \
processor and MB, and at most 20 s and 900 MB more
judged.py table TABLE ROW..               writes rows NAME|OUTCOME|REASON|SECONDS; the checker took half a second where there are seconds
judged.py again TABLE EDIT                each row is edited by this call of sed, and gets a new sum
judged.py old TABLE OTHER                 writes the rows as a version wrote them that did not measure solver and checker apart
"""

import hashlib
import json
import os
import random
import shutil
import subprocess
import sys

sys.path.append(os.path.dirname(os.path.dirname(os.path.abspath(__file__))))

from dimacs import dimacs, is_satisfiable  # noqa: E402

VARIABLES = 7


def make(folder, count, seed):
    draw = random.Random(int(seed))
    os.makedirs(folder, exist_ok=True)
    with open(f"{folder}.truth", "w", encoding="ascii") as truth:
        for number in range(int(count)):
            clauses = [
                [draw.choice((1, -1)) * it for it in draw.sample(range(1, VARIABLES + 1), 3)]
                for _ in range(draw.randrange(25, 65))
            ]
            name = f"{folder}/{number:02}.cnf"
            with open(name, "w", encoding="ascii") as file:
                file.write(dimacs(clauses, VARIABLES))
            truth.write(
                f"{name}\t{'s VERIFIED SAT' if is_satisfiable(clauses) else 's VERIFIED UNSAT'}\n"
            )


def rows_in(table):
    with open(table, encoding="ascii") as file:
        return [json.loads(line) for line in file]


def sum_of(path):
    with open(path, "rb") as file:
        return hashlib.sha256(file.read()).hexdigest()


def faults(row, outcome, checkers):
    """What is wrong with a row."""
    if row["outcome"] != outcome:
        yield f"outcome {row['outcome']}: {row['reason']}"
    sums = [(it["of"], it["sha256"]) for it in row["sums"]]
    wanted = [
        ("formula", sum_of(row["formula"])),
        ("solver", sum_of(shutil.which(row["solver"][0]))),
    ]
    if sums[:2] != wanted or not checkers <= {it for of, it in sums if of == "checker"}:
        yield f"sums {row['sums']}"
    if not (0 < row["seconds"] < 60 and 0 < row["processor"] < 60 and row["memory"] > 1_000_000):
        yield "seconds, processor or memory"
    own = row.pop("row")
    if own != hashlib.sha256(json.dumps(row).encode()).hexdigest():
        yield "its own sum"


def rows(table, truth, refuted, *words):
    last = {row["formula"]: row for row in rows_in(table) if row["solver"] == list(words)}
    checkers = {
        sum_of(shutil.which(it)) for it in ("checked", "drat_check", "lrat_check", "model_check")
    }
    wrong = 0
    with open(truth, encoding="ascii") as file:
        for name, outcome in (line.rstrip("\n").split("\t") for line in file):
            found = (
                list(
                    faults(
                        last[name], refuted if outcome == "s VERIFIED UNSAT" else outcome, checkers
                    )
                )
                if name in last
                else ["no row"]
            )
            wrong += bool(found)
            for fault in found:
                print(f"{name} by {' '.join(words)}, which is {outcome}: {fault}")
    return 1 if wrong else 0


def edit(table, name, field, value):
    lines = rows_in(table)
    row = [it for it in lines if it["formula"] == name][-1]
    row[field] = value
    with open(table, "w", encoding="ascii") as file:
        file.writelines(json.dumps(it) + "\n" for it in lines)


def apart(table, *parts):
    row, wrong = rows_in(table)[-1], 0
    for name, *least in (it.split() for it in parts):
        took = [row[name]["seconds"], row[name]["processor"], row[name]["memory"] / 1e6]
        if not all(
            int(low) <= it < int(low) + more for low, it, more in zip(least, took, (20, 20, 900))
        ):
            print(f"{name}: {took}")
            wrong = 1
    return wrong


def summed(row):
    return json.dumps({**row, "row": hashlib.sha256(json.dumps(row).encode()).hexdigest()}) + "\n"


def took(seconds):
    return {"seconds": seconds, "processor": seconds, "memory": 1_000_000}


def table(name, *rows):
    statuses = {"s VERIFIED UNSAT": 20, "s VERIFIED SAT": 10, "malformed": 2}
    with open(name, "w", encoding="ascii") as file:
        for formula, outcome, reason, seconds in (it.split("|") for it in rows):
            row = {
                "formula": formula,
                "solver": ["made"],
                "options": [],
                "limit": 10.0,
                "check_limit": 20.0,
                "outcome": outcome,
                "reason": reason,
            }
            row.update(status=statuses.get(outcome, 3), **took(float(seconds or 0)))
            row.update(
                solving=took(float(seconds)) if seconds else None,
                checking=took(0.5) if seconds else None,
                sums=[],
            )
            file.write(summed(row))


def again(name, edit):
    with open(name, encoding="ascii") as file:
        lines = subprocess.run(
            ["sed", edit], stdin=file, capture_output=True, text=True, check=True
        ).stdout.splitlines()
    with open(name, "w", encoding="ascii") as file:
        file.writelines(
            summed({of: it for of, it in json.loads(line).items() if of != "row"}) for line in lines
        )


def old(name, other):
    later = ("check_limit", "solving", "checking", "row")
    with open(other, "w", encoding="ascii") as file:
        file.writelines(
            summed({of: it for of, it in row.items() if of not in later}) for row in rows_in(name)
        )


def main(call, *words):
    if call == "last":
        row = rows_in(words[0])[-1]
        print(*(row[it] for it in words[1:]), sep="\n")
        return 0
    calls = {
        "make": make,
        "rows": rows,
        "edit": edit,
        "apart": apart,
        "table": table,
        "again": again,
        "old": old,
    }
    return calls[call](*words)


sys.exit(main(*sys.argv[1:]))
