"""Random DRAT proofs by `checked`: by one pass, in two ways at once, and so that the pass waits for its pieces.

cores.py TOOLS COUNT [SEED]

All three must end with one status and line, and none is verified whose formula can be satisfied. The programs are found on PATH.
"""

import os
import re
import subprocess
import sys
import tempfile
from concurrent.futures import ThreadPoolExecutor

sys.path.insert(0, os.path.join(os.path.dirname(__file__), "..", "drat"))
from formulas import binary_drat, dimacs, drat
from fuzz import Case, is_satisfiable

UNSAT = (20, "s VERIFIED UNSAT\n")
SCRIPTS = {
    "solver": 'cp "${1%.cnf}.drat" "$2"; exit 20',
    "cuts": 'exec "$TOOLS/pieces" "$@" --lemmas 2 --live 100000',
    "waits": 'if [ "$2" = proof ]; then until [ -e ended ]; do sleep 0.02; done; echo "$1" >> "$PASSES"; fi; exec drat_check "$@"',
}


def verdict(folder, formula, options, environment):
    """How `checked` ends, and what it writes, whether the receipts of pieces were joined or not."""
    call = [os.path.join(environment["TOOLS"], "checked"), *options, f"{folder}/solver", formula]
    ran = subprocess.run(call, capture_output=True, text=True, timeout=300, env=environment)
    return ran.returncode, re.sub(" BY [0-9]+ RECEIPTS$", "", ran.stdout, flags=re.MULTILINE)


def try_case(folder, seed, environment):
    """How one pass ends, and what is wrong, if anything."""
    case = Case(seed)
    case.grow()
    if seed % 4 == 1:
        case.damage()
    formula = f"{folder}/{seed}.cnf"
    with open(formula, "w") as file:
        file.write(dimacs(case.formula))
    with open(f"{folder}/{seed}.drat", "wb") as file:
        file.write(binary_drat(case.steps) if seed % 3 else drat(case.steps).encode())
    cut = ("--jobs=3", "--pieces-from=0")
    one = verdict(folder, formula, ("--jobs=1",), environment)
    two = verdict(folder, formula, cut, environment)
    waited = verdict(folder, formula, cut, {**environment, "DRAT_CHECK": f"{folder}/waits"})
    if not one == two == waited:
        return one, f"case {seed}: {one} by one pass, {two} in two ways at once, {waited} where the pass waits for its pieces"
    if one == UNSAT and is_satisfiable(case.formula):
        return one, f"case {seed}: verified, and the formula is satisfiable"
    return one, None


def main(tools, count, first=1):
    with tempfile.TemporaryDirectory() as folder:
        for name, text in SCRIPTS.items():
            with open(f"{folder}/{name}", "w") as file:
                file.write(f"#!/bin/sh\n{text}\n")
            os.chmod(f"{folder}/{name}", 0o755)
        os.mkdir(f"{folder}/room")
        passes = f"{folder}/passes"
        environment = {**os.environ, "TOOLS": tools, "PIECES": f"{folder}/cuts", "PASSES": passes, "TMPDIR": f"{folder}/room"}
        environment.pop("DRAT_CHECK", None)
        with ThreadPoolExecutor(4) as workers:
            tried = list(workers.map(lambda seed: try_case(folder, seed, environment), range(int(first), int(first) + int(count))))
        with open(passes) as file:
            by_pass = len(file.readlines())
        left = os.listdir(f"{folder}/room")
    faults = [fault for _, fault in tried if fault] + [f"it leaves {it}" for it in left]
    verified = sum(one == UNSAT for one, _ in tried)
    by_pieces = len(tried) - by_pass
    print(*faults, f"{count} proofs, {len(faults)} wrong; {verified} verified, {by_pieces} of them by pieces", sep="\n")
    return 1 if faults or not 0 < by_pieces <= verified < len(tried) else 0


if __name__ == "__main__":
    sys.exit(main(*sys.argv[1:]))
