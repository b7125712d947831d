"""Runs the commands of documents and compares what they print, and the calls that programs name by `--help`: `tests/examples.sh`.

A command is a line that begins with `$ ` in a block without a language. The lines up to the next one are what it
prints, to standard output and then to standard error. All commands of a document run one after the other in one folder.

In the list "examples" of a program's `--help` each call stands below what it does. It is run among files of the names that it
uses; `solver` and `cadical` are scripts that write what the program reads. It has to end well, and to say why nowhere.
"""

import hashlib
import json
import lzma
import os
import re
import shutil
import subprocess
import sys
import tempfile

BLOCK = re.compile(r"^```\n(\$ .*?)^```$", re.MULTILINE | re.DOTALL)
HELP_EXAMPLE = re.compile(r"^  \S.*:\n      (\S.*)$", re.MULTILINE)
TOOLS = ("checked", "checked_all", "circuit_pdr", "circuit_sweep", "cubes", "pieces", "proof_picture", "sessions", "verified")

# Files for the calls of `--help`: a formula that can't be satisfied with its proofs, and for `model_check` one that can be.
REFUTED = b"p cnf 2 4\n1 2 0\n1 -2 0\n-1 2 0\n-1 -2 0\n"
SATISFIED = b"p cnf 3 3\n1 2 0\n-1 3 0\n-2 -3 0\n"
ANSWER = b"s SATISFIABLE\nv 1 -2 3 0\n"
DRAT = b"1 0\n0\n"
LRAT = b"5 1 0 1 2 0\n6 0 5 3 4 0\n"
PROOF_BYTES = bytes.fromhex(
    "06000100 02aa90d494b0b2ddd7c401c1988e93c8eafff366 06000002 9598ae9aa8cbffeb66fe90f49dd093ddcfc4010d".replace(" ", "")
)
# A clause, and a query that fails under the opposite assumption.
ICNF = b"p icnf\ni 1 0\nq -1 0\ns UNSATISFIABLE\n"
IDRUP = b"p idrup\ni 1 0\nq -1 0\ns UNSATISFIABLE\nu -1 0\n"
LIDRUP = b"p lidrup\ni 1 1 0\nq -1 0\ns UNSATISFIABLE\nu -1 0 1 0\n"
CADICAL = """#!/bin/sh
for proof; do :; done
proof=${proof#--proof=}
[ "$proof" != - ] || proof=/dev/stdout
case $* in
  *asked.cnf*) printf -- '-5 0\\n4 0\\n3 0\\n2 0\\n0\\n' > "$proof" ;;
  *) printf '1 0\\n0\\n' > "$proof" ;;
esac
exit 20
"""


# Two circuits of one gate, which are equal, and a proof that they are.
CIRCUIT = b"aig 3 2 0 1 1\n6\n\x02\x02i0 a\ni1 b\no0 y\n"
# A latch that keeps its 0, and the circuit that says so.
MACHINE = b"aig 1 0 1 1 0\n2\n2\n"
INVARIANT = b"aig 1 1 0 1 0\n3\n"
# The invariant of this machine as ABC writes it: no reached state is in the cube.
ABC = b"#!/bin/sh\necho '1 1' > invariant.pla\n"
# A latch that takes its input, and what makes it true.
UNSAFE = b"aig 2 1 1 1 0\n2\n4\n"
STIMULUS = b"1\nb0\n0\n1\n0\n.\n"
SAME = b"-5 0\n4 0\n3 0\n2 0\n0\n"


# A row of `checked_all`: the refuted formula, and no more.
ROW = {
    "formula": "formula.cnf",
    "solver": ["cadical"],
    "options": [],
    "limit": None,
    "outcome": "s VERIFIED UNSAT",
    "reason": "",
    "status": 20,
    "seconds": 0.1,
    "processor": 0.1,
    "memory": 20000000,
    "sums": [{"of": "formula", "file": "formula.cnf", "sha256": hashlib.sha256(REFUTED).hexdigest()}],
}


# The parts of the refuted formula by the cubes 1 and -1, and the closing part.
PARTS = {
    "1": REFUTED.replace(b"2 4", b"2 5") + b"1 0\n",
    "2": REFUTED.replace(b"2 4", b"2 5") + b"-1 0\n",
    "closing": REFUTED.replace(b"2 4", b"2 6") + b"-1 0\n1 0\n",
}


def receipt(text):
    return f"refuted sha256 {hashlib.sha256(text).hexdigest()}\n".encode()


def examples(document):
    """The commands, each with what it prints."""
    with open(document, encoding="utf-8") as file:
        blocks = BLOCK.findall(file.read())
    for block in blocks:
        for example in re.split(r"^\$ ", block, flags=re.MULTILINE)[1:]:
            command, _, printed = example.partition("\n")
            yield command, printed


def names():
    """The programs, as crates.txt has them."""
    with open("crates.txt", encoding="utf-8") as file:
        return re.findall(r"^(\w+)_main:", file.read(), re.MULTILINE)


def built(folder):
    """Names the programs that were built, and the tools, in a folder."""
    for name in names():
        os.symlink(os.path.abspath(f"crates/{name}_main/out/{name}_main"), os.path.join(folder, name))
    for tool in TOOLS:
        os.symlink(os.path.abspath(f"tools/{tool}"), os.path.join(folder, tool))


def furnish(room, program, call):
    """Writes the files that the calls of a program name."""
    formula = SATISFIED if program == "model_check" else REFUTED
    written = {"drat_check": DRAT, "lrat_check": LRAT, "model_check": ANSWER}.get(program, b"")
    files = {
        "formula.cnf": formula,
        "formula.cnf.xz": lzma.compress(formula),
        "proof.drat": DRAT,
        "proof.drat.xz": lzma.compress(DRAT),
        "proof.lrat": LRAT,
        "proof.bytes": PROOF_BYTES,
        "answer": ANSWER,
        "claims.cnf": b"p cnf 2 1\n2 0\n",
        "before.aig": CIRCUIT,
        "after.aig": CIRCUIT,
        "same.drat": SAME,
        "circuit.aig": CIRCUIT,
        "circuit.answer": b"s SATISFIABLE\nv 2 3 0\n",
        "asked.cnf": REFUTED,
        "core.cnf": REFUTED,
        "core.drat": DRAT,
        "models": b"-1 -2 0\n-1 2 0\n1 -2 0\n1 2 0\n",
        "cubes.txt": b"1 0\n-1 0\n",
        **{f"parts/{part}.drat": b"0\n" for part in ("1", "2", "closing")},
        # (a receipt of a part is of its text without the header)
        **{f"parts/{part}.receipt": receipt(text.split(b"\n", 1)[1]) for part, text in PARTS.items()},
        "pieces/1.receipt": receipt(REFUTED),
        "pieces/1.drat": DRAT,
        "pieces/count": b"1\n",
        "session.icnf": ICNF,
        "session.idrup": IDRUP,
        "session.lidrup": LIDRUP,
        "machine.aig": UNSAFE if "--stimulus" in call else MACHINE,
        "machine.stim": STIMULUS,
        "invariant.aig": INVARIANT,
        **{f"{part}.drat": b"0\n" for part in ("init", "step", "bad")},
        "bin/application": b"#!/bin/sh\nprintf 'p lidrup\\ni 1 1 0\\nq -1 0\\ns UNSATISFIABLE\\nu -1 0 1 0\\n'\n",
        "recorded/sessions.index": b"it.7.1\n",
        "recorded/it.7.1.icnf": ICNF,
        "recorded/it.7.1.idrup": IDRUP,
        "formulas/1.cnf": REFUTED,
        "bin/written": written,
        "bin/solver": CADICAL.encode() if program == "checked" else b'#!/bin/sh\nexec cat "$(dirname "$0")/written"\n',
        "bin/cadical": CADICAL.encode(),
        "bin/berkeley-abc": ABC,
    }
    if program == "checked_all":
        row = {**ROW, "row": hashlib.sha256(json.dumps(ROW).encode()).hexdigest()}
        files["results.json"] = json.dumps(row).encode() + b"\n"
    for name, content in files.items():
        path = os.path.join(room, name)
        os.makedirs(os.path.dirname(path), exist_ok=True)
        with open(path, "wb") as file:
            file.write(content)
        os.chmod(path, 0o755)


def wrong_calls(program, programs):
    """The calls of a program's `--help` that don't end well, and how many there are."""
    said = subprocess.run([os.path.join(programs, program), "--help"], capture_output=True, text=True, check=True).stdout
    calls = HELP_EXAMPLE.findall(said)
    wrong = 0
    for call in calls:
        if re.search(r"\bxz\b", call) and shutil.which("xz") is None:
            print("xz is not installed (Debian: xz-utils): not tried")
            continue
        with tempfile.TemporaryDirectory() as room:
            furnish(room, program, call)
            path = os.pathsep.join((os.path.join(room, "bin"), os.path.abspath(programs), os.environ["PATH"]))
            run = subprocess.run(["bash", "-c", call], cwd=room, env={**os.environ, "PATH": path}, capture_output=True, text=True)
            refuted = call.startswith(("checked ", "verified ", "circuit_pdr ", "circuit_sweep ")) and "--want" not in call or "| follows_check " in call
            well = run.returncode == (20 if refuted else 0)
            if not well or (run.stderr and "RUST_LOG" not in call):
                wrong += 1
                print(f"{program} --help: {call}: status {run.returncode}\n{run.stdout}{run.stderr}", end="")
    print(f"{program} --help: {len(calls)} calls, {wrong} of them end badly")
    return wrong or not calls


def wrong_examples(document, programs):
    """The commands that print something else, and how many there are."""
    path = os.path.abspath(programs) + os.pathsep + os.environ["PATH"]
    wrong = tried = 0
    with tempfile.TemporaryDirectory() as room:
        for command, printed in examples(document):
            run = subprocess.run(
                ["bash", "-c", command], cwd=room, env={**os.environ, "PATH": path}, capture_output=True, text=True
            )
            tried += 1
            if run.stdout + run.stderr != printed:
                wrong += 1
                print(f"{document}: $ {command}\nprints\n{run.stdout}{run.stderr}and not\n{printed}", end="")
    print(f"{document}: {tried} commands, {wrong} of them print something else")
    return wrong or not tried


def main(*words):
    """The words are --calls, for the calls too, then a folder of programs or nothing, and documents."""
    with_calls = words[0] == "--calls"
    programs, *documents = words[with_calls:]
    with tempfile.TemporaryDirectory() as work:
        if not programs:
            programs = work
            built(programs)
        failed = [document for document in documents if wrong_examples(document, programs)]
        failed += [program for program in (*names(), *TOOLS) if with_calls and wrong_calls(program, programs)]
    return 1 if failed else 0


sys.exit(main(*sys.argv[1:]))
