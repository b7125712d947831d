"""Tries turned definitions: whether the rows of `definition_rows` notice that a definition says something else.

Each is turned in a copy of the repository, and the crate of rows is checked over it. A crate that has laws alone is copied without
them, so that what refuses is a row, which is computed on the definition, and not the written proof of a law, which may merely no
longer fit. A definition of a format that is not below `definition_rows` is asked of the rows of its own crate, which are its laws.

`crates/definition_rows/REFUSED` has a line for each: its sum, over its own text, the file that it turns, and the rows and laws; its
name; and the functions that were not proved. It exits 1 if one is proved, or was not judged.
"""

import concurrent.futures
import os
import re
import shutil
import subprocess
import sys
import tempfile

from records import sum_over
from sources import ROOT, crates_below, files_in, words_in, words_of

ROWS = "definition_rows"
CRATE = f"{ROOT}/crates/{ROWS}"
RECORD = f"{CRATE}/REFUSED"
LANES = int(os.environ.get("RT_JOBS", "2"))


class Turned:
    """A definition that is turned: a paragraph with lines 'file:', 'old:' and 'new:'."""

    def __init__(self, paragraph):
        self.name, _, text = paragraph.partition("\n")
        said = dict(re.findall(r"(?m)^(file|old|new): ?(.*)$", text))
        self.file, self.old, self.new = said["file"].strip(), said["old"], said["new"]
        self.text, self.crate = text, self.file.split("/")[1]
        self.rows = ROWS if self.crate in crates_below(ROWS) else self.crate

    def sum(self):
        crate = f"{ROOT}/crates/{self.rows}"
        files = files_in(f"{crate}/specs")
        files = files + files_in(f"{crate}/src") if self.rows == ROWS else [it for it in files if it.endswith(("Rows.antt", "Laws.antt"))]
        rows = {os.path.relpath(it, crate): words_of(it) for it in files}
        return sum_over({**rows, "it": words_in(self.text), "file": words_of(f"{ROOT}/{self.file}")})[:16]

    def write(self, room):
        with open(f"{room}/{self.file}", encoding="utf-8") as file:
            text = file.read()
        if text.count(self.old) != 1:
            return f"its old text stands there {text.count(self.old)} times"
        with open(f"{room}/{self.file}", "w", encoding="utf-8") as file:
            file.write(text.replace(self.old, self.new))
        return None


def definitions():
    with open(f"{CRATE}/wrong-definitions.txt", encoding="utf-8") as file:
        return [Turned(it) for it in re.split(r"(?m)^# ", file.read())[1:]]


def name_or_copy(one, other):
    """Gives a file of a library or of a proof a second name, since such a file is replaced and never changed; others are copied."""
    try:
        if "/out/rlib/" in one or one.endswith(".oantt"):
            return os.link(one, other)
    except OSError:
        pass
    return shutil.copy2(one, other)


def has_laws_alone(crate):
    return sorted(os.listdir(f"{ROOT}/crates/{crate}/src")) == ["laws.rt", "lib.rt"]


def leave_out_laws(room, crate):
    shutil.rmtree(f"{room}/crates/{crate}/proofs", ignore_errors=True)
    shutil.rmtree(f"{room}/crates/{crate}/out", ignore_errors=True)
    os.remove(f"{room}/crates/{crate}/src/laws.rt")
    with open(f"{room}/crates/{crate}/src/lib.rt", "w", encoding="utf-8") as file:
        file.write("//! Definitions alone.\n#![tactic(auto)]\n")


def copy_crates(room, rows):
    """Copies a crate of rows and those below it, with what their checks have kept."""
    copied = [*crates_below(rows), rows]
    for crate in copied:
        unread = shutil.ignore_patterns("must-fail", "wrong-bodies")
        shutil.copytree(f"{ROOT}/crates/{crate}", f"{room}/crates/{crate}", ignore=unread, copy_function=name_or_copy)
    with open(f"{ROOT}/crates.txt", encoding="utf-8") as file, open(f"{room}/crates.txt", "w", encoding="utf-8") as to:
        to.writelines(line for line in file if line.partition(":")[0].split()[:1] in [[it] for it in copied])


def check(rows, top, told):
    """Checks the rows of a crate in the tree of this top, and returns what came of it."""
    only = [] if rows == ROWS else ["--only", "laws"]
    return subprocess.run(
        ["rt", "check", "--jobs", "1", *only],
        cwd=f"{top}/crates/{rows}",
        stdin=subprocess.DEVNULL,
        stdout=told,
        stderr=subprocess.STDOUT,
        encoding="utf-8",
        errors="replace",
    )


def try_one(turned):
    """Returns the functions that the turned definition leaves without a proof, and why it was not judged."""
    with tempfile.TemporaryDirectory(prefix="wrong-definitions-") as room:
        copy_crates(room, turned.rows)
        why = turned.write(room)
        if why:
            return [], why
        for crate in crates_below(turned.rows):
            if has_laws_alone(crate) and turned.crate in [*crates_below(crate), crate]:
                leave_out_laws(room, crate)
        told = check(turned.rows, room, subprocess.PIPE)
    refused = re.findall(r"(?m)^fn (\S+): (?:not proved|no proof)", told.stdout)
    if told.returncode and not refused:
        return [], told.stdout[-600:]
    return sorted(it.replace("::laws::", "::") for it in refused), None


def noted():
    """The lines of the record by the names of the definitions."""
    if not os.path.exists(RECORD):
        return {}
    with open(RECORD, encoding="utf-8") as file:
        return {line.split()[1].rstrip(":"): line for line in file}


def try_all(names):
    """Tries these definitions, or all, notes those that were refused, and returns 1 if another one is left."""
    chosen = [it for it in definitions() if not names or it.name in names]
    for rows in sorted({it.rows for it in chosen}):
        if check(rows, ROOT, subprocess.DEVNULL).returncode:
            print(f"{rows} is not proved as it stands")
            return 1
    lines, wrong = noted(), 0
    with concurrent.futures.ThreadPoolExecutor(LANES) as pool:
        for turned, (refused, why) in zip(chosen, pool.map(try_one, chosen)):
            lines.pop(turned.name, None)
            if why or not refused:
                print(f"{turned.name}: {'NOT JUDGED: ' + why if why else 'NOT REFUSED'}", flush=True)
                wrong = 1
            else:
                lines[turned.name] = f"{turned.sum()} {turned.name}: {' '.join(refused)}\n"
            with open(RECORD, "w", encoding="utf-8") as file:
                file.writelines(lines[it.name] for it in definitions() if it.name in lines)
    print(f"{len(chosen)} turned definitions tried")
    return wrong


def check_records():
    """Returns 1 where a definition was turned that is not noted as refused, as it stands now."""
    lines = noted()
    stale = [it.name for it in definitions() if not lines.get(it.name, "").startswith(f"{it.sum()} ")]
    if stale:
        print("these definitions, their rows or they themselves changed since; run tests/wrong_definitions.sh:", *stale)
    return 1 if stale else 0


def main(words):
    return check_records() if words == ["--records"] else try_all(words)


if __name__ == "__main__":
    sys.exit(main(sys.argv[1:]))
