"""What the check says of wrong bodies, each written below its function as a copy under another name."""

import os
import re
import shutil

import kinds
import toolchain


def write_copies(crate, wrongs, room):
    """Writes the crate into the room with the copies in it, and answers where each stands by file and line."""
    toolchain.copy_crate(crate, room)
    places = {}
    for file in {it.file for it in wrongs}:
        with open(f"{room}/{file}", encoding="utf-8") as source:
            lines = source.read().split("\n")
        out = []
        for at, line in enumerate(lines):
            out.append(line)
            for wrong in (it for it in wrongs if it.file == file and it.function.end == at):
                out.append("")
                before = len(out)
                out += wrong.text.split("\n")
                places.update({(file, n): wrong for n in range(before + 1, len(out) + 1)})
        with open(f"{room}/{file}", "w", encoding="utf-8") as to:
            to.write("\n".join(out))
    for wrong in wrongs:
        copy_proofs(crate, wrong, room)
    return places


def copy_proofs(crate, wrong, room):
    """Copies what is written of the function's proof, under the copy's name."""
    folder = wrong.proofs(room)
    if not folder:
        return
    to = os.path.join(os.path.dirname(folder), wrong.name)
    shutil.copytree(folder, to)
    # Only in imports: in a term the same word can name a step of the proof.
    named = rf"(?m)^(use Rattle\.{os.path.basename(crate)}\.proofs\.(?:\w+\.)*){wrong.function.name}(?=\.(?:Goals|Given|Invariants|Answers)\b)"
    for name in os.listdir(to):
        with open(f"{to}/{name}", encoding="utf-8") as file:
            text = file.read()
        with open(f"{to}/{name}", "w", encoding="utf-8") as file:
            file.write(re.sub(named, rf"\g<1>{wrong.name}", text))


def write_alone(crate, wrong, room):
    """Writes the crate into the room with the edit in it."""
    toolchain.copy_crate(crate, room)
    for file, text in wrong.texts.items():
        with open(f"{room}/{file}", "w", encoding="utf-8") as to:
            to.write(text)


def judge_alone(crate, wrong, room):
    write_alone(crate, wrong, room)
    told = toolchain.check_copies(crate, [wrong.name], room)
    wrong.said = f"not judged: {told[:300]}"
    read_judgements(told, [wrong])


def read_judgements(told, wrongs):
    """Gives each what the check says of its function, and answers whether it says anything of any."""
    judged = [it[3:].partition(": ") for it in told.split("\n") if it.startswith("fn ")]
    for symbol, _, words in judged:
        for wrong in wrongs:
            if symbol.endswith(f"::{wrong.name}"):
                wrong.said, wrong.faults = words, kinds.faults(told, wrong)
    return bool(judged)


def judge(crate, wrongs, room, check=toolchain.check_copies):
    """Gives each what the check says of it. What does not compile is set aside, and the others are tried without it."""
    while wrongs:
        places = write_copies(crate, wrongs, room)
        told = check(crate, [it.name for it in wrongs], room)
        if read_judgements(told, wrongs):
            return
        errors = re.findall(r"(?m)^(?:\./)?(src/\S+\.rt):(\d+):\d+: error", told)
        bad = {places.get((file, int(line))) for file, line in errors} - {None}
        for wrong in bad or wrongs:
            wrong.said = "does not compile" if bad else f"not judged: {told[:300]}"
        wrongs = [it for it in wrongs if it not in bad] if bad else []
