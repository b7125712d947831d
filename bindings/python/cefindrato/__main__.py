"""Checks files by the library, as the programs do.

    python -m cefindrato lrat CNF PROOF
    python -m cefindrato drat CNF PROOF [--drat] [--frat] [--lpr] [--lrat FILE] [--core FILE]
    python -m cefindrato model CNF ANSWER

The verdict's line and the exit status are those of `lrat_check`, `drat_check` and `model_check`, but 4 where there is no memory.
"""

import argparse
import os
import sys
import tempfile

from . import Fault, OutOfMemory, __version__, check, check_drat, check_model


def read(name):
    with open(name, "rb") as file:
        return file.read()


def is_one_file(name, other):
    if os.path.exists(name) and os.path.exists(other):
        return os.path.samefile(name, other)
    return os.path.realpath(name) == os.path.realpath(other)


def refusal_of(name, others):
    """Why an output may not be written, or nothing: by any name it may be none of the files that are read, nor another output."""
    if name == "-":
        return "- is standard input, and no output"
    return next((f"{other} is the same file" for other in others if is_one_file(name, other)), None)


def write(name, text):
    """Writes a file that has its name only once it is whole; a device or a pipe is written in place."""
    if name is None or text is None:
        return
    place = os.path.realpath(name)
    if os.path.exists(place) and not os.path.isfile(place):
        with open(place, "wb") as file:
            file.write(text)
        return
    with tempfile.TemporaryDirectory(prefix=".cefindrato-", dir=os.path.dirname(place)) as folder:
        new = os.path.join(folder, "new")
        with open(new, "wb") as file:
            file.write(text)
        os.replace(new, place)


def arguments():
    parser = argparse.ArgumentParser(prog="python -m cefindrato", description="Checks files by the library, as the programs do.")
    parser.add_argument("-V", "--version", action="version", version=f"cefindrato {__version__}")
    kinds = parser.add_subparsers(dest="kind", required=True)
    for kind, second in ("lrat", "PROOF"), ("drat", "PROOF"), ("model", "ANSWER"):
        one = kinds.add_parser(kind)
        one.add_argument("formula", metavar="CNF")
        one.add_argument("second", metavar=second)
        if kind == "drat":
            formats = one.add_mutually_exclusive_group()
            formats.add_argument("--drat", dest="format", action="store_const", const="drat", default="detected")
            formats.add_argument("--frat", dest="format", action="store_const", const="frat")
            formats.add_argument("--lpr", dest="format", action="store_const", const="lpr")
            one.add_argument("--lrat", metavar="FILE", help="writes the proof as LRAT text")
            one.add_argument("--core", metavar="FILE", help="writes the clauses that the proof uses")
    words = parser.parse_args()
    others = [words.formula, words.second]
    for name in filter(None, (getattr(words, "lrat", None), getattr(words, "core", None))):
        if why := refusal_of(name, others):
            parser.error(f"cannot write {name}: {why}")
        others.append(name)
    return words


def verified(words, formula, second):
    """Whether it is verified; what is wanted beside that is written."""
    if words.kind == "lrat":
        return check(formula, second)
    if words.kind == "model":
        model = check_model(formula, second)
        if not model.verified:
            print(f"formula: line {model.line}: clause {model.clause} has no literal of the answer", file=sys.stderr)
        return model.verified
    checked = check_drat(formula, second, words.format, lrat=words.lrat is not None, core=words.core is not None)
    write(words.lrat, checked.lrat)
    write(words.core, checked.core)
    return checked.verified


def main():
    words = arguments()
    try:
        is_verified = verified(words, read(words.formula), read(words.second))
    except OutOfMemory as why:
        print(why, file=sys.stderr)
        return 4
    except Fault as why:
        print(why, file=sys.stderr)
        return 1
    except OSError as why:
        print(why, file=sys.stderr)
        return 2
    if not is_verified:
        print("s NOT VERIFIED")
        return 3
    print("s VERIFIED SAT" if words.kind == "model" else "s VERIFIED UNSAT")
    return 0


if __name__ == "__main__":
    sys.exit(main())
