#!/usr/bin/env python3
"""Sessions that were judged by others: whether `tools/sessions` shows all answers of each where they accept it.

judged.py SESSIONS FOLDER

FOLDER/list has a line for each: interaction, proof, what was damaged, and `yes` or `no` as two judges say that go forward line
by line. `unneeded`: they refuse a line that no answer needs, and the answers are shown.
"""

import sys

from called import Called


def main(path, folder):
    called, wrong, count = Called(path), 0, 0
    with open(f"{folder}/list", encoding="ascii") as file:
        rows = [line.split() for line in file]
    for interaction, proof, kind, judged in rows:
        status, printed = called.check(f"{folder}/{interaction}", f"{folder}/{proof}")
        count += status == 0
        if (status == 0) != (judged != "no"):
            print(f"{proof} ({kind}): {judged}, but status {status}: {printed}")
            wrong = 1
    print(f"{len(rows)} sessions that were judged by others, {count} of them shown")
    return wrong


sys.exit(main(*sys.argv[1:]))
