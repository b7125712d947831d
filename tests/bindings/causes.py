"""Compares the texts of causes of C with those of Python.

    causes.py KIND TEXTS NUMBER ..

TEXTS has a line for each number. The one text of Python that names a clause names none in C.
"""

import importlib
import sys


def main():
    with open(sys.argv[2], encoding="utf-8") as file:
        texts = dict(zip(map(int, sys.argv[3:]), file.read().splitlines()))
    causes = importlib.import_module(f"cefindrato.{sys.argv[1]}")._CAUSES
    for number, text in causes.items():
        assert texts[number] == text.replace("clause {}", "a clause"), (number, texts[number], text)


main()
