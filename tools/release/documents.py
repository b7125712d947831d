#!/usr/bin/env python3
"""Copies the documents of a package, and each file that one of them or a linked document links to.

documents.py TOP OUT

OUT gets the files that git lists in the checkout TOP, under the same names.
"""

import os
import re
import shutil
import subprocess
import sys

FIRST = ("README.md", "CHANGELOG.md", "LICENSE", "docs/*.md", "docs/reference")
LINK = re.compile(r"\]\(([^)#:\s]+)(?:#[^)\s]*)?\)")


def listed(top, *paths):
    """The files with these names that git lists, and those in folders with these names."""
    found = subprocess.run(["git", "-C", top, "ls-files", "-z", "--", *paths], capture_output=True, text=True, check=True).stdout
    return found.split("\0")[:-1]


def linked(top, document):
    with open(os.path.join(top, document), encoding="utf-8") as file:
        links = LINK.findall(file.read())
    paths = {os.path.normpath(os.path.join(os.path.dirname(document), link)) for link in links}
    return listed(top, *sorted(paths)) if paths else []


def main(top, out):
    files = listed(top, *FIRST)
    seen = set(files)
    for path in files:
        if path.endswith(".md"):
            more = [name for name in linked(top, path) if name not in seen]
            seen.update(more)
            files += more
    for path in files:
        copy = os.path.join(out, path)
        os.makedirs(os.path.dirname(copy), exist_ok=True)
        shutil.copyfile(os.path.join(top, path), copy)


main(*sys.argv[1:])
