"""Checks the links of documents.

links.py FOLDER    prints the links in the folder's documents that lead nowhere, or out of it, and the number of all links
"""

import glob
import os
import re
import sys

LINK = re.compile(r"\]\(([^)#:\s]*)(#[^)\s]*)?\)")
HEADING = re.compile(r"^#+ (.*)$", re.MULTILINE)


def anchors(path):
    """The headings of a document, as links name them."""
    with open(path, encoding="utf-8") as file:
        headings = HEADING.findall(file.read())
    kept = (re.sub(r"[^\w\- ]", "", heading.lower()) for heading in headings)
    return {"#" + heading.replace(" ", "-") for heading in kept}


def linked(document, text):
    """Yields each file that a document links to, with the link and its part."""
    for link, part in LINK.findall(text):
        yield os.path.normpath(os.path.join(os.path.dirname(document), link)) if link else document, link, part


def bad_links(document, text):
    for path, link, part in linked(document, text):
        if path.startswith("..") or not os.path.exists(path):
            yield f"a link to {link}, which is not there"
        elif part and part not in anchors(path):
            yield f"a link to {link}{part}: no heading has that name"


def main(folder):
    os.chdir(folder)
    count = wrong = 0
    for document in sorted(glob.glob("**/*.md", recursive=True)):
        with open(document, encoding="utf-8") as file:
            text = file.read()
        count += len(list(linked(document, text)))
        for fault in bad_links(document, text):
            wrong += 1
            print(f"{document}: {fault}")
    print(f"{count} links, {wrong} of them lead nowhere")
    return 1 if wrong or not count else 0


if __name__ == "__main__":
    sys.exit(main(*sys.argv[1:]))
