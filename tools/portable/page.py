#!/usr/bin/env python3
"""One page with programs in it, which needs no server.

page.py VERSION COMMIT FOLDER NAME.. > cefindrato.html

FOLDER has NAME.wasm of each program.
"""

import base64
import hashlib
import html
import json
import os
import sys

OWN = os.path.dirname(os.path.abspath(__file__))


def text_of(name):
    with open(f"{OWN}/{name}", encoding="utf-8") as file:
        return file.read()


def bytes_of(name):
    with open(name, "rb") as file:
        return file.read()


def main(version, commit, folder, *names):
    modules = {name: bytes_of(f"{folder}/{name}.wasm") for name in names}
    sums = (f"<tr><td>{name}.wasm<td>sha256 {hashlib.sha256(text).hexdigest()}" for name, text in modules.items())
    parts = {
        "VERSION": html.escape(version),
        "COMMIT": html.escape(commit),
        "SUMS": "".join(sums),
        "SYSTEM": text_of("system.mjs").replace("export function", "function"),
        "WORKER": text_of("worker.js"),
        "WASM": json.dumps({name: base64.b64encode(text).decode() for name, text in modules.items()}),
        "PAGE": text_of("page.js"),
    }
    page = text_of("page.html")
    for name, text in parts.items():
        page = page.replace(f"@{name}@", text)
    sys.stdout.write(page)


main(*sys.argv[1:])
