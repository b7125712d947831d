"""Whether what `checked --json` wrote is what the table of docs/reference/FORMATS.md says, and what a test expects.

json_rows.py FORMATS FILE STATUS VERDICT CAUSE REASON CALL..

The table has of each field its name, its type and what it means; the causes are the words of a second table.
"""

import json
import re
import sys

TYPES = {
    "text or null": lambda it: it is None or isinstance(it, str),
    "number": lambda it: type(it) is int,
    "list of texts": lambda it: isinstance(it, list) and all(isinstance(text, str) for text in it),
}


def tables(formats):
    """The types of the fields, by their names, and the causes."""
    part = formats.split("\n## The line of `checked --json`\n", 1)[1].split("\n## ", 1)[0]
    fields = dict(re.findall(r"^\| `(\w+)` \| ([a-z ]+) \|", part, re.MULTILINE))
    causes = re.findall(r"^\| `([a-z ]+)` \| [0-9a-z+ ,]+ \|", part, re.MULTILINE)
    return fields, [it for it in causes if it not in fields]


def faults(fields, causes, line, status, verdict, cause, reason):
    found = json.loads(line)
    if list(found) != list(fields) or not all(
        TYPES[kind](found[name]) for name, kind in fields.items()
    ):
        yield "its fields are not those of FORMATS"
        return
    if found["cause"] is not None and found["cause"] not in causes:
        yield f"FORMATS has no cause {found['cause']}"
    if (found["status"], found["verdict"] or "", found["cause"] or "") != (
        int(status),
        verdict,
        cause,
    ):
        yield "its status, verdict or cause"
    if not any(reason in it for it in found["reason"]) if reason else found["reason"]:
        yield "its reason"


def main(formats, file, status, verdict, cause, reason, *call):
    with open(formats, encoding="utf-8") as text:
        fields, causes = tables(text.read())
    assert len(fields) == 5 and len(causes) == 9, (fields, causes)
    with open(file, encoding="utf-8") as text:
        said = text.read()
    if said.count("\n") != 1 or not said.endswith("\n"):
        print(f"{' '.join(call)}: not one line: {said}")
        return 1
    wrong = 0
    for fault in faults(fields, causes, said, status, verdict, cause, reason):
        print(f"{' '.join(call)}: {fault}: {said}")
        wrong = 1
    return wrong


sys.exit(main(*sys.argv[1:]))
