"""Whether scripts call only what each machine has, and what they have asked for before.

    guards.py SCRIPT..

A command of optional.txt that a script calls has to be asked for by `has`, `only_with`, `type -P` or `command -v`: in a case before the
call in the case, or before all cases, and in another function anywhere in the script. A name is a command where a command begins; words
in single quotes and in texts that stand in the script are none. A script that writes a program of that name calls its own. And no script
says by an `echo` of its own that something is not tried.
"""

import os
import re
import sys

OPTIONAL = os.path.join(os.path.dirname(os.path.abspath(__file__)), "optional.txt")
BEGINS = r"(?:^|[;&|{`!]|(?<!=)\(|\b(?:then|do|else|if|while|until|exec|env|time)\b|\btimeout \d+)[ \t]*(?:\w+=\S*[ \t]+)*"


def commands():
    with open(OPTIONAL, encoding="utf-8") as file:
        return [line.split()[0] for line in file if not line.startswith("#")]


def code_of(text):
    """The script without comments, texts that stand in it, and what is in single quotes but a command of two words; its lines stay."""
    text = re.sub(r"(?m)^([^\n]*?<<-? ?'?(\w+)'?[^\n]*\n)((?:.*\n)*?)[ \t]*\2$", lambda it: it[1] + "\n" * it[3].count("\n"), text)
    text = re.sub(r"(?m)^\s*#.*$", "", text)
    text = re.sub(r"(?<= )'(\w+) \w+'", r"\1", text)
    return re.sub(r"'[^']*'", lambda it: "''" + "\n" * it[0].count("\n"), text)


def parts_of(code):
    """The functions, by name, and what is before the first case and outside."""
    functions = {it[1]: it[2] for it in re.finditer(r"(?ms)^(\w+)\(\) \{\n(.*?)^\}", code)}
    outside = re.sub(r"(?ms)^\w+\(\) \{\n.*?^\}", "", code)
    return functions, outside


def asks(code, name):
    """Where the command is asked for, by its name or in a loop over names."""
    named = rf"(?:\b(?:has|only_with)|\b(?:type -P|command -v))(?: [^\n;|&]*)? {re.escape(name)}(?=[\s;)]|$)"
    looped = rf"for \w+ in [^\n]*(?<![\w.-]){re.escape(name)}(?![\w.-])[^\n]*\n(?:.*\n)?.*\b(?:has|only_with) \""
    found = [it.start() for it in re.finditer(f"{named}|{looped}", code)]
    return min(found, default=None)


def calls(code, name):
    by_tar = r"|\btar -\w*J" if name == "xz" else ""
    found = re.search(rf"(?m){BEGINS}{re.escape(name)}(?=[ \t)]|$){by_tar}", code)
    return found.start() if found else None


def unguarded(path):
    with open(path, encoding="utf-8") as file:
        text = file.read()
    code = code_of(text)
    functions, outside = parts_of(code)
    for name in commands():
        if re.search(rf"bin/{re.escape(name)}\b|^solver {re.escape(name)} <<", text, re.M):
            continue
        at = asks(outside, name)
        if at is None and calls(outside, name) is not None or at is not None and (calls(outside, name) or len(outside)) < at:
            yield name, "outside of functions"
        for function, body in functions.items():
            called, asked = calls(body, name), asks(body, name)
            if called is None or at is not None or asked is not None and asked <= called:
                continue
            if function.startswith("case_") or asks(code, name) is None:
                yield name, function


def main(paths):
    wrong = 0
    for path in paths:
        for name, where in unguarded(path):
            print(f"{path}: {where} calls {name}, which not every machine has, and does not ask for it")
            wrong = 1
        with open(path, encoding="utf-8") as file:
            if os.path.basename(path) not in ("lib.sh", "test_run.sh", "test_tools.sh") and re.search(r"(?m)^[^#\n]*\b(?:echo|printf)\b.*\bnot tried", file.read()):
                print(f"{path}: it says itself that something is not tried, which tests/lib.sh says")
                wrong = 1
    return wrong


sys.exit(main(sys.argv[1:]))
