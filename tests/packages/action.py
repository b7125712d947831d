"""Runs the steps of a composite action for GitHub, word for word, as a runner does.

action.py ACTION RUNNER [INPUT=VALUE ..]

ACTION is the folder of action.yml, RUNNER a folder for the runner's files. The exit status is that of the first step that fails, else 0.
The parser reads only the YAML that action.yml uses: two blanks for each depth, a scalar on one line, or a block after `|`. If Python has the
module yaml, its result is compared.
"""

import os
import re
import site
import subprocess
import sys

LINE = re.compile(r"( *)(- )?([a-z_A-Z]+):(?: (.*))?$")
INPUT = re.compile(r"\$\{\{ inputs\.(\w+) \}\}")
GIVEN = re.compile(r"inputs\.(\w+) != ''")


def scalar(text):
    return text[1:-1] if text[:1] == "'" else text


def parsed(text):
    """The file as dictionaries; a list of steps is under `steps`."""
    lines, top = text.splitlines(), {}
    places, at = [(-1, top)], 0
    while at < len(lines):
        line, at = lines[at], at + 1
        if not line.strip():
            continue
        blanks, item, name, value = LINE.match(line).groups()
        depth = len(blanks) + len(item or "")
        while places[-1][0] >= (len(blanks) if item else depth):
            places.pop()
        if item:
            step = {}
            places[-1][1].setdefault("steps", []).append(step)
            places.append((len(blanks), step))
        if value == "|":
            block = []
            while at < len(lines) and (not lines[at].strip() or lines[at].startswith(" " * (depth + 2))):
                block.append(lines[at][depth + 2 :])
                at += 1
            places[-1][1][name] = "\n".join(block).strip("\n") + "\n"
        elif value is not None:
            places[-1][1][name] = scalar(value)
        elif name != "steps":
            places[-1][1][name] = {}
            places.append((depth, places[-1][1][name]))
    return top


def faults(action):
    """What is wrong with the inputs and steps, apart from what running them shows."""
    for name, about in action["inputs"].items():
        if not about.get("description") or "default" not in about:
            yield f"the input {name} lacks a description or a default"
    for step in action["runs"]["steps"]:
        if "${{" in step["run"]:
            yield f"{step['name']}: an expression in the script, by which an input could become a command"
        if step["shell"] != "bash":
            yield f"{step['name']}: not run by bash"


def ran(step, inputs, folder, runner):
    """Runs a step and returns its status. Its PATH has the folders that earlier steps added."""
    path = os.path.join(runner, "path")
    with open(path, encoding="utf-8") as file:
        added = file.read().splitlines()
    words = os.path.join(runner, "words")
    with open(words, "w", encoding="utf-8") as file:
        file.write(step["run"])
    environment = {
        **os.environ,
        "GITHUB_ACTION_PATH": folder,
        "GITHUB_PATH": path,
        "RUNNER_TEMP": os.path.join(runner, "temp"),
        "PATH": os.pathsep.join([*reversed(added), os.environ["PATH"]]),
    }
    for name, value in step.get("env", {}).items():
        environment[name] = INPUT.sub(lambda it: inputs[it[1]], value)
    return subprocess.run(["bash", "--noprofile", "--norc", "-eo", "pipefail", words], env=environment).returncode


def main(folder, runner, *given):
    with open(os.path.join(folder, "action.yml"), encoding="utf-8") as file:
        text = file.read()
    action = parsed(text)
    # (the scripts start Python without site-packages)
    site.main()
    try:
        import yaml
    except ImportError:
        print("no module yaml: the parsed action.yml is not compared")
    else:
        if yaml.safe_load(text) != action:
            print(f"yaml parses action.yml as\n{yaml.safe_load(text)}\nand not\n{action}")
            return 2
    if found := list(faults(action)):
        print(*found, sep="\n")
        return 2
    values = dict(word.split("=", 1) for word in given)
    inputs = {name: values.pop(name, about["default"]) for name, about in action["inputs"].items()}
    if values:
        print("no inputs:", *values)
        return 2
    os.makedirs(os.path.join(runner, "temp"))
    with open(os.path.join(runner, "path"), "w", encoding="utf-8"):
        pass
    for step in action["runs"]["steps"]:
        if "if" not in step or inputs[GIVEN.fullmatch(step["if"])[1]] != "":
            if status := ran(step, inputs, folder, runner):
                return status
    return 0


sys.exit(main(*sys.argv[1:]))
