"""Plays scripts of calls while growths are refused, one after the other, and judges what the calls answer.

scripts.py CHECK_VECTORS FAIL SCRIPTS

FAIL is `fail.c` as a library. CHECK_VECTORS makes each call of a script of a new checker that takes the calls before it, and tells of the
first line that differs. Where a growth is refused, that may be a call which answers that there was no memory; or one behind it: then the
checker has failed, and shows nothing. If the refused growth is one of CHECK_VECTORS itself, it tells of no line. Each script is played
without its processors too.
"""

import concurrent.futures
import itertools
import os
import re
import sys
import tempfile

DIFFERS = re.compile(r'.*, line (\d+): expected (".*"), seen (".*")\n')

# What a checker shows that has failed.
FAILED = {"unsat": "false", "inputs": "0", "counts": "0 0"}


def scripts_in(path):
    """The scripts of a file, each with its calls and steps."""
    with open(path, encoding="ascii") as file:
        lines = [line for line in file.read().splitlines() if line and not line.startswith("#")]
    starts = [at for at, line in enumerate(lines) if line in ("new", "bare")]
    scripts = [lines[at:end] for at, end in zip(starts, [*starts[1:], len(lines)])]
    bare = [["bare", *(line for line in script[1:] if line[0] not in "+~")] for script in scripts if script[0] == "new"]
    return scripts + bare


def is_want(answer):
    """Whether the answer of a call is that there was no memory, in the checker or in a processor, or that one is handed back."""
    return answer in ("OutOfMemory", "ProofProcessorError") or answer.startswith("OutOfMemory, and back comes ")


def judge(script, said):
    """What a run shows: `whole`, `own`, `want`, `failed`, or nothing if it may not be."""
    if re.fullmatch(r".*: \d+ calls are answered as expected\n", said):
        return "whole"
    if not said:
        return "own"
    found = DIFFERS.fullmatch(said)
    line = script[int(found[1]) - 1] if found else ""
    call, answer = line.partition(" > ")[0], found[3].strip('"').partition(" > ") if found else ("", "", "")
    if not found or line != found[2].strip('"') or answer[0] != call:
        return None
    if call in ("processors", "transcripts"):
        # (what was shown before the fault, or no processor at all)
        return "failed" if answer[2] in ("", "-") or line.startswith(f"{call} > {answer[2]}") else None
    if answer[2] == FAILED.get(call, "Failed"):
        return "failed"
    return "want" if is_want(answer[2]) and call not in FAILED else None


def run(program, fail, folder, number):
    """The status and output of a run with a refused growth, and whether there was one."""
    settings = {**os.environ, "FAIL_AT": str(number), "LD_PRELOAD": fail}
    flags = os.O_WRONLY | os.O_CREAT | os.O_TRUNC
    # (no shell between: each start counts here)
    files = [(os.POSIX_SPAWN_OPEN, at, f"{folder}/{name}", flags, 0o600) for at, name in ((1, "said"), (2, "errors"), (9, "marks"))]
    child = os.posix_spawn(program, [program, f"{folder}/script"], settings, file_actions=files)
    status = os.waitstatus_to_exitcode(os.waitpid(child, 0)[1])
    with open(f"{folder}/said", encoding="ascii") as said:
        return status, said.read(), os.path.getsize(f"{folder}/marks") > 0


def numbers():
    """The growths that are refused. (The calls before a call are made again for it, so that most growths come often.)"""
    return itertools.chain(range(1, 100), itertools.count(100, 5))


def play(program, fail, script):
    """How many runs there are of each kind, up to one without a refused growth, and what is wrong."""
    counts = dict.fromkeys(("whole", "own", "want", "failed"), 0)
    with tempfile.TemporaryDirectory() as folder:
        with open(f"{folder}/script", "w", encoding="ascii") as file:
            file.write("".join(f"{line}\n" for line in script))
        for number in numbers():
            status, said, is_refused = run(program, fail, folder, number)
            kind = judge(script, said)
            if kind is None or (status == 0) != (kind == "whole") or not is_refused and kind != "whole":
                return counts, f"growth {number}: status {status}, {said}"
            if not is_refused:
                return counts, "" if counts["want"] else "no call answers that there was no memory"
            counts[kind] += 1
    raise AssertionError


def main(program, fail, path):
    program, fail = os.path.abspath(program), os.path.abspath(fail)
    scripts = scripts_in(path)
    with concurrent.futures.ThreadPoolExecutor(os.cpu_count()) as threads:
        played = list(threads.map(lambda script: play(program, fail, script), scripts))
    for script, (counts, fault) in zip(scripts, played):
        print(f"{script[0]}, {script[1]} ..: {counts}", f"WRONG {fault}" if fault else "")
    wrong = any(fault for _, fault in played)
    if not any(counts["failed"] for counts, _ in played):
        print("WRONG no call comes behind one without memory")
        wrong = True
    return 1 if wrong else 0


sys.exit(main(*sys.argv[1:]))
