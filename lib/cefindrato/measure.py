"""What a command takes: `checked_all` is run as this in place of a solver or of its checker."""

import json
import os
import signal
import sys
import time
from typing import Any, List

# The variable that names the file to which a line is appended for each command.
FILE = "CHECKED_ALL_MEASURES"
STOPS = (signal.SIGHUP, signal.SIGINT, signal.SIGQUIT, signal.SIGTERM)


def main(role: str, words: List[str]) -> int:
    """Runs a command, appends its seconds, those of all its processors, and its memory in bytes,
    as a line of JSON with its role, and returns its status.

    A signal that ends the command ends this process too. One that is sent to both is left to the
    command.
    """
    for it in STOPS:
        if signal.getsignal(it) != signal.SIG_IGN:
            signal.signal(it, lambda *_: None)
    began = time.monotonic()
    defaults = (signal.SIGPIPE, signal.SIGXFSZ)
    try:
        own = {name: it for name, it in os.environ.items() if name != FILE}
        process = os.posix_spawnp(words[0], words, own, setsigdef=defaults)
    except OSError as why:
        sys.stderr.write(f"cannot run {words[0]}: {why.strerror}\n")
        return 127
    _, status, usage = os.wait4(process, 0)
    append(role, time.monotonic() - began, usage)
    code = os.WEXITSTATUS(status)
    if os.WIFSIGNALED(status):
        code = os.WTERMSIG(status)
        if code != signal.SIGKILL:
            signal.signal(code, signal.SIG_DFL)
        os.kill(os.getpid(), code)
    return code


def append(role: str, seconds: float, usage: Any) -> None:
    """Appends a line, unless nobody reads it any more."""
    row = {"role": role, **took(seconds, usage)}
    try:
        file = os.open(os.environ[FILE], os.O_WRONLY | os.O_APPEND)
        os.write(file, (json.dumps(row) + "\n").encode())
        os.close(file)
    except OSError:
        pass


def took(seconds: float, usage: Any) -> Any:
    """Returns what the system says of a process that has ended, with all those that it waited
    for."""
    processor = usage.ru_utime + usage.ru_stime
    memory = usage.ru_maxrss * 1024
    return {"seconds": round(seconds, 3), "processor": round(processor, 3), "memory": memory}
