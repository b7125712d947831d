"""The words of a script's call, and how it ends."""

import argparse
import io
import os
import sys
from typing import Any, Callable, Dict, List

from . import VERSION
from .faults import Fault, Unusable


class Words(argparse.ArgumentParser):
    """The words of a call. What is wrong with them is said in a line, with the word."""

    more = " ({} --help says how it is called)"

    def __init__(self, name: str) -> None:
        super().__init__(prog=name, add_help=False, allow_abbrev=False)

    def error(self, message: str) -> Any:
        raise Unusable(message + self.more.format(self.prog))

    def add_says(self, text: str) -> None:
        """Adds the options that say something, and after which nothing else is done."""
        self.add_argument("-h", "--help", action=Says, nargs=0, const=text)
        self.add_argument("-V", "--version", action=Says, nargs=0, const=f"{self.prog} {VERSION}\n")


class Says(argparse.Action):
    """An option that says something, and nothing else is done."""

    def __call__(self, parser: argparse.ArgumentParser, *_: Any) -> None:
        sys.stdout.write(self.const)
        parser.exit()


class Calls(Words):
    """The words of a script that has several calls, by their names and their operands, of which the
    last may end in `..`."""

    more = "; {} --help says more"

    def __init__(self, name: str, calls: Dict[str, str]) -> None:
        super().__init__(name)
        self.calls = calls

    def options_of(self, words: List[str]) -> argparse.Namespace:
        self.add_argument("words", nargs="*")
        self.add_argument("-h", "--help", action="store_true")
        self.add_argument("-V", "--version", action="store_true")
        options, unknown = self.parse_known_intermixed_args(words)
        if unknown:
            option = next((it for it in unknown if it[:1] == "-" != it), unknown[0])
            self.error(f"there is no option {option}")
        return options

    def has_said(self, options: argparse.Namespace, text: str) -> bool:
        """Whether a text was asked for, which is written."""
        if options.help or options.version:
            sys.stdout.write(text if options.help else f"{self.prog} {VERSION}\n")
        return bool(options.help or options.version)

    def operands(self, words: List[str]) -> List[str]:
        """Returns the operands of a call."""
        if not words:
            self.error("no call is named")
        if words[0] not in self.calls:
            self.error(f"there is no call {words[0]}")
        wanted, given = self.calls[words[0]].split(), words[1:]
        if len(given) < len(wanted):
            self.error(f"{words[0]}: no {wanted[len(given)].rstrip('.')} is named")
        if len(given) > len(wanted) and not wanted[-1].endswith(".."):
            self.error(f"{words[0]}: a word too many: {given[len(wanted)]}")
        return given


def after_options(words: List[str]) -> int:
    """Returns the place of `--`, or else of the end: what is behind it is no option, which
    intermixed words forget."""
    return words.index("--") if "--" in words else len(words)


def leave_output() -> None:
    """Who reads standard output has had enough: what is left of it is not written at the end."""
    os.dup2(os.open(os.devnull, os.O_WRONLY), sys.stdout.fileno())


def run_main(
    main: Callable[[List[str]], int], errors: str = "surrogateescape", when_left: int = 2
) -> int:
    """Calls `main` with the words, and returns the status, or this one if who reads standard
    output has had enough.

    A name of a file need not be UTF-8: `errors` says how it is written.
    """
    try:
        if sys.stdout is None:
            raise Unusable("standard output is closed")
        if isinstance(sys.stdout, io.TextIOWrapper):
            sys.stdout.reconfigure(errors=errors)
        try:
            status = main(sys.argv[1:])
        except SystemExit as ended:
            status = int(ended.code or 0)
        sys.stdout.flush()
        return status
    except BrokenPipeError:
        leave_output()
        return when_left
    except Fault as fault:
        sys.stderr.write(f"{fault}\n")
        return 1
    except Unusable as fault:
        sys.stderr.write(f"{fault}\n")
    except OSError as why:
        sys.stderr.write(f"cannot use {why.filename or 'standard output'}: {why.strerror}\n")
    return 2
