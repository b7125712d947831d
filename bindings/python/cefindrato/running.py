"""A check of a proof that is not there yet: `lrat_check` or `drat_check` reads it from a pipe while it is written.

    with Running("formula.cnf") as check:
        check.write(b"5 1 0 1 2 0\\n")
        check.finish()

The state is the program's own. `lrat_check` judges each line as it comes, and ends at the first that is rejected and at the
empty clause.
"""

import os
import subprocess
import sysconfig
from shutil import which
from typing import Sequence, Union

from .faults import Fault
from .library import Text

Name = Union[str, "os.PathLike[str]"]


def where(name: str) -> str:
    """Where a program of this package is, or one of this name on the path."""
    own = os.path.join(sysconfig.get_path("scripts"), name)
    found = own if os.path.isfile(own) else which(name)
    if not found:
        raise FileNotFoundError(f"{name} is not installed")
    return found


class Running:
    """A check that reads its proof while it is written, by a program: `lrat_check`, or `drat_check` for DRAT and FRAT.

    As a context manager it is cancelled at the end, if it was not finished.
    """

    def __init__(self, formula: Name, program: Name = "lrat_check", options: Sequence[str] = ()) -> None:
        """Starts the program on a formula's file, with options as on its command line, such as `["--core", "core.cnf"]`."""
        pipes = {"stdin": subprocess.PIPE, "stdout": subprocess.DEVNULL, "stderr": subprocess.PIPE}
        words = [where(os.fspath(program)), os.fspath(formula), "-", *options]
        self._program = subprocess.Popen(words, bufsize=0, **pipes)
        self._is_cancelled = False
        self._said = b""

    def __enter__(self) -> "Running":
        return self

    def __exit__(self, *_) -> None:
        self.cancel()

    def write(self, proof: Text) -> bool:
        """More of the proof. It is False once the program has ended, and what is written then is not read."""
        left = memoryview(proof).cast("B")
        try:
            while left:
                left = left[self._program.stdin.write(left) :]
        except BrokenPipeError:
            return False
        return True

    def finish(self) -> bool:
        """Ends the proof. Whether it shows that no assignment satisfies the formula; a Fault where it is rejected."""
        if self._program.returncode is None:
            _, self._said = self._program.communicate()
        if self._is_cancelled:
            raise Fault("cancelled")
        if self._program.returncode not in (0, 3):
            raise Fault(self._said.decode(errors="replace").partition("\n")[0])
        return self._program.returncode == 0

    def cancel(self) -> None:
        """Ends the program without a verdict, if the check was not finished."""
        if self._program.returncode is None:
            self._is_cancelled = True
            self._program.kill()
            self._program.communicate()
