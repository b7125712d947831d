"""Runs of `checked` side by side, and the rows that they come to."""

import collections
import hashlib
import json
import os
import queue
import re
import shlex
import signal
import tempfile
import threading
import time
from typing import Any, Callable, Deque, Dict, List, Optional, Sequence, Set, Tuple, Union

from . import files, measure, programs
from .faults import Unusable
from .table import CHECK_LIMIT, FIELDS, LIMIT, MALFORMED, NO_ANSWER, NOT_CHECKED, REJECTED, VERDICTS
from .table import Row, Sums, found_on_path, is_verified, key_of, row_of

# The line of `checked`, which may be of pieces.
UNSAT = re.compile(r"s VERIFIED UNSAT(?: BY [0-9]+ RECEIPTS)?")
LINES = {20: UNSAT, 10: re.compile(r"s VERIFIED SAT")}
INTERRUPT = "interrupt"
# The statuses of `checked` with which a row is not run again.
SETTLED = (1, 3, 10, 20)
# The seconds that `checked` has to end what it started.
GRACE = 10

Event = Union[Row, int, Unusable, threading.Thread, None]


class Call:
    """How `checked` is called for a formula, and the files whose sums are in a row. `script` is
    what runs this, and what it is run as to measure."""

    def __init__(self, options: Any, script: str) -> None:
        try:
            self.solver = shlex.split(options.solver)
        except ValueError as why:
            raise Unusable(f"--solver: {why}") from None
        if not self.solver or not found_on_path(self.solver[0]):
            name = self.solver[0] if self.solver else "a solver without a name"
            raise Unusable(f"cannot run {name}")
        self.options = ["--while"] * options.while_ + ["--lrat"] * options.lrat
        self.options += ["--no-proof"] * options.no_proof
        self.options += ["--call", options.call] if options.call else []
        self.limit, self.check_limit = options.limit, options.check_limit
        self.folder, self.sums, self.script = options.keep_proofs, Sums(), script
        self.srun = found_on_path("srun") if options.slurm else None
        if options.slurm and not self.srun:
            raise Unusable("cannot run srun")
        self.environment: Dict[str, str] = dict(os.environ)
        self.files: List[Tuple[str, str]] = []
        self.find_files(options.while_)

    def find_files(self, by_pieces: bool) -> None:
        for word in self.solver:
            path = found_on_path(word)
            path = path or (os.path.abspath(word) if os.path.isfile(word) else None)
            self.files += [("solver", path)] if path else []
        self.checked = self.program("checked") or ""
        pieces = ("pieces", "drat_cut", "join_check") if by_pieces else ()
        for name in ("drat_check", "model_check", *pieces):
            found = self.program(os.environ.get(name.upper()) or name)
            self.environment[name.upper()] = found or name
        # (without it `checked` has DRAT written)
        name = os.environ.get("LRAT_CHECK") or "lrat_check"
        self.environment["LRAT_CHECK"] = self.program(name, True) or name

    def program(self, name: str, is_spare: bool = False) -> Optional[str]:
        """Returns a program of which a row has the sum: beside the script, in ../dist, or on
        PATH."""
        own = os.path.dirname(self.script)
        path = next(programs.beside(own, name), None) if "/" not in name else None
        path = path or found_on_path(name)
        if not path and not is_spare:
            raise Unusable(f"cannot run {name}")
        self.files += [("checker", path)] if path else []
        return path

    def kept(self, formula: str) -> Optional[str]:
        """Returns where the proof is kept: no two formulas have one name."""
        if not self.folder:
            return None
        digest = hashlib.sha256(os.fsencode(formula)).hexdigest()[:16]
        return os.path.join(self.folder, f"{os.path.basename(formula)}.{digest}")

    def limits(self) -> List[str]:
        words = ["--limit", repr(self.limit)] if self.limit else []
        return words + (["--check-limit", repr(self.check_limit)] if self.check_limit else [])

    def words(self, formula: str) -> List[str]:
        """Returns the words of a run: of `checked`, or of the script on another machine."""
        if self.srun:
            options = ["--solver", shlex.join(self.solver), *self.options, *self.limits()]
            options += ["--keep-proofs", self.folder] if self.folder else []
            job = [self.srun, "--ntasks=1", "--job-name=checked_all", self.script]
            return [*job, "--json", "-", *options, "--", formula]
        kept = self.kept(formula)
        # one processor for each run, except with --while, whose pieces keep up with the solver
        options = [] if "--while" in self.options else ["--jobs", "1"]
        options += self.limits() if self.check_limit else []
        options += ["--keep", kept] if kept else []
        formula = formula if formula != "-" else "./-"
        return [self.checked, "--json", *self.options, *options, "--", *self.solver, formula]

    def time(self) -> Optional[float]:
        """Returns after how many seconds a run is ended from here: by one limit, or where `checked`
        does not end it by one of two."""
        if self.srun or self.limit is None:
            return None
        together: float = self.limit
        return together + self.check_limit + GRACE if self.check_limit else together

    def sums_of(self, formula: str) -> List[Dict[str, str]]:
        named = (("formula", formula), *self.files)
        return [{"of": of, "file": it, "sha256": self.sums.of(it)} for of, it in named]

    def fits(self, row: Optional[Row], sums: List[Dict[str, str]]) -> bool:
        """Whether a row is what a run would give. A verdict that took no longer than the limits is
        one with any limits."""
        if row is None or row["edited"] or not is_settled(row):
            return False
        limits = self.limit, self.check_limit
        if (row["limit"], row["check_limit"]) != limits and not is_within(row, *limits):
            return False
        is_kept = any(it["of"] == "proof" and os.path.exists(it["file"]) for it in row["sums"])
        return same_sums(row, sums) and (not self.folder or not is_verified(row) or is_kept)


def is_settled(row: Row) -> bool:
    return row["status"] in SETTLED or row["reason"] == LIMIT or row["outcome"] == MALFORMED


def is_within(row: Row, limit: Optional[float], check_limit: Optional[float]) -> bool:
    """Whether a verdict took no longer than these limits."""
    if not is_verified(row):
        return False
    if check_limit is None:
        return limit is None or row["seconds"] <= limit
    if not row["solving"] or not row["checking"]:
        return False
    is_solved = limit is None or row["solving"]["seconds"] <= limit
    return bool(is_solved and row["checking"]["seconds"] <= check_limit)


def same_sums(row: Row, sums: List[Dict[str, str]]) -> bool:
    """Whether a row is of these files, whatever their names are."""
    own = [(it["of"], it["sha256"]) for it in row["sums"] if it["of"] != "proof"]
    return own == [(it["of"], it["sha256"]) for it in sums]


class Run:
    """A run of `checked`, in a process group of its own."""

    def __init__(self, call: Call, words: List[str]) -> None:
        self.lock, self.has_ended = threading.Lock(), False
        self.why: Optional[str] = None
        self.out, self.err = tempfile.TemporaryFile(), tempfile.TemporaryFile()
        self.measures = tempfile.TemporaryFile()
        self.timers: List[threading.Timer] = []
        environment = dict(call.environment)
        if not call.srun:
            environment["MEASURE"] = call.script
            environment[measure.FILE] = files.name_of(self.measures)
        actions: List[Any] = [
            (os.POSIX_SPAWN_OPEN, 0, os.devnull, os.O_RDONLY, 0),
            (os.POSIX_SPAWN_DUP2, self.out.fileno(), 1),
            (os.POSIX_SPAWN_DUP2, self.err.fileno(), 2),
        ]
        how: Any = {"setsigdef": (signal.SIGPIPE, signal.SIGXFSZ), "setsigmask": ()}
        self.began = time.monotonic()
        self.process = os.posix_spawn(
            words[0], words, environment, file_actions=actions, setpgroup=0, **how
        )
        seconds = call.time()
        if seconds is not None:
            self.after(seconds, self.end, LIMIT)

    def after(self, seconds: float, act: Callable[..., None], *words: Any) -> None:
        timer = threading.Timer(seconds, act, words)
        timer.daemon = True
        self.timers.append(timer)
        timer.start()

    def signal(self, number: int, send: Callable[[int, int], None]) -> None:
        with self.lock:
            if not self.has_ended:
                send(self.process, number)

    def end(self, why: str) -> None:
        """Has `checked` end all that it started, and then itself; its group is killed where it does
        not."""
        self.why = self.why or why
        self.signal(signal.SIGTERM, os.kill)
        self.after(GRACE, self.signal, signal.SIGKILL, os.killpg)

    def wait(self) -> Tuple[int, float, Any]:
        """Returns its status, seconds, and what it took. Its number is no other's until it is asked
        for."""
        os.waitid(os.P_PID, self.process, os.WEXITED | os.WNOWAIT)
        seconds = time.monotonic() - self.began
        with self.lock:
            self.has_ended = True
            if self.why:
                os.killpg(self.process, signal.SIGKILL)
        _, status, usage = os.wait4(self.process, 0)
        for timer in self.timers:
            timer.cancel()
        code = -os.WTERMSIG(status) if os.WIFSIGNALED(status) else os.WEXITSTATUS(status)
        return code, seconds, usage

    def said(self) -> Row:
        """Returns what `checked` says, or nothing where that is not its line of JSON."""
        self.out.seek(0)
        try:
            said = json.loads(self.out.read(1 << 20).decode(errors="replace"))
            return said if isinstance(said, dict) else {}
        except ValueError:
            return {}

    def outcome(self, status: int) -> Tuple[str, str]:
        """Returns what it comes to, and why that is no verdict."""
        said = self.said()
        verdict, cause = said.get("verdict"), said.get("cause")
        if status in LINES and isinstance(verdict, str) and LINES[status].fullmatch(verdict):
            return VERDICTS[status], ""
        if self.why and status not in (1, 3):
            return NO_ANSWER, self.why
        if status == 3 and cause == LIMIT:
            return NO_ANSWER, LIMIT
        if status == 3 and cause == CHECK_LIMIT:
            return NOT_CHECKED, CHECK_LIMIT
        reasons = said.get("reason") or self.faults() or [f"checked ended with status {status}"]
        reason = str(reasons[0 if status == 2 else -1])
        if status == 2 and cause == MALFORMED:
            return MALFORMED, reason
        return REJECTED if status == 1 else NO_ANSWER, reason

    def faults(self) -> List[str]:
        """Returns the last lines of what it said on standard error."""
        self.err.seek(0, os.SEEK_END)
        self.err.seek(max(0, self.err.tell() - 4096))
        lines = self.err.read().decode(errors="replace").splitlines()
        return [it.strip() for it in lines if it.strip()]

    def took(self, role: str) -> Optional[Row]:
        """Returns what the solver took, or its checker, or None where it was not run to an end."""
        self.measures.seek(0)
        rows = [json.loads(line) for line in self.measures.read().splitlines()]
        rows = [it for it in rows if it["role"] == role]
        if not rows:
            return None
        took: Row = {of: round(sum(it[of] for it in rows), 3) for of in ("seconds", "processor")}
        return {**took, "memory": max(it["memory"] for it in rows)}

    def close(self) -> None:
        self.out.close()
        self.err.close()
        self.measures.close()


def row_for(call: Call, formula: str, sums: List[Dict[str, str]], run: Run) -> Row:
    """Returns the row of a run, once it has ended."""
    status, seconds, usage = run.wait()
    outcome, reason = run.outcome(status)
    kept = call.kept(formula)
    if outcome in VERDICTS.values() and kept:
        sums = [*sums, {"of": "proof", "file": kept, "sha256": call.sums.of(kept)}]
    now = call.sums.now
    changed = next((it["file"] for it in sums if now(it["file"]) != it["sha256"]), None)
    if changed:
        outcome, reason = NO_ANSWER, f"{changed} has changed meanwhile"
    took = measure.took(seconds, usage).values()
    parts = run.took("solver"), run.took("checker")
    return row_with(call, formula, outcome, reason, status, *took, *parts, sums)


def row_with(call: Call, formula: str, *values: Any) -> Row:
    limits = call.limit, call.check_limit
    return dict(zip(FIELDS, (formula, call.solver, call.options, *limits, *values)))


def row_without_run(call: Call, formula: str, reason: str) -> Row:
    """Returns the row of a formula for which `checked` could not be run."""
    return row_with(call, formula, NO_ANSWER, reason, 2, 0, 0, 0, None, None, [])


def row_from_slurm(call: Call, formula: str, sums: List[Dict[str, str]], run: Run) -> Row:
    """Returns the row that the script wrote on another machine, if it is one of these files."""
    status, _, _ = run.wait()
    run.out.seek(0)
    row = row_of(run.out.read())
    own = {"formula": formula, "solver": call.solver, "options": call.options}
    if row is None or row.pop("edited") or key_of(row) != key_of({**row, **own}):
        reason = run.why or (run.faults() or [f"srun ended with status {status}"])[-1]
        return row_without_run(call, formula, reason)
    if row["status"] in SETTLED and not same_sums(row, sums):
        reason = "the formula, the solver or a checker is another file there"
        return row_without_run(call, formula, reason)
    return row


class Runs:
    """Runs side by side. Each has a thread, and what they come to is taken in by the one that has
    signals."""

    def __init__(self, call: Call, take: Callable[[Row], None]) -> None:
        self.call, self.take, self.lock = call, take, threading.Lock()
        self.events: "queue.SimpleQueue[Event]" = queue.SimpleQueue()
        self.waiting: Deque[str] = collections.deque()
        self.running: Set[Run] = set()
        self.stopped_by: Union[int, Unusable, None] = None

    def next(self) -> Optional[str]:
        with self.lock:
            return self.waiting.popleft() if self.waiting else None

    def start(self, formula: str) -> Optional[Run]:
        """Returns a run, unless all are to end."""
        with self.lock:
            if self.stopped_by is not None:
                return None
            run = Run(self.call, self.call.words(formula))
            self.running.add(run)
        return run

    def row(self, formula: str) -> Optional[Row]:
        """Returns the row of a formula, or None where its run was interrupted."""
        try:
            sums = self.call.sums_of(formula)
        except OSError as why:
            reason = f"cannot open {why.filename}: {why.strerror}"
            return row_without_run(self.call, formula, reason)
        run = self.start(formula)
        if run is None:
            return None
        try:
            row = (row_from_slurm if self.call.srun else row_for)(self.call, formula, sums, run)
        finally:
            with self.lock:
                self.running.discard(run)
            run.close()
        return None if row["reason"] == INTERRUPT else row

    def work(self) -> None:
        """Takes one formula after the other. A signal is not for this thread."""
        signal.pthread_sigmask(signal.SIG_BLOCK, measure.STOPS)
        try:
            while self.stopped_by is None and (formula := self.next()) is not None:
                self.events.put(self.row(formula))
        except OSError as why:
            name = why.filename or self.call.checked
            self.events.put(Unusable(f"cannot use {name}: {why.strerror}"))
        finally:
            self.events.put(threading.current_thread())

    def stop(self, why: Union[int, Unusable]) -> None:
        with self.lock:
            self.stopped_by = self.stopped_by or why
            running = list(self.running)
        for run in running:
            run.end(INTERRUPT)

    def all(self, formulas: Sequence[str], jobs: int) -> Optional[int]:
        """Runs all, and takes in their rows. It comes back once nothing runs: with the signal that
        ended it, if there was one."""
        self.waiting.extend(formulas)
        for it in measure.STOPS:
            if signal.getsignal(it) != signal.SIG_IGN:
                signal.signal(it, lambda number, _: self.events.put(number))
        threads = {threading.Thread(target=self.work) for _ in range(min(jobs, len(formulas)))}
        for thread in threads:
            thread.start()
        while threads:
            event = self.events.get()
            if isinstance(event, threading.Thread):
                threads.discard(event)
            elif isinstance(event, dict):
                try:
                    self.take(event)
                except Unusable as fault:
                    self.stop(fault)
            elif event is not None:
                self.stop(event)
        if isinstance(self.stopped_by, Unusable):
            raise self.stopped_by
        return self.stopped_by
