"""Tries wrong bodies, many in one check.

Each is written below its function as a copy under another name: with the same signature, clauses, attributes, invariants
and answers, and the edit in its body. Nothing calls the copy, so the rest of the crate stands as it was proved, and only
the copies are looked at. A copy has to be refused by its own line, `fn NAME: not proved` or `fn NAME: no proof`. A refusal
says something only where the same copy without the edit is proved, so that is tried too.

What can't be a copy, as a method of a trait or a constant, names the function that has to be refused, by a line `only:`. It is
changed where it stands, and has a check of its own, of that function alone.

A body with another shape may be refused though it is right, since a proof that was written for the function no longer fits. So
`kinds.py` tells apart what refuses a wrong body: a clause of the contract, or a written proof.

Then it is noted in `wrong-bodies/REFUSED`: `records.py` tells of what.
"""

import concurrent.futures
import functools
import os
import sys
import tempfile
import time

import always
import kinds
import toolchain
from functions import NoCopy, WrongBody
from judging import judge, judge_alone
from records import ROOT, Record, bodies, crates_with_wrong_bodies

# How many copies one check has. One of 30 copies in a program ends without a line for any of them.
BATCH, PROGRAM_BATCH = 30, 8

MODES = ("", "--records", "--asked", "--stale", "--new", "--gated")


def waiting():
    """The crates of `waiting.txt`, whose wrong bodies are still to be tried over what stands now."""
    with open(f"{ROOT}/tests/wrong_bodies/waiting.txt", encoding="utf-8") as file:
        return [line.strip() for line in file if not line.startswith("#")]


def check_records():
    """Fails where a crate or its wrong bodies have changed, or what its check can see below, and where one that each run tries is gone."""
    records = {it: Record(f"{ROOT}/crates/{it}") for it in crates_with_wrong_bodies()}
    own = [it for it, record in records.items() if not record.is_whole() and it not in waiting()]
    if own:
        print("wrong bodies were not tried since these changed; run: tests/wrong_bodies.sh --new", *own)
    below = [it for it, record in records.items() if record.is_whole() and not record.is_of_below() and it not in waiting()]
    if below:
        print("wrong bodies are to be tried again over the definitions and clauses below, by --stale:", *below)
    tried = [it for it in waiting() if is_now(records[it])]
    if tried:
        print("these are tried over what stands now, and tests/wrong_bodies/waiting.txt is not to name them:", *tried)
    gone = always.missing()
    if gone:
        print("wrong bodies that each run tries are not there:", *gone)
    return 1 if own or below or tried or gone else 0


class Trial:
    """Wrong bodies of one crate, those that are no copies apart, and an unchanged copy of each function that is copied."""

    def __init__(self, name, wanted, after_gate):
        self.name, self.crate, self.after_gate = name, f"{ROOT}/crates/{name}", after_gate
        self.bodies = [it for it in bodies(self.crate) if it[0] in wanted]
        self.wrongs, self.alone, self.controls, self.rights, self.rights_alone, self.say = [], [], [], [], [], []

    def begin(self):
        """Proves the crate, unless the gate has done so just before, and places the copies."""
        if self.after_gate:
            toolchain.build_below(self.crate)
        elif not toolchain.check_crate(self.crate):
            self.say.append(f"{self.name}: is not proved")
            return self
        controls = {}
        for number, (label, text) in enumerate(self.bodies):
            wrong, control = WrongBody(label, text, number), WrongBody(label, text, number)
            try:
                if wrong.only:
                    wrong.place_alone(self.crate)
                    self.alone.append(wrong)
                    if wrong.has_right():
                        wrong.right = WrongBody(label, text, number)
                        wrong.right.place_alone(self.crate, "right")
                        self.rights_alone.append(wrong.right)
                    continue
                wrong.place(self.crate)
                control.place(self.crate, "unchanged")
                if wrong.has_right():
                    wrong.right = WrongBody(label, text, number)
                    wrong.right.place(self.crate, "right")
                    self.rights.append(wrong.right)
            except NoCopy as why:
                self.say.append(f"{self.name}/{wrong.label}: needs a line 'only:', or belongs into must-fail/: {why}")
                continue
            self.wrongs.append(wrong)
            controls.setdefault((control.file, control.function.at), control)
        self.controls = list(controls.values())
        return self

    def batches(self):
        copies = self.controls + self.rights + self.wrongs
        size = PROGRAM_BATCH if os.path.exists(f"{self.crate}/src/main.rt") else BATCH
        return [copies[at : at + size] for at in range(0, len(copies), size)] + [[it] for it in self.alone + self.rights_alone]

    def try_batch(self, batch):
        with tempfile.TemporaryDirectory(prefix="wrong-bodies-") as room:
            if self.after_gate:
                self.try_past_holes(batch, room)
                return
            toolchain.take_kept(self.crate, room)
            if batch[0].only:
                judge_alone(self.crate, batch[0], room)
            else:
                judge(self.crate, batch, room)

    def try_past_holes(self, batch, room):
        """Tries them as `always.py` does: the functions that they call are taken by their contracts, since the gate has proved them."""
        if batch[0].only:
            toolchain.copy_crate(self.crate, room)
            always.check(self.crate, [], room, batch)
        else:
            judge(self.crate, batch, room, functools.partial(always.check, alone=[]))
        for it in batch:
            it.said = kinds.said_past_holes(it)

    def end(self):
        """Says what is wrong, and notes which were refused, if each unchanged copy is proved; and answers whether all were."""
        name, say, bad = self.name, self.say, set()
        unproved = [it for it in self.controls if not (it.said or "").startswith("proved")]
        for it in unproved:
            say.append(f"{name}/{it.function.name}: THE UNCHANGED COPY IS NOT PROVED: {(it.said or 'no line')[:300]}")
        for it in self.rights + self.rights_alone:
            if not (it.said or "").startswith("proved"):
                say.append(f"{name}/{it.label}: THE RIGHT BODY IS NOT PROVED: {(it.said or 'no line')[:300]}")
                bad.add(it.label)
        tried = self.wrongs + self.alone
        for it in tried:
            if not kinds.is_refused(it):
                say.append(f"{name}/{it.label}: NOT REFUSED: {it.name}: {(it.said or 'no line')[:300]}")
                bad.add(it.label)
        well = not say
        found = {it.label: "clause" if kinds.is_by_clause(it) else "proof" for it in tried}
        if found and not unproved:
            Record(self.crate).note({label: kind for label, kind in found.items() if label not in bad})
        refused, by_clause = sum(map(kinds.is_refused, tried)), list(found.values()).count("clause")
        say.append(f"{name}: {refused} of {len(self.bodies)} refused, {by_clause} of them by a clause, ")
        say[-1] += f"{len(self.controls)} unchanged copies tried"
        print(*say, sep="\n", flush=True)
        return well


def all_of(name):
    return {label for label, _ in bodies(f"{ROOT}/crates/{name}")}


def is_now(record):
    """Whether a record is of all wrong bodies, over what stands here and below now."""
    return record.is_whole() and record.is_of_below()


def new_of(name):
    """The wrong bodies that the record lacks, or all where the crate has changed since, or what its check can see below."""
    record = Record(f"{ROOT}/crates/{name}")
    return record.lacking() if record.is_of_crate() and record.is_of_below() else all_of(name)


def try_new(names, after_gate):
    """Tries what the records lack, of crates where it is something."""
    return try_crates({it: new_of(it) for it in names if not is_now(Record(f"{ROOT}/crates/{it}"))}, after_gate)


def in_turn(minutes):
    """Tries the crates whose records are stale, one after the other; none is begun once the minutes are over."""
    end, well = time.time() + 60 * minutes, True
    for name in crates_with_wrong_bodies():
        if is_now(Record(f"{ROOT}/crates/{name}")):
            continue
        if time.time() > end:
            print("not tried yet:", name)
            well = False
            continue
        well = try_crates({name: new_of(name)}) and well
    return well


def try_crates(wanted, after_gate=False):
    """Tries these wrong bodies of each crate."""
    trials = [Trial(it, labels, after_gate) for it, labels in wanted.items()]
    jobs = int(os.environ.get("RT_JOBS", os.cpu_count() or 1))
    with concurrent.futures.ThreadPoolExecutor(jobs) as pool:
        begun = [pool.submit(it.begin) for it in trials]
        tried = {}
        for it in concurrent.futures.as_completed(begun):
            trial = it.result()
            tried[trial] = [pool.submit(trial.try_batch, batch) for batch in trial.batches()]
        well = []
        for trial, batches in tried.items():
            concurrent.futures.wait(batches)
            for batch in batches:
                batch.result()
            well.append(trial.end())
    return all(well)


def main(words):
    mode, rest = (words[0], words[1:]) if words and words[0].startswith("--") else ("", words)
    if mode not in MODES:
        print(f"there is no option {mode}; there are:", *filter(None, MODES), file=sys.stderr)
        return 2
    if mode == "--records":
        return check_records()
    if mode == "--asked":
        return 0 if always.try_all() else 1
    if mode == "--stale":
        return 0 if in_turn(float(rest[0]) if rest else 10**6) else 1
    names = rest or crates_with_wrong_bodies()
    if mode in ("--new", "--gated"):
        return 0 if try_new(names, after_gate=mode == "--gated") else 1
    return 0 if try_crates({it: all_of(it) for it in names}) else 1


if __name__ == "__main__":
    sys.exit(main(sys.argv[1:]))
