#!/usr/bin/env python3
"""Interactions with their proofs by the library, call by call: those that were judged, and small ones, right and damaged.

handles.py PROGRAM FOLDER FROM TO

Each is given to `session_check`, to a session and to the ported checker of the Python package. The session has to answer what the
program does, with the same causes, and the checker the same, except for what its rules differ in:

- It passes over a hint that is of no use, and knows unit clauses without hints.
- Its models need no literal of a unit clause or a tautology. They need one of each lemma, but that each model has.

The program does not see what was reported to the application, which no call tells a session.

What it shows in addition has to be true of all assignments. It is asked as its caller has to: no hint is a unit clause or a tautology, assumptions make the variables of a model known, and once
unsatisfiability is recorded, no lemma and no core is checked any more. Proofs with a line `U` are left out.

Then in the sessions of seed FROM to TO - 1 there are random calls between the right ones: what is accepted of them has to be true, and
the right ones have to be accepted all the same. Lemmas follow by propagation along their hints, of which a session needs each one. And
with a session that answers one kind of call always the same, or forgets its lemmas, something has to be found.
"""

import random
import re
import subprocess
import sys
import tempfile

from fuzz import Maker, assignments, damaged, propagated, true_answers
from told import judged_ones, text

from cefindrato import Checker, Fault, Session, Step, clause_hash

UNKNOWN_ID = "no clause has the id of a hint"
LEMMA = "a lemma before it does not follow"
BY_HINTS = (UNKNOWN_ID, "clause of a hint is not unit", "hints end without a conflict", LEMMA)
MISSES_CLAUSE = "the model has no literal of a clause"
NO_CONCLUSION = "the proof has no conclusion of it"
OF_IDS = ("id is taken", UNKNOWN_ID)
REPORTS = ("v", "m", "f", "u")


def is_tautology(clause):
    return any(-it in clause for it in clause)


def conflict_along(clauses, units, hints):
    """Whether propagation along the hints finds a conflict, and none before it has two literals that are not false."""
    true = set(units)
    for name in hints:
        left = {it for it in clauses[name] if -it not in true}
        if not left:
            return True
        if len(left) > 1:
            return False
        true |= left
    return False


class Learned(Maker):
    """A session whose solver learns clauses all the time, each with hints of which none can be left out."""

    def give(self):
        super().give()
        if [] not in self.clauses.values():
            self.learn()

    def learn(self):
        """A lemma against decisions that lead to a conflict by propagation, if some do."""
        decided = self.random.sample([self.random.choice((1, -1)) * it for it in range(1, 1 + self.top)], self.top)
        for count in range(1 + self.top):
            if propagated(self.clauses, decided[:count]) is not None:
                self.lemma([-it for it in decided[:count]])
                return

    def hints(self, units):
        """The newest clauses are taken first. What is left out leaves those behind it unit, if it is not needed."""
        hints = propagated(dict(reversed(self.clauses.items())), units)
        for name in reversed(hints):
            fewer = [it for it in hints if it != name]
            if conflict_along(self.clauses, units, fewer):
                hints = fewer
        return hints


class BySession:
    """A session of the library, and why its last rejected call was rejected."""

    needs_each_hint = True

    def __init__(self):
        self.session, self.why = Session(), None

    def called(self, call, *arguments):
        try:
            call(*arguments)
        except Fault as fault:
            self.why = re.sub(r"of clause \d+$", "of a clause", str(fault))
            return False
        return True

    def give(self, name, clause):
        return self.called(self.session.give, name, clause)

    def derive(self, name, lemma, hints):
        return self.called(self.session.derive, name, lemma, hints)

    def delete(self, names):
        self.session.delete(names)

    def fails(self, assumed, core, hints):
        return self.called(self.session.fails, assumed, core, hints)

    def satisfies(self, assumed, model):
        return self.called(self.session.satisfies, assumed, model)


class ByChecker:
    """The ported checker, and what its caller keeps: clauses by their names, and the names of lemmas that it can delete."""

    needs_each_hint = False

    def __init__(self):
        self.checker, self.why = Checker(), None
        self.clauses, self.lemmas = {}, set()

    def step(self, *arguments):
        try:
            self.checker.check_step(*arguments)
        except Fault as fault:
            self.why = str(fault).partition(": ")[2]
            return False
        return True

    def hashes(self, hints):
        """Those of the clauses that are neither units nor tautologies; nothing if a hint names no clause."""
        clauses = [self.clauses.get(it) for it in hints]
        if None in clauses:
            self.why = UNKNOWN_ID
            return None
        return [clause_hash(it) for it in clauses if len(it) > 1 and not is_tautology(it)]

    def give(self, name, clause):
        if name in self.clauses:
            return False
        self.clauses[name] = set(clause)
        self.checker.add_clause(clause)
        return True

    def derive(self, name, lemma, hints):
        hashes = self.hashes(hints)
        if name in self.clauses or hashes is None:
            return False
        if not self.checker.unsat() and not is_tautology(lemma):
            if not self.step(Step.REDUNDANT_AT_CLAUSE, lemma, hashes):
                return False
            if len(set(lemma)) > 1:
                self.lemmas.add(name)
        self.clauses[name] = set(lemma)
        return True

    def delete(self, names):
        """Units and clauses that were given stay."""
        for name in names:
            clause = self.clauses.pop(name, None)
            if name in self.lemmas:
                self.lemmas.remove(name)
                self.checker.check_step(Step.DELETE_REDUNDANT, clause)

    def fails(self, assumed, core, hints):
        if self.checker.unsat():
            return set(core) <= set(assumed)
        hashes = self.hashes(hints)
        return hashes is not None and self.step(Step.ASSUMPTIONS, assumed) and self.step(Step.FAILED_ASSUMPTIONS, core, hashes)

    def satisfies(self, assumed, model):
        return self.step(Step.ASSUMPTIONS, model) and self.step(Step.ASSUMPTIONS, assumed) and self.step(Step.MODEL, model)


class Line:
    """A line of a proof: its kind, its id or None, its status or None, and its one or two lists."""

    def __init__(self, line):
        self.kind, *words = line.split()
        self.status = words.pop() if self.kind == "s" else None
        self.name = int(words.pop(0)) if self.kind in "il" else None
        self.first, self.second = self.lists(words)

    @staticmethod
    def lists(words):
        numbers = [int(it) for it in words]
        end = numbers.index(0) if numbers else 0
        return numbers[:end], numbers[end + 1 : -1]

    def tell(self, told):
        """What is told in place of what is repeated."""
        _, *words = told.split()
        if self.kind == "s":
            self.status = words[0]
        else:
            self.first, _ = self.lists(words)


def merged(said, proof):
    """The lines of a proof, up to the first for which nothing is told."""
    told = (line for line in said if line[0] in "iqs")
    for it in proof[1:]:
        line = Line(it)
        if line.kind in "iqs":
            repeated = next(told, None)
            if repeated is None:
                return
            line.tell(repeated)
        yield line


class Play:
    """A session by one side: of each query its answer, and why that is not shown, or None; and all that was shown.

    `loose` are the queries whose model has a literal of each clause that was given, except unit clauses and tautologies.
    """

    def __init__(self, side):
        self.side, self.reports, self.said = side, [], ["p icnf"]
        self.wide, self.loose = [], set()
        self.assumed, self.status, self.is_broken = [], None, False

    def take(self, line):
        if line.kind in "iq":
            self.close()
        getattr(self, f"take_{line.kind}", lambda _: None)(line)

    def close(self):
        if self.status is not None:
            self.report(NO_CONCLUSION)

    def report(self, why):
        self.reports.append((self.status, why))
        self.status = None

    def say(self, kind, literals):
        self.said.append(" ".join([kind, *map(str, literals), "0"]))

    def take_i(self, line):
        assert self.side.give(line.name, line.first)
        self.say("i", line.first)
        if len(set(line.first)) != 1 and not is_tautology(line.first):
            self.wide.append(set(line.first))

    def take_l(self, line):
        self.is_broken |= not self.side.derive(line.name, line.first, line.second)

    def take_d(self, line):
        self.side.delete(line.first)

    def take_q(self, line):
        self.assumed = line.first
        self.say("q", line.first)

    def take_s(self, line):
        self.status = line.status
        self.said.append(f"s {line.status}")
        if line.status == "UNKNOWN":
            self.report(None)

    def take_m(self, line):
        if all(it & set(line.first) for it in self.wide):
            self.loose.add(len(self.reports))
        self.judge("m", line.first, self.side.satisfies(self.assumed, line.first))

    def take_u(self, line):
        if self.is_broken:
            self.report(LEMMA)
        else:
            self.judge("u", line.first, self.side.fails(self.assumed, line.first, line.second))

    def judge(self, kind, literals, is_shown):
        if is_shown:
            self.say(kind, literals)
        self.report(None if is_shown else self.side.why)

    def is_true(self):
        """Whether all that is shown is true of all assignments."""
        truths = true_answers(self.said)
        return all(is_true for is_true, (_, why) in zip(truths, self.reports) if why is None)


class Program:
    """What `session_check` says: the reports, how many lines of the interaction and of the proof it took, and its fault or nothing."""

    def __init__(self, program, folder):
        self.program, self.folder = program, folder

    def put(self, name, lines):
        with open(f"{self.folder}/{name}", "w", encoding="ascii") as file:
            file.write(text(lines))
        return f"{self.folder}/{name}"

    def run(self, said, proof):
        asked = ["c" if line[:1] in REPORTS else line for line in said]
        words = [self.program, self.put("icnf", asked), self.put("proof", proof)]
        ran = subprocess.run(words, capture_output=True, text=True, check=False)
        found = re.findall(r"^q \d+ (\w+)(?:: (?:shown|not shown: (.*)))?$", ran.stdout, re.M)
        reports = [(status.upper(), why or None) for status, why in found]
        fault = re.match(r"(interaction|proof): line (\d+): (.*)", ran.stderr)
        if not fault:
            assert ran.returncode in (0, 3), ran
            return reports, len(said), len(proof), None
        text_of, line, why = fault[1], int(fault[2]), fault[3]
        if why == "the last query has no answer":
            return reports, len(said), line, why
        return reports, *((line - 1, len(proof)) if text_of == "interaction" else (len(said), line - 1)), why


class Compared:
    """The program, the session and the checker."""

    def __init__(self, program, folder):
        self.program = Program(program, folder)
        self.sessions, self.queries, self.shown, self.more, self.wrong = 0, 0, 0, 0, 0

    def compare(self, what, said, proof):
        if any(line.startswith("U") for line in proof):
            return
        reports, said_lines, proof_lines, fault = self.program.run(said, proof)
        session, checker = plays = Play(BySession()), Play(ByChecker())
        for play in plays:
            for line in merged(said[:said_lines], proof[:proof_lines]):
                play.take(line)
            if fault is None:
                play.close()
        self.sessions += 1
        self.queries += len(reports)
        self.shown += sum(why is None for _, why in reports)
        found = session.reports
        if fault is not None and proof_lines == len(proof) and len(found) > len(reports):
            # (the line behind an answer is read first, for it may report of it)
            found = found[:-1]
        if found != reports:
            self.report(what, said, proof, f"the program: {reports}", f"the session: {session.reports}")
        if fault in OF_IDS and not self.is_rejected(session.side, proof[proof_lines], fault):
            self.report(what, said, proof, f"the program: {fault}", f"the session: {session.side.why}")
        if not self.are_alike(session, checker):
            self.report(what, said, proof, f"the session: {session.reports}", f"the checker: {checker.reports}")
        if not all(play.is_true() for play in plays):
            self.report(what, said, proof, "a wrong answer is shown")

    @staticmethod
    def is_rejected(side, line, why):
        """Whether a clause or a lemma is rejected for an id, where the program ends."""
        line = Line(line)
        if line.kind == "i":
            return not side.give(line.name, []) and side.why == why
        return line.kind != "l" or (not side.derive(line.name, line.first, line.second) and side.why == why)

    def are_alike(self, session, checker):
        """Whether the checker shows what the session does, except for what its rules differ in."""
        if len(session.reports) != len(checker.reports):
            return False
        for place, ((status, why), (other_status, other)) in enumerate(zip(session.reports, checker.reports)):
            if status != other_status:
                return False
            if other is None and (why in BY_HINTS or (why == MISSES_CLAUSE and place in checker.loose)):
                self.more += 1
            elif (why is None) != (other is None):
                return False
        return True

    def report(self, what, said, proof, *why):
        self.wrong += 1
        print(what, *said, *proof, *why, sep="\n")

    def tell(self, what):
        print(
            f"{self.sessions} {what}, {self.shown} of {self.queries} answers shown by program, session and checker, {self.more} more "
            f"by the checker alone; {self.wrong} wrong"
        )


class Disturbed:
    """A right session with random calls between the right ones."""

    def __init__(self, side, seed):
        self.seed, self.made, self.chance, self.play = seed, Learned(seed), random.Random(seed), Play(side)
        self.side, self.left, self.names = side, assignments(self.made.top), []
        self.calls, self.accepted, self.wrong = 0, 0, []

    def run(self):
        for line in merged(self.made.said, self.made.hinted):
            if line.kind == "l" and self.side.needs_each_hint:
                self.fewer_hints(line)
            self.play.take(line)
            if line.kind == "l" and self.play.is_broken:
                self.wrong.append(f"rejected: lemma {line.first} {line.second}")
            if line.kind == "i":
                self.left = [it for it in self.left if any(x in it for x in line.first)]
            if line.name is not None:
                self.names.append(line.name)
            for _ in range(self.chance.randrange(3)):
                self.calls += 1
                self.chance.choice((self.lemma, self.core, self.model))()
        self.play.close()
        unshown = {place for place, (_, why) in enumerate(self.play.reports, 1) if why is not None}
        if unshown != self.made.silent:
            self.wrong.append(f"not shown: {unshown}, in place of {self.made.silent}")
        return self

    def fewer_hints(self, line):
        for at in range(len(line.second)):
            fewer = line.second[:at] + line.second[at + 1 :]
            if self.side.derive(line.name, line.first, fewer):
                self.wrong.append(f"accepted: lemma {line.first} {fewer}, in place of {line.second}")

    def some(self, among, most):
        return self.chance.choices(among, k=self.chance.randint(0, most)) if among else []

    def literals(self, most):
        return [self.chance.choice((1, -1)) * it for it in self.some(range(1, 1 + self.made.top), most)]

    def judge(self, is_accepted, is_true, *call):
        self.accepted += is_accepted
        if is_accepted and not is_true:
            self.wrong.append(f"accepted: {call}")

    def lemma(self):
        name, lemma, hints = 10**6 + self.calls, self.literals(3), self.some(self.names, 4)
        is_accepted = self.side.derive(name, lemma, hints)
        if is_accepted:
            self.names.append(name)
        self.judge(is_accepted, all(any(x in it for x in lemma) for it in self.left), "lemma", lemma, hints)

    def core(self):
        assumed = self.literals(4)
        core, hints = self.some(assumed, 3) + self.literals(1), self.some(self.names, 4)
        is_true = set(core) <= set(assumed) and not any(it.issuperset(core) for it in self.left)
        self.judge(self.side.fails(assumed, core, hints), is_true, "core", assumed, core, hints)

    def model(self):
        near = list(self.chance.choice(self.left)) if self.left else []
        model = self.chance.sample(near, self.chance.randint(0, len(near))) + self.literals(1)
        assumed = self.some(model, 2) + self.literals(1)
        is_true = any(it.issuperset([*assumed, *model]) for it in self.left)
        self.judge(self.side.satisfies(assumed, model), is_true, "model", assumed, model)


def fixed(kind, call, answer):
    """A side of which one call always answers the same."""
    side = kind()
    side.why = "it always is"
    setattr(side, call, lambda *_: answer)
    return side


class Forgetful(BySession):
    """A session whose lemmas are gone at once."""

    def derive(self, name, lemma, hints):
        is_accepted = super().derive(name, lemma, hints)
        self.delete([name] if is_accepted else [])
        return is_accepted


def passed_over(seeds):
    """The wrong sides, by their names, in which nothing is found."""
    wrong = {"lemmas are forgotten": (Forgetful,)}
    for kind in (BySession, ByChecker):
        for call in ("derive", "fails", "satisfies"):
            for answer in (False, True):
                wrong[f"{kind.__name__}: {call} is always {answer}"] = fixed, kind, call, answer
    return [what for what, (make, *of) in wrong.items() if not any(Disturbed(make(*of), it).run().wrong for it in seeds)]


def disturb(kind, seeds):
    """Sessions with random calls between; how many were wrong."""
    runs = [Disturbed(kind(), it).run() for it in seeds]
    for run in runs:
        for why in run.wrong:
            print(f"seed {run.seed}", *run.made.said, *run.made.hinted, why, sep="\n")
    calls, accepted, wrong = (sum(it) for it in zip(*((run.calls, run.accepted, len(run.wrong)) for run in runs)))
    print(f"{len(runs)} random sessions by {kind.__name__}, {calls} random calls between, {accepted} of them accepted; {wrong} wrong")
    return wrong or not accepted


def main(program, judged, first, last):
    seeds = range(int(first), int(last))
    with tempfile.TemporaryDirectory() as folder:
        corpus, small = Compared(program, folder), Compared(program, folder)
        for name, said, proof in judged_ones(judged):
            corpus.compare(name, said, proof)
        for seed in seeds:
            made, chance = Learned(seed), random.Random(-seed)
            small.compare(f"seed {seed}", made.said, made.hinted)
            small.compare(f"seed {seed}, another proof", made.said, damaged(chance, made.hinted))
            small.compare(f"seed {seed}, another interaction", damaged(chance, made.said), made.hinted)
    corpus.tell("judged sessions")
    small.tell("random sessions")
    wrong = [it.wrong or not it.shown for it in (corpus, small)]
    seeds = [it for it in seeds if not any(line[0] == "U" for line in Learned(it).hinted)]
    wrong += [disturb(kind, seeds) for kind in (BySession, ByChecker)]
    missed = passed_over(seeds)
    if missed:
        print("nothing is found where", *missed, sep="\n")
    return any(wrong) or bool(missed)


if __name__ == "__main__":
    sys.exit(main(*sys.argv[1:]))
