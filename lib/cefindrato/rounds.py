"""Sessions of queries to a solver: one formula and one proof for all queries that failed, and
another formula for all models."""

import re
from typing import Dict, FrozenSet, List, Set, Tuple

from .faults import Fault
from .idrup import Interaction, Named, Proof
from .session_lines import opposite

NUMBER = re.compile(r"-?[0-9]{1,20}")


def top_of(interaction: Interaction, proof: Proof) -> int:
    """The largest variable of both."""
    texts = [*interaction.clauses, *(it[1] for it in proof.steps if it[0] != "core")]
    words = set("".join(texts).split())
    words.update(word for query in interaction.queries for word in query.assumed)
    if not all(map(NUMBER.fullmatch, words)):
        raise Fault("proof: a word of a lemma that is no number")
    return max((abs(int(it)) for it in words), default=0)


class Session:
    """One formula of some queries that failed, and its proof. Round r has the clauses up to the
    r-th of them."""

    def __init__(self, interaction: Interaction, proof: Proof) -> None:
        self.asked, self.proof, self.top = interaction, proof, top_of(interaction, proof)

    def guard(self, round_: int) -> int:
        return self.top + 2 * round_ + 1

    def pick(self, round_: int) -> int:
        return self.top + 2 * round_ + 2

    def formula(self, places: List[int]) -> str:
        """The clauses of the definition `encoded`, in its order."""
        lines, before = [" ".join([*(str(self.pick(it)) for it in range(len(places))), "0\n"])], 0
        for round_, place in enumerate(places):
            query, guard, pick = self.asked.queries[place], self.guard(round_), self.pick(round_)
            lines += [f"-{pick} {guard} 0\n", f"-{self.guard(round_ + 1)} {guard} 0\n"]
            lines += [f"-{guard}{it}\n" for it in self.asked.clauses[before : query.given]]
            lines += [f"-{pick} {it} 0\n" for it in query.core()]
            before = query.given
        top = self.guard(len(places))
        return f"p cnf {top} {len(lines)}\n" + "".join(lines)

    def drat(self, places: List[int], deletions: bool) -> str:
        """Each lemma holds where the guard of its round does, and each core fails in its turn."""
        lines, round_, picked = [], 0, set(places)
        made: Dict[FrozenSet[str], List[str]] = {}
        for kind, what, _ in self.proof.steps:
            if round_ == len(places):
                break
            if kind == "core":
                if what in picked:
                    lines.append(f"-{self.pick(round_)} 0\n")
                    round_ += 1
            elif kind == "lemma":
                lines.append(f"-{self.guard(round_)}{what}\n")
                if deletions:
                    made.setdefault(frozenset(what.split()), []).append(lines[-1])
            elif deletions and (held := made.get(frozenset(what.split()))):
                lines.append(f"d {held.pop()}")
        return "".join([*lines, "0\n"])

    def lrat(self, places: List[int]) -> str:
        return Hints(self, places).text()


class Hints:
    """The same as LRAT: the proof's own hints, and before them how the guards of earlier rounds
    follow."""

    def __init__(self, session: Session, places: List[int]) -> None:
        self.session, self.places = session, places
        self.lines: List[str] = []
        self.chain: List[int] = []
        self.picks: List[int] = []
        # (by their places the id of a clause and its round; by a round how far its guard is reached
        # from, and by which clauses)
        self.given: Dict[int, Tuple[int, int]] = {}
        self.lemmas: Dict[int, Tuple[int, int]] = {}
        self.reached: Dict[int, Tuple[int, List[int]]] = {}
        number, before, queries = 1, 0, session.asked.queries
        for round_, place in enumerate(places):
            query = queries[place]
            self.picks.append(number + 1)
            self.chain.append(number + 2)
            number += 2
            for it in range(before, query.given):
                number += 1
                self.given[it] = (number, round_)
            number, before = number + len(query.core()), query.given
        self.last = number

    def add(self, clause: str, hints: List[int]) -> int:
        self.last += 1
        self.lines.append(f"{self.last} {clause} {' '.join(map(str, hints))} 0\n")
        return self.last

    def reach(self, high: int, low: int) -> List[int]:
        """Clauses by which the guard of one round gives that of an earlier one. What is found is
        kept as a clause."""
        since, known = self.reached.get(low, (low, []))
        hints = self.chain[since:high][::-1] + known
        if len(hints) > 1:
            guards = f"-{self.session.guard(high)} {self.session.guard(low)} 0"
            hints = [self.add(guards, hints)]
            self.reached[low] = (high, hints)
        return hints

    def hints(self, round_: int, named: List[Named]) -> List[int]:
        """Of clauses that are named, those that stand there, after the guards that they need."""
        there = [
            self.given[place] if kind == "given" else self.lemmas.get(place)
            for kind, place in named
        ]
        found = [it for it in there if it]
        rounds = {it[1] for it in found if it[1] < round_}
        return [it for low in rounds for it in self.reach(round_, low)] + [it[0] for it in found]

    def text(self) -> str:
        round_, units, picked = 0, [], set(self.places)
        for place, (kind, what, named) in enumerate(self.session.proof.steps):
            if round_ == len(self.places):
                break
            if kind == "core" and what in picked:
                units.append(self.unit(round_, what, named or []))
                round_ += 1
            elif kind == "lemma" and not is_tautology(what.split()):
                # A tautology says nothing, and no hint needs one.
                hints = self.hints(round_, named or [])
                number = self.add(f"-{self.session.guard(round_)}{what}", hints)
                self.lemmas[place] = (number, round_)
        self.add("0", [*units, 1])
        return "".join(self.lines)

    def unit(self, round_: int, place: int, named: List[Named]) -> int:
        """The core of a query can't be picked."""
        queries = self.session.asked.queries
        query, before = queries[place], queries[self.places[round_ - 1]].given if round_ else 0
        first = self.picks[round_] + 2 + query.given - before
        core = [first + it for it in range(len(query.core()))]
        hints = [] if is_tautology(query.core()) else self.hints(round_, named)
        return self.add(f"-{self.session.pick(round_)} 0", [self.picks[round_], *core, *hints])


def is_tautology(words: List[str]) -> bool:
    there = set(words)
    return any(opposite(it) in there for it in there)


class Names(Dict[str, str]):
    """The names of literals for a query: 1 of variables without a value, then an even one of a
    variable while it is true, and the next odd one while it is false.
    """

    def __init__(self) -> None:
        super().__init__({"0": "0"})
        self.places: Dict[str, int] = {}

    def __missing__(self, word: str) -> str:
        return "-1" if word[0] == "-" else "1"

    def rename(self, variables: Set[str], model: Set[str]) -> None:
        for it in sorted(variables.difference(self.places), key=int):
            self.places[it] = 2 * len(self.places) + 2
        for it in variables:
            place = self.places[it]
            name = place if it in model else place + 1 if f"-{it}" in model else 1
            self[it], self[f"-{it}"] = str(name), f"-{name}"

    def top(self) -> int:
        return 2 * len(self.places) + 1


class Models:
    """One formula of the models of some queries. A variable has one name while it is true, and
    another while it is false.

    The clauses that were given are there for each query under its names. A clause none of whose
    variables got another name since the query before is there already.
    """

    def __init__(self, interaction: Interaction, proof: Proof) -> None:
        self.asked, self.proof, self.names = interaction, proof, Names()

    def answer(self) -> str:
        """After `formula`: the names of true variables are true, those of false ones are false."""
        return "".join(f"{it} -{it + 1} " for it in range(2, self.names.top(), 2)) + "0\n"

    def formula(self, places: List[int]) -> Tuple[str, List[Tuple[int, int]]]:
        """The text, and of each clause the query and the line that it is of."""
        self.names = Names()
        lines: List[str] = []
        owners: List[Tuple[int, int]] = []
        clauses: List[List[str]] = []
        model: Set[str] = set()
        changed: Set[str] = set()
        uses: Dict[str, List[int]] = {}
        picked = set(places)
        for place, (came, went) in self.proof.models.items():
            model = (model - went) | came
            changed.update(it.lstrip("-") for it in came | went)
            if place not in picked:
                continue
            query = self.asked.queries[place]
            self.names.rename(changed, model)
            new = {use for it in changed for use in uses.get(it, ())}
            for it in range(len(clauses), query.given):
                new.add(it)
                clauses.append(self.asked.clauses[it].split())
                for word in {word.lstrip("-") for word in clauses[it]}:
                    uses.setdefault(word, []).append(it)
            again = sorted(new)
            lines += [" ".join([self.names[word] for word in clauses[it]]) for it in again]
            owners += [(place, self.asked.lines[it]) for it in again]
            lines += [f"{self.names[it]} 0" for it in query.assumed]
            owners += [(place, query.line)] * len(query.assumed)
            changed = set()
        return f"p cnf {self.names.top()} {len(lines)}\n" + "\n".join([*lines, ""]), owners
