"""Sessions of queries to a solver: what an interaction (ICNF) and a proof (IDRUP or LIDRUP) say."""

from typing import Any, Dict, List, Optional, Set, Tuple

from .faults import Fault
from .session_lines import HINTED, LINE, SEVERAL, STATUS, opposite, rows

STEPS = {"l ": "lemma", "d ": "delete"}
# A clause that a proof names: ("given", place) in the interaction, or ("lemma", place) among the
# steps.
Named = Tuple[str, int]
# ("lemma" or "delete", the text of a clause, the clauses that its hints name) or ("core", place of
# the query, the same).
Step = Tuple[str, Any, Optional[List[Named]]]


class Query:
    """A query, after `given` clauses, and what the application was told: some values, or a core,
    and on which line another one."""

    def __init__(self, line: int, assumed: List[str], given: int) -> None:
        self.line, self.assumed, self.given = line, assumed, given
        self.status: Optional[str] = None
        self.told: Optional[List[str]] = None
        self.told_line, self.again = line, 0

    def core(self) -> List[str]:
        """The assumptions that are said to fail: all of them, where the application was told no
        more."""
        return self.assumed if self.told is None else self.told


class Interaction:
    """The clauses that were given, each as its text up to the 0 with its line, and the queries."""

    def __init__(self, name: str) -> None:
        self.clauses: List[str] = []
        self.lines: List[int] = []
        self.queries: List[Query] = []
        said = rows(name, "interaction")
        if next(said)[1] != "icnf":
            raise Fault("interaction: line 1: the header is not p icnf")
        for number, line in said:
            if status := STATUS.fullmatch(line):
                self.answer(number, status[1])
            elif word := LINE.fullmatch(line):
                self.event(number, word[1], word[2])
            else:
                raise Fault(f"interaction: line {number}: malformed")

    def event(self, number: int, kind: str, text: str) -> None:
        last = self.queries[-1] if self.queries else None
        if kind in "iq" and last and not last.status:
            raise Fault(f"interaction: line {number}: the query of line {last.line} has no answer")
        if kind == "i":
            self.clauses.append(text)
            self.lines.append(number)
        elif kind == "q":
            self.queries.append(Query(number, text.split()[:-1], len(self.clauses)))
        elif kind in "vm" and last and self.is_answered(last, "SATISFIABLE"):
            last.told = [*(last.told or []), *text.split()[:-1]]
            last.told_line = number
        elif kind in "fu" and last and self.is_answered(last, "UNSATISFIABLE"):
            if last.told is None:
                last.told, last.told_line = text.split()[:-1], number
            else:
                last.again = number
        else:
            raise Fault(f"interaction: line {number}: not expected here")

    def is_answered(self, query: Query, status: str) -> bool:
        """Whether this is the answer to a query, and no clause came since."""
        return query.status == status and query.given == len(self.clauses)

    def answer(self, number: int, status: str) -> None:
        if not self.queries or self.queries[-1].status:
            raise Fault(f"interaction: line {number}: an answer without a query")
        self.queries[-1].status = status


class Proof:
    """What a proof says beside the interaction, up to its first line that is wrong.

    `steps` has its lemmas and deletions in order, and ("core", place of the query, hints) where
    a query failed. `models` has of each satisfied query how its model differs from the one
    before: the literals that came, and those that went. `seen` is how many queries it answers,
    and `why` says what is wrong with what comes then; `wrong` has the answers that can't be
    right. Of a query with several conclusions `left` is how many are still to come, and `unfit`
    says why none so far is a core, if none is.
    """

    def __init__(self, name: str, interaction: Interaction) -> None:
        self.asked, self.given, self.seen, self.open = interaction, 0, 0, False
        self.left, self.number = 0, 1
        self.steps: List[Step] = []
        self.models: Dict[int, Tuple[Set[str], Set[str]]] = {}
        self.last: Set[str] = set()
        self.names: Dict[str, Named] = {}
        self.wrong: Dict[int, str] = {}
        self.status: Optional[str] = None
        self.unfit: Optional[str] = None
        self.why: Optional[str] = None
        said = rows(name, "proof")
        self.kind = next(said)[1]
        if self.kind not in ("idrup", "lidrup"):
            raise Fault("proof: line 1: the header is neither p idrup nor p lidrup")
        try:
            for self.number, line in said:
                # Most lines are these: what is malformed in one is found with its numbers, in the
                # end.
                if self.kind == "idrup" and line[:2] in STEPS and line[-2:] == " 0":
                    self.steps.append((STEPS[line[:2]], line[1:], None))
                else:
                    self.line(line)
        except Fault as why:
            self.why = f"proof: line {self.number}: {why}"
        else:
            if self.seen < len(interaction.queries) or self.given < len(interaction.clauses):
                self.why = "the proof ends before that"

    def line(self, line: str) -> None:
        if status := STATUS.fullmatch(line):
            self.answer(status[1])
            return
        if several := SEVERAL.fullmatch(line):
            self.several(int(several[1]))
            return
        hinted = HINTED.fullmatch(line) if self.kind == "lidrup" else None
        word = hinted or LINE.fullmatch(line)
        if not word or (self.kind == "lidrup" and not hinted and word[1] in "lu"):
            raise Fault("malformed")
        kind, text, hints = word[1], word[2], hinted[3].split() if hinted else None
        if kind in "iq":
            self.repeat(kind, text)
        elif kind == "l":
            self.lemma(text, hints)
        elif kind in "dwr":
            self.delete(kind, text)
        elif kind == "m" and self.status == "SATISFIABLE":
            self.model(text)
        elif kind == "u" and self.status == "UNSATISFIABLE":
            self.core(text, hints)
        elif kind != "e" or not self.is_unknown():
            raise Fault("not expected here")

    def is_unknown(self) -> bool:
        """Whether the query that was answered last was answered unknown: then a trail may come,
        which says nothing."""
        if self.open or self.seen == 0:
            return False
        return self.asked.queries[self.seen - 1].status == "UNKNOWN"

    def name(self, text: str, clause: Named) -> str:
        """The text of a clause without its id, which must be a new one."""
        name, *rest = text.split(None, 1)
        if not rest or name[0] == "-" or name in self.names:
            raise Fault("the id is taken, or none")
        self.names[name] = clause
        return f" {rest[0]}"

    def query(self) -> Optional[Query]:
        """The query whose turn it is in the interaction, if it is a query's turn."""
        queries = self.asked.queries
        if self.seen < len(queries) and queries[self.seen].given == self.given:
            return queries[self.seen]
        return None

    def open_query(self) -> Query:
        """The query that the proof has repeated, and has not come to the end of."""
        query = self.query()
        assert query and self.open
        return query

    def repeat(self, kind: str, text: str) -> None:
        if self.status:
            self.settle("the proof has no conclusion of it")
        if self.open:
            raise Fault("the query before it has no answer")
        query = self.query()
        if kind == "i":
            if query or self.given == len(self.asked.clauses):
                raise Fault("the interaction has no clause here")
            if self.kind == "lidrup":
                text = self.name(text, ("given", self.given))
            mine = self.asked.clauses[self.given]
            if mine != text and set(mine.split()) != set(text.split()):
                line = self.asked.lines[self.given]
                raise Fault(f"it is not the clause of line {line} of the interaction")
            self.given += 1
        else:
            if not query:
                raise Fault("the interaction has no query here")
            if set(query.assumed) != set(text.split()[:-1]):
                raise Fault(f"it is not the query of line {query.line} of the interaction")
            self.open = True

    def answer(self, status: str) -> None:
        if not self.open or self.status:
            raise Fault("an answer without a query")
        query = self.open_query()
        if query.status != status:
            line = query.line
            raise Fault(f"it is not the answer to the query of line {line} of the interaction")
        if status == "UNKNOWN":
            self.close()
        else:
            self.status = status

    def close(self) -> None:
        self.seen, self.open, self.status = self.seen + 1, False, None
        self.left, self.unfit = 0, None

    def several(self, count: int) -> None:
        if self.status != "UNSATISFIABLE" or self.left:
            raise Fault("not expected here")
        self.left = count

    def lemma(self, text: str, hints: Optional[List[str]]) -> None:
        if hints is None:
            self.steps.append(("lemma", text, None))
            return
        place = len(self.steps)
        text = self.name(text, ("lemma", place))
        self.steps.append(("lemma", text, self.clauses_of(hints, place)))

    def clauses_of(self, hints: List[str], place: Optional[int]) -> List[Named]:
        """The clauses that hints name, each ("given", place) or ("lemma", place)."""
        for it in hints:
            if it not in self.names or self.names[it] == ("lemma", place):
                raise Fault(f"the hint {it} names no clause")
        return [self.names[it] for it in hints]

    def delete(self, kind: str, text: str) -> None:
        if self.kind == "idrup":
            if kind == "d":
                self.steps.append(("delete", text, None))
            return
        for it in text.split()[:-1]:
            if it not in self.names:
                raise Fault(f"the id {it} names no clause")
            if kind == "d" and self.names[it][0] == "lemma":
                del self.names[it]

    def model(self, text: str) -> None:
        """The model may lack variables that no clause has, of which a value was told."""
        query, model = self.open_query(), set(text.split()[:-1])
        told = set(query.told or [])
        if any(opposite(it) in model for it in model - self.last):
            self.refuse("its model has both signs of a variable")
        elif any(opposite(it) in model or opposite(it) in told for it in told):
            self.refuse(f"its model does not have all that was told in line {query.told_line}")
        else:
            model |= told
            self.models[self.seen], self.last = (model - self.last, self.last - model), model
        self.close()

    def core(self, text: str, hints: Optional[List[str]]) -> None:
        """The first conclusion that is a core counts; of several the others may have literals that
        were not assumed."""
        unfit = self.unfit_core(set(text.split()[:-1]))
        if self.unfit is None or (self.unfit and not unfit):
            self.unfit = unfit
            if not unfit:
                named = None if hints is None else self.clauses_of(hints, None)
                self.steps.append(("core", self.seen, named))
        self.left -= 1
        if self.left <= 0:
            self.settle(None)

    def unfit_core(self, core: Set[str]) -> str:
        """Why it can't be the core of the query, or the empty text."""
        query = self.open_query()
        if query.again:
            return f"another core was told in line {query.again}"
        if not core <= set(query.core()):
            return f"its core is more than what was told in line {query.told_line}"
        if not set(query.core()) <= set(query.assumed):
            return f"not all that was told in line {query.told_line} was assumed"
        return ""

    def settle(self, missing: Optional[str]) -> None:
        """Goes on after a query: all that was said of it was said."""
        why = missing if self.unfit is None else self.unfit
        if why:
            self.refuse(why)
        self.close()

    def refuse(self, why: str) -> None:
        self.wrong[self.seen] = f"{why} (proof: line {self.number})"
