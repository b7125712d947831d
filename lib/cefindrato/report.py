"""What the rows of `checked_all` come to: a table, a summary, CSV, and the curves of a plot."""

import collections
import csv
import io
import json
import shlex
from typing import Any, Dict, List, Optional, Sequence, Tuple

from .table import CHECK_LIMIT, LIMIT, MALFORMED, NO_ANSWER, NOT_CHECKED, OUTCOMES, REJECTED
from .table import TOOK, VERDICTS, Row, is_verified, key_of

HEADER = ("formula", "seconds", "solver", "check", "MB", "check-MB", "verdict")
CSV_HEADER = (
    *("instance", "solver", "result"),
    *("solver_seconds", "solver_cpu", "solver_memory"),
    *("check_seconds", "check_cpu", "check_memory"),
    *("limit", "check_limit", "reason"),
)
RESULTS = {VERDICTS[20]: "UNSAT", VERDICTS[10]: "SAT", NO_ANSWER: "UNKNOWN"}
RESULTS.update({NOT_CHECKED: "UNCHECKED", REJECTED: "REJECTED", MALFORMED: "MALFORMED"})
TIMEOUTS = {LIMIT: "TIMEOUT", CHECK_LIMIT: "CHECK_TIMEOUT"}


def shown(text: str) -> str:
    """Returns a text that does not break a line."""
    return text if text.isprintable() else json.dumps(text)


def verdict_of(row: Row) -> str:
    return f"{row['outcome']}: {shown(row['reason'])}" if row["reason"] else str(row["outcome"])


def by_calls(rows: Sequence[Row]) -> Dict[str, List[Row]]:
    """Returns the rows of each call of a solver, by its words."""
    calls: Dict[str, List[Row]] = {}
    for row in rows:
        words = [it for it in key_of(row)[1:] if it is not None]
        calls.setdefault(" ".join(map(shlex.quote, words)), []).append(row)
    return calls


def part(took: Optional[Row], field: str, unit: float, form: str) -> str:
    return form.format(took[field] / unit) if took else "-"


def table_lines(rows: Sequence[Row]) -> List[str]:
    """Returns the rows by name, below the names of the columns."""
    lines: List[Tuple[str, ...]] = [HEADER]
    for row in sorted(rows, key=lambda it: str(it["formula"])):
        parts = row["solving"], row["checking"]
        seconds = [part(it, "seconds", 1, "{:.2f}") for it in parts]
        memory = [part(it, "memory", 1e6, "{:.0f}") for it in parts]
        total = f"{row['seconds']:.2f}"
        lines.append((shown(row["formula"]), total, *seconds, *memory, verdict_of(row)))
    widths = [max(len(line[it]) for line in lines) for it in range(len(HEADER) - 1)]
    return [aligned(line, widths) for line in lines]


def aligned(line: Sequence[str], widths: Sequence[int]) -> str:
    name, *numbers, verdict = line
    cells = [it.rjust(width) for it, width in zip(numbers, widths[1:])]
    return "  ".join([name.ljust(widths[0]), *cells, verdict])


def par2(rows: Sequence[Row]) -> Optional[Tuple[float, float]]:
    """Returns the mean of the solver's seconds, where a formula without a verified answer counts as
    two limits, and this limit; None where the rows don't say it: by different limits, or by none.
    Malformed formulas don't count.
    """
    rows = [it for it in rows if it["outcome"] != MALFORMED]
    solved = [it["solving"]["seconds"] if it["solving"] else None for it in rows if is_verified(it)]
    limits = {it["limit"] for it in rows if not is_verified(it)}
    limits = limits or {max((it["limit"] or 0 for it in rows), default=0)}
    limit = limits.pop() or 0
    if not limit or limits or None in solved or any(it > limit for it in solved):
        return None
    return (sum(solved) + 2 * limit * (len(rows) - len(solved))) / len(rows), limit


def summary_lines(rows: Sequence[Row]) -> List[str]:
    counts = collections.Counter(it["outcome"] for it in rows)
    said = ", ".join(f"{counts[it]} {it}" for it in OUTCOMES)
    lines = [f"{len(rows)} formula{'s' * (len(rows) != 1)}: {said}"]
    score = par2(rows)
    if score is not None:
        lines.append(f"PAR2: {score[0]:.3f} s, with {score[1]:g} s as the limit")
    return lines


def print_summary(rows: Sequence[Row], has_table: bool) -> None:
    """Prints what the rows come to, a part for each call of a solver."""
    calls = by_calls(rows)
    for name, mine in calls.items():
        if len(calls) > 1:
            print(shown(name) + ":")
        if has_table:
            print("\n".join(table_lines(mine)))
        print("\n".join(summary_lines(mine)))


def status_of(rows: Sequence[Row]) -> int:
    outcomes = {it["outcome"] for it in rows}
    if REJECTED in outcomes:
        return 1
    return 3 if outcomes.intersection((NO_ANSWER, NOT_CHECKED, MALFORMED)) else 0


def csv_of(rows: Sequence[Row]) -> str:
    """Returns the rows as CSV, by solver and name, below CSV_HEADER. What nobody knows is empty."""
    text = io.StringIO()
    writer = csv.writer(text, lineterminator="\n")
    writer.writerow(CSV_HEADER)
    for name, mine in by_calls(rows).items():
        for row in sorted(mine, key=lambda it: str(it["formula"])):
            writer.writerow(csv_row(name, row))
    return text.getvalue()


def csv_row(name: str, row: Row) -> List[Any]:
    result = TIMEOUTS.get(row["reason"]) if not is_verified(row) else None
    parts = [(it or {}).get(of) for it in (row["solving"], row["checking"]) for of in TOOK]
    limits = [row["limit"], row["check_limit"]]
    return [row["formula"], name, result or RESULTS[row["outcome"]], *parts, *limits, row["reason"]]


def curves_of(rows: Sequence[Row]) -> Dict[str, List[float]]:
    """Returns the solver's seconds of each call of a solver, for the formulas with a verified
    answer."""
    calls = by_calls(rows)
    return {
        name: sorted(it["solving"]["seconds"] for it in mine if is_verified(it) and it["solving"])
        for name, mine in calls.items()
    }
