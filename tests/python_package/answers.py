"""The parts of the package that tables and machines are made of: each row has what is expected beside what is asked."""

import hashlib
import json
import os
import random
import subprocess
import sys
import tempfile
import unittest
import xml.etree.ElementTree as tree

from cefindrato import aiger, cactus, machines, measure, report, table
from cefindrato.faults import Unusable

LIB = os.path.dirname(os.path.dirname(os.path.abspath(table.__file__)))
UNSAT, SAT = table.VERDICTS[20], table.VERDICTS[10]


def took(seconds):
    return {"seconds": seconds, "processor": seconds, "memory": 1}


def row(name, outcome, seconds=None, limit=10.0, reason="", solver="one"):
    """A row that this solver took so many seconds for."""
    part = None if seconds is None else took(seconds)
    values = (name, [solver], [], limit, None, outcome, reason, 0, 1.0, 1.0, 1, part, part, [])
    return dict(zip(table.FIELDS, values))


def line_of(values):
    own = hashlib.sha256(json.dumps(values).encode()).hexdigest()
    return json.dumps({**values, "row": own}) + "\n"


class Rows(unittest.TestCase):
    def test_lines(self):
        whole = row("f", UNSAT, 1.5)
        self.assertEqual(table.line_of(whole), line_of(whole))
        self.assertEqual(table.row_of(line_of(whole)), {**whole, "edited": False})
        changed = line_of(whole).replace("1.5", "2.5")
        self.assertEqual(table.row_of(changed)["outcome"], table.NO_ANSWER)

    def test_lines_of_a_version_before(self):
        before = {it: value for it, value in row("f", UNSAT).items() if it not in table.LATER}
        self.assertEqual(table.row_of(line_of(before)), {**row("f", UNSAT), "edited": False})

    def test_lines_that_are_none(self):
        wrong = [
            {**row("f", UNSAT), **it}
            for it in (
                {"outcome": "s VERIFIED"},
                {"status": "20"},
                {"solving": {}},
                {"checking": []},
                {"sums": [{}]},
                {"more": 1},
            )
        ]
        wrong += [
            {**row("f", UNSAT, 1.0), "solving": {**took(1.0), "memory": 1.5}},
            {"formula": "f"},
        ]
        for values in wrong:
            self.assertIsNone(table.row_of(line_of(values)), values)
        for text in ("", "1", "[]", "{", '{"row": 1}'):
            self.assertIsNone(table.row_of(text))

    def test_last_row_counts(self):
        first, last = row("f", UNSAT, 1.0), row("f", UNSAT, 2.0)
        text = (line_of(first) + line_of(row("g", SAT, 3.0)) + line_of(last)).encode()
        rows, whole = table.rows_of("it", text + b'{"formula": "f"')
        self.assertEqual([it["solving"]["seconds"] for it in rows.values()], [3.0, 2.0])
        self.assertEqual(whole, len(text))
        with self.assertRaises(Unusable):
            table.rows_of("it", text + b"x")


class Reports(unittest.TestCase):
    def test_par2(self):
        two = [row("a", UNSAT, 2.0), row("b", SAT, 4.0)]
        self.assertEqual(report.par2(two), (3.0, 10.0))
        for outcome in (table.NO_ANSWER, table.NOT_CHECKED, table.REJECTED):
            self.assertEqual(report.par2([*two, row("c", outcome, 9.0)]), (26 / 3, 10.0))
        self.assertEqual(report.par2([*two, row("c", table.MALFORMED)]), (3.0, 10.0))
        # a verdict under another limit counts, and what is not solved has one
        self.assertEqual(
            report.par2([row("a", SAT, 2.0, 5.0), row("b", table.NO_ANSWER, None, 10.0)]),
            (11.0, 10.0),
        )

    def test_no_par2(self):
        unsolved = row("c", table.NO_ANSWER)
        for rows in (
            [],
            [row("c", table.MALFORMED)],
            [row("a", SAT, 2.0, None)],
            [row("a", SAT), unsolved],
            [row("a", SAT, 11.0), unsolved],
        ):
            self.assertIsNone(report.par2(rows))
        self.assertIsNone(report.par2([unsolved, row("d", table.NO_ANSWER, None, 20.0)]))
        self.assertIsNone(report.par2([row("d", table.NO_ANSWER, None, None)]))

    def test_status(self):
        for outcome, status in (
            (UNSAT, 0),
            (SAT, 0),
            (table.REJECTED, 1),
            (table.NO_ANSWER, 3),
            (table.NOT_CHECKED, 3),
            (table.MALFORMED, 3),
        ):
            self.assertEqual(report.status_of([row("a", SAT, 1.0), row("b", outcome)]), status)
        self.assertEqual(report.status_of([row("a", table.REJECTED), row("b", table.NO_ANSWER)]), 1)

    def test_csv_quotes(self):
        odd = row('a, "b"', table.NO_ANSWER, reason="it said, so")
        self.assertEqual(
            report.csv_of([odd]).splitlines()[1], '"a, ""b""",one,UNKNOWN,,,,,,,10.0,,"it said, so"'
        )

    def test_curves(self):
        rows = [
            row("a", SAT, 2.0),
            row("b", UNSAT, 1.0),
            row("c", table.REJECTED, 0.5),
            row("a", SAT, 3.0, solver="two words"),
        ]
        self.assertEqual(report.curves_of(rows), {"one": [1.0, 2.0], "'two words'": [3.0]})


class Plots(unittest.TestCase):
    def test_ticks(self):
        rows = (
            (1, 0.2, 6),
            (3, 0.5, 7),
            (7, 1, 8),
            (8, 2, 5),
            (30, 5, 7),
            (31, 5, 8),
            (4321, 1000, 6),
            (0.031, 0.005, 8),
        )
        for top, step, count in rows:
            found = cactus.ticks_of(top)
            self.assertEqual(len(found), count, (top, found))
            for place, tick in enumerate(found):
                self.assertAlmostEqual(tick, step * place)
            self.assertTrue(found[-2] < top <= found[-1] + 1e-9)

    def test_points(self):
        for curves in ({}, {"none": []}, {"zero": [0.0]}, {"a <b> & c": [0.5, 1.0], "d": [7.0]}):
            drawn = tree.fromstring(cactus.svg_of(curves))
            texts = [it.text for it in drawn.iter() if it.tag.endswith("text")]
            points = [
                (float(it.get("cx")), float(it.get("cy")))
                for it in drawn.iter()
                if it.tag.endswith("circle")
            ]
            self.assertEqual(len(points), sum(map(len, curves.values())))
            for name, seconds in curves.items():
                self.assertIn(f"{name} ({len(seconds)})", texts)
            for x, y in points:
                self.assertTrue(
                    cactus.LEFT <= x <= cactus.WIDTH
                    and cactus.TOP <= y <= cactus.HEIGHT - cactus.BOTTOM
                )


class Measures(unittest.TestCase):
    def measured(self, *words):
        """The status of a command, and what was written of it."""
        code = "import sys; from cefindrato import measure; sys.exit(measure.main('solver', sys.argv[1:]))"
        with tempfile.NamedTemporaryFile() as file:
            environment = {**os.environ, measure.FILE: file.name, "PYTHONPATH": LIB}
            ran = subprocess.run(
                [sys.executable, "-B", "-c", code, *words], env=environment, stderr=subprocess.PIPE
            )
            return ran.returncode, [json.loads(line) for line in file.read().splitlines()]

    def test_statuses(self):
        for script, status in (
            ("exit 0", 0),
            ("exit 20", 20),
            ("kill -KILL $$", -9),
            ("kill -SEGV $$", -11),
            ('test -z "$CHECKED_ALL_MEASURES"', 0),
        ):
            found, (line,) = self.measured("sh", "-c", script)
            self.assertEqual((found, line["role"]), (status, "solver"))
        self.assertEqual(self.measured("./none"), (127, []))

    def test_what_it_took(self):
        _, (line,) = self.measured("sh", "-c", "sleep 0.5")
        self.assertTrue(0.5 <= line["seconds"] < 20 and line["processor"] < 0.4, line)
        _, (line,) = self.measured(sys.executable, "-c", "it = b'1' * 60_000_000")
        self.assertTrue(60e6 < line["memory"] < 300e6, line)


def drawn(draw):
    """A machine with latches that begin with 0 or 1, constraints and bad outputs."""
    inputs, latches = draw.randrange(0, 3), draw.randrange(1, 4)
    c = aiger.Circuit(inputs, [(2 * (inputs + 1 + k), 0, 0) for k in range(latches)])

    def literal():
        return draw.randrange(0, 2 * c.maximum() + 2)

    for _ in range(draw.randrange(8)):
        c.both(literal(), literal())
    c.latches = [(own, literal(), draw.randrange(2)) for own, _, _ in c.latches]
    c.bad = [literal() for _ in range(draw.randrange(3))]
    c.outputs = [literal()]
    c.constraints = [literal() for _ in range(draw.randrange(3))]
    return c


class Machines(unittest.TestCase):
    def test_gates(self):
        c = aiger.Circuit(2)
        self.assertEqual(
            [c.both(*it) for it in ((2, 0), (1, 2), (2, 2), (2, 3), (0, 0), (1, 1))],
            [0, 2, 2, 0, 0, 1],
        )
        self.assertEqual(c.gates, [])
        self.assertEqual((c.both(2, 5), c.either(2, 4), c.gates), (6, 9, [(6, 5, 2), (8, 5, 3)]))

    def test_written_and_read(self):
        draw = random.Random(1)
        for _ in range(100):
            c = drawn(draw)
            for write in (aiger.write, aiger.write_text):
                self.assertEqual(aiger.read(write(c)).show(), c.show())

    def test_folded(self):
        """Along random runs the output is true exactly where a bad one is, and all constraints were met."""
        draw = random.Random(2)
        for _ in range(200):
            c = drawn(draw)
            one = machines.folded(aiger.read(aiger.write(c)))
            self.assertEqual(
                (one.bad, one.constraints, {reset for _, _, reset in one.latches}), ([], [], {0})
            )
            state, other, granted = (
                [reset for _, _, reset in c.latches],
                [0] * len(one.latches),
                True,
            )
            for _ in range(6):
                inputs = [draw.randrange(2) for _ in range(c.inputs)]
                of, its = c.values(inputs, state), one.values(inputs, other)
                granted = granted and all(of[it] for it in c.constraints)
                self.assertEqual(
                    its[one.outputs[0]], granted and any(of[it] for it in c.bad or c.outputs)
                )
                state = [of[after] for _, after, _ in c.latches]
                other = [its[after] for _, after, _ in one.latches]

    def test_no_reset(self):
        with self.assertRaises(Unusable):
            machines.folded(aiger.Circuit(0, [(2, 2, None)]))

    def test_cubes(self):
        self.assertEqual(
            list(machines.cubes_of("# so\n.i 3\n1-0 1\n --- 1\n0-- 0\n.e\n")),
            [[(0, True), (2, False)], []],
        )
        self.assertEqual(
            list(machines.cubes_of(".ilb lo10 lo02\n01 1\n")), [[(10, False), (2, True)]]
        )

    def test_unfolded(self):
        machine = aiger.Circuit(0, [(2, 2, 0), (4, 4, 1)])
        cubes = [[(0, True), (1, True), (2, False)], [(0, False), (2, True)], [(1, False)]]
        self.assertEqual(
            list(machines.unfolded(machine, cubes)), [[(0, True), (1, False)], [(1, True)]]
        )

    def test_invariant(self):
        c = machines.invariant(1, 2, [[(0, True), (1, False)], [(1, True)]])
        for one in (0, 1):
            for other in (0, 1):
                self.assertEqual(
                    c.values([0, one, other])[c.outputs[0]], not (one and not other) and not other
                )

    def test_stimulus(self):
        # the latch begins with 1 and takes its input; the second bad output is its negation
        machine = aiger.Circuit(1, [(4, 2, 1)], (), (0, 5), (), ())
        self.assertEqual(
            machines.stimulus_of(machine, "00\n1\n0\n1\n1\n# DONE\n"), "1\nb1\n1\n1\n0\n1\n.\n"
        )
        for text in ("", "00\n1\n1\n", "00\n0\n", "00\n00\n0\n"):
            self.assertIsNone(machines.stimulus_of(machine, text))
        machine.constraints = [2]
        self.assertIsNone(machines.stimulus_of(machine, "00\n0\n1\n"))


if __name__ == "__main__":
    unittest.main()
