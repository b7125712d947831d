"""Pieces of a proof and parts of a formula: each row has what is expected beside what is asked."""

import hashlib
import io
import os
import select
from contextlib import redirect_stdout

from cefindrato import cubes, cutting, files, pieces
from cefindrato.faults import Unusable
from cefindrato.piece_checks import number_of, print_left
from cefindrato.receipts import receipt
from parts import InFolder

A, B, C = (hashlib.sha256(text).hexdigest() for text in (b"a", b"b", b"c"))


class Kept(InFolder):
    def test_texts(self):
        for text, before, behind in (
            (receipt("refuted", A), A, None),
            (receipt("carries", A, B), A, B),
        ):
            kept = pieces.kept_of(text)
            self.assertEqual((kept.before, kept.behind, kept.text()), (before, behind, text))
        for text in (None, "", receipt("satisfied", A), receipt("carries", A, B)[:-1]):
            self.assertIsNone(pieces.kept_of(text))

    def test_is_receipt(self):
        for text, answer in (
            (receipt("refuted", A), True),
            (receipt("refuted", A)[:9], True),
            ("", True),
            ("refuting", False),
        ):
            self.assertEqual(pieces.is_receipt(self.write("it", text.encode())), answer)
        os.mkdir("folder")
        self.assertFalse(pieces.is_receipt("folder"))
        self.assertFalse(pieces.is_receipt("none"))

    def test_is_whole(self):
        for text, answer in (
            (b"p cnf 2 2\n1 2 0\n-1 0\n", True),
            (b"p cnf 0 0\n", True),
            (b"p cnf 2 2\n1 2 0\n-1 ", False),
            (b"p cnf 2 2\n1 2 0\n", False),
            (b"p cnf 2 1\n1 2 0", False),
            (b"1 2 0\n", False),
            (b"", False),
        ):
            self.assertEqual(pieces.is_whole(self.write("it", text)), answer)
        self.assertFalse(pieces.is_whole("none"))


class Folders(InFolder):
    """The folder `f` of two pieces of the formula `a`, of which nothing is kept yet."""

    def setUp(self):
        super().setUp()
        os.mkdir("f")
        self.write("a", b"a")
        for name, text in (("count", b"2\n"), ("1.drat", b""), ("2.drat", b""), ("2.cnf", b"b")):
            self.write(f"f/{name}", text)
        self.pieces = pieces.Pieces("a", "f")

    def keep(self, *receipts):
        for name, text in enumerate(receipts, 1):
            self.write(f"f/{name}.receipt", text.encode())

    def left(self):
        out = io.StringIO()
        with redirect_stdout(out):
            self.assertEqual(print_left(self.pieces), 0)
        return out.getvalue()

    def test_left(self):
        refuted, carries = receipt("refuted", B), receipt("carries", A, B)
        for kept, left in (
            ((), "1\n2\n"),
            ((carries,), "2\n"),
            ((carries, refuted), ""),
            ((receipt("carries", C, B), refuted), "1\n"),
            ((receipt("carries", A, C), refuted), "2\n"),
            # what comes to a conflict needs none behind it
            ((receipt("refuted", A), carries), ""),
        ):
            self.keep(*kept)
            self.assertEqual(self.left(), left)

    def test_is_checked(self):
        self.keep(receipt("carries", A, B), receipt("refuted", B))
        self.assertTrue(self.pieces.is_checked(1, False))
        self.assertTrue(self.pieces.is_checked(2, True))
        self.assertFalse(self.pieces.is_checked(1, True))
        self.write("f/2.cnf", b"c")
        self.assertFalse(self.pieces.is_checked(2, True))
        self.write("a", b"c")
        self.assertFalse(self.pieces.is_checked(1, False))

    def test_count(self):
        self.assertEqual(self.pieces.count(), 2)
        for text in (b"", b"x\n"):
            self.write("f/count", text)
            self.fails(Unusable, "cannot read f/count: the proof is not cut", self.pieces.count)

    def test_forget(self):
        self.pieces.forget(2)
        self.assertEqual(sorted(os.listdir("f")), ["1.drat", "count"])

    def test_clear(self):
        self.write("f/notes")
        self.pieces.clear("proof")
        self.assertEqual(sorted(os.listdir("f")), ["cut", "notes"])
        os.remove("f/cut")
        self.write("f/1.drat")
        why = "cannot write f/1.drat: there is a file that pieces did not write"
        self.fails(Unusable, why, self.pieces.clear, "proof")


class Proofs(InFolder):
    def test_numbers(self):
        for word, number in (("7", 7), ("0" * 20, 0), ("1" * 21, None), ("-1", None), ("", None)):
            self.assertEqual(number_of(word), number)

    def test_lemmas(self):
        """They are estimated, by samples."""
        for text, lemmas in (
            (b"", 0),
            (b"1 2 0\nd 1 2 0\n3 0\n" * 20000, 40000),
            (b"a\2\4\0d\2\4\0a\6\0" * 20000, 40000),
        ):
            found = cutting.lemmas_in(self.write("it", text))
            self.assertAlmostEqual(found, lemmas, delta=lemmas // 50)
        # 80000 lemmas: two pieces a job at least, of about 20000
        self.write("it", b"1 2 0\n" * 80000)
        for jobs, lemmas in ((1, 20000), (2, 20000), (4, 10000), (100, 1000)):
            found = cutting.lemmas_of_piece("it", jobs)
            self.assertAlmostEqual(found, lemmas, delta=lemmas // 50)

    def test_frat(self):
        for text, is_frat in (
            (b"o 1 1 0\n", True),
            (b"c x\n\n l 1 0\n", True),
            (b"o\2\4\0", True),
            (b"d 1 0\n", False),
            (b"c o\n1 0\n", False),
        ):
            if is_frat:
                why = "it begins as FRAT: DRAT and DPR are cut"
                self.fails(Unusable, why, cutting.begin_of, "it", iter([text]))
            else:
                self.assertEqual(cutting.begin_of("it", iter([text])), text)

    def test_feed(self):
        """One piece may be there: so the rest waits until it was checked, but for what is under
        way."""
        os.mkdir("f")
        text = os.urandom(10 * files.BLOCK)
        feed = cutting.Feed(pieces.Pieces("a", "f"), self.write("it", text), 0)
        with open(feed.start(), "rb", buffering=0) as reader:
            found = reader.read(cutting.PORTION)
            self.write("f/1.drat", b"")
            # (one portion is in the pipe, and one on its way there)
            while select.select([reader], [], [], 0.5)[0]:
                found += reader.read(cutting.PORTION)
            self.assertLessEqual(len(found), 3 * cutting.PORTION)
            feed.came(1)
            feed.went()
            while more := reader.read(files.BLOCK):
                self.assertLessEqual(len(more), cutting.PORTION)
                found += more
        feed.finish(True)
        self.assertEqual(found, text)


class Cubes(InFolder):
    def test_cubes(self):
        for text, found in (
            (b"1 -2 0\n0\n", [["1", "-2"], []]),
            (b"c x\na 1 0\n\n2 0\n", [["1"], ["2"]]),
            (b"p inccnf\n1 2 0\na 1 0\n", [["1"]]),
            (b"", []),
        ):
            self.assertEqual(cubes.cubes_of(self.write("it", text)), found)
        for text, why in (
            (b"1 2\n", "it: line 1: not literals up to a 0"),
            (b"1 0\np inccnf\n", "it: line 2: bad header: p inccnf"),
            (b"p cnf 1 1\n", "it: line 1: bad header: p cnf 1 1"),
            (b"1" * 21 + b" 0\n", "it: line 1: not literals up to a 0"),
        ):
            self.fails(Unusable, why, cubes.cubes_of, self.write("it", text))

    def test_formula(self):
        for text, clauses, top, count in (
            (b"c x\np cnf 9 9\n1 -2 0\n0\n", b"1 -2 0\n0\n", 2, 2),
            (b"1\n2 0 3 0\n%\nx\n", b"1 2 0\n3 0\n", 3, 2),
            (b"0 0 1 0\n", b"0\n0\n1 0\n", 1, 3),
            (b"", b"", 0, 0),
        ):
            found = cubes.Formula(self.write("it", text))
            self.assertEqual((found.clauses, found.top, found.count), (clauses, top, count))
            self.assertEqual(found.sum, hashlib.sha256(text).hexdigest())
        for text, why in (
            (b"1 2\n", "it: the last clause has no 0"),
            (b"1 0\np cnf 1 1\n", "it: line 2: bad header: p cnf 1 1"),
            (b"1 x 0\n", "it: a word that is no number: x"),
            (b"1" + b"0" * 20 + b" 0\n", "it: a word that is no number: 100"),
        ):
            self.fails(Unusable, why, cubes.Formula, self.write("it", text))

    def test_parts(self):
        self.write("formula", b"p cnf 2 1\n1 2 0\n")
        self.write("cubes", b"1 0\n-1 3 0\n")
        split = cubes.Split("formula", "cubes")
        self.assertEqual(split.names, ["1", "2", "closing"])
        for name, text in (
            ("1", b"p cnf 2 2\n1 2 0\n1 0\n"),
            ("2", b"p cnf 3 3\n1 2 0\n-1 0\n3 0\n"),
            ("closing", b"p cnf 3 3\n1 2 0\n-1 0\n1 -3 0\n"),
        ):
            checked = text.partition(b"\n")[2]
            self.assertEqual((split.text(name), split.checked(name)), (text, checked))
            kept = receipt("refuted", hashlib.sha256(checked).hexdigest())
            self.assertEqual(split.receipt(name), kept)
        model = receipt("satisfied", hashlib.sha256(b"p cnf 2 1\n1 2 0\n").hexdigest())
        self.assertEqual(split.model_receipt(), model)
