"""The parts of the package: each row has what is expected beside what is asked."""

import bz2
import contextlib
import gzip
import hashlib
import io
import lzma
import os
import subprocess
import sys
import tempfile
import unittest

from cefindrato import VERSION, files, programs, receipts, words
from cefindrato.faults import Damaged, Fault, Unopened, Unusable

TEXT = b"p cnf 1 1\n1 0\n"
PACKED = {".gz": gzip.compress(TEXT), ".bz2": bz2.compress(TEXT), ".xz": lzma.compress(TEXT), ".lzma": lzma.compress(TEXT, lzma.FORMAT_ALONE)}
D = hashlib.sha256(TEXT).hexdigest()


class InFolder(unittest.TestCase):
    """Each test is in an empty folder of its own."""

    def setUp(self):
        folder, before = tempfile.TemporaryDirectory(), os.getcwd()
        self.addCleanup(folder.cleanup)
        self.addCleanup(os.chdir, before)
        os.chdir(folder.name)

    def write(self, name, text=TEXT):
        with open(name, "wb") as file:
            file.write(text)
        return name

    def read(self, name):
        with open(name, "rb") as file:
            return file.read()

    def fails(self, kind, why, call, *words, **named):
        """The call raises exactly this kind of fault, whose text begins so."""
        with self.assertRaises(kind) as raised:
            call(*words, **named)
        self.assertIs(type(raised.exception), kind)
        self.assertTrue(str(raised.exception).startswith(why), str(raised.exception))


class Reading(InFolder):
    def test_packed(self):
        for end, packed in PACKED.items():
            self.assertEqual(files.content_of(self.write(f"it{end}", packed)), TEXT)
            self.assertEqual(list(files.lines_of(f"it{end}")), TEXT.splitlines())
            with files.unpacked(f"it{end}") as plain, open(files.name_of(plain), "rb") as again:
                self.assertEqual(again.read(), TEXT)

    def test_several_in_a_row(self):
        for end, packed in PACKED.items():
            if end != ".lzma":
                self.assertEqual(files.content_of(self.write(f"it{end}", packed + b"\0" * 8)), TEXT)
                self.assertEqual(files.content_of(self.write(f"it{end}", packed + packed)), TEXT + TEXT)

    def test_blocks(self):
        text = os.urandom(files.BLOCK) + bytes(files.BLOCK * 40)
        for end, pack in ((".gz", gzip.compress), (".bz2", bz2.compress), (".xz", lzma.compress), ("", bytes)):
            blocks = list(files.blocks_of(self.write(f"it{end}", pack(text))))
            self.assertEqual(b"".join(blocks), text)
            self.assertTrue(all(0 < len(block) <= files.BLOCK for block in blocks))

    def test_plain(self):
        for name in ("it", "it.cnf", "gz"):
            self.assertEqual(files.content_of(self.write(name, PACKED[".gz"])), PACKED[".gz"])

    def test_damaged(self):
        for end, packed in PACKED.items():
            garbage = [] if end == ".bz2" else [packed + b"x", packed + packed[:-5], packed + b"x" + packed[1:]]
            for text in (packed[:-5], packed[:3], b"", TEXT, *garbage):
                self.fails(Damaged, f"cannot unpack it{end}: ", files.content_of, self.write(f"it{end}", text))

    def test_damaged_at_the_end(self):
        """What comes before is handed on; the fault is known before the end is."""
        text = os.urandom(files.BLOCK * 3)
        blocks = files.blocks_of(self.write("it.gz", gzip.compress(text)[:-1]))
        found = b""
        with self.assertRaises(Damaged):
            for block in blocks:
                found += block
        self.assertEqual(found, text[: len(found)])
        self.assertGreaterEqual(len(found), files.BLOCK)

    def test_absent(self):
        for end in ("", *PACKED):
            self.fails(Unopened, f"cannot open none{end}: No such file or directory", files.blocks_of, f"none{end}")
        self.fails(Unopened, "cannot open .: Is a directory", files.content_of, ".")
        self.fails(Unopened, "cannot open none: No such file or directory", files.sum_of, "none")

    def test_missing_packer(self):
        before = os.environ["PATH"]
        self.addCleanup(os.environ.__setitem__, "PATH", before)
        os.environ["PATH"] = os.getcwd()
        self.fails(Unusable, "cannot run zstd, which unpacks it.zst", files.blocks_of, self.write("it.zst"))
        with open("zstd", "w", encoding="utf-8") as script:
            script.write('#!/bin/sh\nread -r line && echo "$* $line"\n[ "$line" = whole ] || { echo "not whole" >&2; exit 3; }\n')
        os.chmod("zstd", 0o755)
        self.assertEqual(files.content_of(self.write("it.zst", b"whole\n")), b"-dcq whole\n")
        self.fails(Damaged, "cannot unpack it.zst: not whole", files.content_of, self.write("it.zst", b"half\n"))

    def test_lines(self):
        for text, lines in ((b"", []), (b"\n", [b""]), (b"a", [b"a"]), (b"a\n\nb", [b"a", b"", b"b"]), (b"a\rb\n", [b"a\rb"])):
            self.assertEqual(list(files.lines_of(self.write("it", text))), lines)
        lines = [b"a" * files.BLOCK * 2, b"b" * (files.BLOCK - 1), b"", b"c" * files.BLOCK]
        self.assertEqual(list(files.lines_of(self.write("it", b"\n".join(lines)))), lines)

    def test_sum(self):
        self.assertEqual(files.sum_of(self.write("it")), D)
        # (of a packed file as it stands)
        self.write("it.gz", PACKED[".gz"])
        self.assertEqual(files.sum_of("it.gz"), hashlib.sha256(PACKED[".gz"]).hexdigest())

    def test_operand(self):
        for path, operand in (("-", "./-"), ("-x", "./-x"), ("x", "x"), ("a/-", "a/-")):
            self.assertEqual(files.operand(path), operand)


class Writing(InFolder):
    def test_keep(self):
        files.keep("it", b"one")
        files.keep("it", b"two")
        self.assertEqual((self.read("it"), os.listdir()), (b"two", ["it"]))
        self.fails(Unusable, "cannot write none/it: No such file or directory", files.keep, "none/it", b"")
        os.mkdir("folder")
        self.fails(Unusable, "cannot write folder: Is a directory", files.keep, "folder", b"")
        self.assertEqual(sorted(os.listdir()), ["folder", "it"])

    def test_put(self):
        place = os.path.realpath("it")
        files.put(place, "one")
        os.chmod("it", 0o640)
        files.put(place, "two")
        self.assertEqual((self.read("it"), os.stat("it").st_mode & 0o777, os.listdir()), (b"two", 0o640, ["it"]))

    def test_put_into_a_pipe(self):
        os.mkfifo("pipe")
        with subprocess.Popen(["cat", "pipe"], stdout=subprocess.PIPE) as reader:
            files.put(os.path.realpath("pipe"), "one")
            self.assertEqual(reader.communicate()[0], b"one")

    def test_destination(self):
        self.write("it")
        os.symlink("it", "link")
        os.link("it", "twin")
        for name in ("it", "link", "twin", "./it"):
            self.fails(Unusable, f"cannot write {name}: it is it, which is read", files.destination, name, ["it"])
        self.assertEqual(files.destination("other", ["it"]), os.path.realpath("other"))
        self.assertEqual(files.destination("link", []), os.path.realpath("it"))

    def test_refuse_writing(self):
        self.write("it")
        os.symlink("it", "link")
        os.symlink("none", "loose")
        files.refuse_writing(["new", "it"], ["none"], lambda _: True, "me")
        self.fails(Unusable, "cannot write link: it is a file that is read, it", files.refuse_writing, ["link"], ["it"], lambda _: True, "me")
        for name in ("it", "loose"):
            self.fails(Unusable, f"cannot write {name}: there is a file that me did not write",
                       files.refuse_writing, [name], [], lambda _: False, "me")
        with open("it", "rb") as file:
            self.fails(Unusable, f"cannot write it: it is a file that is read, {file.fileno()}",
                       files.refuse_writing, ["it"], [file.fileno()], lambda _: True, "me")


class Programs(InFolder):
    def test_program(self):
        for folder in ("bin", "dist"):
            os.mkdir(folder)
            os.chmod(self.write(f"{folder}/it"), 0o755)
        self.write("bin/other")
        own = os.path.realpath("bin")
        self.assertEqual(programs.program(own, "it"), f"{own}/it")
        os.remove("bin/it")
        self.assertEqual(programs.program(own, "it"), f"{own}/../dist/it")
        self.assertEqual(programs.program(own, "other"), "other")
        os.environ["IT"] = "mine"
        self.addCleanup(os.environ.pop, "IT")
        self.assertEqual(programs.program(own, "it"), "mine")

    def test_said(self):
        def ran(status, out=b"", err=b""):
            return subprocess.CompletedProcess(["it"], status, out, err)

        for found, said in ((ran(1), "it ended with status 1"), (ran(0, b"a\nb"), "a"), (ran(1, b"a\n", b"b\xff\n"), "b\ufffd")):
            self.assertEqual(programs.said_by(found, found.stderr, found.stdout), said)
        self.fails(Unusable, "it cannot be asked: it ended with status 2", programs.said_by, ran(2))
        self.fails(Unusable, "it cannot be asked for x: why", programs.said_by, ran(2), b"why\n", of=" for x")
        self.fails(Unusable, "cannot run ./none: No such file or directory", programs.run, ["./none"])


class Receipts(unittest.TestCase):
    KNOWN = receipts.Receipts("refuted", "carries")

    def test_texts(self):
        self.assertEqual(receipts.receipt("refuted", D), f"refuted sha256 {D}\n")
        self.assertEqual(receipts.receipt("carries", D, D[::-1]), f"carries sha256 {D} sha256 {D[::-1]}\n")

    def test_parts(self):
        for kind, sums in (("refuted", [D]), ("carries", [D, D[::-1]])):
            self.assertEqual(self.KNOWN.parts_of(receipts.receipt(kind, *sums)), [kind, *sums])
        whole = receipts.receipt("refuted", D)
        for text in (None, "", whole[:-1], whole + "\n", whole.upper(), receipts.receipt("satisfied", D), receipts.receipt("refuted", D, D)):
            self.assertIsNone(self.KNOWN.parts_of(text))

    def test_cut_off(self):
        for whole in (receipts.receipt("refuted", D), receipts.receipt("carries", D, D)):
            for place in range(len(whole)):
                self.assertTrue(self.KNOWN.is_cut_off(whole[:place]))
            self.assertFalse(self.KNOWN.is_cut_off(whole))
            self.assertFalse(self.KNOWN.is_cut_off(whole[1:]))
        self.assertFalse(self.KNOWN.is_cut_off(None))
        self.assertFalse(self.KNOWN.is_cut_off("satisfied"))


class Calls(InFolder):
    def parser(self):
        parser = words.Calls("it", {"one": "A B", "more": "A B.."})
        parser.add_argument("--flag", action="store_true")
        return parser

    def test_operands(self):
        self.assertEqual(self.parser().operands(["one", "a", "b"]), ["a", "b"])
        self.assertEqual(self.parser().operands(["more", "a", "b", "c"]), ["a", "b", "c"])
        for given, why in (
            ([], "no call is named"),
            (["two"], "there is no call two"),
            (["one", "a"], "one: no B is named"),
            (["more", "a"], "more: no B is named"),
            (["one", "a", "b", "c"], "one: a word too many: c"),
        ):
            self.fails(Unusable, f"{why}; it --help says more", self.parser().operands, given)

    def test_options(self):
        options = self.parser().options_of(["one", "--flag", "a", "b"])
        self.assertEqual((options.words, options.flag), (["one", "a", "b"], True))
        self.fails(Unusable, "there is no option --fla; it --help says more", self.parser().options_of, ["one", "--fla"])

    def test_says(self):
        for flag, said in (("-h", "a text"), ("--help", "a text"), ("-V", f"it {VERSION}\n"), ("--version", f"it {VERSION}\n")):
            out = io.StringIO()
            with contextlib.redirect_stdout(out):
                parser = words.Words("it")
                parser.add_says("a text")
                self.assertRaises(SystemExit, parser.parse_args, [flag])
                called = self.parser()
                self.assertTrue(called.has_said(called.options_of([flag]), "a text"))
            self.assertEqual(out.getvalue(), said * 2)
        called = self.parser()
        self.assertFalse(called.has_said(called.options_of(["one"]), "a text"))
        self.fails(Unusable, "unrecognized arguments: -x (it --help says how it is called)", words.Words("it").parse_args, ["-x"])

    def test_after_options(self):
        for given, place in ((["a", "--", "b"], 1), (["a"], 1), ([], 0), (["--", "--"], 0)):
            self.assertEqual(words.after_options(given), place)


class Ending(InFolder):
    """How a script ends, as a process of its own."""

    def ended(self, body, redirected=""):
        text = f"import sys\nfrom cefindrato.faults import *\nfrom cefindrato.words import run_main\ndef main(words):\n    {body}\n"
        with open("script", "w", encoding="utf-8") as file:
            file.write(f"{text}sys.exit(run_main(main, when_left=7))\n")
        call = ["sh", "-c", f'exec "$0" -B script {redirected}', sys.executable]
        ran = subprocess.run(call, capture_output=True)
        return ran.returncode, ran.stdout, ran.stderr

    def test_statuses(self):
        for body, ended in (
            ("return 3", (3, b"", b"")),
            ("sys.exit(4)", (4, b"", b"")),
            ("sys.exit()", (0, b"", b"")),
            ("raise Fault('a fault')", (1, b"", b"a fault\n")),
            ("raise Unusable('no use')", (2, b"", b"no use\n")),
            ("raise Damaged('no use')", (2, b"", b"no use\n")),
            ("open('none')", (2, b"", b"cannot use none: No such file or directory\n")),
            ("print('\\udcff'); return 0", (0, b"\xff\n", b"")),
        ):
            self.assertEqual(self.ended(body), ended)

    def test_outputs(self):
        self.assertEqual(self.ended("return 0", ">&-"), (2, b"", b"standard output is closed\n"))
        self.assertEqual(self.ended("print(1); return 0", "> /dev/full"), (2, b"", b"cannot use standard output: No space left on device\n"))
        body = "import os; out, into = os.pipe(); os.dup2(into, 1); os.close(into); os.close(out); print(1); return 0"
        self.assertEqual(self.ended(body), (7, b"", b""))


class Kinds(unittest.TestCase):
    def test_faults(self):
        """What a script catches as one, it catches as the other; a fault of what was asked about is none of the call."""
        self.assertTrue(issubclass(Damaged, Unusable) and issubclass(Unopened, Unusable))
        self.assertFalse(issubclass(Fault, Unusable) or issubclass(Unusable, Fault))
