"""Readable text: every book's lines give its bytes again, and a wrong line is told."""
import os
import random
import unittest

from .. import known, make, show
from ..books import BORDER_KINDS, border_bytes, encode, spec_bytes
from ..command import main
from ..inputs import encode_steps
from ..random_books import book_to_rewrite, damaged_book, random_book
from ..reference import check_two, entry_read_book, keeps_rule_1, plan_length, read_book
from ..repository import EXAMPLES, read_bytes, read_text, write_bytes, write_text
from ..text import BadText, book_bytes, book_lines
from .stand_in import InFolder, printed

BOOK_M = known.book_m(0, 1)


class Books(unittest.TestCase):
    def same(self, data):
        lines = book_lines(data)
        self.assertEqual(book_bytes(lines), data)
        self.assertEqual(book_lines(book_bytes(lines)), lines)

    def test_known_books(self):
        for data in (known.BOOK_L, BOOK_M, known.padded(0), known.great_ring(24), known.great_ring(256), known.standing(64)[0],
                     known.late_m(256), known.OLD_L):
            self.same(data)

    def test_books_on_limits(self):
        for maker in known.LIMITS:
            for over in (0, 1):
                self.same(spec_bytes(maker(over)))

    def test_random_and_damaged_books(self):
        rng = random.Random(5)
        for _ in range(300):
            self.same(damaged_book(rng))
        for _ in range(20):
            self.same(random_book(rng))
            self.same(random_book(rng, "long"))
            self.same(book_to_rewrite(rng))

    def test_any_bytes(self):
        rng = random.Random(6)
        for length in range(200):
            self.same(rng.randbytes(length % 40))
        self.same(b"\xff" * 3)
        self.same(bytes(65536))
        self.same(encode([[9, b"\1\2"], [65535, b""], [5, bytes(6) + b"\1"], [5, bytes(5)]]))

    def test_examples(self):
        for name in ("following", "uncut", "loop", "meeting"):
            lines = read_text(os.path.join(EXAMPLES, name + ".txt")).split("\n")
            data = read_bytes(os.path.join(EXAMPLES, name + ".book"))
            self.assertEqual(book_bytes(lines), data)
            if name != "loop":
                self.assertEqual([line for line in lines if not line.startswith("#")][:-1], book_lines(data)[1:])

    def test_lines_of_book_l(self):
        self.assertEqual(book_lines(known.BOOK_L), [
            "# accepted",
            "head: 100 metres a segment, 10 seconds an interval, 1 intervals",
            "node 0: border kind 0  # never",
            "node 1: border kind 0  # never",
            "segment 0: nodes 0 1, TTD 0",
            "train 0: 80 metres, 36 km/h, departs at 0, stands on 0>  # 1 long, up to 1 an interval, 2 runs",
            "call: train 0, segment 0, at some time from 0 to 1",
            "end"])

    def test_lines_of_an_old_book(self):
        """Frames with times have other lengths than their kinds."""
        said = "# refused: 4 0; an old book, which bin/upgrade_book rewrites"
        self.assertEqual(book_lines(known.OLD_L)[:3], [said, "frame of kind 1: 64 00 0a 00 01", "node 0: border kind 0  # never"])

    def test_times_of_two_bytes(self):
        lines = book_lines(known.late_m(256))
        self.assertEqual(lines[1], "head: 100 metres a segment, 10 seconds an interval, 256 intervals")
        self.assertIn("departs at 255, stands on 0>", lines[7])
        self.assertEqual(lines[8], "call: train 0, segment 1, at some time from 256 to 256")

    def test_wrong_lines(self):
        for line, why in (("node 1: border kind 0", "number 0"), ("node 0: border kind 256", "larger"),
                          ("head: 100 metres a segment, 10 seconds an interval, 65536 intervals", "larger"),
                          ("nod 0: border kind 0", "no line of a book; the nearest has the form: node N: border kind N$"),
                          ("train 0: 100 m, stands on 0>", "form: train N: .* stands on N> N<$"), ("rest 01", "form: rest: 01 02$"),
                          ("train 0: 1 metres, 1 km/h, departs at 0, stands on 3", "directed"), ("frame of kind 9: 1", "hexadecimal"),
                          ("rest: 01\nend", "behind the rest"), ("frame of kind 65536:", "two bytes"),
                          ("train 0: 1 metres, 1 km/h, departs at 0, stands on 128>", "larger")):
            with self.assertRaisesRegex(BadText, f"^line .*{why}", msg=line):
                book_bytes(line.split("\n"))


class Refused(unittest.TestCase):
    """The line whose frame is refused."""

    def line(self, old, new):
        lines = read_text(os.path.join(EXAMPLES, "loop.txt")).replace(old, new).split("\n")
        number = make.refused_line(lines)
        return number and lines[number - 1]

    def test_frames(self):
        self.assertEqual(self.line("segment 3: nodes 2 3", "segment 3: nodes 2 9"), "segment 3: nodes 2 9, TTD 2")
        self.assertTrue(self.line("70 km/h", "20 km/h").startswith("train 0"))
        self.assertEqual(self.line("\nend", "\nend\nrest: 00"), "rest: 00")

    def test_no_frame(self):
        self.assertIsNone(self.line("", ""))
        self.assertIsNone(self.line("\nend", ""))
        self.assertIsNone(self.line("call: train 1", "call: train 0"))


class Shown(unittest.TestCase):
    """The lines of plans, lists of carriers, assignments and refutations."""

    def test_plan(self):
        self.assertEqual(show.shown(known.PLAN_L, known.BOOK_L, None, False),
                         ["# accepted", "no borders", "train 0, interval 0: run 0, segments 0>"])
        lines = show.shown(b"\1\0\1\0", known.BOOK_L, None, False)
        self.assertEqual(lines[0], "# refused: 16 1")
        self.assertEqual(lines[1:], ["border at node 0  # kind 0, never", "train 0, interval 0: run 1, segments 0<"])

    def test_plan_that_is_none(self):
        lines = show.shown(b"\0\0\7\0\5", known.BOOK_L, "plan", False)
        self.assertEqual(lines, ["# refused: 15 0", "no borders", "train 0, interval 0: run 7, which this train has not", "behind it: 05"])
        lines = show.shown(b"\0\0\7", known.BOOK_L, "plan", False)
        self.assertEqual(lines[-1], "ends here: 3 bytes, and a plan of this book has 4")

    def test_carriers(self):
        self.assertEqual(show.shown(bytes([3, 255, 0, 7, 9, 0, 1, 2, 5]), None, "carriers", False),
                         ["node 3: without its border trains 0 and 7 meet, first in interval 255",
                          "node 9: without its border trains 1 and 2 meet, first in interval 0", "behind it: 05"])
        self.assertEqual(show.shown(b"", known.BOOK_L, "carriers", False), ["no border by itself carries the plan"])

    def test_assignment(self):
        lines = show.shown(known.ASSIGNMENT_L, known.BOOK_L, None, False)
        self.assertEqual(lines, ["# accepted", "variable 3: train 0, interval 0: run 0, segments 0>",
                                 "variable 6: train 0, interval 0: claims segment 0"])
        lines = show.shown(bytes(6), known.BOOK_L, None, False)
        self.assertEqual(lines, ["# refused: 14 3", "# clause 3 is false: 3 (train 0, interval 0: run 0, segments 0>) or "
                                 "4 (train 0, interval 0: run 1, segments 0<) or 5 (train 0, interval 0: gone)"])

    def test_every_variable_has_its_meaning(self):
        book = read_book(known.ring(*known.SMALL_RINGS[3]))
        words = show.meanings(book)
        self.assertEqual(len(words), show.reference.Variables(book).count)
        v = show.reference.Variables(book)
        self.assertEqual(words[v.gone(1, 2) - 1], "train 1, interval 2: gone")
        self.assertEqual(words[v.claim(1, 3, 2) - 1], "train 1, interval 3: claims segment 2")
        self.assertIn("train 0, interval 1: run 4, segments", words[v.run(0, 1, 4) - 1])

    def test_under_a_cap(self):
        book, plan, made = known.BOOK_FEWEST, known.PLAN_FEWEST, known.ASSIGNMENT_FEWEST + b"\0\1"
        lines = show.shown(made, book, None, False, 1)
        self.assertEqual((lines[0], lines[-1]), ("# accepted, under cap 1", "variable 19: of the nodes of kind 1 up to 1 at least 1 is set"))
        lines = show.shown(made[:-2] + b"\1\0", book, None, False, 2)
        self.assertEqual(lines[:2], ["# refused: 14 46, under cap 2", "# clause 46 is false: -2 (not border at node 1) or -18 (not of the nodes of kind 1 "
                                     "up to 0 at least 1 is set) or 19 (of the nodes of kind 1 up to 1 at least 2 are set)"])
        self.assertEqual(show.shown(plan, book, None, False, 0)[0], "# refused: 22 0, under cap 0")
        self.assertEqual(show.shown(known.REFUTATION_FEWEST, book, None, False, 0)[:1], ["# accepted, under cap 0"])
        self.assertTrue(show.shown(known.REFUTATION_FEWEST, book, None, False, 0)[1].startswith("step 1, clause 48: empty"))
        with self.assertRaisesRegex(show.Unclear, "an assignment 17: give --as"):
            show.shown(made, book, None, False)
        with self.assertRaisesRegex(show.Unclear, "an assignment 19 under cap 1: give --as"):
            show.shown(made[:-1], book, None, False, 1)

    def test_refutation(self):
        data = encode_steps([([6], [19, 17]), ([], [26, 16])])
        lines = show.shown(data, BOOK_M, None, False)
        self.assertEqual(lines, ["# accepted", "step 1, clause 26: 6; hints 19 17", "step 2, clause 27: empty; hints 26 16"])
        self.assertEqual(show.shown(data, None, None, False)[1], "step 2: empty; hints 26 16")
        self.assertEqual(show.shown(data[:-1], BOOK_M, "refutation", False)[-1], "no step: " + data[18:-1].hex(" "))

    def test_what_a_file_is(self):
        book = read_book(known.BOOK_L)
        self.assertEqual(show.kind_of(known.BOOK_L, None), "book")
        # these bytes could begin a book, but their length is an assignment's
        self.assertEqual(show.kind_of(known.ASSIGNMENT_L, book), "assignment")
        self.assertEqual(show.kind_of(known.PLAN_L, book), "plan")
        self.assertEqual(show.kind_of(known.REFUTATION_M, book), "refutation")
        for data, given in ((b"", None), (b"\1", book), (bytes(4), None)):
            with self.assertRaises(show.Unclear):
                show.kind_of(data, given)

    def test_refused_book(self):
        with self.assertRaisesRegex(show.Unclear, "refused: 1 0"):
            show.shown(known.PLAN_L, known.BOOK_L[:-1], None, False)

    def test_runs(self):
        self.assertEqual(show.shown(known.BOOK_L, None, None, True)[-2:], ["# train 0, run 0, segments 0>", "# train 0, run 1, segments 0<"])

    def test_verdict_is_the_reference_s(self):
        book = read_book(BOOK_M)
        plan = bytes(plan_length(book))
        self.assertEqual(show.shown(plan, BOOK_M, None, False)[0], "# refused: {} {}".format(*check_two("check_plan", BOOK_M, plan)[1:]))


class Commands(InFolder):
    def options(self, **names):
        return type("Options", (), names)()

    def test_make_writes_what_show_prints(self):
        write_bytes(self.path("book"), BOOK_M)
        with printed() as out:
            show.run(self.options(file=self.path("book"), book=None, kind=None, runs=True, cap=None))
        write_text(self.path("text"), out.getvalue())
        with printed():
            self.assertEqual(make.run(self.options(text=self.path("text"), book=self.path("again"))), 0)
        self.assertEqual(read_bytes(self.path("again")), BOOK_M)

    def test_wrong_text_writes_nothing(self):
        write_text(self.path("text"), "end\nnode 0: 5\n")
        with printed() as out:
            self.assertEqual(make.run(self.options(text=self.path("text"), book=self.path("book"))), 1)
        self.assertIn("line 2", out.getvalue())
        self.assertFalse(os.path.exists(self.path("book")))

    def main(self, *words):
        with printed() as out:
            status = main(list(words))
        return status, out.getvalue()

    def test_text_that_is_none_and_frames_that_are_too_long(self):
        for data, why in ((b"end\n\xff\n", "no UTF-8 text, from byte 4 on"),
                          (b"frame of kind 9: " + b"00" * 65536, "line 1: a frame has at most 65,535 bytes, and this one has 65,536")):
            write_bytes(self.path("text"), data)
            status, said = self.main("make", self.path("text"), self.path("book"))
            self.assertEqual((status, said.count("\n"), why in said), (2, 1, True), said[:200])
            self.assertTrue(said.startswith("tools make: "))
            self.assertFalse(os.path.exists(self.path("book")))
        write_bytes(self.path("text"), b"frame of kind 9: " + b"00" * 65535)
        self.assertEqual(self.main("make", self.path("text"), self.path("book"))[0], 0)
        self.assertEqual(len(read_bytes(self.path("book"))), 65539)

    def test_a_plan_and_an_assignment_need_a_book(self):
        for name, data in (("plan", known.PLAN_L), ("assignment", known.ASSIGNMENT_L[1:])):
            write_bytes(self.path(name), data)
            for words in ((), ("--as", name)):
                status, said = self.main("show", self.path(name), *words)
                self.assertEqual((status, "give --book BOOK" in said), (1, True), said)
        write_bytes(self.path("refutation"), known.REFUTATION_M)
        self.assertEqual(self.main("show", self.path("refutation")), (0, "step 1: empty; hints 16 17 19\n"))


class Kinds(unittest.TestCase):
    def test_the_reference_says_the_same(self):
        """Which kinds there are, and which bytes keep rule 1."""
        for kind in range(256):
            spec = known.row_spec(1)
            spec.nodes = [kind, 0]
            answer = entry_read_book(spec_bytes(spec))
            self.assertEqual(answer[0] == "accepted", kind in BORDER_KINDS, answer)
            if kind in BORDER_KINDS:
                book = read_book(spec_bytes(spec))
                self.assertEqual(tuple(byte for byte in (0, 1) if keeps_rule_1(book, [byte, 0], None)), border_bytes(kind))


class Help(unittest.TestCase):
    def test_make_tells_the_kinds(self):
        with printed() as out, self.assertRaises(SystemExit):
            main(["make", "--help"])
        self.assertIn("0 never, 1 may be set, 2 always set", out.getvalue())
