"""Records, their answers, and the command that makes, checks and runs stored cases."""
import os
import types
import unittest
from unittest import mock

from .. import known
from ..cases import FILES, command, programs
from ..cases.records import Record, answer, checksum, fewest_record, lending, lent, numbers, split
from ..known import (ASSIGNMENT_FEWEST, ASSIGNMENT_L, BOOK_CARRIED, BOOK_FEWEST, BOOK_GRAPH, BOOK_L, FORMULA_L, LIST_CARRIED, OLD_L, PAGE_GRAPH, PAGE_L,
                     PLAN_CARRIED, PLAN_FEWEST, PLAN_GRAPH, PLAN_L, PLAN_MEETING, REFUTATION_FEWEST, REFUTATION_M)
from ..repository import ROOT, Stop, read_bytes, write_bytes
from .stand_in import CASES, InFolder, printed, script


class Records(unittest.TestCase):
    def test_bytes_and_back(self):
        records = [Record("B", b"abc"), Record("N", b"", b"\0" * 300, numbers(1, 2)), Record("a", b"x", b"y", b""), Record("F", b"x", cap=0),
                   Record("P", b"", b"y", cap=2 ** 64 - 1), fewest_record(b"x", 0, b"y", b"z"), Record("w", b"x", b"y", b"z", cap=7)]
        again = split(b"".join(record.data() for record in records))
        self.assertEqual([(r.question, r.parts, r.cap) for r in again], [(r.question, r.parts, r.cap) for r in records])

    def test_form(self):
        self.assertEqual(Record("B", b"ab", b"", b"\1").data(), b"B" + bytes(9) + b"\2\0\0\0\0\0\0\0\1\0\0\0ab\1")
        self.assertEqual(Record("F", b"a", cap=0).data(), b"F\1" + bytes(8) + b"\1\0\0\0" + bytes(8) + b"a")
        self.assertEqual(Record("F", b"", cap=258).data(), b"F\1\2\1" + bytes(6 + 12))
        head = b"W\1\3" + bytes(7) + b"\1\0\0\0\1\0\0\0\x11\0\0\0"
        self.assertEqual(fewest_record(b"b", 3, b"a", b"r", (5, 6, 7, 8)).data(), head + b"ba" + numbers(5, 6, 7, 8) + b"r")

    def test_who_has_a_cap(self):
        for question, cap in (("B", 1), ("g", 1), ("U", 0), ("C", 0), ("W", None), ("w", None)):
            with self.subTest(question=question), self.assertRaises(AssertionError):
                Record(question, b"", b"", bytes(16), cap=cap)

    def test_a_cut_file_is_told(self):
        with self.assertRaises(AssertionError):
            split(Record("B", b"abc").data()[:-1])

    def test_lent(self):
        self.assertEqual(lent(Record("N", b"")), (16384, 8192, 65536, 8192))
        self.assertEqual(lent(Record("N", b"", b"", numbers(5, 0))), (5, 0, 65536, 8192))
        self.assertEqual(lent(Record("A", b"", b"", numbers(70000))), (65536,))
        self.assertEqual(lending("N", 7, 8192, 65536, 8192), numbers(7))
        self.assertEqual(lending("F", 16384), b"")
        for letter in "UGC":
            self.assertEqual((lent(Record(letter, b"")), lending(letter, 65536), lending(letter, 9)), ((65536,), b"", numbers(9)))

    def test_checksum(self):
        self.assertEqual(checksum(b"ab"), 98 * 257 + 99)
        self.assertEqual(checksum(b"\0" * 5), sum(257 ** n for n in range(5)) % 1000000007)


class Answers(unittest.TestCase):
    """Worked out by hand from document 01's books."""

    def says(self, record, name, data, files=None):
        self.assertEqual(answer(record, {} if files is None else files), (name, data))

    def test_book(self):
        self.says(Record("B", BOOK_L), "accepted", b"accepted 2 1 0 1 1\n")
        self.says(Record("B", b""), "1", b"1 0\n")
        self.says(Record("R", BOOK_L), "accepted", b"train 0: 2 runs\n0 | 0 2\n1 | 1 2\n")
        self.says(Record("R", BOOK_L + b"\0"), "3", b"3 0\n")
        self.says(Record("B", OLD_L), "4", b"4 0\n")

    def test_rewriting(self):
        self.says(Record("U", OLD_L), "accepted", b"accepted\n" + BOOK_L + b"\n")
        self.says(Record("U", OLD_L, b"", numbers(53)), "accepted", b"accepted\n" + BOOK_L + b"\n")
        self.says(Record("U", OLD_L, b"", numbers(52)), "12", b"12 0\n")
        self.says(Record("U", OLD_L[:-1], b"", numbers(0)), "1", b"1 0\n")
        self.says(Record("U", BOOK_L), "4", b"4 0\n")

    def test_graphs(self):
        self.assertEqual((len(PAGE_L), PAGE_L.rstrip()), (81, b"  0  00-00 0"))
        for room in (b"", numbers(81), numbers(82)):
            self.says(Record("G", BOOK_L, PLAN_L, room), "accepted", b"accepted\n" + PAGE_L + b"\n")
        self.says(Record("G", BOOK_GRAPH, PLAN_GRAPH, numbers(243)), "accepted", b"accepted\n" + PAGE_GRAPH + b"\n")
        for plan, said in ((PLAN_L, b"12 0\n"), (b"", b"12 0\n"), (b"\1" + PLAN_L[1:], b"12 0\n")):
            self.says(Record("G", BOOK_L, plan, numbers(80)), "12", said)
        self.says(Record("G", BOOK_L, PLAN_L[1:]), "15", b"15 0\n")
        self.says(Record("G", BOOK_L, b"\1" + PLAN_L[1:]), "16", b"16 1\n")
        self.says(Record("G", BOOK_L[:-1], PLAN_L, numbers(0)), "1", b"1 0\n")

    def test_lists(self):
        self.assertEqual(LIST_CARRIED.hex(" ", 4), "01010102 02000001")
        for room in (b"", numbers(12), numbers(13)):
            self.says(Record("C", BOOK_CARRIED, PLAN_CARRIED, room), "accepted", b"accepted\n" + LIST_CARRIED + b"\n")
        # no border may be set, so nothing is asked for; and an empty list is no line
        self.says(Record("C", BOOK_L, PLAN_L, numbers(0)), "accepted", b"accepted\n")
        for plan in (PLAN_CARRIED, PLAN_MEETING, b""):
            self.says(Record("C", BOOK_CARRIED, plan, numbers(11)), "12", b"12 0\n")
        self.says(Record("C", BOOK_CARRIED, PLAN_CARRIED[1:]), "15", b"15 0\n")
        self.says(Record("C", BOOK_CARRIED, PLAN_MEETING, numbers(12)), "16", b"16 6\n")
        self.says(Record("C", BOOK_L, b"\1" + PLAN_L[1:], numbers(0)), "16", b"16 1\n")
        self.says(Record("C", BOOK_CARRIED[:-1], PLAN_CARRIED, numbers(0)), "1", b"1 0\n")

    def test_formula(self):
        self.says(Record("F", BOOK_L), "accepted", FORMULA_L)
        self.says(Record("F", BOOK_L, b"", numbers(27)), "accepted", FORMULA_L)
        self.says(Record("F", BOOK_L, b"", numbers(26)), "12", b"12 0\n")
        self.says(Record("D", BOOK_L), "accepted", b"%d %d\n" % (len(FORMULA_L), checksum(FORMULA_L)))

    def test_checks(self):
        # unpacked, then judged alone, which is lent nothing
        for room in (b"", numbers(4)):
            self.says(Record("A", BOOK_L, ASSIGNMENT_L, room), "accepted", b"accepted\n" + PLAN_L + b"\naccepted\n")
        self.says(Record("A", BOOK_L, ASSIGNMENT_L, numbers(3)), "12", b"12 0\naccepted\n")
        self.says(Record("A", BOOK_L, bytes(6)), "14", b"14 3\n14 3\n")
        self.says(Record("A", BOOK_L, bytes(6), numbers(3)), "12", b"12 0\n14 3\n")
        self.says(Record("P", BOOK_L, PLAN_L), "accepted", b"accepted\n" + ASSIGNMENT_L + b"\n")
        self.says(Record("P", BOOK_L, PLAN_L, numbers(5)), "12", b"12 0\n")
        self.says(Record("P", BOOK_L, bytes([0, 0, 1, 0])), "16", b"16 2\n")
        self.says(Record("N", known.book_m(0, 1), REFUTATION_M), "accepted", b"accepted\n")
        self.says(Record("N", known.book_m(0, 1), REFUTATION_M, numbers(74, 26, 10, 9)), "12", b"12 0\n")

    def test_caps(self):
        text = answer(Record("F", BOOK_FEWEST), {}).data
        under = text.replace(b"p cnf 17 44", b"p cnf 19 49") + b"-1 18 0\n-2 19 0\n-18 19 0\n-2 -18 0\n-3 -19 0\n"
        self.says(Record("F", BOOK_FEWEST, cap=1), "accepted", under)
        self.says(Record("F", BOOK_FEWEST, b"", numbers(149), cap=1), "accepted", under)
        self.says(Record("F", BOOK_FEWEST, b"", numbers(148), cap=1), "12", b"12 0\n")
        self.says(Record("D", BOOK_FEWEST, cap=1), "accepted", b"%d %d\n" % (len(under), checksum(under)))
        made = ASSIGNMENT_FEWEST + b"\0\1"
        self.says(Record("P", BOOK_FEWEST, PLAN_FEWEST, cap=1), "accepted", b"accepted\n" + made + b"\n")
        self.says(Record("P", BOOK_FEWEST, PLAN_FEWEST, numbers(18), cap=1), "12", b"12 0\n")
        self.says(Record("P", BOOK_FEWEST, PLAN_FEWEST, cap=0), "22", b"22 0\n")
        self.says(Record("A", BOOK_FEWEST, made, cap=1), "accepted", b"accepted\n" + PLAN_FEWEST + b"\naccepted\n")
        self.says(Record("A", BOOK_FEWEST, made), "13", b"13 0\n13 0\n")
        self.says(Record("N", BOOK_FEWEST, REFUTATION_FEWEST, cap=0), "accepted", b"accepted\n")
        self.says(Record("N", BOOK_FEWEST, REFUTATION_FEWEST), "19", b"19 1\n")

    def test_fewest(self):
        exact = 141, 48, 17, 17
        for n, given, name, line in ((1, exact, "accepted", b"accepted\n"), (1, (141, 47, 17, 17), "12", b"12 0\n"), (0, (0, 0, 0, 0), "22", b"22 0\n"),
                                     (2, (2 ** 32 - 1,) * 4, "22", b"22 0\n")):
            self.says(fewest_record(BOOK_FEWEST, n, ASSIGNMENT_FEWEST, REFUTATION_FEWEST, given), name, line)
        self.says(fewest_record(BOOK_L, 0, ASSIGNMENT_L, b"", (0,) * 4), "accepted", b"accepted\n")
        self.says(fewest_record(BOOK_L, 0, ASSIGNMENT_L, b"\0", (0,) * 4), "21", b"21 0\n")
        files = programs.files()
        before = dict(files)
        names = b"fewest_book", b"fewest_assignment", b"fewest_refutation"
        self.says(Record("w", *names, cap=1), "accepted", b"accepted\n", files)
        self.says(Record("w", *names[:2], b"missing", cap=1), "nothing", b"", files)
        self.says(Record("w", *names[:2], b"long", cap=1), "12", b"12 0\n", files)
        self.assertEqual(files, before)

    def test_files(self):
        files = programs.files()
        self.says(Record("f", b"book"), "accepted", FORMULA_L + b"no file\n", files)
        self.says(Record("f", b"missing"), "nothing", b"no file\n", files)
        self.says(Record("a", b"book", b"assignment", b"new"), "accepted", b"accepted\n" + PLAN_L + b"\n", files)
        self.assertEqual(files["new"], PLAN_L)
        self.says(Record("a", b"book", b"assignment", b""), "accepted", b"accepted\nno file\n", files)
        self.says(Record("p", b"book", b"new", b""), "accepted", b"accepted\nno file\n", files)
        self.assertNotIn("", files)
        self.says(Record("a", b"book", b"zero_assignment", b"kept"), "14", b"14 3\nkept\n", files)
        self.says(Record("p", b"book", b"long", b"kept"), "12", b"12 0\nkept\n", files)
        self.says(Record("n", b"no_plan", b"refutation", b"kept"), "accepted", b"accepted\nkept\n", files)
        self.says(Record("a", b"missing", b"long", b"none"), "nothing", b"no file\n", files)
        self.says(Record("u", b"book_before", b"", b"new"), "accepted", b"accepted\n" + BOOK_L + b"\n", files)
        self.assertEqual(files["new"], BOOK_L)
        self.says(Record("u", b"new", b"", b"kept"), "4", b"4 0\nkept\n", files)
        self.says(Record("u", b"missing", b"", b"none"), "nothing", b"no file\n", files)
        for long in (b"long", b"outgrowing_before"):
            self.says(Record("u", long, b"", b"kept"), "12", b"12 0\nkept\n", files)

    def test_graphs_of_files(self):
        files = programs.files()
        before = dict(files)
        self.says(Record("g", b"book", b"plan"), "accepted", PAGE_L, files)
        self.says(Record("g", b"graph_book", b"graph_plan"), "accepted", PAGE_GRAPH, files)
        for book, plan, said in ((b"book", b"far_plan", b"16 2\n"), (b"book", b"empty", b"15 0\n"), (b"empty", b"plan", b"1 0\n"),
                                 (b"empty", b"long", b"12 0\n"), (b"long_book", b"plan", b"12 0\n"), (b"zeros", b"plan", b"2 0\n")):
            self.says(Record("g", book, plan), said.split()[0].decode(), said, files)
        for book, plan in ((b"book", b"missing"), (b"missing", b"plan"), (b"missing", b"long")):
            self.says(Record("g", book, plan), "nothing", b"", files)
        self.assertEqual(files, before)

    def test_lists_of_files(self):
        """An empty list leaves an empty file, and a refusal leaves the file."""
        files = programs.files()
        shown = b"accepted\n" + LIST_CARRIED + b"\n"
        self.says(Record("c", b"carried_book", b"carried_plan", b"list"), "accepted", shown, files)
        self.says(Record("c", b"carried_book", b"meeting_plan", b"list"), "16", b"16 6\n" + LIST_CARRIED + b"\n", files)
        self.says(Record("c", b"carried_book", b"missing", b"list"), "nothing", LIST_CARRIED + b"\n", files)
        self.says(Record("c", b"book", b"plan", b"list"), "accepted", b"accepted\n\n", files)
        self.assertEqual(files["list"], b"")
        self.says(Record("c", b"book", b"empty", b"list"), "15", b"15 0\n\n", files)
        for book, plan, said in ((b"book", b"far_plan", b"16 2\n"), (b"empty", b"long", b"12 0\n"), (b"missing", b"plan", b"")):
            self.says(Record("c", book, plan, b"none"), said.split()[0].decode() if said else "nothing", said + b"no file\n", files)
        # in place of the plan
        self.says(Record("c", b"carried_book", b"carried_plan", b"carried_plan"), "accepted", shown, files)
        self.says(Record("c", b"carried_book", b"carried_plan", b"carried_plan"), "15", b"15 0\n" + LIST_CARRIED + b"\n", files)

    def test_an_answer_that_was_worked_out_is_held_to(self):
        with self.assertRaisesRegex(AssertionError, "13 0 was worked out"):
            answer(Record("A", BOOK_L, bytes(6), b"", "13 0"), {})


def tiny(name, *records, files=None):
    """A module of cases with these records."""
    made = types.SimpleNamespace(NAME=name, SEED=1, records=lambda rng, note: list(records), __doc__="tiny")
    if files is not None:
        made.files = lambda: dict(files)
    return made


class Command(InFolder):
    def setUp(self):
        super().setUp()
        self.modules = [
            tiny("one.cases", Record("B", BOOK_L), Record("B", b""), Record("R", BOOK_L)),
            tiny("two.cases", Record("a", b"book", b"assignment", b"plan"), Record("f", b"book"),
                 files={"book": BOOK_L, "assignment": ASSIGNMENT_L}),
        ]
        for name, value in (("CRATE", self.folder), ("FILES", tuple(self.modules))):
            patch = mock.patch.object(command, name, value)
            patch.start()
            self.addCleanup(patch.stop)

    def run_command(self, **how):
        usual = {"check": False, "run_program": False, "file": [m.NAME for m in self.modules], "bin": self.path("bin")}
        options = types.SimpleNamespace(**{**usual, **how})
        with printed() as out:
            status = command.run(options)
        return status, out.getvalue()

    def test_writes_and_checks(self):
        self.assertEqual(self.run_command()[0], 0)
        self.assertEqual(sorted(os.listdir(self.path("data"))), ["assignment", "book", "one.cases", "two.cases"])
        self.assertEqual(read_bytes(self.path("args")), b"one.cases\ntwo.cases\n")
        runs = b"train 0: 2 runs\n0 | 0 2\n1 | 1 2\n"
        self.assertEqual(read_bytes(self.path("stdout")), b"one.cases\naccepted 2 1 0 1 1\n1 0\n" + runs
                         + b"two.cases\naccepted\n" + PLAN_L + b"\n" + FORMULA_L + b"no file\n")
        self.assertEqual(self.run_command(check=True)[0], 0)
        write_bytes(self.path("data", "book"), b"other")
        status, said = self.run_command(check=True)
        self.assertEqual((status, "data/book" in said, "stdout" in said), (1, True, False))
        self.assertEqual(read_bytes(self.path("data", "book")), b"other")

    def test_what_no_module_has_is_removed(self):
        self.run_command()
        write_bytes(self.path("data", "stray"), b"")
        self.assertIn("data/stray", self.run_command(check=True)[1])
        self.run_command()
        self.assertNotIn("stray", os.listdir(self.path("data")))

    def test_one_file_alone(self):
        self.run_command()
        before = read_bytes(self.path("stdout"))
        self.modules[0].records = lambda rng, note: [Record("B", b"")]
        status, _ = self.run_command(file=["two.cases"])
        self.assertEqual((status, read_bytes(self.path("stdout"))), (0, before))
        self.run_command(file=["one.cases"])
        self.assertEqual(read_bytes(self.path("stdout")), b"one.cases\n1 0\n" + before[before.index(b"two.cases"):])

    def test_too_few_of_an_answer(self):
        self.modules[0].OFTEN = {"accepted": 3}
        with self.assertRaisesRegex(AssertionError, "too few of accepted"):
            self.run_command()

    def test_run(self):
        self.run_command()
        with self.assertRaisesRegex(Stop, "no program .*/bin/cases: rt run in crates/cases builds it"):
            self.run_command(run_program=True)
        script(self.path("bin", "cases"), CASES.format(root=ROOT, fault="pass"))
        status, said = self.run_command(run_program=True)
        self.assertEqual((status, said.count("answers as stored")), (0, 2))

    def test_standard_error_of_the_program_is_not_shown(self):
        """Records ask for files that are not there; a program that fails is told with its last words."""
        self.run_command()
        for fault, status, shown in (("sys.stderr.write('missing: No such file or directory\\n')", 0, False),
                                     ("sys.exit('out of memory')", 1, True)):
            script(self.path("bin", "cases"), CASES.format(root=ROOT, fault=fault))
            found, said = self.run_command(run_program=True)
            self.assertEqual((found, "No such file" in said, "ended with status 1: out of memory" in said), (status, False, shown))

    def test_run_names_the_first_difference(self):
        self.run_command()
        script(self.path("bin", "cases"), CASES.format(root=ROOT, fault="data = b'2 0\\n' if number >= 2 else data"))
        status, said = self.run_command(run_program=True)
        self.assertEqual(status, 1)
        self.assertIn("one.cases: record 2, B of nothing", said)
        self.assertIn("expected b'1 0\\n'", said)
        self.assertIn("got      b'2 0\\n2 0\\n'", said)
        self.assertIn("two.cases: record 2, f of book", said)

    def test_run_tells_too_much_and_too_little(self):
        self.run_command()
        for fault, what in (("data = data if number < 3 else data + b'x'", "behind the last record"),
                            ("data = data if number < 3 else b''", "record 3")):
            script(self.path("bin", "cases"), CASES.format(root=ROOT, fault=fault))
            status, said = self.run_command(run_program=True, file=["one.cases"])
            self.assertEqual((status, what in said), (1, True), said)


class Modules(unittest.TestCase):
    def test_every_file_has_a_name_of_its_own(self):
        names = [module.NAME for module in FILES]
        self.assertEqual(len(set(names)), len(names))
        self.assertTrue(all(name.endswith(".cases") for name in names))
