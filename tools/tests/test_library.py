"""The library's comparison: what the header has to say, and what the reference answers in the library's form."""
import os
import random
import tempfile
import unittest

from .. import library, reference
from ..books import Spec, spec_bytes
from ..known import BOOK_FEWEST
from ..repository import ROOT, Stop, read_text, write_text

HEADER = os.path.join(ROOT, "include", "gentupag.h")


def book():
    """Segments 0 and 1 of one TTD, joined at node 1, which may have a border; a train of one segment."""
    spec = Spec()
    spec.nodes, spec.segments, spec.joins = [0, 1, 2], [(0, 1, 0), (1, 2, 0)], [(1, 0, 1)]
    spec.trains, spec.calls = [(80, 36, 0, [0])], [(0, 0, 0, 1)]
    return reference.read_book(spec_bytes(spec))


class Headers(unittest.TestCase):
    def checked(self, old, new):
        with tempfile.TemporaryDirectory() as folder:
            text = read_text(HEADER)
            self.assertIn(old, text)
            write_text(os.path.join(folder, "gentupag.h"), text.replace(old, new))
            library.check_header(folder, folder)

    def test_header_is_the_library(self):
        self.checked("", "")

    def test_other_headers(self):
        for old, new in (("size_t variables, clauses, words, plan_bytes;", "size_t words, clauses, variables, plan_bytes;"),
                         ("GENTUPAG_IS_GONE = 3", "GENTUPAG_IS_GONE = 6"),
                         ("GENTUPAG_IS_COUNT = 5", "GENTUPAG_IS_COUNT = 4"),
                         ("size_t kind, train, interval, item, count;", "size_t kind, train, interval, count, item;"),
                         ("gentupag_write_formula_under(size_t capped, size_t cap, const", "gentupag_write_formula_under(size_t cap, const"),
                         ("size_t book_length, size_t train, size_t run);", "size_t book_length, size_t train);"),
                         ("uint8_t path[16];", "uint8_t path[8];")):
            with self.subTest(new=new), self.assertRaises(Stop):
                self.checked(old, new)


class Answers(unittest.TestCase):
    def test_rewriting(self):
        """What is asked of an old book: outputs of its length, one byte less, more, and none."""
        rng, seen = random.Random(2), set()
        for _ in range(60):
            for name, (old, room), answer, (output,) in library.rewriting_questions(rng):
                seen.add(answer[0])
                self.assertEqual((name, len(output)), ("upgrade_book", room))
                length = answer[2]
                self.assertEqual(output[length:], [library.OLD] * (room - length))
                if answer[0] == 0:
                    self.assertEqual(bytes(output[:length]), reference.upgrade_book(old))
        self.assertLessEqual({0, 1, 4, 6, 12}, seen)

    def test_graphs(self):
        """What is asked of a plan: outputs as long as its page, a byte less, and more; behind the page they stay as they were."""
        rng, seen = random.Random(2), set()
        for name, (data, plan, room), answer, (output,) in (q for q in library.questions(rng, 20) if q[0] == "print_graph"):
            seen.add(answer[0])
            self.assertEqual(output[answer[2]:], [library.OLD] * (room - answer[2]))
            if answer[0] == 0:
                self.assertEqual((answer[2] % 81, bytes(output[:answer[2]])), (0, reference.print_graph(data, plan)))
        self.assertLessEqual({0, 12, 15, 16}, seen)

    def test_lists(self):
        """Outputs of an entry a kind 1 node, a byte less, and more; a list may be shorter, and behind it they stay as they were."""
        rng, seen, lengths = random.Random(2), set(), set()
        for name, (data, plan, room), answer, (output,) in (q for q in library.questions(rng, 20) if q[0] == "list_carriers"):
            seen.add(answer[0])
            lengths.add(answer[2])
            self.assertEqual(output[answer[2]:], [library.OLD] * (room - answer[2]))
            if answer[0] == 0:
                self.assertEqual((b"accepted\n", bytes(output[:answer[2]])), reference.list_carriers(data, plan))
        self.assertLessEqual({0, 12, 15, 16}, seen)
        self.assertLessEqual({0, 4, 8}, lengths)

    def test_sizes(self):
        self.assertEqual(library.measured(book())[2:7], (1, 3, 1, 2, 1))

    def test_labels(self):
        for borders, room, answer, labels in (([0, 0, 0], 2, (0, 0, 2), [0, 0]), ([0, 1, 0], 3, (0, 0, 2), [0, 1]),
                                              ([0, 2, 0], 1, (12, 0, 0), []), ([0, 2, 0], 2, (15, 0, 0), []), ([0, 1], 2, (15, 0, 0), [])):
            self.assertEqual(library.labelled(book(), borders, room), (answer, labels))

    def test_runs(self):
        self.assertEqual(library.run_shown(book(), 0, 5)[2:], (0, 6, 1, 2, [3, 1] + [0] * 14))
        self.assertEqual(library.run_shown(book(), 0, 6)[2:5], (2, 6, 0))
        self.assertEqual(library.run_shown(book(), 1, 0)[2:5], (1, 0, 0))

    def test_meanings(self):
        count, found = library.meanings(book())
        self.assertEqual(sorted(found), list(range(1, count + 1)))
        self.assertEqual([found[v] for v in (2, 4, 10, 12)],
                         [(library.IS_BORDER, 0, 0, 1, 0), (library.IS_RUN, 0, 0, 0, 0), (library.IS_GONE, 0, 0, 0, 0), (library.IS_CLAIM, 0, 0, 1, 0)])

    def test_counts(self):
        fewest = reference.read_book(BOOK_FEWEST)
        for cap, counts in ((None, []), (0, []), (1, [(0, 1), (1, 1)]), (2, [(0, 1), (1, 2)]), (3, []), (2 ** 64 - 1, [])):
            count, found = library.meanings(fewest, cap)
            self.assertEqual(sorted(found), list(range(1, count + 1)))
            self.assertEqual([found[v] for v in range(18, count + 1)], [(library.IS_COUNT, 0, 0, *pair) for pair in counts])
            self.assertEqual(library.measured(fewest, cap)[7:10], (count, *reference.entry_write_formula(BOOK_FEWEST, 1000, cap)[2:4]))

    def test_caps(self):
        """Each function is called with as many arguments as it has, under caps and without one; where there is none any number goes with it."""
        rng, seen = random.Random(2), set()
        for name, given, answer, outputs in library.questions(rng, 12):
            kinds = library.FUNCTIONS[name][1]
            self.assertEqual((len(kinds), len(outputs)), (len(given), sum(kind in "bwn" for kind in kinds)))
            if name == "check_plan_under":
                seen.add((given[0] > 0, answer[0]))
            if name == "check_fewest":
                seen.add((name, answer[0]))
        self.assertLessEqual({(False, 0), (True, 0), (True, 22), ("check_fewest", 0), ("check_fewest", 12), ("check_fewest", 22)}, seen)
