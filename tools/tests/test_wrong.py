"""Lists of wrong programs: functions found and moved, bodies edited, the prover's words read, the page kept."""
import os
import types
import unittest
from unittest import mock

from .. import wrong
from ..edits import read_edit
from ..repository import read_text, write_text
from .stand_in import InFolder, printed, script

TRACK = '''// A library.
mod scan;

pub fn wide(x: u8) -> usize
    ensures { result ≡ x }
{
    x as usize
}

impl Frame {
    pub fn cursor(at: usize) -> Cursor
        ensures { result.at ≡ at }
    {
        Cursor { at: at, end: at + Self::LEN }
    }
}

fn plain(x: u8) -> u8 {
    x
}

pub extern "C" fn first(s: &[u8]) -> u8
    ensures { result ≡ 0 }
{
    let a = s[0];
    let b = s[1];
    a
}
'''
SCAN = '''pub fn find(s: &[u8]) -> usize
    ensures { result ≡ 0 }
{
    0
}

fn wide(x: u8) -> u8 {
    x
}
'''
OTHER = '''pub fn only(x: u8) -> u8
    ensures { result ≡ x }
{
    x
}

fn plain(x: u8) -> u8 {
    x
}
'''


class Repository(InFolder):
    """A small repository with two crates."""

    def setUp(self):
        super().setUp()
        for name, text in (("track/src/lib.rt", TRACK), ("track/src/scan.rt", SCAN), ("other/src/lib.rt", OTHER)):
            write_text(self.path("crates", name), text)
        self.functions = [f for crate in ("track", "other") for f in wrong.functions_of(self.folder, crate)]

    def list(self, crate, text):
        write_text(wrong.list_path(self.folder, crate), text)

    def function(self, name):
        return next(f for f in self.functions if wrong.full_name(f) == name)


class Functions(Repository):
    def test_all_are_found(self):
        found = {wrong.full_name(f): (f.public, f.promises) for f in self.functions}
        self.assertEqual(found, {
            "track::wide": (True, True), "track::Frame::cursor": (True, True), "track::plain": (False, False), "track::first": (True, True),
            "track::scan::find": (True, True), "track::scan::wide": (False, False), "other::only": (True, True), "other::plain": (False, False)})

    def test_a_head_of_several_lines(self):
        """A clause of several lines may end in a bracket, and the body's stands alone."""
        text = ("pub fn sizes(\n    x: u8,\n) -> Sizes\n    requires { x < 3 }\n    ensures { result ≡ record {\n        least = x;\n    } }\n"
                "{\n    Sizes { least: x }\n}\n\nfn plain(\n    x: u8,\n) {\n    x;\n}\n")
        one, two = wrong.functions_in(text, ("track",), "crates/track/src/lib.rt")
        self.assertEqual((one.first, one.end, one.promises, two.first, two.end, two.promises), (0, 10, True, 11, 16, False))
        self.assertEqual([wrong.body_start(text.split("\n"), function) for function in (one, two)], [8, 14])

    def test_a_type_with_a_lifetime(self):
        text = "impl<'a> Walk<'a> {\n    pub fn close(&mut self) {\n    }\n}\n\nfn plain() {\n}\n"
        found = wrong.functions_in(text, ("track",), "crates/track/src/lib.rt")
        self.assertEqual([wrong.full_name(f) for f in found], ["track::Walk::close", "track::plain"])

    def test_a_trait_of_a_type(self):
        text = "impl From<Result<(), Refusal>> for Verdict {\n    fn from(answer: A) -> Self {\n        answer\n    }\n}\n\nfn plain() {\n}\n"
        found = wrong.functions_in(text, ("track", "answers"), "crates/track/src/answers.rt")
        self.assertEqual([(wrong.full_name(f), f.given) for f in found],
                         [("track::answers::Verdict::from", "FromResultUnitRefusal"), ("track::answers::plain", "")])
        for trait, given in (("fmt::Display", "Display"), ("::core::fmt::Display", "Display"), ("Kind", "Kind"),
                             ("From<Result<usize, model::Refusal>>", "FromResultUsizeRefusal")):
            self.assertEqual(wrong.given_by(trait), given)

    def test_own_crate_first(self):
        self.assertEqual(wrong.full_name(wrong.find(self.functions, "other", "plain")), "other::plain")
        self.assertEqual(wrong.full_name(wrong.find(self.functions, "other", "first")), "track::first")
        self.assertEqual(wrong.full_name(wrong.find(self.functions, "other", "track::plain")), "track::plain")
        self.assertEqual(wrong.full_name(wrong.find(self.functions, "other", "track::find")), "track::scan::find")
        self.assertEqual(wrong.full_name(wrong.find(self.functions, "other", "Frame::cursor")), "track::Frame::cursor")

    def test_ambiguous_and_unknown(self):
        for crate, name, why in (("track", "wide", "crate::function"), ("gone", "plain", "track::plain, other::plain"),
                                 ("track", "nothing", "no crate has")):
            with self.assertRaisesRegex(wrong.WrongList, why):
                wrong.find(self.functions, crate, name)
        for name, full in (("scan::wide", "track::scan::wide"), ("track::wide", "track::wide"), ("track::scan::wide", "track::scan::wide")):
            self.assertEqual(wrong.full_name(wrong.find(self.functions, "track", name)), full)


class Lists(Repository):
    def test_several_pairs(self):
        self.list("track", "first: both changed\nold: s[0]\nnew: s[1]\nold: let b = s[1];\nnew: let b = s[2];\n")
        entry, = wrong.read_list(self.folder, "track")
        self.assertEqual(entry[:3], ("first", "both changed", [("s[0]", "s[1]"), ("let b = s[1];", "let b = s[2];")]))
        text = wrong.edited(TRACK, self.function("track::first"), entry)
        self.assertIn("    let a = s[1];\n    let b = s[2];\n", text)
        self.assertEqual(len(text.split("\n")), len(TRACK.split("\n")))

    def test_only_the_body_is_edited(self):
        entry = wrong.read_entry("Frame::cursor: the kind's length\nold: at: at,\nnew: at: 0,", "track")
        self.assertIn("Cursor { at: 0, end", wrong.edited(TRACK, self.function("track::Frame::cursor"), entry))
        for old in ("usize", "as"):
            entry = wrong.read_entry(f"wide: x\nold: {old}\nnew: u8", "track")
            self.assertIn("x ", wrong.edited(TRACK, self.function("track::wide"), entry))
        entry = wrong.read_entry("plain: zero\nold: x\nnew: 0", "track")
        self.assertIn("fn plain(x: u8) -> u8 {\n    0\n}", wrong.edited(TRACK, self.function("track::plain"), entry))

    def test_a_text_has_to_stand_once(self):
        for old in ("s[", "ensures"):
            with self.assertRaisesRegex(wrong.WrongList, "times"):
                wrong.edited(TRACK, self.function("track::first"), wrong.Entry("first", "", [(old, "")], ""))

    def test_wrong_blocks(self):
        for block in ("first", "first: what", "first: what\nold: a", "first: what\nnew: a\nold: b", "first: what\nold: a\nnew: b\nold: c"):
            with self.assertRaises(wrong.WrongList):
                wrong.read_entry(block, "track")


class Tidy(Repository):
    def test_entries_go_to_their_function(self):
        self.list("track", "find: one\nold: 0\nnew: 1\n\nonly: moved\nold: x\nnew: 0\n")
        self.list("gone", "first: moved too\nold: s[0]\nnew: s[1]\n")
        moved, why = wrong.tidy(self.folder)
        self.assertEqual((moved, why), (2, []))
        self.assertEqual([e.what for e in wrong.read_list(self.folder, "track")], ["one", "moved too"])
        self.assertEqual(read_text(wrong.list_path(self.folder, "other")), "only: moved\nold: x\nnew: 0\n")
        self.assertFalse(os.path.exists(self.path("crates", "gone")))
        self.assertEqual(wrong.tidy(self.folder), (0, []))

    def test_what_is_not_found_stays(self):
        self.list("track", "nowhere: lost\nold: 0\nnew: 1\n")
        moved, why = wrong.tidy(self.folder)
        self.assertEqual((moved, len(why)), (0, 1))
        self.assertEqual(len(wrong.read_list(self.folder, "track")), 1)

    def test_fewer_than_two(self):
        self.list("track", "find: one\nold: 0\nnew: 1\n\nfind: two\nold: 0\nnew: 2\n\nfirst: one\nold: s[0]\nnew: s[1]\n")
        write_text(self.path("crates/track/must-fail/cut.edit"), "file: src/lib.rt\nold:     let b = s[1];\nnew:     let b = s[0];\n")
        by_crate, _ = wrong.placed(self.folder)
        self.assertEqual(wrong.fewer_than_two(self.folder, by_crate), ["other::only", "track::wide", "track::Frame::cursor"])


class Edits(unittest.TestCase):
    def test_read(self):
        text = "# what it tries\n# and more\nfile: src/lib.rt\nold:     a: 1,\nnew:     a: 2,\nfile: specs/A.antt\nold: x\nnew:\n"
        self.assertEqual(read_edit("one_edit", text), (
            "one_edit", "what it tries", [("src/lib.rt", "    a: 1,", "    a: 2,"), ("specs/A.antt", "x", "")]))
        self.assertEqual(read_edit("one_edit", "file: src/lib.rt\nold: a\nnew: b\n").what, "one edit")


class Verdicts(Repository):
    def says(self, name, output):
        return wrong.verdict(self.function(name), output)[1]

    def test_each(self):
        proof = "/x/crates/track/proofs/%s/Proof.antt:7:3: error: %s"
        self.assertEqual(self.says("track::wide", "fn track::wide: proved\n"), "proved")
        self.assertEqual(self.says("track::wide", proof % ("wide", "`returns`: the two types differ")), "fact")
        self.assertEqual(self.says("track::wide", proof % ("wide", "`c` has no field that can be named from here")), "unfit")
        self.assertEqual(self.says("track::wide", proof % ("wide", "record `X`") + "\n  has no field `args`"), "unfit")
        self.assertEqual(self.says("track::wide", proof % ("scan/wide", "`returns`: the two types differ")), "held up")
        self.assertEqual(self.says("track::scan::wide", proof % ("scan/wide", "`returns`: the two types differ")), "fact")
        self.assertEqual(self.says("track::first", proof % ("+first", "`keep`: the two types differ")), "fact")
        self.assertEqual(self.says("track::first", proof % ("+even+first", "`keep`: the two types differ")), "fact")
        self.assertEqual(self.says("track::Frame::cursor", proof % ("Frame/cursor", "`returns`: the two types differ")), "fact")
        self.assertEqual(self.says("track::wide", "/x/crates/track/src/lib.rt:7:5: error: does not follow"), "fact")
        self.assertEqual(self.says("track::wide", "/x/crates/track/src/lib.rt:40:5: error: does not follow"), "held up")
        self.assertEqual(self.says("track::wide", "fn track::wide: no proof: expected `wide-spec`; `search` does not close `add`"), "fact")

    def test_files_from_the_crate_on(self):
        """As `rt check` names them, which runs in the crate's folder."""
        proof = "./proofs/%s/Proof.antt:7:3: error: %s"
        self.assertEqual(self.says("track::wide", proof % ("wide", "`returns`: the two types differ")), "fact")
        self.assertEqual(self.says("track::wide", proof % ("scan/wide", "`returns`: the two types differ")), "held up")
        self.assertEqual(self.says("track::scan::wide", proof % ("scan/wide", "`returns`: the two types differ")), "fact")
        self.assertEqual(self.says("track::Frame::cursor", "proofs/Frame/cursor/Answers.antt:1:1: error: does not follow"), "fact")
        self.assertEqual(self.says("track::wide", proof % ("wide", "`if3` is not a field of record `Else`")), "unfit")
        self.assertEqual(self.says("track::wide", "src/lib.rt:7:5: error: `returns`: `search`: no proof of x"), "fact")
        self.assertEqual(self.says("track::wide", "src/lib.rt:40:5: error: `returns`: `search`: no proof of x"), "held up")
        self.assertEqual(self.says("track::wide", "src/scan.rt:7:5: error: `returns`: `search`: no proof of x"), "held up")
        self.assertEqual(self.says("track::scan::wide", "src/scan.rt:7:5: error: `returns`: `search`: no proof of x"), "fact")
        self.assertEqual(self.says("track::wide", "src/lib.rt:7:5: error[E0308]: these types differ"), "held up")

    def test_a_trait_of_a_type(self):
        """The prover's name for its function tells what the trait is of."""
        here = wrong.Function(("track", "answers", "Verdict", "from"), False, False, "crates/track/src/answers.rt", 1, 3, "FromResultUnitRefusal")
        name = "track::answers::VerdictFromResultUnitRefusal::from"
        for output, meaning in (
                (f"fn {name}: proved", "proved"), (f"fn {name}: no proof: expected answers in ./x; `search` did not prove `returns`", "fact"),
                (f"fn track::first: no proof: it calls `{name}`, which is not proved", "held up"),
                ("fn track::answers::Verdict::from: proved", "held up"), (f"fn {name.replace('Refusal', 'RefusalToo')}: proved", "held up"),
                ("./proofs/answers/VerdictFromResultUnitRefusal/from/Answers.antt:1:1: error: does not follow", "fact"),
                ("./proofs/answers/OutputFromResultUsizeRefusal/from/Answers.antt:1:1: error: does not follow", "held up")):
            self.assertEqual(wrong.verdict(here, output)[1], meaning, output)

    def test_functions_without_a_proof(self):
        none = "fn track::wide: no proof: "
        self.assertEqual(self.says("track::wide", none + "expected answers in ./proofs/wide/Answers.antt; `search` did not prove `returns`"), "fact")
        for why in ("expected a measure in ./proofs/wide/Invariants.antt", "the borrow checker's part in its proof is not made yet: a call of `f`"):
            self.assertEqual(self.says("track::wide", none + why), "unfit")
        self.assertEqual(self.says("track::wide", none + "it calls `first`, which is not proved"), "held up")
        self.assertEqual(self.says("track::wide", "fn track::wide: not proved; it stands on `x`, which antt refuses"), "held up")

    def test_a_consequence_is_no_fact(self):
        line = "/x/crates/track/proofs/wide/Proof.antt:9:1: error: `wide-spec`: `close` was not admitted (it has holes), so this cannot be checked"
        self.assertEqual(self.says("track::wide", line), "held up")
        self.assertEqual(self.says("track::wide", line + "\n" + line.replace("`close` was not admitted", "the two types differ")), "fact")
        for words in ("1 declaration that depends on `close`, which was rejected, was not checked: wide_spec",
                      "4 declarations that depend on `rest`, which has holes, were not checked: returns-3 and 3 more"):
            self.assertEqual(self.says("track::wide", f"./proofs/wide/Proof.antt:9:1: error: {words}"), "held up")


# a prover that proves what is zero, and is held up by `first` where it looks at `wide`
PROVER = '''import os, sys
if sys.argv[1:] != ["check"] or os.path.basename(os.getcwd()) != "track": sys.exit(2)
text = open("src/lib.rt").read()
open("../../tried", "a").write(repr(("x + 1" in text, "s[9]" in text, "s[0] + 0" in text)))
here = "./proofs/"
if "s[9]" in text: print(here + "first/Proof.antt:1:1: error: `returns`: the two types differ")
if "x + 1" in text:
    print(here + "wide/Proof.antt:1:1: error: " + ("`wide-spec`: `close` was not admitted" if "s[9]" in text else "`returns`: x is not x + 1"))
if "s[0] + 0" in text: print("fn track::first: proved")
'''
LIST = '''first: another place
old: s[0]
new: s[9]

track::wide: one more
old: x as usize
new: x + 1 as usize

first: the same
old: s[0]
new: s[0] + 0
'''


class Trial(Repository):
    def setUp(self):
        super().setUp()
        script(self.path("bin", "rt"), PROVER)
        self.with_programs()
        self.list("track", LIST)

    def test_rounds(self):
        by_crate, _ = wrong.placed(self.folder)
        found = [(entry, function) for _, entry, function in by_crate["track"]]
        self.assertEqual([[f.path[-1] for _, f in tried] for tried in wrong.rounds(found)], [["first", "wide"], ["first"]])
        with printed():
            rows = wrong.try_crate(self.folder, "track", found)
        self.assertEqual([(row.function, row.refused, row.said) for row in rows], [
            ("track::first", True, "`returns`: the two types differ"), ("track::first", False, "proved"),
            ("track::wide", True, "`returns`: x is not x + 1")])
        # the one that was held up was tried again, by itself, and the sources are as they were
        self.assertEqual(read_text(self.path("tried")), "(True, True, False)(False, False, True)(True, False, False)")
        self.assertEqual(read_text(self.path("crates/track/src/lib.rt")), TRACK)

    def test_command(self):
        pages = self.path("generated")
        with mock.patch.multiple(wrong, ROOT=self.folder, commit=lambda: "abc1234", today=lambda: "2030-01-02",
                                 page=lambda name: os.path.join(pages, name)), printed() as out:
            status = wrong.run(types.SimpleNamespace(crates=[], tidy=False, jobs=2))
        self.assertEqual(status, 1)
        self.assertIn("track::first | the same | NOT REFUSED BY A FACT: proved", out.getvalue())
        text = read_text(os.path.join(pages, wrong.PAGE))
        self.assertIn("3 tried, 2 refused by a fact, 1 not.", text)
        self.assertIn("| track | 3 | 2 | 2030-01-02 | abc1234 |", text)
        self.assertIn("| `track::wide` | one more | `returns`: x is not x + 1 |", text)

    def test_a_wrong_list_is_told_before_all(self):
        self.list("track", LIST.replace("old: x as usize", "old: y"))
        with mock.patch.object(wrong, "ROOT", self.folder), printed() as out:
            self.assertEqual(wrong.run(types.SimpleNamespace(crates=[], tidy=False, jobs=1)), 2)
        self.assertIn("'y' stands 0 times", out.getvalue())
        self.assertFalse(os.path.exists(self.path("tried")))


class Page(unittest.TestCase):
    def test_words_are_cut_with_their_backticks_closed(self):
        self.assertEqual(wrong.first_words("`a` and `b`"), "`a` and `b`")
        for said in ("x" * 95 + " `name-of-it` follows", "`" + "x" * 200 + "`", "`a`" * 60, "x" * 99 + "``", "x" * 98 + "`y` z"):
            cut = wrong.first_words(said)
            self.assertEqual(cut.count("`") % 2, 0, cut)
            self.assertTrue(cut.endswith(" .."), cut)
            self.assertLessEqual(len(cut), wrong.MOST + 4)
        self.assertEqual(wrong.first_words("x" * 95 + " `name-of-it` follows"), "x" * 95 + " ..")

    def test_only_the_rows_of_what_was_tried_are_replaced(self):
        row = wrong.Row("a::f", "x | y", "says `|` and \\", True)
        with mock.patch.multiple(wrong, today=lambda: "day 1", commit=lambda: "c1"):
            first = wrong.new_page("", {"a": [row], "b": [wrong.Row("b::g", "z", "w", False)]}, ["a", "b"], ["a::f"])
        with mock.patch.multiple(wrong, today=lambda: "day 2", commit=lambda: "c2"):
            second = wrong.new_page(first, {"b": [wrong.Row("b::g", "z", "v", True)]}, ["a", "b"], [])
            third = wrong.new_page(second, {}, ["b"], [])
        self.assertIn("| a | 1 | 1 | day 1 | c1 |", second)
        self.assertIn("| b | 1 | 1 | day 2 | c2 |", second)
        self.assertIn(wrong.row_line(row), second)
        self.assertIn("2 tried, 2 refused by a fact, 0 not.", second)
        self.assertIn("fewer than two, the gate's edits counted too: `a::f`.", first)
        self.assertNotIn("a::f", third)
        self.assertEqual(wrong.cells(wrong.row_line(row))[1:], ["x | y", "says `|` and \\"])
