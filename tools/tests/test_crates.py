"""crates.txt held against the sources, the page of crates, and logs of the gate."""
import os
import types
from unittest import mock

from .. import crates, gate
from ..repository import read_text, write_text
from .stand_in import InFolder, printed, script

CRATES = '''# structs
model:
# definitions
spec: model

# scans
checks: model spec
# a program,
# with a module that has a crate's name
program: model spec io
'''


class Repository(InFolder):
    def setUp(self):
        super().setUp()
        write_text(self.path("crates.txt"), CRATES)
        for name, text in (
                ("model/src/lib.rt", "pub struct A {}\n"),
                ("spec/src/lib.rt", "// use checks::no_use\n"),
                ("spec/specs/Lib.antt", "use Rattle.model.specs.A\nuse Rattle.spec.specs.B\n -- Rattle.checks.specs\n"),
                ("checks/src/lib.rt", "use spec::A;\nfn f() { crate::model::g(); std::num::h(); Type::new(); }\n"),
                ("checks/proofs/f/Proof.antt", "use Rattle.std.x\nuse Rattle.checks.proofs.f\n"),
                ("program/src/main.rt", "mod checks;\nuse checks::judge;\nuse libc;\nghost use Rattle.spec.specs.Lists as lists;\n"
                                        "fn main() { io::write(model::A); }\n"),
                ("program/src/checks.rt", "pub fn judge() { os::open(); }\n")):
            write_text(self.path("crates", name), text)
        self.listed = crates.Listed(self.folder)


class Named(Repository):
    def test_crates_txt(self):
        self.assertEqual(self.listed.entries, {"model": [], "spec": ["model"], "checks": ["model", "spec"], "program": ["model", "spec", "io"]})
        self.assertEqual(self.listed.remarks["program"], "a program, with a module that has a crate's name")

    def test_a_static_library(self):
        """A word may stand between a crate's name and the colon."""
        write_text(self.path("crates.txt"), CRATES + "# for C\narchive staticlib: checks # a remark\n")
        write_text(self.path("crates/archive/src/lib.rt"), "use checks::A;\n")
        listed = crates.Listed(self.folder)
        self.assertEqual(listed.entries, {**self.listed.entries, "archive": ["checks"]})
        self.assertEqual((listed.kinds["archive"], listed.kinds["spec"], listed.remarks["archive"]), (["staticlib"], [], "for C"))
        self.assertEqual(crates.wrong_entries(listed, "archive"), ([], [], []))
        self.assertIn("| `archive` | for C | `checks` |", crates.crates_page(listed))

    def test_names(self):
        found = {name: crates.named_by(self.listed, name) for name in self.listed.entries}
        self.assertEqual(found, {"model": [], "spec": ["model"], "checks": ["spec"], "program": ["model", "spec", "libc", "io", "os"]})

    def test_check(self):
        with printed() as out:
            self.assertEqual(crates.check(self.listed), 1)
        self.assertEqual(out.getvalue(), "checks: not needed: model\nprogram: missing: libc os\n4 crates, 6 entries, 3 wrong\n")
        write_text(self.path("crates.txt"), CRATES.replace("checks: model spec", "checks: spec").replace("io\n", "libc io os\n"))
        with printed():
            self.assertEqual(crates.check(crates.Listed(self.folder)), 0)

    def test_a_name_that_is_no_crate(self):
        write_text(self.path("crates/spec/specs/More.antt"), "use Rattle.gone.specs.X\n")
        self.assertEqual(crates.wrong_entries(self.listed, "spec"), ([], [], ["gone"]))

    def test_below(self):
        self.assertEqual(crates.below(self.listed, "checks"), ["model", "spec"])
        self.assertEqual(crates.below(self.listed, "model"), [])

    def test_page(self):
        text = crates.crates_page(self.listed)
        self.assertIn("  2  checks  program\n  1  spec\n  0  model\n", text)
        self.assertIn("| `program` | a program, with a module that has a crate's name | `spec`, `libc`, `io`, `os` (model) |", text)


class Headings(Repository):
    """crates.txt in sections."""

    def setUp(self):
        super().setUp()
        text = "# of all crates\n\n## What a reader must believe\n" + CRATES.replace("# scans", "# of a section\n## From bytes to a book\n# scans")
        self.plain = self.listed
        write_text(self.path("crates.txt"), text)
        self.listed = crates.Listed(self.folder)

    def test_a_heading_is_no_description(self):
        self.assertEqual(self.listed.entries, self.plain.entries)
        self.assertEqual(self.listed.remarks, self.plain.remarks)
        self.assertEqual(dict(self.listed.sections()), {
            "What a reader must believe": ["model", "spec"], "From bytes to a book": ["checks", "program"]})
        self.assertEqual(dict(self.plain.sections()), {"": ["model", "spec", "checks", "program"]})

    def test_page(self):
        head = "| Crate | What it has | Names |\n|---|---|---|\n"
        text, plain = crates.crates_page(self.listed), crates.crates_page(self.plain)
        self.assertIn(f"## What a reader must believe\n\n{head}| `model` | structs | nothing |\n", text)
        self.assertIn(f"\n\n## From bytes to a book\n\n{head}| `checks` | scans |", text)
        self.assertEqual((plain.count(head), "## " in plain), (1, False))
        # but for headings, both have the same rows
        rows = [[line for line in page.split("\n") if line.startswith("| `")] for page in (text, plain)]
        self.assertEqual(*rows)
        self.assertTrue(text.endswith(" |\n") and plain.endswith(" |\n"))


LOG = '''note: no function
rt: spec proved (8 s)
rt: track proved (13 s)
rt: must-fail spec/ring_divided: refused, as it must be (first at proofs/Cases.antt:7:3; 9 s)
rt: must-fail track/joined: refused, as it must be (10 s)
rt: cases ran as nobody, and wrote what its file 'stdout' has (2 s)
rt: ok, 3 crates proved, 2 must-fail edits refused
5 passed, 0 failed

real\t23m10.202s
user\t32m51.943s
sys\t4m51.907s
'''

# the same by the toolchain in use: without seconds, and with words for what earlier runs passed
NOW = '''rt: spec is kept: an earlier run on this machine proved the same files over the same libraries
== track
fn track::wide: proved
logic=proved functions=1 sum=dac8208d650f15bf native=nat,char,string logic-built=trusted libraries-built=trusted statements=trusted
rt: track proved
rt: track: trying its must-fail edits (2)
== cases: its tests
rt: cases: its tests are proved
rt: cases proved
rt: spec: 1 of its 1 must-fail edits were tried by an earlier run on this machine, and nothing that they stand on has changed
rt: must-fail spec/ring_divided.edit: refused, as it must be: ./proofs/Cases.antt:859:9: error: `cases`: as printed, the two types differ only where one has `c.an
rt: must-fail track/joined.edit: refused, as it must be
rt: must-fail track/taken.edit: refused, as it must be (only because a proof file names what the edit took away, so this says little of the contract: change a value and keep the names): ./proofs/f/Proof.antt:1:5: error: `x` is not in scope
rt: must-fail track/slow.edit: refused, as it must be (only by a limit of the prover, which gave no verdict, so this says less of the contract: choose a change that it refuses sooner): src/lib.rt:4:8: error: `returns`: stopped at the step limit (..)
rt: cases ran, and wrote what its file stdout has
rt: cases ran (built by Rattle's own compiler), and wrote what its file stdout has
rt: ok; handles allowed: none; must-fail edits: 4 refused, 1 of them only by a limit; done in this run: 2 of the 4 proofs (of crates and of their tests) and 3 of the 4 must-fail edits; the others are kept from earlier runs of the same files on this machine
7 passed, 0 failed
'''


class Gate(InFolder):
    def test_log(self):
        log = gate.Log(LOG)
        self.assertEqual((log.proved, log.ran), ({"spec": 8, "track": 13}, {"cases": 2}))
        self.assertEqual(log.edits, {"spec": {"ring_divided": (9, "proofs/Cases.antt:7:3")}, "track": {"joined": (10, "")}})
        self.assertTrue(log.passed())
        self.assertEqual((gate.minutes(log.wall()), gate.minutes(log.processor())), ("23 min 10 s", "37 min 43 s"))
        text = gate.gate_page(log, "today")
        self.assertIn("2 crates, 21 s together; 2 edits, 19 s together; 1 programs run", text)
        self.assertIn("Seconds are by the clock", text)
        self.assertIn("| `track` | 13 |  | joined 10 |", text)

    def test_log_without_seconds(self):
        log = gate.Log(NOW)
        self.assertEqual((log.proved, log.kept, log.ran), ({"spec": None, "track": None, "cases": None}, {"spec"}, {"cases": None}))
        self.assertEqual(log.edits, {
            "spec": {"ring_divided": (None, "proofs/Cases.antt:859:9")},
            "track": {"joined": (None, ""), "taken": (None, "proofs/f/Proof.antt:1:5, only because a proof file names what the edit took away"),
                      "slow": (None, "src/lib.rt:4:8, only by a limit of the prover")}})
        self.assertEqual((log.passed(), log.wrong), (True, []))
        text = gate.gate_page(log, "today")
        self.assertIn("- ok; handles allowed: none; must-fail edits: 4 refused, 1 of them", text)
        self.assertNotIn("Seconds", text)
        self.assertIn("By the clock: not known; of the processor: not known", text)
        self.assertIn("- 3 crates, 1 of them kept from an earlier run; 4 edits; 1 programs run\n", text)
        self.assertIn("| `cases` | yes | yes |  |\n| `spec` | kept |  | ring_divided |\n| `track` | yes |  | joined, slow, taken |\n", text)
        self.assertIn("| `spec/ring_divided` | proofs/Cases.antt:859:9 |\n| `track/joined` | not said |\n", text)

    def test_what_is_wrong_without_seconds(self):
        ended = "7 passed, 0 failed"
        for line in ("rt: track NOT PROVED", "rt: must-fail track/joined.edit: NOT REFUSED: the crate is still proved with this edit",
                     "rt: must-fail track/joined.edit: NOT TRIED: its check was killed",
                     "rt: must-fail track/joined.edit: BAD EDIT: it changes nothing", "rt: FAILED: cases (run)"):
            log = gate.Log(NOW.replace(ended, f"{line}\n6 passed, 1 failed"))
            self.assertEqual((log.passed(), log.wrong), (False, [line.removeprefix("rt: ")]))
        # bad edits alone, which .ci/run tells in place of the last line
        log = gate.Log(NOW.replace(ended, "must-fail edits are bad: see BAD EDIT above"))
        self.assertEqual((log.passed(), log.last, log.wrong), (False, None, ["must-fail edits are bad: see BAD EDIT above"]))
        # some crates alone are not the gate
        log = gate.Log(NOW.replace(ended, ended + " (track and the crates below alone: not the gate)"))
        self.assertEqual((log.passed(), log.last), (False, ended + " (track and the crates below alone: not the gate)"))

    def test_a_log_that_failed(self):
        for text, wrong in ((LOG.replace("0 failed", "1 failed"), []), (LOG.replace("5 passed, 0 failed", ""), []), ("", []),
                            ("rt: track NOT PROVED (exit 1, 3 s)\n4 passed, 1 failed\n", ["track NOT PROVED (exit 1, 3 s)"]),
                            ("0 passed, 0 failed\n", [])):
            log = gate.Log(text)
            self.assertFalse(log.passed())
            self.assertEqual(log.wrong, wrong)

    def run_with(self, text, status):
        """The command with a gate that prints this, and removes target/."""
        os.makedirs(self.path("target", "old"), exist_ok=True)
        script(self.path(".ci", "run"), f"import shutil, sys\nshutil.rmtree({self.path('target')!r})\nprint({text!r}, end='')\nsys.exit({status})\n")
        with mock.patch.multiple(gate, ROOT=self.folder, page=self.path), printed() as out:
            found = gate.run(types.SimpleNamespace(log=None, commit=None))
        return found, out.getvalue()

    def test_the_commit_of_a_log(self):
        write_text(self.path("log"), LOG)
        for given, named in (("abc1234", "abc1234"), (None, "of the tree")):
            with mock.patch.multiple(gate, page=self.path, commit=lambda: "of the tree"), printed():
                self.assertEqual(gate.run(types.SimpleNamespace(log=self.path("log"), commit=given)), 0)
            self.assertRegex(read_text(self.path(gate.PAGE)), rf"from a log of \d+-\d+-\d+, commit {named}\.")

    def test_run(self):
        plain = LOG[:LOG.index("\nreal")]
        status, said = self.run_with(plain, 0)
        self.assertEqual(status, 0)
        self.assertIn(plain, said)
        self.assertTrue(read_text(self.path("target", "gate.log")).startswith(plain + "real 0m"))
        self.assertIn("- Last line: `5 passed, 0 failed`", read_text(self.path(gate.PAGE)))
        self.assertEqual(self.run_with(plain, 1)[0], 1)
        self.assertEqual(self.run_with(plain.replace("0 failed", "2 failed"), 0)[0], 1)
