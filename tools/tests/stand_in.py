"""Scripts that stand in for programs, and a folder for each test."""
import contextlib
import io
import os
import sys
import tempfile
import unittest

from ..repository import ROOT, write_text

# what the built program does, by the reference
CABINET = f'''import os, sys
sys.path.insert(0, {ROOT!r})
from tools import reference
from tools.program import COMMANDS
from tools.tests.stand_in import USAGE
words = sys.argv[1:]
def names(command):
    if words[1:2] != ["--cap"]:
        return words[1:]
    return words[3:] if command.capped else []
if not words or words[0] not in USAGE:
    sys.stderr.write("".join(USAGE.values()))
elif COMMANDS[words[0]].least <= len(names(COMMANDS[words[0]])) <= COMMANDS[words[0]].most:
    reference.main(words)
else:
    sys.stderr.write(USAGE[words[0]])
'''
USAGE = {
    "print_formula": "usage: print_formula [--cap N] < BOOK\n",
    "check_assignment": "usage: check_assignment [--cap N] BOOK ASSIGNMENT [PLAN]\n",
    "check_plan": "usage: check_plan [--cap N] BOOK PLAN [ASSIGNMENT]\n",
    "check_refutation": "usage: check_refutation [--cap N] BOOK REFUTATION\n",
    "check_fewest": "usage: check_fewest BOOK N ASSIGNMENT REFUTATION\n",
    "upgrade_book": "usage: upgrade_book OLD NEW\n",
    "print_graph": "usage: print_graph BOOK PLAN\n",
    "list_carriers": "usage: list_carriers BOOK PLAN OUT\n",
}
# the same, but every check accepts
ALWAYS_ACCEPTED = '''import sys
print("accepted")
'''
# what the program of cases does, by the reference; `{fault}` may change an answer
CASES = '''import os, sys
sys.path.insert(0, {root!r})
from tools.cases.records import answer, split
files = {{name: open(name, "rb").read() for name in os.listdir(".")}}
for name in sys.argv[1:]:
    sys.stdout.buffer.write(name.encode() + b"\\n")
    for number, record in enumerate(split(files[name]), 1):
        data = answer(record, files).data
        {fault}
        sys.stdout.buffer.write(data)
'''


def script(path, text):
    """Writes a Python script that can be started by its name."""
    write_text(path, f"#!{sys.executable} -S\n" + text)
    os.chmod(path, 0o755)
    return path


class InFolder(unittest.TestCase):
    """A test with a folder of its own."""

    def setUp(self):
        kept = tempfile.TemporaryDirectory()
        self.addCleanup(kept.cleanup)
        self.folder = kept.name

    def path(self, *names):
        return os.path.join(self.folder, *names)

    def with_programs(self):
        """Puts the folder's bin/ ahead on the search path."""
        before = os.environ["PATH"]
        self.addCleanup(os.environ.__setitem__, "PATH", before)
        os.environ["PATH"] = self.path("bin") + os.pathsep + before


@contextlib.contextmanager
def printed():
    """What is printed meanwhile, on both outputs."""
    out = io.StringIO()
    with contextlib.redirect_stdout(out), contextlib.redirect_stderr(out):
        yield out
