"""The main job on the example books, or on the BOOKs that are named: proves and builds the program that the job needs and no more (`rt run` in
crates/cabinet, which also runs it once, without a command), and shows each crate as it is proved; then for each book prints the formula, hands it
to the solver script, and gives its answer to the proved check. Of an accepted assignment's plan the borders and the train graph are shown (`show`
has more of it). Says at the end what was decided of each book.

Exit status: 0 every answer was accepted; 1 something was not proved, or refused; 2 wrong usage, or a file or rt is missing.
"""
import os
import re
import subprocess
import sys
import tempfile
import time

from . import reference
from .crates import Listed, below
from .program import CABINET, PROGRAMS
from .repository import EXAMPLES, ROOT, TOOLS, read_bytes, write_bytes
from .show import plan_lines
from .solver import SOLVERS
from .text import old_words

BOOKS = ("following.book", "uncut.book")
# of each crate the prover names first what is in it, and at last what came of it; a crate of definitions alone may have no name there
NAMED, DONE = re.compile(r"(?:crate (\w+): modules |(?:fn|struct|enum) (\w+)::)"), re.compile(r"logic=proved ")


def arguments(parser):
    parser.add_argument("books", metavar="BOOK", nargs="*", default=[os.path.join(EXAMPLES, name) for name in BOOKS],
                        help="books, by default those of examples/")
    parser.add_argument("--with", dest="solver", choices=SOLVERS, help="one of Debian's solvers in place of the script")
    parser.add_argument("--built", action="store_true", help="the program is built already: prove nothing")


# ------------------------------------------------------------------ building


def build(root):
    """Proves and builds the program, a line a crate as it is done; answers whether all was proved."""
    listed = Listed(root)
    total, done, kept, name, start = len(below(listed, CABINET)) + 1, 0, [], "", time.monotonic()
    print(f"proving {total} crates, and building the program from them", flush=True)
    how = {"stdin": subprocess.DEVNULL, "stdout": subprocess.PIPE, "stderr": subprocess.STDOUT, "text": True, "errors": "replace"}
    with subprocess.Popen(["rt", "run"], cwd=os.path.join(root, "crates", CABINET), **how) as prover:
        for line in prover.stdout:
            kept.append(line.rstrip("\n"))
            if found := NAMED.match(line):
                name = found[1] or found[2]
            elif DONE.match(line):
                done, start, before = done + 1, time.monotonic(), start
                print(f"  [{done}/{total}] {name or 'definitions'} ({start - before:.0f} s)", flush=True)
                name = ""
    if prover.returncode:
        print("\n".join(["not everything is proved; the last lines of rt run:", *kept[-20:]]))
    elif done < total:
        print(f"  {total - done} of them had been proved before, and have not changed")
    return prover.returncode == 0


# -------------------------------------------------------------------- a book


class Failed(Exception):
    """What went wrong with a book."""


def step(what, action):
    """Does one step of the job, and says how long it took."""
    start = time.monotonic()
    said, answer = action()
    print(f"  {what}: {said} ({time.monotonic() - start:.1f} s)", flush=True)
    return answer


def cabinet(programs, *words, stdin=b""):
    """What a command prints."""
    done = subprocess.run([os.path.join(programs, CABINET), *words], input=stdin, capture_output=True, check=False)
    if done.stderr or done.returncode:
        raise Failed(f"{words[0]}: status {done.returncode}, {done.stderr.decode(errors='replace').strip()}")
    return done.stdout


def print_formula(programs, book, formula):
    """The formula into a file; says its size."""
    data = read_bytes(book)
    text = cabinet(programs, "print_formula", stdin=data)
    if not text.startswith(b"p cnf "):
        raise Failed(f"print_formula refuses the book: {text.decode().strip()}{old_words(data)}")
    write_bytes(formula, text)
    variables, clauses = map(int, text.split(b"\n")[0].split()[2:])
    return f"{variables:,} variables, {clauses:,} clauses", None


def solve(solver, formula, out):
    """The solver's word, and what it shows for it in a file."""
    words = [sys.executable, TOOLS, "solve", formula, out] + (["--with", solver] if solver else [])
    done = subprocess.run(words, capture_output=True, text=True, check=False)
    said = done.stdout.strip()
    if done.returncode or said not in ("satisfiable", "unsatisfiable"):
        raise Failed(f"the solver gives no answer that can be checked: {(said + ' ' + done.stderr).strip()}")
    return said, said == "satisfiable"


def check(programs, command, *names):
    """The verdict on a solver's answer, which has to be accepted."""
    said = cabinet(programs, command, *names).decode().strip()
    if said != "accepted":
        raise Failed(f"{command} refuses it: {said}")
    return said, None


def show_plan(programs, book, plan):
    """The plan's borders, and its train graph without the blanks at the ends of its lines."""
    for line in plan_lines(reference.read_book(read_bytes(book)), read_bytes(plan)):
        if line.startswith("border"):
            print(f"    {line}")
    for line in cabinet(programs, "print_graph", book, plan).decode().splitlines():
        print(f"    {line.rstrip()}")


def decide(programs, book, solver, folder):
    """The whole job on one book; answers whether there is a plan."""
    formula, answer, plan = (os.path.join(folder, name) for name in ("formula", "answer", "plan"))
    step("formula", lambda: print_formula(programs, book, formula))
    if step("solver", lambda: solve(solver, formula, answer)):
        step("check_assignment", lambda: check(programs, "check_assignment", book, answer, plan))
        step("check_plan, of the plan that it decodes to", lambda: check(programs, "check_plan", book, plan))
        show_plan(programs, book, plan)
        return True
    step("check_refutation", lambda: check(programs, "check_refutation", book, answer))
    return False


YES = "yes, there is a plan, and the proved check accepted it"
NO = "no, no plan exists: the proved check accepted the refutation"


def decide_all(programs, books, solver):
    """Each book with what was decided of it, or why nothing was."""
    found = []
    for book in books:
        print(os.path.relpath(book))
        with tempfile.TemporaryDirectory() as folder:
            try:
                found.append((book, YES if decide(programs, book, solver, folder) else NO))
            except Failed as why:
                print(f"  {why}")
                found.append((book, None))
    return found


def run(options):
    if not options.built and not build(ROOT):
        return 1
    found = decide_all(PROGRAMS, options.books, options.solver)
    print("decided:")
    for book, what in found:
        print(f"  {os.path.relpath(book)}: {what or 'nothing'}")
    if any(what == NO for _, what in found):
        print('A "no" refutes the book\'s discretisation, in whole segments and intervals, not the railway: a finer book may have a plan.')
    return 0 if all(what for _, what in found) else 1
