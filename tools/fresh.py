"""Holds the built program, the reference and solvers together on new random books, made from SEED for so many SECONDS; SEED/BOOK in place of
SEED makes that book of the seed alone.

Of each book: the formula's text is the reference's; the solver script decides it, and one of Debian's solvers that are installed, in turns; what
they answer is accepted, and turned into a plan and back; spoiled assignments, plans and refutations get the reference's line and result, and
every plan, spoiled or not, its train graph or line, and the list of the borders that carry it; no book has both a plan and a refutation
accepted. The same under a cap; and where there is a plan the solver script lowers the cap until there is none, so that check_fewest accepts the
number that is left. Where the plans are few, all are tried by the reference's rules: there is one that keeps them exactly where there is an
accepted assignment, and otherwise there is an accepted refutation; and the fewest borders are those that were found. With each book goes an old
one, good or damaged, which is rewritten as the reference does it; what comes of it has the formula that the old book had; and one with plans
that borders carry, which are listed. Prints a summary and every difference; the files of those stay in a folder that it names.

Exit status: 0 no difference, 1 a difference, 2 wrong usage, or the program is missing.
"""
import itertools
import os
import random
import shutil
import subprocess
import sys
import tempfile
import textwrap
import time
from collections import Counter, defaultdict

from . import reference as ref
from .all_plans import keeping, plans_to_try
from .ask import answered
from .ask import fewest as fewest_line
from .books import BORDER_KINDS
from .carrying_books import carried_plans
from .counts import answer_name, line_name, listed
from .features import features, list_features, on, parallel_tracks
from .inputs import TooLong, plan_bytes, read_steps, step_frame
from .passing_books import make_book
from .program import CABINET, CHECKS, FEWEST, PROGRAMS, built, cap_words, has_result
from .random_books import book_to_rewrite
from .random_inputs import (Fewest, assignment_of, damaged_refutation, honest_steps, nearly_assignment, nearly_fewest, nearly_plan, random_cap,
                            set_count, walked_plan)
from .repository import TOOLS, Stop
from .solve import Failure
from .solver import SOLVERS, build_converter

# seconds for one program or solver
LIMIT = 10
# the most clauses given to a solver where the program prints none
MOST_CLAUSES = 12000
# spoiled inputs of each kind for a book, and enumerated plans given to check_plan
SPOILED, SAMPLED = 4, 4
# so many differences are enough to look into
MOST_DIFFERENCES = 30

# ---------------------------------------------------- what a book has in it


def swapped(book, x, y):
    """Each has its goal where the other begins."""
    return (ref.holds(book.trains[x].place, book.trains[y].goal()) and ref.holds(book.trains[y].place, book.trains[x].goal())
            and not on(book.trains[x].place) & on(book.trains[y].place))


def all_features(book):
    """The names of what occurs in the book."""
    ttd, trains = [t for _, _, t in book.segments], len(book.trains)
    there = {
        **features(book),
        "tracks of one TTD that share both nodes": any(ttd[x] == ttd[y] for x, y in parallel_tracks(book)),
        **{f"node of kind {kind}": kind in book.nodes for kind in BORDER_KINDS},
        "two trains": trains == 2,
        "three trains": trains == 3,
        "four trains or more": trains > 3,
        "more than 32 intervals": book.T > ref.OLD.greatest_T,
        "trains that must pass each other": any(swapped(book, x, y) for x, y in itertools.combinations(range(trains), 2)),
    }
    return [name for name, has in there.items() if has]


# ------------------------------------------------------------ spoiled inputs


def fits_slices(formula, steps, data):
    """Whether a refutation fits what the programs lend: its file, and formula and steps together."""
    variables, clauses = formula
    words = ref.word_count(clauses) + sum(len(literals) + 1 for literals, _ in steps)
    return (len(data) <= ref.LENT_BYTES and words <= ref.LENT_WORDS and len(clauses) + len(steps) <= ref.LENT_CLAUSES
            and variables <= ref.LENT_TRAIL)


def spoiled_refutation(rng, formula, steps):
    """A solver's steps, or honest ones that need not end, with something wrong."""
    variables, clauses = formula
    if not steps or rng.random() < 0.3:
        steps = honest_steps(rng, variables, clauses, 3)
    if not steps:
        return step_frame([], [rng.randint(1, len(clauses))])
    return damaged_refutation(rng, variables, clauses, steps)


# ------------------------------------------------------------------- one book


class Trial:
    """One book: its files, and what was found of it."""

    def __init__(self, session, number):
        self.session, self.number, self.count = session, number, session.count
        self.rng = random.Random(f"{session.seed}/{number}")
        self.data = make_book(self.rng)
        self.book = self.formula = None
        self.accepted = defaultdict(set)    # by cap, the programs that accepted something
        self.decisions = {}         # solver: whether satisfiable
        self.good = self.plan = self.steps = None
        self.fewest = None          # how many nodes of kind 1 a plan needs, as far as that was found
        self.long = False           # a refutation did not fit
        self.write("book", self.data)

    def path(self, name):
        return os.path.join(self.session.folder, name)

    def write(self, name, data):
        with open(self.path(name), "wb") as file:
            file.write(data)

    def remove(self, name):
        """So that what is read later was written since."""
        if os.path.exists(self.path(name)):
            os.remove(self.path(name))

    def read(self, name):
        try:
            with open(self.path(name), "rb") as file:
                return file.read()
        except FileNotFoundError:
            return None

    def differ(self, what, **files):
        self.session.differ(self.number, what, {"book": self.data, **files})

    def run(self, program, *names, stdin=b"", options=()):
        """The bytes that a program printed; anything else that it does is a difference. A number stands for itself among the names."""
        given = [str(name) if isinstance(name, int) else self.path(name) for name in names]
        words = [os.path.join(self.session.folder, CABINET), program, *options, *given]
        try:
            done = subprocess.run(words, input=stdin, capture_output=True, timeout=LIMIT, check=False)
        except subprocess.TimeoutExpired:
            self.differ(f"{program} did not end in {LIMIT} s", **{name: self.read(name) or b"" for name in names if isinstance(name, str)})
            return b""
        if done.stderr or done.returncode:
            self.differ(f"{program}: status {done.returncode}, standard error {done.stderr[:200]!r}")
        return done.stdout

    # ---- verdicts

    def beside(self, program, *names, cap=None):
        """The program's line and result beside the reference's, of inputs that are in their files already; answers what the program said: its
        line, and the result or None."""
        self.remove("result")
        inputs = {name: self.read(name) for name in names}
        line, result = self.run(program, *names, *["result"] * has_result(program), options=cap_words(cap)), self.read("result")
        expected = answered(program, *inputs.values(), cap=cap)
        if (line, result) != expected:
            told = f"{program}, cap {cap}: printed {line!r} and result {shown(result)}, the reference has {expected[0]!r} and {shown(expected[1])}"
            self.differ(told, **{**inputs, "result": result or b"", "expected": expected[1] or b""})
        self.count[program][line_name(line)] += 1
        return line, result

    def check(self, program, second, cap=None):
        """A check beside the reference's; a plan is drawn and listed too, where there is no cap."""
        self.write("second", second)
        line, result = self.beside(program, "book", "second", cap=cap)
        if line == b"accepted\n":
            self.note_accepted(program, second, cap)
        if program == "check_assignment":
            self.judge_alone(line, second, cap)
        if program == "check_plan" and cap is None:
            self.draw(second)
            self.list_carriers("book", "second")
        return line, result

    def judge_alone(self, line, assignment, cap):
        """With no third name the assignment is judged alone: the same line, and no file."""
        self.remove("result")
        alone = self.run("check_assignment", "book", "second", options=cap_words(cap))
        if (alone, self.read("result")) != (line, None):
            self.differ(f"check_assignment: printed {alone!r} with no third name and {line!r} with one", second=assignment)

    def draw(self, plan):
        """The train graph of a plan that is in its file already, beside the reference's."""
        page, expected = self.run("print_graph", "book", "second"), ref.print_graph(self.data, plan)
        if page != expected:
            self.differ("print_graph: another page or line than the reference's", second=plan, page=page, expected=expected)
        self.count["print_graph"]["accepted" if page.startswith(b" ") else line_name(page)] += 1

    def list_carriers(self, *names):
        """The borders that carry a plan, of a book and a plan that are in their files already."""
        _, result = self.beside("list_carriers", *names)
        if result is not None:
            self.count["lists of carriers"].update(list_features(result))

    def note_accepted(self, program, second, cap):
        """No book has both under one cap."""
        accepted = self.accepted[cap]
        accepted.add(program)
        if "check_refutation" in accepted and len(accepted) > 1:
            self.differ(f"accepted under cap {cap} by {sorted(accepted)}", second=second)

    def must_accept(self, program, second, what, cap=None):
        line, result = self.check(program, second, cap)
        if line != b"accepted\n":
            self.differ(f"{what}: {program} printed {line!r} under cap {cap}", second=second)
        return result

    def both_ways(self, plan, what, cap=None):
        """A plan that keeps the rules is accepted; the assignment that is written for it is too, and gives that plan again."""
        written = self.must_accept("check_plan", plan, what, cap)
        if written is not None and self.must_accept("check_assignment", written, what, cap) != plan:
            self.differ(f"{what}: the plan's assignment decodes to another plan", plan=plan, assignment=written)

    # ---- an old book

    def rewrite(self):
        """An old book, or what is none; the line, the new book, and its formula beside the old one's."""
        old = book_to_rewrite(self.rng)
        self.write("old", old)
        _, result = self.beside("upgrade_book", "old")
        if result is not None and ref.rewrite(old)[0] == "accepted":
            self.same_formula(old, result)

    def same_formula(self, old, new):
        """Clause for clause, where the program prints it."""
        text = self.run("print_formula", stdin=new)
        if text.startswith(b"p cnf ") and text != ref.dimacs(ref.read_book(old, ref.OLD)):
            self.differ("upgrade_book: the new book has another formula than the old one had", old=old, new=new)

    # ---- a book with plans that borders carry

    def carry(self):
        for data, _, plan in carried_plans(self.rng, self.rng.choice(("tiny", "small", "large"))):
            self.write("carried", data)
            self.write("plan", plan)
            self.list_carriers("carried", "plan")

    # ---- the formula and the solvers

    def read_book(self):
        """The formula's text beside the reference's; answers whether the book was accepted."""
        text, expected = self.run("print_formula", stdin=self.data), ref.print_formula(self.data)
        if text != expected:
            self.differ("print_formula: another text than the reference's", text=text, expected=expected)
        answer = ref.entry_read_book(self.data)
        self.count["books"][answer_name(answer)] += 1
        if answer[0] != "accepted":
            return False
        self.book = ref.read_book(self.data)
        self.count["formula"]["printed" if text.startswith(b"p cnf ") else "refused by 12"] += 1
        self.write("formula", text)
        return True

    def keep_formula(self):
        """The clauses, for damage and for solvers; answers whether they are few enough. Where the program prints none, the text is the
        reference's: an assignment may be checked all the same."""
        clauses = list(itertools.islice(ref.each_clause(self.book), MOST_CLAUSES + 1))
        if len(clauses) > MOST_CLAUSES:
            return False
        self.formula = ref.Variables(self.book).count, clauses
        if not self.read("formula").startswith(b"p cnf "):
            self.write("formula", ref.dimacs(self.book))
        return True

    def ask(self, name, words):
        """What a solver's script printed, or None where it took too long."""
        try:
            done = subprocess.run([sys.executable, "-S", *words], capture_output=True, timeout=LIMIT, check=False, text=True)
        except subprocess.TimeoutExpired:
            self.count["solvers"][f"{name} gave up"] += 1
            return None
        if done.returncode == 1 and "longer than a frame" in done.stderr:
            self.count["solvers"][f"{name} step too long"] += 1
            return None
        if done.returncode:
            self.differ(f"{name}: status {done.returncode}, {done.stderr.strip()[:300]}", formula=self.read("formula"))
            return None
        return done.stdout.strip()

    def solve(self):
        """Both solvers' decisions and what they show for them."""
        self.decide("solve.py", [os.path.join(TOOLS, "solve.py"), self.path("formula"), self.path("answer")])
        real = self.session.solvers
        if real:
            name = real[self.number % len(real)]
            self.decide(name, [TOOLS, "solve", self.path("formula"), self.path("answer"), "--with", name, "--drat", self.path("drat")])
        if len(set(self.decisions.values())) > 1:
            self.differ(f"solvers decide otherwise: {self.decisions}", formula=self.read("formula"))

    def decide(self, name, words):
        self.remove("answer")
        said = self.ask(name, words)
        if said is None:
            return
        self.count["solvers"][f"{name} {said}"] += 1
        self.decisions[name] = said == "satisfiable"
        if said == "satisfiable":
            self.satisfied(name, self.read("answer"))
        elif said == "unsatisfiable":
            self.refuted(name, self.read("answer"))

    def satisfied(self, name, assignment):
        self.good, self.plan = assignment, self.must_accept("check_assignment", assignment, name)
        if self.plan is not None:
            self.both_ways(self.plan, name)

    def refuted(self, name, refutation):
        """Accepted exactly where it fits; otherwise refused by 12."""
        self.steps = read_steps(refutation)
        fits = fits_slices(self.formula, self.steps, refutation)
        self.long = self.long or not fits
        line, _ = self.check("check_refutation", refutation)
        if line != (b"accepted\n" if fits else b"12 0\n"):
            told = f"{name}: check_refutation printed {line!r} for a refutation that {'fits' if fits else 'is too long'}"
            self.differ(told, second=refutation, formula=self.read("formula"))
        self.count["refutations of solvers"]["fit" if fits else "too long"] += 1

    # ---- at most so many borders

    def cap_it(self):
        """A random cap: the formula's text beside the reference's, what the solver script finds, and spoiled inputs."""
        cap = random_cap(self.rng, self.book)
        text, expected = self.run("print_formula", stdin=self.data, options=cap_words(cap)), ref.print_formula(self.data, cap)
        if text != expected:
            self.differ(f"print_formula, cap {cap}: another text than the reference's", text=text, expected=expected)
        self.count["formula under a cap"]["printed" if text.startswith(b"p cnf ") else line_name(text)] += 1
        formula, (some, found) = ref.formula(self.book, cap), self.decided_under(cap)
        steps = read_steps(found) if some is False else None
        for _ in range(SPOILED):
            self.check("check_assignment", nearly_assignment(self.rng, self.book, found if some else None, cap), cap)
            self.check("check_plan", nearly_plan(self.rng, self.book, self.plan), cap)
            try:
                self.check("check_refutation", spoiled_refutation(self.rng, formula, steps), cap)
            except TooLong:
                pass            # longer than a frame holds

    def decided_under(self, cap):
        """Whether there is a plan within a cap, by the solver script, and what it shows for that, which is accepted; two None where it gave up."""
        self.write("capped", ref.dimacs(self.book, cap))
        self.remove("answer")
        said = self.ask("solve.py", [os.path.join(TOOLS, "solve.py"), self.path("capped"), self.path("answer")])
        if said is None:
            return None, None
        found, what = self.read("answer"), f"solve.py under cap {cap}"
        self.count["solvers"][f"solve.py {said} under a cap"] += 1
        if said == "satisfiable":
            self.within(cap, self.must_accept("check_assignment", found, what, cap), what)
            return True, found
        fits = fits_slices(ref.formula(self.book, cap), read_steps(found), found)
        line, _ = self.check("check_refutation", found, cap)
        if line != (b"accepted\n" if fits else b"12 0\n"):
            self.differ(f"{what}: check_refutation printed {line!r}", second=found)
        return False, found

    def within(self, cap, plan, what):
        """A plan that an assignment under a cap gave."""
        if plan is None:
            return
        if cap is not None and set_count(self.book, plan) > cap:
            self.differ(f"{what}: the plan sets more nodes of kind 1", second=plan)
        self.both_ways(plan, what, cap)

    def find_fewest(self):
        """The cap is lowered as long as there is a plan; then check_fewest accepts what is left, and no other number."""
        plan, refutation = self.plan, b""
        while set_count(self.book, plan):
            some, found = self.decided_under(set_count(self.book, plan) - 1)
            if some is None:
                return
            if not some:
                refutation = found
                break
            plan = ref.decode(self.book, found)
        self.fewest = set_count(self.book, plan)
        self.count["fewest borders"][str(self.fewest)] += 1
        self.try_fewest(Fewest(self.fewest, assignment_of(self.book, plan), refutation))

    def try_fewest(self, good):
        if len(good.refutation) <= ref.LENT_BYTES and self.combine(good) not in (b"accepted\n", b"12 0\n"):
            self.differ(f"check_fewest does not accept {good.n}", assignment=good.assignment, refutation=good.refutation)
        for _ in range(SPOILED):
            try:
                self.combine(nearly_fewest(self.rng, self.book, good))
            except (IndexError, ref.Refused, TooLong):
                pass            # what is wrong already can't be spoiled in this way

    def combine(self, given):
        """check_fewest beside the reference's; answers its line."""
        self.write("assignment", given.assignment)
        self.write("refutation", given.refutation)
        line, expected = self.run(FEWEST, "book", given.n, "assignment", "refutation"), fewest_line(given.n, self.data, *given[1:])
        if line != expected:
            told = f"{FEWEST} {given.n}: printed {line!r}, the reference has {expected!r}"
            self.differ(told, assignment=given.assignment, refutation=given.refutation)
        self.count[FEWEST][line_name(line)] += 1
        return line

    # ---- spoiled inputs and all plans

    def spoil(self):
        for _ in range(SPOILED):
            self.check("check_assignment", nearly_assignment(self.rng, self.book, self.good))
            self.check("check_plan", nearly_plan(self.rng, self.book, self.plan))
            try:
                self.check("check_refutation", spoiled_refutation(self.rng, self.formula, self.steps))
            except TooLong:
                pass            # longer than a frame holds

    def try_all_plans(self):
        """Rules and verdicts say the same: a plan that keeps the rules, or an accepted refutation, and never both."""
        listed = plans_to_try(self.book)
        if listed is None:
            return
        how, plans = listed
        kept = keeping(self.book, plans)
        self.count["enumerated"].update({f"books by {how}": 1, f"plans by {how}": len(plans), "plans that keep the rules": len(kept)})
        self.count["enumerated"]["books with such a plan" if kept else "books without"] += 1
        self.hold_together(bool(kept))
        if self.fewest is not None and self.fewest != min((set_count(self.book, borders) for borders, _ in kept), default=None):
            self.differ(f"{self.fewest} borders were found to be the fewest, and trying all plans says otherwise")
        for plan in self.rng.sample(kept, min(SAMPLED, len(kept))):
            self.both_ways(plan_bytes(*plan), "enumerated plan")
        for plan in self.rng.sample(plans, min(SAMPLED, len(plans))):
            self.check("check_plan", plan_bytes(*plan))
        self.count["enumerated"]["plans given to check_plan"] += min(SAMPLED, len(kept)) + min(SAMPLED, len(plans))

    def hold_together(self, some):
        if any(decision != some for decision in self.decisions.values()):
            self.differ(f"some plan keeps the rules: {some}; solvers: {self.decisions}", formula=self.read("formula"))
        if not self.decisions:
            return              # all gave up
        if some and "check_assignment" not in self.accepted[None]:
            self.differ("a plan keeps the rules, but no assignment was accepted")
        if not some and "check_refutation" not in self.accepted[None] and not self.long and list(self.decisions) != ["minisat"]:
            self.differ("no plan keeps the rules, but no refutation was accepted")

    def note(self):
        """Counts what the book has in it."""
        some = next(iter(self.decisions.values()), None)
        self.count["decided"][{True: "satisfiable", False: "unsatisfiable", None: "given up"}[some]] += 1
        for name in all_features(self.book):
            self.count["features"][name] += 1
            self.count["features with a plan"][name] += some is True

    def all(self):
        self.all_of_book()
        self.rewrite()
        self.carry()

    def all_of_book(self):
        if not self.read_book():
            for program in CHECKS:
                self.check(program, self.rng.randbytes(self.rng.randrange(40)))
                self.check(program, self.rng.randbytes(self.rng.randrange(40)), self.rng.randrange(3))
            self.combine(Fewest(self.rng.randrange(3), b"", b""))
            return
        if not self.keep_formula():
            self.count["decided"]["too large for a solver"] += 1
            self.check("check_plan", plan_bytes(*walked_plan(self.rng, self.book)))
            return
        self.solve()
        self.spoil()
        self.cap_it()
        if self.plan is not None:
            self.find_fewest()
        self.try_all_plans()
        self.note()


def shown(result):
    return "none" if result is None else f"of {len(result)} bytes"


# --------------------------------------------------------------- the session


class Session:
    """A seed, where the files are, and the counts. The program is copied there, so that a new build does not exchange it."""

    def __init__(self, seed, program, folder):
        self.seed, self.folder = seed, folder
        self.count, self.differences = defaultdict(Counter), 0
        shutil.copy(program, os.path.join(folder, CABINET))
        self.solvers = self.installed()

    def installed(self):
        """The real solvers that can be used. A proof needs the converter, which is built here; minisat writes none."""
        there = [name for name in SOLVERS if shutil.which(name)]
        if not shutil.which("rustc"):
            return [name for name in there if name == "minisat"]
        if there:
            try:
                build_converter(os.path.join(self.folder, "drat"))
            except Failure as failure:
                raise Stop(f"the converter of proofs is not built: {failure.args[1]}") from None
        return there

    def differ(self, number, what, files):
        """Prints a difference and keeps its files."""
        self.differences += 1
        kept = os.path.join(self.folder, "kept", f"book{number}-{self.differences}")
        os.makedirs(kept)
        for name, data in files.items():
            with open(os.path.join(kept, name), "wb") as file:
                file.write(data)
        print(f"DIFFERENCE {self.seed}/{number}: {what}; files in {kept}", flush=True)


def clear(folder):
    """Leaves only what was kept, and no folder where that is nothing."""
    names = os.listdir(folder)
    for name in names:
        if name != "kept":
            os.remove(os.path.join(folder, name))
    if "kept" not in names:
        os.rmdir(folder)


def say(text):
    print(textwrap.fill(text, 130, subsequent_indent="    "))


def summary(session, seconds):
    count = session.count
    books, accepted = sum(count["books"].values()), count["books"].pop("accepted", 0)
    say(f"seed {session.seed}, {seconds:.0f} s: {books} books, {accepted} accepted; refused by {listed(count['books'])}")
    for name in ("formula", "formula under a cap", "decided", "solvers", "refutations of solvers", "enumerated", *CHECKS, FEWEST, "fewest borders",
                 "upgrade_book", "print_graph", "list_carriers", "lists of carriers"):
        say(f"{name}: {listed(count[name])}")
    missing = [name for name in SOLVERS if name not in session.solvers]
    say(f"real solvers: {', '.join(session.solvers) or 'none'}; not used: {', '.join(missing) or 'none'}")
    some, with_plan = count["features"], count["features with a plan"]
    each = "; ".join(f"{key} {some[key]}, {with_plan[key]}" for key in sorted(some))
    say(f"books with each feature, and those of them with a plan: {each or 'none'}")
    print(f"{session.differences} differences" + (f", files in {session.folder}" if session.differences else ""))


def numbers(only, until):
    """The numbers of the books: one, or as many as there is time for."""
    for number in [int(only)] if only else itertools.count():
        if not only and time.monotonic() >= until:
            return
        yield number


def arguments(parser):
    parser.add_argument("seed", metavar="SEED[/BOOK]", help="from which the books are made; with a book's number that book alone")
    parser.add_argument("seconds", metavar="SECONDS", type=float, help="for how long")
    parser.add_argument("--bin", metavar="DIR", default=PROGRAMS, help="the folder of the program, by default crates/cabinet/out")


def try_books(session, only, seconds):
    start = time.monotonic()
    for number in numbers(only, start + seconds):
        Trial(session, number).all()
        if session.differences >= MOST_DIFFERENCES:
            print(f"stopped after book {number}, since there are many differences")
            break
    summary(session, time.monotonic() - start)


def run(options):
    seed, stroke, only = options.seed.partition("/")
    if stroke and not (only.isascii() and only.isdigit()):
        raise Stop(f"{options.seed}: behind the stroke stands the number of a book, as in 7/3")
    program = built(options.bin, CABINET)
    folder = tempfile.mkdtemp(prefix="fresh-")
    try:
        session = Session(seed, program, folder)
        try_books(session, only, options.seconds)
    finally:
        clear(folder)
    return 1 if session.differences else 0
