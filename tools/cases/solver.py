"""What the solver script answered: random books, an assignment or a refutation that the script found, given the reference's DIMACS text
and nothing else, and the plan that the reference decodes an assignment to; each also once damaged.

A book that has a plan loses one interval after the other, as long as it has one. Then it stands here, and so does the book with one
interval less, which has none, and the book without the borders that may be set, if it has no plan then.
"""
import collections
import contextlib
import functools
import io
import os
import tempfile

from .. import reference, solve
from ..features import after, features
from ..inputs import plan_bytes, read_steps
from ..random_books import random_book
from ..random_inputs import break_plan, claim_more, damaged_refutation, flipped, outside_plan, spoiled_input
from ..repository import read_bytes, write_bytes
from .records import Record, refutation_answer
from .solver_books import altered, shorter, trains_on_a_way, unset

NAME, SEED = "solver.cases", 1
BOOKS = 400
# so many books in a row are tried where none is wanted
MOST_IDLE = 1500
# the most that all records may have together; a refutation of more than so many bytes is a long one, and there are few of these
MOST_BYTES, MOST_FILE, MOST_LONG = 600000, 3000, 8
# of a hundred books, how many may have a plan or none, by the number of trains, and how many may be refuted by a single step
SHARES = {(True, 1): 5, (True, 2): 18, (True, 3): 20, (True, 4): 14, (False, 1): 5, (False, 2): 16, (False, 3): 16, (False, 4): 12}
SINGLE = 5
# how often an answer has to occur
OFTEN = {"accepted": 300, **{str(n): 10 for n in range(13, 22)}}

# ------------------------------------------------------ the solver's answer


class Answered:
    """A book, and what the solver says of its formula."""

    def __init__(self, data):
        self.data = data
        self.book = reference.read_book(data)
        self.satisfiable, self.shown = solved(printed(data))
        self.plan = reference.decode(self.book, self.shown) if self.satisfiable else None
        # whether it has a plan, and none without the borders that may be set
        self.needs_border = False

    def goods(self):
        """What the solver found, and what follows: questions and second inputs."""
        if self.satisfiable:
            return [("A", self.shown), ("P", self.plan)]
        return [("N", self.shown)]

    def group(self):
        return self.satisfiable, len(self.book.trains)

    def fits(self):
        """Whether the programs' slices hold the refutation and its steps."""
        if self.satisfiable:
            return True
        return len(self.shown) < reference.LENT_BYTES and refutation_answer(Record("N", self.data, self.shown), {}).name != "12"

    def long(self):
        return not self.satisfiable and len(self.shown) > MOST_FILE

    def single(self):
        """Whether one step refutes the formula."""
        return not self.satisfiable and len(read_steps(self.shown)) == 1


def solved(text):
    """Whether the solver finds DIMACS text satisfiable, and the assignment or the refutation that it writes."""
    with tempfile.TemporaryDirectory() as folder, contextlib.redirect_stdout(io.StringIO()) as said:
        formula, out = os.path.join(folder, "formula"), os.path.join(folder, "out")
        write_bytes(formula, text)
        assert solve.main([formula, out]) == 0
        return said.getvalue() == "satisfiable\n", read_bytes(out)


@functools.lru_cache(maxsize=8)
def printed(data):
    return reference.print_formula(data)


def printable(data):
    """Whether the reader takes the book and the formula's program prints it."""
    return printed(data).startswith(b"p")


def random_books(rng):
    """Books that the reader takes and the formula's program prints, each once."""
    seen = set()
    while True:
        data = trains_on_a_way(rng) if rng.random() < 0.8 else random_book(rng, rng.choice(("tiny", "small")))
        if data not in seen and printable(data):
            seen.add(data)
            yield data


def shortest(book):
    """A book with as few intervals as it has a plan in, and with one less, where that is a book."""
    data = shorter(book.data)
    less = Answered(data) if printable(data) else None
    return shortest(less) if less and less.satisfiable else (book, less)


def family(data):
    """A book without a plan; or the shortest that has one, with those of one interval less and without borders that have none."""
    book = Answered(data)
    if not book.satisfiable:
        return [book]
    book, less = shortest(book)
    bare = unset(book.data)
    bare = Answered(bare) if bare != book.data and printable(bare) else None
    book.needs_border = bool(bare and not bare.satisfiable)
    return [book] + [other for other in (less, bare) if other and not other.satisfiable]


# ------------------------------------------------------------------- damage


def damaged_assignment(rng, book, good):
    style, at = rng.random(), rng.randrange(len(good))
    if style < 0.2:
        return claim_more(rng, book, good)
    return flipped(good, at) if style < 0.7 else spoiled_input(rng, good)


def damaged_plan(rng, book, good):
    borders, moves = reference.read_plan(book, good)
    style = rng.random()
    if style < 0.15:
        return spoiled_input(rng, good)
    (outside_plan if style < 0.3 else break_plan)(rng, book, borders, moves)
    return plan_bytes(borders, moves)


def damaged_steps(rng, book, good):
    return damaged_refutation(rng, *reference.formula(book), read_steps(good))


DAMAGES = {"A": damaged_assignment, "P": damaged_plan, "N": damaged_steps}


def damaged(rng, question, answered, good):
    """The input damaged, or held against a book that differs in a byte."""
    if rng.random() < 0.1:
        return altered(rng, answered.data), good
    second = good
    while second == good:
        second = DAMAGES[question](rng, answered.book, good)
    return answered.data, second


# ------------------------------------------------------ what a book has in it


def reached(book, train, without):
    """The segments that the train's front can come to if it never takes this directed one."""
    met, waiting = {train.place[-1]}, [train.place[-1]]
    while waiting:
        new = [y for y in after(book, waiting.pop()) if y not in met and y != without]
        met.update(new)
        waiting += new
    return {x // 2 for x in met}


def forced(book, train):
    """The directed segments that it has to take: those of its place, and each without which it misses a call that it can meet."""
    asked = {segment for segment, _, _ in train.calls if segment in reached(book, train, None)}
    asked -= {x // 2 for x in train.place}
    return {x for x in range(2 * len(book.segments)) if x in train.place or not asked <= reached(book, train, x)}


def present(answered, tr):
    """The intervals in which a train has a run; without a plan those in which it may have one."""
    train, T = answered.book.trains[tr], answered.book.T
    if answered.plan is None:
        return set(range(train.departure, T))
    _, moves = reference.read_plan(answered.book, answered.plan)
    return {i for i in range(T) if moves[tr][i] < reference.ABSENT}


def leaves(answered):
    """Whether the plan has a train that is gone in the end."""
    return answered.plan is not None and any(reference.GONE in row for row in reference.read_plan(answered.book, answered.plan)[1])


def against(answered):
    """How many trains have to take a segment that another has to take the other way, both on the track at once."""
    trains = [(forced(answered.book, train), present(answered, tr)) for tr, train in enumerate(answered.book.trains)]
    return sum(any({x ^ 1 for x in way} & other and times & when for other, when in trains) for way, times in trains)


def shown_by(answered):
    """What is to be found in the book, each with whether it has a plan."""
    opposed = against(answered)
    there = features(answered.book)
    there.update({f"{word} trains against each other": opposed == n for n, word in ((2, "two"), (3, "three"), (4, "four"))})
    there["a plan only with a border set"] = answered.needs_border
    there["a train that leaves"] = leaves(answered)
    return {(name, answered.satisfiable) for name, has in there.items() if has}


# how many books with no plan and how many with one are to show each
LEAST = {
    "a ring": (30, 30),
    "a ring within one TTD": (10, 10),
    "a switch": (60, 60),
    "tracks that share both nodes": (50, 50),
    "several TTDs at a node": (25, 25),
    "an unbreakable TTD": (15, 15),
    "l above 1": (40, 40),
    "k above 1": (40, 40),
    "a window shut before departure": (10, 0),
    "a late departure": (60, 60),
    "two trains against each other": (30, 30),
    "three trains against each other": (15, 15),
    "four trains against each other": (10, 10),
    "a plan only with a border set": (0, 30),
    "an exit": (60, 60),
    "no exit": (20, 20),
    "a train that leaves": (0, 60),
}


# ---------------------------------------------------------------- the cases


class Stock:
    """The records so far, with counts of the books by what they show and whether they have a plan."""

    def __init__(self):
        self.records, self.size, self.seen = [], 0, set()
        self.shown, self.counts = collections.Counter(), collections.Counter()

    def full(self):
        return self.counts["books"] >= BOOKS or self.size > MOST_BYTES - 3 * MOST_FILE

    def lacking(self):
        """What too few books show so far."""
        return {(name, at) for name, least in LEAST.items() for at in (False, True) if self.shown[name, at] < least[at]}

    def can_take(self, answered):
        """Whether the book is new and there is room for it. Long refutations come in the first half."""
        if answered.long() and (self.counts["long"] == MOST_LONG or 2 * self.size > MOST_BYTES):
            return False
        return answered.data not in self.seen and answered.fits()

    def wants(self, answered):
        """Whether there are too few books like this one. The last third is kept for what is lacking."""
        lacking, group = self.lacking(), answered.group()
        if len(answered.book.trains) > 1 and lacking & shown_by(answered):
            return True
        if lacking and 3 * self.counts["books"] > 2 * BOOKS:
            return False
        if answered.single() and 100 * self.counts["single"] >= SINGLE * BOOKS:
            return False
        return 100 * self.counts[group] < SHARES[group] * BOOKS

    def add(self, question, book, second, said=None):
        self.records.append(Record(question, book, second, b"", said))
        self.size += len(self.records[-1].data())

    def add_book(self, rng, answered):
        self.seen.add(answered.data)
        self.counts.update({"books": 1, answered.group(): 1, "single": answered.single(), "long": answered.long()})
        self.shown.update(shown_by(answered))
        for question, good in answered.goods():
            self.add(question, answered.data, good, "accepted")
            self.add(question, *damaged(rng, question, answered, good))

    def remarks(self):
        """What the books have in them."""
        by = self.counts
        with_plan, with_none = ([by[planned, trains] for trains in range(1, 5)] for planned in (True, False))
        yield f"{by['books']} books; by trains, 1 to 4: {with_plan} with a plan, {with_none} with none"
        yield f"{by['single']} refuted by one step, {by['long']} by more than {MOST_FILE:,} bytes"
        for name in LEAST:
            yield f"{name}: {self.shown[name, True]} with a plan, {self.shown[name, False]} with none"


def gathered(rng):
    """Random books until there are enough; it gives up where none of many is wanted."""
    stock, idle = Stock(), 0
    for data in random_books(rng):
        idle += 1
        for answered in family(data):
            if not stock.full() and stock.can_take(answered) and stock.wants(answered):
                stock.add_book(rng, answered)
                idle = 0
        if stock.full():
            return stock
        assert idle < MOST_IDLE, f"none of {MOST_IDLE} books is wanted; too few of {sorted(stock.lacking())}"


def records(rng, note):
    stock = gathered(rng)
    for line in stock.remarks():
        note(line)
    assert stock.size <= MOST_BYTES and not stock.lacking(), f"too few of {sorted(stock.lacking())}"
    return stock.records
