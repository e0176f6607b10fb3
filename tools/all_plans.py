"""Every plan of a book, where they are few enough to try by the reference's rules."""
import itertools
import math

from . import reference as ref
from .books import border_bytes
from .inputs import split_plan
from .reference import ABSENT, GONE

# the most plans tried for a book, the most rows of moves for a train, and the most intervals of a book whose rows are listed
MOST_PLANS, MOST_ROWS, MOST_INTERVALS = 3000, 300, 32


def product_of_choices(book):
    """How many plans there are, by document 01's count: every byte 0 or 1, every run, absent or gone."""
    total = 2 ** len(book.nodes)
    for runs in book.runs:
        total *= (len(runs) + 2) ** book.T
    return total


def all_plans(book):
    """Every choice of borders and moves."""
    choices = [(0, 1)] * len(book.nodes)
    for runs in book.runs:
        choices += [(*range(len(runs)), ABSENT, GONE)] * book.T
    return [split_plan(book, plan) for plan in itertools.product(*choices)]


def one_train(book, tr, intervals):
    """The book with that train alone and so many intervals, for the rules that look at one train."""
    alone = ref.Book()
    alone.T, alone.nodes, alone.segments = intervals, book.nodes, book.segments
    alone.trains, alone.runs = [book.trains[tr]], [book.runs[tr]]
    return alone


def rows_of(book, tr):
    """Every row of moves of a train that keeps rules 2 to 5, or None where they are many. A row that breaks one of 2 to 4 early is not
    gone on with, since what follows does not mend it."""
    departure = book.trains[tr].departure
    values = [*range(len(book.runs[tr])), ABSENT, GONE]
    rows = [[ABSENT] * departure]
    for intervals in range(departure + 1, book.T + 1):
        alone = one_train(book, tr, intervals)
        longer = ([*row, move] for row in rows for move in values)
        rules = ref.keeps_rule_2, ref.keeps_rule_3, ref.keeps_rule_4
        rows = [row for row in longer if all(rule(alone, None, [row]) for rule in rules)]
        if len(rows) > MOST_ROWS:
            return None
    return [row for row in rows if ref.keeps_rule_5(one_train(book, tr, book.T), None, [row])]


def plans_by_rows(book):
    """All plans whose borders respect their kinds and whose trains, each by itself, keep the rules; None where they are many."""
    total, rows = math.prod(len(border_bytes(kind)) for kind in book.nodes), []
    for tr in range(len(book.trains)):
        some = rows_of(book, tr) if total <= MOST_PLANS else None
        if some is None:
            return None
        rows.append(some)
        total *= len(some)
    if total > MOST_PLANS:
        return None
    borders = itertools.product(*map(border_bytes, book.nodes))
    return [(list(b), list(m)) for b in borders for m in itertools.product(*rows)]


def plans_to_try(book):
    """How the plans were listed, and the list; None where they are too many."""
    if product_of_choices(book) <= MOST_PLANS:
        return "every choice", all_plans(book)
    plans = plans_by_rows(book) if book.T <= MOST_INTERVALS else None
    return None if plans is None else ("rows", plans)


def keeping(book, plans):
    """Those of the plans that keep the six rules."""
    return [plan for plan in plans if ref.broken_rule(book, *plan) == 0]
