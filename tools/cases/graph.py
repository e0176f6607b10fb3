"""Train graphs: book L with its plan, and the plan cut, lengthened and spoiled at each byte; pages worked out by hand, with trains that are absent,
gone, that stand and that move up to 8, there and back, on segments 0 to 63, one train to eight, up to 256 intervals; each plan rule broken, and
values that are none; as much lent as the page is long, a byte less and more, and 12 ahead of what is wrong with the plan; books on each limit; random
books with plans that keep the rules, that nearly do, and hostile ones; each refusal of a book, with nothing lent too."""
import functools
import itertools

from .. import reference
from ..books import spec_bytes
from ..inputs import plan_bytes
from ..known import (BOOK_GRAPH, BOOK_L, LEAVING, PAGE_GRAPH, PAGE_L, PLAN_GRAPH, PLAN_L, circling, leaving_spec, lone, moving, on_segment,
                     page_of)
from ..reference import GONE
from .plans import (FIRST, PARTED, SECOND, broken_cases, document_cases, lent_cases, limit_cases, plan_case, random_cases, refused_cases, ruled)
from .records import ACCEPTED

NAME, SEED = "graph.cases", 29
# how many random books there are, and of each the most plans that keep the rules, and how many others
BOOKS, KEPT, OTHERS = 90, 6, 3
# how often an answer has to occur
OFTEN = {**{str(n): 4 for n in range(1, 12)}, "12": 30, "15": 80, "16": 80, ACCEPTED: 200}

case = functools.partial(plan_case, "G")


def worked(book, plan, page, room=None):
    """A case whose page was worked out beforehand."""
    assert reference.print_graph(book, plan) == page
    return case(book, plan, ACCEPTED, room)


# ---------------------------------------------------------- what a page shows


def moving_cases():
    """Trains of one segment and of eight that stand and that move up to 8, there and back."""
    for l, back, moved in itertools.product((1, 8), (False, True), range(9)):
        rear, front = (l + 7, 8 - moved) if back else (0, l - 1 + moved)
        yield worked(*moving(l, back, moved), page_of(b"  0  %02d-%02d %d" % (rear, front, moved)))


def segment_cases():
    """Numbers of one digit and of two, first and last."""
    for segment in (0, 9, 10, 59, 60, 63):
        yield worked(*on_segment(segment), page_of(b"  0  %02d-%02d 0" % (segment, segment)))


def circling_lines(intervals, count):
    """The lines of trains that go round a ring of 64, eight segments apart."""
    for t in range(intervals):
        ahead = [(8 * train + t) % 64 for train in range(count)]
        yield b"%3d " % t + b"".join(b" %02d-%02d 1 " % (rear, (rear + 1) % 64) for rear in ahead)


def train_cases():
    """One train to eight; and each of eight on every segment. Of the longest page every byte that is lent is written."""
    for intervals, count in (*((2, count) for count in range(1, 8)), (64, 8)):
        yield worked(*circling(intervals, count), page_of(*circling_lines(intervals, count)))
    yield worked(*circling(256), page_of(*circling_lines(256, 8)), 81 * 256)


def interval_cases():
    """A lone train that is absent, stands, and is gone: intervals of one digit, of two and of three, up to the greatest."""
    for T, departure, gone in ((1, 0, 1), (10, 9, 10), (11, 9, 10), (33, 10, 33), (100, 98, 99), (101, 99, 101), (256, 99, 100), (256, 255, 256)):
        shown = [b"." if t < departure else b"00-00 0" if t < gone else b"*" for t in range(T)]
        yield worked(*lone(T, departure, gone), page_of(*(b"%3d  %s" % line for line in enumerate(shown))))


# ------------------------------------------------------------ what is refused

RULED_PAGE = page_of(b"  0  00-00 0  .", b"  1  00-00 0  01-01 0", b"  2  00-00 0  01-01 0")


def rule_cases():
    """Plans that keep the rules, and each rule broken."""
    yield worked(ruled([1]), plan_bytes(PARTED, [FIRST, SECOND]), RULED_PAGE)
    yield worked(ruled([1]), plan_bytes(PARTED, [[1, 1, GONE], SECOND]), RULED_PAGE[:162] + page_of(b"  2  *        01-01 0"))
    yield from broken_cases(case, 81 * 3)


def leaving_cases():
    """P4's cases: a page where the train may be gone, or stays."""
    for kinds, place, goal, departure, moves, rule in LEAVING:
        data = spec_bytes(leaving_spec(kinds, place, goal, departure))
        yield case(data, plan_bytes((0, 0, 0), [list(moves)]), f"16 {rule}" if rule else ACCEPTED)


def records(rng, note):
    yield worked(BOOK_L, PLAN_L, PAGE_L)
    yield from document_cases(case)
    yield worked(BOOK_GRAPH, PLAN_GRAPH, PAGE_GRAPH)
    yield from moving_cases()
    yield from segment_cases()
    yield from train_cases()
    yield from interval_cases()
    yield from rule_cases()
    yield from leaving_cases()
    for data, plan in ((BOOK_L, PLAN_L), (BOOK_GRAPH, PLAN_GRAPH), circling(2)):
        yield from lent_cases(case, data, plan, len(reference.print_graph(data, plan)), 81)
    yield case(*circling(256), "12 0", 81 * 256 - 1)
    yield from limit_cases(case)
    yield from random_cases(case, rng, reference.page_length, BOOKS, KEPT, OTHERS)
    yield from refused_cases(case, rng)
