"""Which borders carry a plan: lists worked out by hand, of trains that stand about a border, of rings, of borders that carry only together or beside
one that is always set, of several pairs at a node of two TTDs; trains that are absent, gone, that come late and that move up to a border; the last
node, interval and trains, and the longest list; each plan rule broken, and values that are none; as much lent as an entry a kind 1 node asks for, a
byte less and more, and 12 ahead of what is wrong with the plan; books L and M; books on each limit; random books with plans that keep the rules, with
few borders and with many, and with plans of every kind; each refusal of a book, with nothing lent too."""
import functools
from collections import Counter

from .. import reference
from ..books import Spec, spec_bytes
from ..carrying_books import carried_plans
from ..counts import listed
from ..features import list_features
from ..inputs import plan_bytes
from ..known import (BOOK_CARRIED, BOOK_L, CARRYING, CROSSING, FORK, LIST_CARRIED, PLAN_CARRIED, PLAN_L, THREE, TWO, chasing, circling, far,
                     limit_nodes, list_of, parted)
from ..reference import GONE
from .plans import (FIRST, PARTED, SECOND, broken_cases, document_cases, lent_cases, lent_somehow, limit_cases, plan_case, random_cases,
                    refused_cases, ruled)
from .records import ACCEPTED

NAME, SEED = "carriers.cases", 31
# of how many random books borders carry plans; how many others there are, and of each the most plans that keep the rules, and how many others
CARRIED, BOOKS, KEPT, OTHERS = 68, 40, 4, 2
# how often an answer has to occur
OFTEN = {**{str(n): 4 for n in range(1, 12)}, "12": 30, "15": 60, "16": 60, ACCEPTED: 200}

case = functools.partial(plan_case, "C")


def worked(book, plan, carriers, room=None):
    """A case whose list was worked out beforehand."""
    assert reference.list_carriers(book, plan) == (b"accepted\n", carriers)
    return case(book, plan, ACCEPTED, room)


# ------------------------------------------------------------ what a list has


def standing_cases():
    """P5's cases of one interval, with as much lent as there is and as is needed."""
    for kinds, *given, entries in CARRYING:
        for room in (None, 4 * kinds.count(1)):
            yield worked(*parted(kinds, *given), list_of(*entries), room)


def late_cases():
    """Trains that are absent at first: the earliest interval in which two meet, and of that the first pair."""
    for late, T, entry in (([(1, 1)], 3, (1, 1, 0, 1)), ([(0, 2)], 3, (1, 2, 0, 1)), ([(0, 1), (1, 2)], 3, (1, 2, 0, 1)),
                           ([(1, 99)], 101, (1, 99, 0, 1)), ([(1, 255)], 256, (1, 255, 0, 1)), ([(0, 255), (1, 255)], 256, (1, 255, 0, 1))):
        yield worked(*parted((0, 1, 0), TWO, (0, 1, 0), (0, 1), late, T), list_of(entry))
    for late, entry in (([], (1, 0, 0, 1)), ([(0, 1)], (1, 0, 1, 2)), ([(1, 1)], (1, 0, 0, 2)), ([(2, 1)], (1, 0, 0, 1)),
                        ([(0, 1), (1, 1)], (1, 1, 0, 1)), ([(1, 1), (2, 2)], (1, 1, 0, 1)), ([(0, 1), (1, 2)], (1, 1, 0, 2))):
        yield worked(*parted((0, 1, 0, 0), FORK, (0, 1, 0, 0), (2, 0, 1), late, 3), list_of(entry))
    # of two pairs one comes late
    yield worked(*parted((0, 1, 0, 0, 0), CROSSING, (0, 1, 0, 0, 0), (0, 2, 3, 1), [(0, 1)], 2), list_of((1, 0, 1, 2)))
    yield worked(*parted((0, 1, 0, 0, 0), CROSSING, (0, 1, 0, 0, 0), (0, 2, 3, 1), [(1, 1)], 2), list_of((1, 0, 0, 3)))


def eight_cases():
    """Eight trains about a node, some of which come later; and eight of whom one pair has one TTD."""
    segments = [(0, s + 1, 0) for s in range(8)]
    for early in (range(8), (6, 7), (0, 7), (2, 5, 3), (7, 4)):
        pair = sorted(early)[:2]
        late = [(train, 1) for train in range(8) if train not in early]
        yield worked(*parted([1] + [0] * 8, segments, [1] + [0] * 8, range(8), late, 2), list_of((0, 0, *pair)))
    for lower, higher in ((0, 7), (3, 4), (6, 7)):
        segments = [(0, s + 1, 0 if s in (lower, higher) else s + 1) for s in range(8)]
        yield worked(*parted([1] + [0] * 8, segments, [1] + [0] * 8, range(8)), list_of((0, 0, lower, higher)))


def moving(place, borders, moves):
    """Three segments of one TTD in a row, the first two joined. Train 0 stands on segment 2, beside node 2, by run 4; train 1 has its place on the
    others, and moves so. A train of one segment has runs [0] to [5], [0,2] and [3,1], one of two the last two."""
    spec = Spec(100, 10, len(moves))
    spec.nodes, spec.segments, spec.joins = [0, 1, 1, 0], list(THREE), [(1, 0, 1)]
    spec.trains, spec.calls = [(100, 36, 0, [4]), (100 * len(place), 36, 0, place)], [(0, 2, 0, 1), (1, 0, 0, 1)]
    return spec_bytes(spec), plan_bytes(borders, [[4] * len(moves), list(moves)])


def moving_cases():
    """A train that moves up to a border, in each interval or not at all; the border that it leaves behind carries nothing."""
    for moves, entries in (((6, 2, 2), [(2, 0, 0, 1)]), ((0, 6, 2), [(2, 1, 0, 1)]), ((0, 0, 6), [(2, 2, 0, 1)]), ((0, 0, 0), [])):
        yield worked(*moving([0], (0, 1, 1, 0), moves), list_of(*entries))
    # with one border its section reaches up to there from the first
    for moves in ((0, 6, 2), (0, 0, 0)):
        yield worked(*moving([0], (0, 0, 1, 0), moves), list_of((2, 0, 0, 1)))
    yield case(*moving([0], (0, 1, 0, 0), (0, 6, 2)), "16 6")
    yield worked(*moving([0], (0, 1, 0, 0), (0, 0, 0)), list_of((1, 0, 0, 1)))
    # and a border under a train
    yield worked(*moving([0, 2], (0, 1, 1, 0), (0,)), list_of((2, 0, 0, 1)))


def gone_cases():
    """A train that is there with the other, that is gone then, and that is gone before it comes."""
    for first, entries in ((FIRST, [(1, 1, 0, 1)]), ([1, 1, GONE], [(1, 1, 0, 1)]), ([1, GONE, GONE], [])):
        yield worked(ruled([1]), plan_bytes(PARTED, [first, SECOND]), list_of(*entries))


def last_cases():
    """The last node, interval and trains; the longest list, with what is needed lent; the same without the last interval, in which trains come to
    node 1; and as many borders, none of which carries, in as many intervals as there may be."""
    yield worked(*far(1))
    yield worked(*far(256))
    yield worked(*chasing(52), 4 * 64)
    data, plan, carriers = chasing(51)
    yield worked(data, plan, carriers[:4] + carriers[8:])
    yield worked(*circling(256, bordered=True), b"")


# ------------------------------------------------------------------- all of it


def many_nodes():
    """As many nodes as there may be, each with a border that may be set, of which one carries. Book, plan and list."""
    spec = limit_nodes(0)
    segments = [(a, b, 0) for a, b, _ in spec.segments]
    return (*parted(spec.nodes, segments, [1] * 96, (0, 2)), list_of((0, 0, 0, 1)))


def carried_cases(rng):
    for number in range(CARRIED):
        for data, book, plan in carried_plans(rng, ("tiny", "small", "small", "large")[number % 4]):
            yield lent_somehow(case, rng, data, plan, reference.carriers_length(book))


def all_records(rng):
    yield worked(BOOK_L, PLAN_L, b"", 0)
    yield from document_cases(case)
    yield from standing_cases()
    yield from late_cases()
    yield from eight_cases()
    yield from moving_cases()
    yield from gone_cases()
    yield from last_cases()
    yield from broken_cases(case, 4)
    for data, plan, carriers, length in ((BOOK_CARRIED, PLAN_CARRIED, LIST_CARRIED, 12), (*many_nodes(), 4 * 96)):
        yield worked(data, plan, carriers)
        yield from lent_cases(case, data, plan, length, 4)
    yield from limit_cases(case)
    yield from carried_cases(rng)
    yield from random_cases(case, rng, reference.carriers_length, BOOKS, KEPT, OTHERS)
    yield from refused_cases(case, rng)


def records(rng, note):
    tally = Counter()
    for record in all_records(rng):
        _, carriers = reference.list_carriers(*record.parts[:2])
        tally.update(() if carriers is None else list_features(carriers))
        yield record
    note(f"lists: {listed(tally)}")
