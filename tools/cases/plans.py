"""What the cases of train graphs and those of lists of carriers share: books L and M; a book with plans that break each rule; how much is lent; books
on each limit; random plans; refused books. A `case` is made of a book and a plan, the answer's line where it is known, and how much is lent where
that is not all."""
import itertools

from .. import reference
from ..books import EXIT, Spec, spec_bytes
from ..inputs import plan_bytes
from ..known import BOOK_L, LIMITS, PLAN_L, book_m
from ..passing_books import passing_book
from ..random_books import random_book, refused_books
from ..random_inputs import kept_plans, random_plans, solved
from ..reference import ABSENT, GONE
from .checks import edges
from .records import ACCEPTED, Record, lending


def plan_case(question, book, plan, said=None, room=None):
    return Record(question, book, plan, b"" if room is None else lending(question, room), said)


def document_cases(case):
    """Book L's plan cut, lengthened and spoiled at each byte; book M has no plan."""
    for plan in edges(PLAN_L):
        yield case(BOOK_L, plan)
    for move, said in ((ABSENT, "16 2"), (GONE, "16 2"), (2, "15 0"), (ABSENT - 1, "15 0")):
        yield case(BOOK_L, plan_bytes([0, 0], [[move]]), said)
    for last in (0, 1):
        yield case(book_m(0, last), bytes(5), "16 5")


# --------------------------------------------------------- each rule broken


def ruled(place):
    """Two trains on neighbouring segments of one TTD, which a border at node 1 parts: runs [0] [1] [2] [3] [0,2] [3,1]. Both ends of the line are
    exits. The first train has this place on segment 0; the second faces the exit, departs in interval 1, and has to be on its segment at the last
    time. Beside the line are nodes of kinds 2 and 0."""
    spec = Spec(100, 10, 3)
    spec.nodes, spec.segments, spec.joins = [EXIT, 1, EXIT, 2, 0], [(0, 1, 0), (1, 2, 0)], [(1, 0, 1)]
    spec.trains, spec.calls = [(100, 36, 0, place), (100, 36, 1, [2])], [(0, 0, 0, 3), (1, 1, 3, 3)]
    return spec_bytes(spec)


# borders and moves of that book, with the answer: of a first train that faces its exit
PARTED, WHOLE = (0, 1, 0, 1, 0), (0, 0, 0, 1, 0)
FIRST, SECOND = [1, 1, 1], [ABSENT, 2, 2]
BROKEN = (
    ("16 1", (1, 1, 0, 1, 0), FIRST, SECOND), ("16 1", (0, 1, 1, 1, 0), FIRST, SECOND), ("16 1", (0, 1, 0, 0, 0), FIRST, SECOND),
    ("16 1", (0, 1, 0, 1, 1), FIRST, SECOND),
    ("16 2", PARTED, [ABSENT, 1, 1], SECOND), ("16 2", PARTED, [2, 2, 2], SECOND), ("16 2", PARTED, FIRST, [2, 2, 2]),
    ("16 2", PARTED, FIRST, [GONE, 2, 2]), ("16 2", PARTED, [1, 1, ABSENT], SECOND),
    ("16 3", PARTED, [1, GONE, 1], SECOND), ("16 3", PARTED, [1, 4, GONE], SECOND),
    ("16 4", PARTED, [1, 0, 0], SECOND), ("16 4", PARTED, FIRST, [ABSENT, 2, 3]),
    ("16 5", PARTED, FIRST, [ABSENT, 2, GONE]),
    ("16 6", WHOLE, FIRST, SECOND),
    # the least of several
    ("16 1", (1, 0, 0, 1, 0), [1, 0, 0], SECOND), ("16 2", WHOLE, [0, 1, GONE], SECOND), ("16 4", WHOLE, [1, 0, 0], [ABSENT, 2, GONE]),
    # no run, no border: ahead of a broken rule
    ("15 0", PARTED, [1, 1, 6], SECOND), ("15 0", PARTED, FIRST, [ABSENT, 2, ABSENT - 1]), ("15 0", PARTED, [256, 1, 1], SECOND),
    ("15 0", (0, 2, 0, 1, 0), FIRST, SECOND), ("15 0", (255, 1, 0, 1, 0), FIRST, SECOND), ("15 0", (1, 0, 0, 0, 0), [0, 1, GONE], [6, 6, 6]),
)


# and of one that faces the other train: gone at an exit and not at its goal, runs that do not follow, into the other's section
FACING = (
    ("16 3", PARTED, [4, GONE, GONE], SECOND), ("16 3", PARTED, [0, 0, GONE], SECOND),
    ("16 4", PARTED, [0, 1, 1], SECOND), ("16 4", PARTED, [4, 0, 0], SECOND),
    ("16 6", PARTED, [0, 0, 4], SECOND), ("16 6", WHOLE, [0, 0, 0], SECOND),
)


def broken_cases(case, length):
    """Each rule broken, with as much lent as is needed; 12 comes ahead of each, where a byte less is lent."""
    for data, said, borders, *moves in [(ruled([1]), *row) for row in BROKEN] + [(ruled([0]), *row) for row in FACING]:
        yield case(data, plan_bytes(borders, moves), said)
        yield case(data, plan_bytes(borders, moves), said, length)
        yield case(data, plan_bytes(borders, moves), "12 0", length - 1)


# ---------------------------------------------------------- what is refused


def lent_cases(case, data, plan, length, piece):
    """What is needed lent, one byte less, more, a piece less, and none; 12 ahead of a plan's length, and behind the book."""
    for room, said in ((length, ACCEPTED), (length + 1, ACCEPTED), (length + 100, ACCEPTED), (length - 1, "12 0"), (length - piece, "12 0"),
                       (1, "12 0"), (0, "12 0")):
        yield case(data, plan, said, room)
    for other in (b"", plan[:-1], plan + b"\0"):
        yield case(data, other, "15 0", length)
        yield case(data, other, "12 0", length - 1)
    yield case(data[:-1], plan, "1 0", 0)
    yield case(data + b"\0", plan, "3 0", 0)


def limit_cases(case):
    for maker in LIMITS:
        for over in (0, 1):
            yield case(spec_bytes(maker(over)), b"")


def refused_cases(case, rng):
    """Each refusal of a book, with nothing lent too."""
    for number, data in refused_books(rng, 2):
        yield case(data, PLAN_L, f"{number} 0", 0)
        yield case(data, PLAN_L, f"{number} 0")


# ------------------------------------------------------------- random plans


def some_book(rng, number):
    """Tiny, small, or with trains that pass each other."""
    return passing_book(rng) if number % 3 == 0 else random_book(rng, "tiny" if number % 3 == 1 else "small")


def some_plans(rng, book, most, others):
    """Of a book that passes, plans of every kind, each once: at most so many that keep the rules, and so many others."""
    good = solved(book)
    kept = itertools.islice(kept_plans(rng, book, 60, good), most) if good else ()
    return dict.fromkeys((*kept, *random_plans(rng, book, others, good)))


def lent_somehow(case, rng, data, plan, length):
    """A case with all lent, with what is needed, with more, or with a byte less."""
    less = rng.choice((None, None, None, None, -2, 0, 0, 1))
    if less is None:
        return case(data, plan)
    room = max(length - less, 0)
    return case(data, plan, "12 0" if room < length else None, room)


def random_cases(case, rng, length_of, books, most, others):
    """Random books with such plans; `length_of` is what is needed for a book."""
    for number in range(books):
        data = some_book(rng, number)
        if reference.entry_read_book(data)[0] == "refused":
            yield case(data, b"\0")
            continue
        book = reference.read_book(data)
        for plan in some_plans(rng, book, most, others):
            yield lent_somehow(case, rng, data, plan, length_of(book))
