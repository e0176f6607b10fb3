"""Assignments and plans: book L with its assignment and its plan cut, lengthened and spoiled at each byte; book M; books on each limit; as
much lent as there is, and one byte too little; more variables than a slice holds, and nearly as many; more than 32 intervals; trains that
leave over an exit, and that may not; damaged books;
then random books, each with assignments and plans that satisfy or keep all, that nearly do, and hostile ones; each refusal of a book."""
import struct

from .. import reference
from ..books import spec_bytes
from ..inputs import plan_bytes
from ..known import ASSIGNMENT_L, BOOK_L, LEAVING, LIMITS, PLAN_L, book_m, great_ring, leaving_spec, lone_spec
from ..random_books import damaged_book, random_book, refused_books
from ..random_inputs import random_assignments, random_plans, solved
from .records import Record, lending

NAME, SEED = "checks.cases", 7
BOOKS = 60


def changed(data, at):
    """The bytes with one changed: 0 to 1, and any other to 0."""
    return data[:at] + bytes([0 if data[at] else 1]) + data[at + 1:]


def edges(good):
    """What is nearly an input: nothing, one byte short or long, a byte 2, all zeros, all ones, each byte changed."""
    yield from (b"", good[:-1], good + b"\0", b"\2" + good[1:], good[:-1] + b"\2", bytes(len(good)), b"\1" * len(good))
    for at in range(len(good)):
        yield changed(good, at)


def document_cases():
    """Books L and M."""
    for second in (ASSIGNMENT_L, *edges(ASSIGNMENT_L)):
        yield Record("A", BOOK_L, second)
    for second in (PLAN_L, *edges(PLAN_L), PLAN_L[:2] + b"\xfe\xff", PLAN_L[:2] + b"\xff\xff", PLAN_L[:2] + b"\3\0"):
        yield Record("P", BOOK_L, second)
    for data in (book_m(0, 1), book_m(0, 0)):
        book = reference.read_book(data)
        yield Record("A", data, bytes(reference.Variables(book).count))
        yield Record("P", data, bytes(reference.plan_length(book)))


def limit_cases():
    for maker in LIMITS:
        for over in (0, 1):
            data = spec_bytes(maker(over))
            yield Record("A", data)
            yield Record("P", data)


def lent_cases(data, assignment, plan):
    """Just enough lent, one byte too little, and none; 12 comes ahead of what is wrong with the input, and behind the book."""
    for question, second, length in (("A", assignment, len(plan)), ("P", plan, len(assignment))):
        yield Record(question, data, second, lending(question, length))
        yield Record(question, data, second, lending(question, length + 1))
        for less in (length - 1, 0):
            yield Record(question, data, second, lending(question, less), "12 0")
        yield Record(question, data, b"", lending(question, length - 1), "12 0")
        yield Record(question, data[:-1], second, lending(question, 0), "1 0")


def great_ring_cases():
    """More variables than a slice holds (12), and nearly as many: trains that stand, their assignment with a claim changed, and a byte too
    little lent for it. That a result which fills the slice is written is a case of the commands."""
    for intervals in (32, 256):
        yield Record("A", great_ring(intervals), b"", b"", "13 0")
        yield Record("P", great_ring(intervals), b"", b"", "12 0")
    data = great_ring(24)
    plan = bytes(64) + b"".join(
        struct.pack("<H", 65534 if t < train % 3 else 2 * train) for train in range(8) for t in range(24))
    good = reference.check_two("check_plan", data, plan)[1]
    assert 60000 < len(good) <= 65536
    yield Record("P", data, plan, lending("P", len(good) - 1), "12 0")
    yield Record("A", data, good, b"", "accepted")
    yield Record("A", data, changed(good, len(good) - 70))


def absent_before(T, departure):
    """A plan of the lone train: no border, absent, and then it stands."""
    return bytes(2) + b"\xfe\xff" * departure + bytes(2 * (T - departure))


def long_cases():
    """A train that departs late, and a call that only the last time meets: the plan, a plan with a wrong move, gone at the end, and what is
    lent one byte too little."""
    for T, departure, first in ((33, 31, 33), (256, 255, 256), (256, 0, 256)):
        data, plan = spec_bytes(lone_spec(T, departure, first, T)), absent_before(T, departure)
        good = reference.check_two("check_plan", data, plan)[1]
        yield Record("P", data, plan, b"", "accepted")
        yield Record("A", data, good, b"", "accepted")
        yield Record("P", data, plan[:-2] + b"\xff\xff", b"", "16 3" if departure + 1 < T else "16 2")
        yield Record("P", data, plan[:-2] + b"\1\0", b"", "16 4" if departure + 1 < T else "16 2")
        yield Record("P", data, plan[:-2], b"", "15 0")
        yield Record("P", data, plan, lending("P", len(good) - 1), "12 0")
        yield Record("A", data, changed(good, len(good) - 1))
        yield Record("A", data, good, lending("A", len(plan) - 1), "12 0")
    # the window ends before the train is there
    data = spec_bytes(lone_spec(256, 255, 0, 254))
    yield Record("P", data, absent_before(256, 255), b"", "16 5")


def leaving_cases():
    """P4's cases: the plan, and with a border at each node, which none of them may have; and the least claims of each as an assignment."""
    for kinds, place, goal, departure, moves, rule in LEAVING:
        data = spec_bytes(leaving_spec(kinds, place, goal, departure))
        for borders in ([0, 0, 0], [1, 0, 0], [0, 1, 0], [0, 0, 1]):
            least = 1 if any(borders) else rule
            yield Record("P", data, plan_bytes(borders, [list(moves)]), b"", f"16 {least}" if least else "accepted")
            yield Record("A", data, reference.write_assignment(reference.read_book(data), borders, [list(moves)]))


def random_cases(rng):
    done = 0
    while done < BOOKS:
        if rng.random() < 0.1:
            yield Record("A", damaged_book(rng), b"\0")
            yield Record("P", damaged_book(rng), b"\0")
            continue
        size = "long" if done == 30 else "small" if rng.random() < 0.3 else "tiny"
        data = random_book(rng, size)
        try:
            book = reference.read_book(data)
        except reference.Refused:
            continue
        done += 1
        good = solved(book)
        for second in random_assignments(rng, book, 5, good):
            yield Record("A", data, second)
        for second in random_plans(rng, book, 10, good):
            yield Record("P", data, second)
        if good and done % 6 == 0:
            yield from lent_cases(data, good, reference.decode(book, good))


def records(rng, note):
    yield from document_cases()
    yield from limit_cases()
    yield from lent_cases(BOOK_L, ASSIGNMENT_L, PLAN_L)
    yield from great_ring_cases()
    yield from long_cases()
    yield from leaving_cases()
    yield from random_cases(rng)
    for number, data in refused_books(rng, 3):
        yield Record("A", data, ASSIGNMENT_L, lending("A", 0), f"{number} 0")
        yield Record("P", data, PLAN_L, b"", f"{number} 0")
