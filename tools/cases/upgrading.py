"""Old books that are rewritten: books L and M and a book with every kind of frame, some frames repeated, cut at every byte; L with every byte
damaged in four ways, the other with each field wrong by one; each limit met and passed by one; as many intervals as an old book has, and one
more; P3's edges; books of the format in force; as much lent as the new book is long, a byte less and a byte more; then random and damaged
old books."""
from .. import reference
from ..books import encode, frames_of, put, spec_bytes
from ..known import BOOK_L, LIMITS, OLD_L, SPEEDS, book_m, explosion, late_m, limit_joins, lone_spec, speed_spec
from ..random_books import book_to_rewrite, damaged_book, random_old_book, rich_spec, wrong_fields
from ..reference import CALL, HEAD, NEW, OLD, TRAIN, UNBREAKABLE
from .records import ACCEPTED, Record, lending

NAME, SEED = "upgrading.cases", 23
# how many random books there are, and the most bytes of one
BOOKS, MOST_BOOK = 100, 400
# how often an answer has to occur
OFTEN = {**{str(n): 2 for n in range(1, 13)}, ACCEPTED: 60}

OLD_M = book_m(0, 1, OLD)


def case(old, said=None, room=None):
    """An old book, the answer's line where it is known, and how much is lent where that is not all."""
    return Record("U", old, b"", b"" if room is None else lending("U", room), said)


def document_cases(rich):
    """Document 01's books, and one with every kind of frame, whole and cut."""
    for old in (OLD_L, OLD_M, book_m(0, 0, OLD), rich):
        yield case(old, ACCEPTED)
    for whole in (OLD_L, OLD_M, rich):
        for at in range(len(whole)):
            yield case(whole[:at], "1 0")
    for tail in (b"\0", bytes(4), OLD_L):
        yield case(OLD_L + tail, "3 0")


def damaged_cases(rich):
    for at in range(len(OLD_L)):
        for value in (0, 1, 255, (OLD_L[at] + 1) % 256):
            yield case(OLD_L[:at] + bytes([value]) + OLD_L[at + 1:])
    for wrong in wrong_fields(rich.T, OLD):
        frames = frames_of(rich, OLD)
        put(frames, *wrong)
        yield case(encode(frames))


def interval_cases():
    """T, departure and windows at their greatest."""
    for T, said in ((1, ACCEPTED), (31, ACCEPTED), (32, ACCEPTED), (33, "6 0"), (255, "6 0"), (0, "6 0")):
        yield case(spec_bytes(lone_spec(T, 0, 0, T), OLD), said)
    for times, said in (((31, 32, 32), ACCEPTED), ((31, 0, 0), ACCEPTED), ((32, 0, 32), "6 0"), ((0, 0, 33), "6 0"), ((0, 32, 31), "6 0")):
        yield case(spec_bytes(lone_spec(32, *times), OLD), said)


def speed_cases():
    """P3's edges and exact halves."""
    for rs, rt, speed, k in SPEEDS:
        yield case(spec_bytes(speed_spec(rs, rt, speed), OLD), ACCEPTED if 1 <= k <= 8 else "7 0")


def limit_cases():
    """Limits met where the book is short; passed by one. The length of the answer is that of the new book."""
    for maker in LIMITS:
        for over in (0, 1):
            data = spec_bytes(maker(over), OLD)
            if len(data) <= 900:
                yield case(data)
    # all that is too much is told before 12
    yield case(spec_bytes(explosion(0), OLD), "11 0", 0)
    yield case(spec_bytes(limit_joins(1), OLD), "5 0", 0)


def other_formats(rich):
    """Books of the format in force, and a frame of it in an old book."""
    for new in (BOOK_L, book_m(0, 1), late_m(256), spec_bytes(rich), BOOK_L[:-1], reference.upgrade_book(spec_bytes(rich, OLD))):
        yield case(new, "4 0")
    yield case(BOOK_L[:9], "1 0")
    old, new = frames_of(rich, OLD), frames_of(rich, NEW)
    for at, (kind, _) in enumerate(old):
        if kind in (HEAD, TRAIN, CALL):
            yield case(encode(old[:at] + [new[at]] + old[at + 1:]), "4 0")


def repeats(rich):
    """Unbreakable frames that are there again, many times, and a repeat ahead of one that 9 refuses."""
    frames = frames_of(rich, OLD)
    last = frames[-2:-1]
    assert last[0][0] == UNBREAKABLE
    for times in (1, 2, 7, 40):
        yield case(encode(frames[:-1] + last * times + frames[-1:]), ACCEPTED)
    wrong = frames_of(rich, OLD)
    put(wrong, reference.NODE, 1, [1])
    yield case(encode(wrong[:-1] + last + wrong[-1:]), "9 0")


def lent_cases(old):
    """The new book's length lent, one byte less, one more, and none; behind it the output stays as it was."""
    length = len(reference.upgrade_book(old))
    for room, said in ((length, ACCEPTED), (length + 1, ACCEPTED), (length + 100, ACCEPTED), (length - 1, "12 0"), (len(old), "12 0"),
                       (1, "12 0"), (0, "12 0")):
        yield case(old, said, room)
    # the book before 12
    yield case(old[:-1], "1 0", 0)
    yield case(old + b"\0", "3 0", 0)


def random_cases(rng):
    done = 0
    while done < BOOKS:
        old = book_to_rewrite(rng)
        if len(old) > MOST_BOOK:
            continue
        done += 1
        yield case(old)
        if done % 10 == 0 and reference.entry_upgrade_book(old, 1000)[0] == "accepted":
            yield case(old, "12 0", len(reference.upgrade_book(old)) - 1)


def refused_cases(rng, each):
    """Each refusal of a book, with nothing lent."""
    left = {number: each for number in range(1, 12)}
    while any(left.values()):
        old = damaged_book(rng, OLD)
        found = reference.entry_upgrade_book(old, 0)
        if len(old) <= 2 * MOST_BOOK and left.get(found[1]):
            left[found[1]] -= 1
            yield case(old, f"{found[1]} 0", 0)


def records(rng, note):
    rich = rich_spec(rng)
    yield from document_cases(spec_bytes(rich, OLD))
    yield from damaged_cases(rich)
    yield from interval_cases()
    yield from speed_cases()
    yield from limit_cases()
    yield from other_formats(rich)
    yield from repeats(rich)
    for old in (OLD_L, OLD_M, spec_bytes(rich, OLD), random_old_book(rng)):
        if reference.entry_upgrade_book(old, 65536)[0] == "accepted":
            yield from lent_cases(old)
    yield from random_cases(rng)
    yield from refused_cases(rng, 2)
