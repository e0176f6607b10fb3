"""Run lists: document 01's books and cases on runs, P3's edges, each limit met and passed by one, rows with trains of any l and k, random
books and damaged ones. Of random books forty have a long list."""
from ..books import spec_bytes
from ..known import BOOK_L, LIMITS, SPEEDS, add_train, book_m, row_spec, speed_spec
from ..random_books import damaged_book, random_book, random_lengths
from .records import Record, runs_answer

NAME, SEED = "runs.cases", 91
# how many random books, the most bytes that a short list has, and how many books may have a longer one
BOOKS, SHORT, LONG = 300, 500, 40


def longer_trains(rng):
    """A row of ten segments, perhaps with a join gone, and trains with any l and k."""
    spec = row_spec(10)
    if rng.random() < 0.3:
        spec.joins.remove(rng.choice(spec.joins))
    spec.trains, spec.calls = [], []
    for _ in range(rng.randint(1, 4)):
        l = rng.randint(1, 8)
        first = rng.randint(0, 10 - l)
        place = [2 * s for s in range(first, first + l)]
        if rng.random() < 0.5:
            place = [x + 1 for x in reversed(place)]
        length, speed = random_lengths(rng, spec, l, rng.randint(1, 8))
        add_train(spec, place, length=length, speed=speed)
    return spec_bytes(spec)


def made_books():
    yield BOOK_L
    yield book_m(0, 1)
    for joined in (True, False):
        yield spec_bytes(row_spec(2, joined))
    for rs, rt, speed, _ in SPEEDS:
        yield spec_bytes(speed_spec(rs, rt, speed))
    for length in (100, 101, 800, 801):
        yield spec_bytes(row_spec(9, length=length))
    for maker in LIMITS:
        for over in (0, 1):
            yield spec_bytes(maker(over))


def random_books(rng):
    while True:
        kind = rng.random()
        if kind < 0.1:
            yield damaged_book(rng)
        elif kind < 0.4:
            yield longer_trains(rng)
        else:
            yield random_book(rng, "long" if kind < 0.42 else "tiny" if kind < 0.6 else "small")


def records(rng, note):
    for data in made_books():
        yield Record("R", data)
    done = long = 0
    for data in random_books(rng):
        record = Record("R", data)
        if len(runs_answer(record, {}).data) > SHORT:
            if long == LONG:
                continue
            long += 1
        yield record
        done += 1
        if done == BOOKS:
            return
