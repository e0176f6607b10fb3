"""Books that are read: book L and a book with every kind of frame, cut at every byte; L with every byte damaged in four ways, the other
with each field wrong by one; a train whose row comes back; each limit met and passed by one, and as many intervals as there may be; old books;
random and damaged books, some with many intervals."""
import itertools

from ..books import Spec, encode, frames_of, put, spec_bytes
from ..known import BOOK_L, LIMITS, OLD_L, book_m, great_ring, late_m, lone_spec
from ..random_books import damaged_book, random_book, rich_spec, wrong_fields
from ..reference import CALL, HEAD, NEW, OLD, TRAIN, fields_bytes
from .records import Record

NAME, SEED, COUNT = "reading.cases", 77, 740


def returning():
    """A train whose row comes back to its first segment, every step of it joined."""
    spec = Spec(100, 10, 1)
    spec.nodes = [1, 1]
    spec.segments = [(0, 1, 0), (1, 0, 0)]
    spec.joins = [(0, 0, 1), (1, 0, 1)]
    spec.trains = [(300, 36, 0, [0, 2, 0])]
    spec.calls = [(0, 0, 0, 1)]
    return spec_bytes(spec)


def many_intervals(rich):
    """T, a departure and a call's times about 255 and 256."""
    for T in (32, 33, 255, 256, 257, 512, 65535):
        yield spec_bytes(lone_spec(T, 0, 0, T))
    for times in ((254, 0, 256), (255, 255, 256), (255, 256, 256), (256, 0, 256), (255, 0, 257), (255, 256, 255), (0, 257, 257)):
        yield spec_bytes(lone_spec(256, *times))
    yield late_m(256)
    yield great_ring(256)
    frames = frames_of(rich)
    put(frames, HEAD, 0, fields_bytes(HEAD, (rich.rs, rich.rt, 256), NEW))
    yield encode(frames)


def old_books(rich):
    """Old books, and one old frame among those of the format in force."""
    yield OLD_L
    yield book_m(0, 1, OLD)
    yield spec_bytes(rich, OLD)
    old = frames_of(rich, OLD)
    for kind in (HEAD, TRAIN, CALL):
        frames = frames_of(rich)
        at = [frame[0] for frame in frames].index(kind)
        frames[at] = old[at]
        yield encode(frames)


def made_books(rich):
    for whole in (BOOK_L, spec_bytes(rich)):
        for at in range(len(whole) + 1):
            yield whole[:at]
    for wrong in wrong_fields(rich.T):
        frames = frames_of(rich)
        put(frames, *wrong)
        yield encode(frames)
    yield returning()
    for at in range(len(BOOK_L)):
        for value in (0, 1, 255, (BOOK_L[at] + 1) % 256):
            yield BOOK_L[:at] + bytes([value]) + BOOK_L[at + 1:]
    for maker in LIMITS:
        for over in (0, 1):
            yield spec_bytes(maker(over))
    yield from many_intervals(rich)


def books(rng):
    """The made ones, then random ones for ever."""
    yield from made_books(rich_spec(rng))
    while True:
        yield damaged_book(rng) if rng.random() < 0.8 else random_book(rng, rng.choice(("tiny", "tiny", "tiny", "long")))


def records(rng, note):
    for data in old_books(rich_spec(rng)):
        yield Record("B", data, said="4 0")
    for data in itertools.islice(books(rng), COUNT):
        yield Record("B", data)
