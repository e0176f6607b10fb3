"""Formulas: the empty input, document 01's books, books on each limit, a text of more than 64 KiB, rings whose formulas have just as many
words as the programs lend, one more and far more, smaller rings, books with up to 256 intervals, random and damaged books. A text of more than
a thousand bytes is stored as its length and checksum; of one ring, and of the text that is printed in pieces, it is stored whole as well. Then
as many words lent as there are, and one too few; and each refusal of a book, with no word lent."""
import itertools

from .. import reference
from ..books import EXIT, spec_bytes
from ..known import BOOK_L, LIMITS, OLD_L, RINGS, SMALL_RINGS, add_train, book_m, great_ring, late_m, lone_spec, ring, star
from ..random_books import damaged_book, random_book, refused_books
from .records import Record, formula_answer, lending

NAME, SEED = "formula.cases", 5
# how many random books there are, and the most bytes of a text that is stored whole
BOOKS, WHOLE = 270, 1000


def word_count(data):
    """How many words the formula has, whether or not they fit."""
    return reference.word_count(reference.each_clause(reference.read_book(data)))


def long_text():
    """All intervals and all nodes, so that the literals have many figures: a text of more than 64 KiB."""
    spec = star(3, 32)
    spec.nodes = [EXIT] * 4 + [0] * 92
    for train in range(4):
        add_train(spec, [2 * (train % 3)])
    data = spec_bytes(spec)
    assert 13000 < word_count(data) <= reference.LENT_WORDS and len(reference.print_formula(data)) > 65536
    return data


def long_books():
    """Many intervals: T above 32, a departure and a window that need two bytes, and a formula that is too long."""
    for times in ((33, 0, 0, 33), (33, 32, 33, 33), (255, 254, 0, 255), (256, 0, 0, 256), (256, 0, 256, 256), (256, 255, 256, 256),
                  (256, 255, 0, 254)):
        yield spec_bytes(lone_spec(*times))
    yield from (late_m(33), late_m(256), great_ring(256))


def made_books():
    yield b""
    yield OLD_L
    yield BOOK_L
    for last in (0, 1):
        yield book_m(0, last)
    for maker in LIMITS:
        for over in (0, 1):
            yield spec_bytes(maker(over))
    yield long_text()
    for count, shape in RINGS:
        data = ring(*shape)
        assert word_count(data) == count
        yield data
    for shape in SMALL_RINGS:
        yield ring(*shape)
    yield from long_books()


def random_books(rng):
    while True:
        kind = rng.random()
        if kind < 0.2:
            yield damaged_book(rng)
        else:
            yield random_book(rng, "long" if kind < 0.25 else "tiny" if kind < 0.8 else "small")


def short(data, cap=None):
    """Whether the text is stored whole."""
    return len(formula_answer(Record("F", data, cap=cap), {}).data) <= WHOLE


def just_enough(data, question):
    """As many words lent as the formula has, one too few, and none; one more than enough."""
    count = word_count(data)
    for words in (count, count - 1, 0, count + 1):
        asked = question if words >= count else "F"
        yield Record(asked, data, b"", lending(asked, words), None if words >= count else "12 0")


def records(rng, note):
    for data in itertools.chain(made_books(), itertools.islice(random_books(rng), BOOKS)):
        yield Record("F" if short(data) else "D", data)
    yield Record("F", ring(*SMALL_RINGS[0]))
    yield Record("F", long_text())
    for data in (BOOK_L, book_m(0, 0), book_m(0, 1), spec_bytes(LIMITS[3](0))):
        yield from just_enough(data, "F" if short(data) else "D")
    for shape in SMALL_RINGS:
        yield from just_enough(ring(*shape), "D")
    for data in (late_m(33), late_m(256), spec_bytes(lone_spec(256, 0, 0, 256))):
        yield from just_enough(data, "D")
    # the book before 12
    for number, data in refused_books(rng, 3):
        yield Record("F", data, b"", lending("F", 0), f"{number} 0")
