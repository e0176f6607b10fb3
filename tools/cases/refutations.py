"""Refutations: book M with each rule on steps met and missed, slices just long enough and one too short at every step, damaged books,
refutations with thousands of steps, books with more than 32 intervals; then random books, most without a plan, with refutations of several
steps, and the same spoiled. Where the answer was found by hand, it stands with the case, and the reference has to give it."""
import collections
import itertools
import struct

from .. import reference
from ..books import Spec, encode, spec_bytes
from ..inputs import TooLong, encode_steps, step_frame
from ..known import BOOK_L, LIMITS, OLD_L, RINGS, SMALL_RINGS, book_m, great_ring, late_m, ring
from ..random_books import random_book, refused_books
from ..random_inputs import damaged_refutation, honest_steps
from ..reference import word_count
from ..small_solver import Solver, refutation_steps
from .records import ACCEPTED, LENT, Record, lending

NAME, SEED, COUNT = "refutations.cases", 11, 1974
# random books are made as long as there is room; the most that a random refutation may have, and how many spoiled ones stand behind it
MOST_FILE, EACH = 400, 2
FULL = LENT["N"]
# their places in what is lent
WORDS, CLAUSES = range(2)
LEAST = -2 ** 31
# how often an answer has to occur
OFTEN = {**{str(n): 3 for n in range(1, 12)}, **{key: 120 for key in (ACCEPTED, "12", "17", "18", "19", "20", "21")}}


def case(said, book, refutation, lent=FULL):
    """A book, a refutation and what is lent; `said` is the answer that is known beforehand, or None."""
    return Record("N", book, refutation, lending("N", *lent), said)


def needed(variables, clauses, steps):
    """What the formula and these steps need of each slice."""
    words = word_count(clauses) + word_count(literals for literals, _ in steps)
    return words, len(clauses) + len(steps), variables, variables


def less(lent, which, by=1):
    """The same with one slice shorter."""
    return tuple(n - by if at == which else n for at, n in enumerate(lent))


# ---------------------------------------------------------------- book M

WIDE, SHUT = book_m(0, 1), book_m(0, 0)
# 10 variables; clauses 1 to 3 are -1, -2, -3; 4 is 4 5 6 7 8; 5 to 14 its pairs, among them 6: -4 -6, 12: -6 -7, 13: -6 -8; 15 to 18
# are -5, -6, -7, -8; 19 is 6 7, empty where the window is shut; 20 is -4 9; 22 is -6 10; 24 is -9 2 10
VARIABLES, FORMULA = reference.formula(reference.read_book(WIDE))
END = ([], [16, 17, 19])
# steps 26 to 29
GOOD = [([6], [19, 17]), ([-4], [26, 6]), ([2, 10], [26, 22]), ([], [26, 16])]
EXACT = needed(VARIABLES, FORMULA, GOOD)


def wide(said, *steps):
    """Book M with its window open and these steps, each a pair or bytes."""
    return case(said, WIDE, b"".join(step if isinstance(step, bytes) else step_frame(*step) for step in steps))


def document_cases():
    for lent in (FULL, (74, 26, 10, 10)):
        yield case(ACCEPTED, WIDE, step_frame([], [16, 17, 19]), lent)
        yield case("20 1", WIDE, step_frame([], [19, 16, 17]), lent)
        yield case(ACCEPTED, SHUT, step_frame([], [19]), lent)
        yield case(ACCEPTED, SHUT, step_frame([], [16, 17, 19]), lent)
        yield case("20 1", SHUT, step_frame([], [19, 16, 17]), lent)
    # the empty clause proves any step, but only as the last hint
    yield case(ACCEPTED, SHUT, encode_steps([([1, -10], [19]), ([], [19])]))
    yield case(ACCEPTED, SHUT, encode_steps([([1], [19]), ([], [26, 1])]))
    yield case("20 2", SHUT, encode_steps([([1], [19]), ([], [26])]))
    yield case("20 1", SHUT, encode_steps([([1], [19, 19]), ([], [19])]))
    # book L has a plan, so that no empty step can pass
    yield case("21 0", BOOK_L, b"")
    yield case("21 0", BOOK_L, step_frame([-4], [7]))
    yield case("20 2", BOOK_L, encode_steps([([-4], [7]), ([], [11, 8, 3, 9])]))


def cut_cases():
    """A good refutation cut at every byte, and zeros in place of what was cut off."""
    data = encode_steps(GOOD)
    ends = [len(encode_steps(GOOD[:n])) for n in range(len(GOOD) + 1)]
    for at in range(len(data)):
        step = sum(end <= at for end in ends)
        yield case("21 0" if at in ends else "17 %d" % step, WIDE, data[:at])
    yield case(ACCEPTED, WIDE, data)
    for at in range(len(data)):
        yield case(None, WIDE, data[:at] + bytes(len(data) - at))


def damaged_frames(literals, hints):
    """Frames of a step that 17 refuses, whatever stands behind them."""
    good = step_frame(literals, hints)
    for kind in (0, 1, 8, 19, 21, 20 + 256, 20 * 256, 65535):
        yield step_frame(literals, hints, kind=kind)
    most = len(literals) + len(hints)
    # 4n passes 16 bits from 16,384 on
    for count in (most + 1, most + 2, 255, 256, 16383, 16384, 16384 + len(literals), 32768, 49152, 65535):
        yield step_frame(literals, hints, count=count)
    for tail in (b"\0", b"\1\0", bytes(3), b"\xff\xff\xff"):
        yield struct.pack("<HH", len(good) - 4 + len(tail), 20) + good[4:] + tail
    for cut in (1, 2, 3):
        yield struct.pack("<HH", len(good) - 4 - cut, 20) + good[4:len(good) - cut]
    yield struct.pack("<HH", 0, 20)
    yield struct.pack("<HH", 1, 20) + b"\0"
    yield struct.pack("<HH", 3, 20) + bytes(3)
    yield struct.pack("<HH", 65535, 20) + good[4:]


def frame_cases():
    for at, step in enumerate(GOOD):
        parts = [step_frame(*s) for s in GOOD]
        for frame in damaged_frames(*step):
            yield wide("17 %d" % (at + 1), *parts[:at], frame, *parts[at + 1:])
        # a wrong length that takes from the next frame, or leaves to it
        for off in (-8, -4, -3, -2, -1, 1, 2, 3, 4, 8):
            frame = struct.pack("<HH", len(parts[at]) - 4 + off, 20) + parts[at][4:]
            said = "17 %d" % (at + 1) if off % 4 else None
            yield wide(said, *parts[:at], frame, *parts[at + 1:])
        # a wrong count that makes literals of hints, or hints of literals
        for count in (len(step[0]) - 1, len(step[0]) + 1, len(step[0]) + 2):
            if count >= 0:
                yield wide(None, *parts[:at], step_frame(*step, count=count), *parts[at + 1:])


def literal_cases():
    """Literals of a step that has -6, so that hint 16 proves it."""
    good = ([-6], [1, -6], [-1, -6], [-6, 7], [-6, -10], [-6, 10], [-1, 2, -6, 10], [1, 2, 3, 4, 5, -6, 7, 8, 9, 10],
            [-1, -2, -3, -4, -5, -6, -7, -8, -9, -10])
    wrong = [0, 11, -11, 12, LEAST, LEAST + 1, LEAST + 6, LEAST + 7, 2 ** 31 - 1, 65536 + 7, -65536 - 7, 2 ** 24 + 7, 256 + 7]
    bad = [[x] for x in wrong] + [[-6, x] for x in wrong] + [[x, -6] for x in wrong] + [[1, x, -6] for x in wrong]
    bad += [[-6, 5], [-6, -5], [7, -6], [-6, 1], [10, -6], [-6, 7, 6], [-6, 8, 7], [1, 3, 2, -6], [-6, 10, 9]]
    bad += [[-6, -6], [-6, 6], [6, -6], [1, 1, -6], [1, -1, -6], [-1, 1, -6], [-6, 10, 10], [-6, 10, -10], [-6, -10, 10]]
    first = ([6], [19, 17])
    for literals in good:
        yield wide(ACCEPTED, (literals, [16]), END)
        yield wide(ACCEPTED, first, (literals, [16]), END)
    for literals in bad:
        yield wide("18 1", (literals, [16]), END)
        yield wide("18 2", first, (literals, [16]), END)
    # in what would be a good empty step
    for x in (LEAST, 2 ** 31 - 1, 0, 11):
        yield wide("18 4", *GOOD[:3], ([x], [26, 16]))


def hint_cases():
    far = (0, 2 ** 31, 2 ** 31 + 16, 2 ** 32 - 1, 2 ** 31 - 1, 65536 + 16, 2 ** 24 + 16, 256 + 16, 8192, 8193, 16384)
    # 19 looks at all hints, wherever the wrong one stands, and before a hint that would refuse or prove the step
    for h in far + (26, 27, 28):
        for hints in ([h], [h, 16], [16, h], [4, h], [h, 4], [16, 16, h], [15, 4, 1, h, 16]):
            yield wide("19 1", ([-6], hints), END)
        yield wide("19 1", ([], [16, 17, 19, h]))
        yield wide("19 1", ([], [16, h, 17, 19]))
    for h in far + (27, 28, 29):
        for hints in ([h], [26, h], [h, 26, 16], [26, 16, h]):
            yield wide("19 2", GOOD[0], ([], hints))
    for h in far + (29, 30):
        yield wide("19 4", *GOOD[:3], ([], [26, h, 16]))
    # the step before is below the step's own number
    yield wide(ACCEPTED, GOOD[0], ([], [26, 16]))
    yield wide("20 2", GOOD[0], ([], [26]))
    yield wide("20 2", GOOD[0], ([], [16]))
    yield wide(ACCEPTED, *GOOD[:1], ([6, 7], [26]), ([1, 6], [26]), ([], [1, 28, 16]))
    yield wide("20 4", *GOOD[:1], ([6, 7], [26]), ([1, 6], [26]), ([], [28, 1, 16]))
    for hints in (
            [],                     # none
            [16], [16, 17],         # run out
            [16, 16, 17, 19], [16, 17, 16, 19],     # repeated, true now
            [16, 17, 19, 16], [16, 17, 19, 19], [16, 17, 19, 1], [16, 17, 19, 4],  # behind the false one
            [4, 16, 17, 19], [16, 4, 17, 19], [19], [19, 19], [20, 16, 17, 19],  # two or more open
            [16, 19, 12, 17], [17, 19, 12, 16], [16, 13, 17, 19], [16, 6, 17, 19],  # one true, the other false or open
            [16, 19], [16, 19, 17, 17], [17, 19, 17], [15, 16, 17, 18, 4, 20], [2, 15, 16, 17, 18, 4, 20, 24, 25]):
        yield wide("20 1", ([], hints))
    for hints in ([16, 19, 17], [17, 19, 16], [17, 16, 19], [1, 2, 3, 18, 16, 15, 17, 19], [15, 1, 16, 19, 17], [16, 17, 18, 15, 4, 19]):
        yield wide(ACCEPTED, ([], hints))
    # the open literal first, last and amid false ones; true ones in each place
    for literals, hints in (([5, 6, 7, 8], [4, 27]), ([4, 5, 7, 8], [4, 16]), ([4, 5, 6, 7], [4, 18]), ([4, 6, 7, 8], [4, 15]),
                            ([4, 5, 6, 7, 8], [4])):
        yield wide(ACCEPTED, *GOOD[:2], (literals, hints), ([], [26, 16]))
        yield wide("20 3", *GOOD[:2], (literals, hints[:-1]), ([], [26, 16]))
        yield wide("20 3", *GOOD[:2], (literals[1:], hints), ([], [26, 16]))
        yield wide("20 3", *GOOD[:2], ([-literals[0]] + literals[1:], hints), ([], [26, 16]))
        yield wide("20 3", *GOOD[:2], (literals[:-1] + [-literals[-1]], hints), ([], [26, 16]))


def state_cases():
    """Clause 24, -9 2 10, with each of its literals false, true or open; hint 16 then proves the step, which has -6."""
    for states in itertools.product("FTO", repeat=3):
        literals = [-6]
        for literal, state in zip((-9, 2, 10), states):
            if state != "O":
                literals.append(literal if state == "F" else -literal)
        literals.sort(key=abs)
        unit = states.count("O") == 1 and "T" not in states
        yield wide(ACCEPTED if unit else "20 1", (literals, [24, 16]), END)
        yield wide(ACCEPTED if states == ("F", "F", "F") else "20 1", (literals, [24]), END)


def ending_cases():
    good = encode_steps(GOOD)
    one = step_frame(*END)
    for start in (good, one):
        for tail in (b"\0", b"\xff", bytes(2), bytes(3), bytes(4), b"\2\0\x14\0", b"\2\0\x14\0\0\0", one, step_frame([-6], [16]),
                     step_frame([], []), step_frame([0], [0]), BOOK_L):
            yield wide("21 0", start, tail)
    yield wide("21 0", *GOOD[:1])
    yield wide("21 0", *GOOD[:3])
    yield wide("21 0", *GOOD[:3], *GOOD[:1])
    yield wide("21 0", END, *GOOD)
    yield wide("21 0", *GOOD[:2], END, *GOOD[2:])
    for tail in (b"\0", bytes(2), bytes(3), b"\2\0\x14", b"\2\0\x14\0\0"):
        yield wide("17 4", *GOOD[:3], tail)
        yield wide("17 1", tail)
    yield wide("17 4", *GOOD[:3], bytes(4))
    # an empty step that the rule refuses is 20, whatever follows
    for tail in (b"", b"\0", bytes(4), one, good):
        yield wide("20 1", ([], [16, 17]), tail)
        yield wide("20 4", *GOOD[:3], ([], []), tail)
        yield wide("19 4", *GOOD[:3], ([], [29]), tail)


def order_cases():
    """Two things wrong in a step, or in two steps."""
    # 17 before 18 before 19 before 20
    yield wide("17 1", step_frame([0], [0], kind=19))
    yield wide("17 1", step_frame([0], [0], count=3))
    yield wide("18 1", ([0], [0]), END)
    yield wide("18 1", ([11], [26]), END)
    yield wide("18 2", GOOD[0], ([-6, 5], [27]), END)
    yield wide("18 1", ([-6, 5], [4]), END)
    yield wide("18 1", ([11], []), END)
    yield wide("19 1", ([-6], [0]), END)
    yield wide("19 1", ([-6], [4, 0]), END)
    yield wide("19 1", ([], [19, 16, 17, 26]))
    # the first wrong step, whatever is wrong with the next
    yield wide("20 1", ([6], [16]), ([0], [0]))
    yield wide("20 1", ([6], [17]), b"\0")
    yield wide("20 2", GOOD[0], ([1], [4]), step_frame([], [26, 16], kind=19))
    yield wide("19 2", GOOD[0], ([1], [0]), ([0], []))
    # the book, then 12 of the formula, then the refutation
    for second in (b"", b"\0", step_frame([0], [0]), encode_steps(GOOD)):
        for which in range(4):
            yield case("12 0", WIDE, second, less(needed(VARIABLES, FORMULA, []), which))
        yield case("1 0", WIDE[:-1], second, (0, 0, 0, 0))
        yield case("10 0", encode([[1, struct.pack("<HHH", 100, 10, 1)], [8, b""]]), second, (0, 0, 0, 0))
        yield case("4 0", OLD_L, second, (0, 0, 0, 0))
    # each in the other's place
    yield case("2 0", encode_steps(GOOD), WIDE)
    yield case("17 1", WIDE, WIDE)
    # in a step 12 comes behind 17, 18 and 19, and ahead of 20 and 21
    for at in range(len(GOOD)):
        upto = needed(VARIABLES, FORMULA, GOOD[:at + 1])
        literals, hints = GOOD[at]
        own = len(FORMULA) + at + 1
        for short in (less(upto, WORDS), less(upto, CLAUSES)):
            before = encode_steps(GOOD[:at])
            yield case("12 0", WIDE, before + step_frame(literals, hints), short)
            yield case("12 0", WIDE, before + step_frame(literals, hints) + b"\0", short)
            yield case("12 0", WIDE, before + step_frame(literals, []), short)
            yield case("12 0", WIDE, before + step_frame(literals, hints[::-1]), short)
            yield case("19 %d" % (at + 1), WIDE, before + step_frame(literals, hints + [own]), short)
            yield case("19 %d" % (at + 1), WIDE, before + step_frame(literals, [0] + hints), short)
            yield case("18 %d" % (at + 1), WIDE, before + step_frame(literals + [11], hints), short)
            yield case("18 %d" % (at + 1), WIDE, before + step_frame([0] + literals, [0]), short)
            yield case("17 %d" % (at + 1), WIDE, before + step_frame(literals, hints)[:-1], short)
            yield case("17 %d" % (at + 1), WIDE, before + step_frame(literals, hints, kind=8), short)
            yield case("21 0", WIDE, before, short)
        # what fits is tried
        yield case("20 %d" % (at + 1), WIDE, encode_steps(GOOD[:at]) + step_frame(literals, hints[::-1] + hints), upto)
        if at:
            yield case("20 %d" % at, WIDE, encode_steps(GOOD[:at - 1]) + step_frame(GOOD[at - 1][0], []) + step_frame(literals, hints),
                       less(upto, WORDS))


def slice_cases():
    """Every length of words and clauses from one too few for the formula to one too many for the whole, and the values and trail."""
    data = encode_steps(GOOD)
    for words in range(word_count(FORMULA) - 1, EXACT[WORDS] + 2):
        yield case(ACCEPTED if words >= EXACT[WORDS] else "12 0", WIDE, data, (words,) + EXACT[1:])
    for count in range(len(FORMULA) - 1, EXACT[CLAUSES] + 2):
        yield case(ACCEPTED if count >= EXACT[CLAUSES] else "12 0", WIDE, data, (EXACT[0], count) + EXACT[2:])
    for n in (0, 1, VARIABLES - 1, VARIABLES, VARIABLES + 1):
        said = ACCEPTED if n >= VARIABLES else "12 0"
        yield case(said, WIDE, data, EXACT[:2] + (n, VARIABLES))
        yield case(said, WIDE, data, EXACT[:2] + (VARIABLES, n))
        yield case(said, WIDE, data, EXACT[:2] + (n, n))
    for which in range(4):
        yield case("12 0", WIDE, data, less(FULL, which, FULL[which]))
        yield case(ACCEPTED, WIDE, data, tuple(FULL[at] if at == which else n for at, n in enumerate(EXACT)))
    yield case("12 0", WIDE, data, (0, 0, 0, 0))
    # a trail of just the variables, all of them set: by the step, and the last by a hint
    for literals, hints in (([-1, -2, -3, -4, -5, -6, -7, -8, -9, -10], [16]), ([1, -2, 3, 4, 5, 6, 8, 9, 10], [19, 17])):
        steps = [(literals, hints), END]
        exact = needed(VARIABLES, FORMULA, steps)
        yield case(ACCEPTED, WIDE, encode_steps(steps), exact)
        for which in range(4):
            yield case("12 0", WIDE, encode_steps(steps), less(exact, which))
    # a proved step that the file ends with, where nothing more would fit
    yield case("21 0", WIDE, encode_steps(GOOD[:3]), needed(VARIABLES, FORMULA, GOOD[:3]))
    yield case("21 0", WIDE, b"", needed(VARIABLES, FORMULA, []))
    yield case("21 0", WIDE, data + b"\0", EXACT)
    yield case("21 0", WIDE, data + step_frame(*END), EXACT)


def kept_cases():
    """What a step set is open again in the next: steps provable only if something stayed, and only if nothing did."""
    yield wide("20 2", GOOD[0], ([], [19, 17]))         # if 6 had stayed false
    yield wide("20 2", GOOD[0], ([], [17]))             # if 7 had stayed true
    yield wide("20 2", ([-5, -6, -7], [15]), ([], [15]))
    yield wide("20 2", ([-5, -6, -7], [15]), ([], [16]))
    yield wide("20 2", ([-5, -6, -7], [15]), ([], [17]))
    yield wide("20 3", GOOD[0], ([-5], [15]), ([], [15]))
    yield wide("20 3", ([-6], [16]), ([-5], [15]), ([], [16]))
    yield wide("20 2", GOOD[0], ([7], [19]))            # if 6 had stayed false
    yield wide("20 2", ([4, 5, 6, 7], [4, 18]), ([8], [4]))
    yield wide("20 2", ([4, 5, 6, 7], [4, 18]), ([], [18]))
    yield wide(ACCEPTED, GOOD[0], END)                  # 6 still false would make 16 true
    yield wide(ACCEPTED, GOOD[0], GOOD[0], GOOD[0], END)
    yield wide(ACCEPTED, ([-6], [16]), ([6], [19, 17]), ([-6], [16]), ([], [27, 28]))
    # a refused call, then one that what it set would help
    yield wide("20 1", ([-6], [4]))
    yield wide("20 1", ([], [16]))
    yield wide("20 1", ([6], [19, 4]))
    yield wide("20 1", ([], [17]))
    yield wide("19 1", ([-5, -6, -7], [0]))
    yield wide("20 1", ([], [17]))


# --------------------------------------------------------- damaged books


def book_cases(rng):
    """Each refusal of the book a few times, with a refutation that is good for book M or is none, and slices long or of no length."""
    for number, data in refused_books(rng, 5):
        yield case("%d 0" % number, data, rng.choice((b"", b"\0", step_frame([], [1]), encode_steps(GOOD))),
                   rng.choice((FULL, EXACT, (0, 0, 0, 0), less(FULL, rng.randrange(4), 65536 // 8))))
    for at in range(0, len(WIDE), 3):
        yield case("1 0", WIDE[:at], encode_steps(GOOD), EXACT)
    for at in range(len(WIDE)):
        yield case(None, WIDE[:at] + bytes([WIDE[at] ^ 1 << rng.randrange(3)]) + WIDE[at + 1:], encode_steps(GOOD), FULL)
    for maker in LIMITS:
        for over in (0, 1):
            yield case(None, spec_bytes(maker(over)), step_frame([], [1, 2]))


# -------------------------------------------------- many clauses and steps


def crowd(nodes, trains=8):
    """Trains that depart in the last interval, all from one segment: many units, and a short refutation."""
    spec = Spec(100, 10, 32)
    spec.nodes = [0] * nodes
    spec.segments = [(0, 1, 0)]
    for train in range(trains):
        spec.trains.append((100, 36, 31, [0]))
        spec.calls.append((train, 0, 0, 32))
    return spec_bytes(spec)


def formula_of(data):
    return reference.formula(reference.read_book(data))


def crowd_end(variables, clauses):
    """The empty step that refutes a crowd."""
    steps = refutation_steps(variables, clauses)
    assert len(steps) == 1
    return steps[0]


def unit_steps(rng, variables, clauses, singles, pairs):
    """So many steps of one literal and of two, each from one unit that stands before it, an old one or one of the newest."""
    units = collections.defaultdict(list)
    for number, clause in enumerate(clauses, 1):
        if len(clause) == 1:
            units[clause[0]].append(number)
    literals, steps = sorted(units), []
    sizes = [1] * singles + [2] * pairs
    rng.shuffle(sizes)
    for size in sizes:
        x = rng.choice(literals if rng.random() < 0.5 else literals[:40])
        step = {abs(x): x}
        while len(step) < size:
            y = rng.randint(1, variables)
            step.setdefault(y, rng.choice((y, -y)))
        hint = rng.choice((units[x][0], units[x][-1], rng.choice(units[x])))
        steps.append((sorted(step.values(), key=abs), [hint]))
        if size == 1:
            units[x].append(len(clauses) + len(steps))
    return steps


def full_file():
    """Nodes of a crowd, steps of one literal and steps of two, such that file and words are just as long as the programs lend; as many
    steps as there can be."""
    variables, clauses = formula_of(crowd(2))
    end = len(step_frame(*crowd_end(variables, clauses)))
    for pairs in range(4000):
        singles, over = divmod(reference.LENT_BYTES - end - 18 * pairs, 14)
        spare, odd = divmod(reference.LENT_WORDS - word_count(clauses) - 1 - 2 * singles - 3 * pairs, 2)
        if not over and not odd and 0 <= spare <= 94:
            return 2 + spare, singles, pairs
    raise AssertionError("no such file")


def long_cases(rng):
    """Thousands of steps, with all words and all bytes in use."""
    nodes, singles, pairs = full_file()
    data = crowd(nodes)
    variables, clauses = formula_of(data)
    steps = unit_steps(rng, variables, clauses, singles, pairs) + [crowd_end(variables, clauses)]
    assert needed(variables, clauses, steps)[WORDS] == FULL[WORDS] and len(encode_steps(steps)) == reference.LENT_BYTES
    yield case(ACCEPTED, data, encode_steps(steps))


def hundreds_cases(rng):
    """More than 256 steps: what is wrong stands behind them, and just fits or just does not."""
    data = crowd(2, 3)
    variables, clauses = formula_of(data)
    steps = unit_steps(rng, variables, clauses, 230, 29) + [crowd_end(variables, clauses)]
    exact, good, before = needed(variables, clauses, steps), encode_steps(steps), encode_steps(steps[:259])
    middle = needed(variables, clauses, steps[:130])
    yield case(ACCEPTED, data, good, exact)
    yield case("12 0", data, good, less(exact, WORDS))
    yield case("12 0", data, good, less(exact, CLAUSES))
    yield case("12 0", data, good, (middle[WORDS] - 1,) + exact[1:])
    yield case("20 260", data, before + step_frame([], [1]), exact)
    yield case("19 260", data, before + step_frame([], [1, len(clauses) + 260]), exact)
    yield case("18 260", data, before + step_frame([-variables - 1], [1]), exact)
    yield case("17 260", data, before + step_frame([], [1])[:-1], exact)


def broad_cases(rng):
    """Steps of hundreds of literals or hints, and a payload of more than 32 KiB."""
    data = crowd(5, 3)
    variables, clauses = formula_of(data)
    end = crowd_end(variables, clauses)
    units = [number for number, clause in enumerate(clauses, 1) if len(clause) == 1]
    hints = rng.sample([h for h in units if h not in end[1]], 270)
    yield case(ACCEPTED, data, step_frame([], hints + end[1]))
    yield case("20 1", data, step_frame([], hints + hints[:1] + end[1]))
    yield case("20 1", data, step_frame([], hints + end[1] + hints[:1]))
    # every variable, against one unit
    unit = rng.choice(units)
    v = -clauses[unit - 1][0]
    literals = [rng.choice((u, -u)) for u in range(1, variables + 1)]
    literals[v - 1] = -v
    steps = [(literals, [unit]), end]
    exact = needed(variables, clauses, steps)
    yield case(ACCEPTED, data, encode_steps(steps), exact)
    yield case("12 0", data, encode_steps(steps), less(exact, WORDS))
    yield case("12 0", data, encode_steps(steps), less(exact, WORDS, 2))
    yield case("20 1", data, encode_steps([(literals[:v - 1] + literals[v:], [unit]), end]))
    yield case("20 1", data, encode_steps([(literals[:v - 1] + [v] + literals[v:], [unit]), end]))
    yield case("18 1", data, encode_steps([(literals + [-literals[-1]], [unit]), end]))
    yield case("18 1", data, encode_steps([(literals + [variables + 1], [unit]), end]))
    many = [rng.randint(1, len(clauses)) for _ in range(8192)]
    yield case("19 1", data, step_frame([], many + [len(clauses) + 1]))


def large_formulas():
    """Formulas of as many words as the programs lend, of one more, and of far more; a step then has no room, or is refused ahead of 12."""
    for words, shape in RINGS:
        data = ring(*shape)
        fits = words <= FULL[WORDS]
        count = len(formula_of(data)[1])
        yield case("21 0" if fits else "12 0", data, b"")
        yield case("12 0", data, step_frame([], [1, 2]))
        yield case("19 1" if fits else "12 0", data, step_frame([], [count + 1]))
        yield case("19 1" if fits else "12 0", data, step_frame([], [1, 0]))
        yield case("18 1" if fits else "12 0", data, step_frame([0], [1]))
        yield case("17 1" if fits else "12 0", data, b"\0")
        if fits:
            yield case("21 0", data, b"", (FULL[WORDS], count) + FULL[2:])
            yield case("12 0", data, b"", (FULL[WORDS], count - 1) + FULL[2:])
            yield case("12 0", data, b"", less(FULL, WORDS))
    yield case("12 0", great_ring(32), b"")
    yield case("12 0", great_ring(256), b"")
    yield case("12 0", great_ring(24), step_frame([], [1]))
    # each slice just long enough for the formula, and one too short
    data = ring(*SMALL_RINGS[3])
    variables, clauses = formula_of(data)
    exact = needed(variables, clauses, [])
    yield case("21 0", data, b"", exact)
    for which in range(4):
        yield case("12 0", data, b"", less(exact, which))


def long_timetables():
    """Book M with many intervals, whose train departs in the last: the same three clauses refute it, under other numbers; the call's
    clause names runs of the last interval."""
    for T in (33, 256):
        data = late_m(T)
        variables, clauses = formula_of(data)
        # run 0 of the last interval; runs 2 and 3 are those that the call asks for
        first = 3 + 7 * (T - 1) + 1
        call = clauses.index([first + 2, first + 3]) + 1
        one, two = (clauses.index([-first - r]) + 1 for r in (2, 3))
        steps = [([first + 2], [call, two]), ([], [len(clauses) + 1, one])]
        exact = needed(variables, clauses, steps)
        yield case(ACCEPTED, data, step_frame([], [one, two, call]))
        yield case("20 1", data, step_frame([], [call, one, two]))
        yield case(ACCEPTED, data, encode_steps(steps), exact)
        for which in range(4):
            yield case("12 0", data, encode_steps(steps), less(exact, which))
        yield case("19 2", data, encode_steps([steps[0], ([], [len(clauses) + 2, one])]), exact)
        yield case("18 1", data, step_frame([variables + 1], [one]))
        yield case("21 0", data, encode_steps(steps[:1]))


# ------------------------------------------------------------ random books


class Learner(Solver):
    """Decides at random, from a pool while it lasts, and keeps what each conflict teaches; the newest clauses are tried first."""

    def __init__(self, rng, variables, clauses, pool):
        super().__init__(variables, list(clauses), 200)
        self.rng, self.pool = rng, pool

    def add(self, literals, hints):
        index = len(self.clauses)
        self.steps.append((sorted(literals, key=abs), hints))
        self.clauses.append(self.steps[-1][0])
        for x in literals:
            self.where.setdefault(x, []).insert(0, index)
        return frozenset(literals), index + 1

    def begin(self):
        for index in reversed(range(len(self.clauses))):
            if len(self.clauses[index]) < 2 and self.look(index):
                return index
        return self.propagate()

    def choose(self):
        free = [v for v in self.pool if not self.value[v]] or [v for v, x in enumerate(self.value) if v and not x]
        return self.rng.choice(free) * self.rng.choice((1, -1)) if free else None

    def learn(self, false):
        """Goes on from here to the next conflict, and undoes all; None if a satisfying assignment was met."""
        while false is None:
            x = self.choose()
            if x is None:
                return None
            self.assign(x, None)
            false = self.propagate()
        learnt = self.leaf(false)
        self.undo(0)
        return learnt


def used_steps(size, steps):
    """The steps that the last one rests on, and their hints in the new numbers."""
    wanted, queue = set(), [len(steps) - 1]
    while queue:
        at = queue.pop()
        if at not in wanted:
            wanted.add(at)
            queue += [h - size - 1 for h in steps[at][1] if h > size]
    order = sorted(wanted)
    number = {size + at + 1: size + new + 1 for new, at in enumerate(order)}
    return [(steps[at][0], [number.get(h, h) for h in steps[at][1]]) for at in order]


def learnt_steps(rng, variables, clauses, pool):
    """A refutation whose steps build on one another: some clauses learnt without a look at units, then a search for the empty one.

    The search is a tree without a look at units, whose steps have several literals, or one conflict after another."""
    learner = Learner(rng, variables, clauses, pool)
    for _ in range(rng.choice((0, 2, 4, 8))):
        learner.learn(None)
    try:
        if rng.random() < 0.7:
            found = learner.explore(None)
        else:
            found = learner.learn(learner.begin())
            while found and found[0] and len(learner.steps) < 100:
                found = learner.learn(learner.begin())
    except TooLong:
        return None
    if found is None or found[0]:
        return None
    return used_steps(len(clauses), learner.steps) if rng.random() < 0.8 else learner.steps


def refuting_steps(rng, variables, clauses):
    """Of some refutations that are short enough mostly the one with the longest steps; None if there is none, or none was found."""
    try:
        known = refutation_steps(variables, clauses, 500)
    except TooLong:
        return None
    if known is None:
        return None
    pool = sorted({abs(x) for _, hints in known for h in hints if h <= len(clauses) for x in clauses[h - 1]})
    found = [known] + [learnt_steps(rng, variables, clauses, pool) for _ in range(12)]
    found = [steps for steps in found if steps and len(encode_steps(steps)) <= MOST_FILE]
    found.sort(key=lambda steps: sum(len(literals) ** 2 for literals, _ in steps))
    if not found:
        return None
    return found[-1] if rng.random() < 0.8 else rng.choice(found)


def random_lent(rng, variables, clauses, steps):
    """All that the programs lend, just enough, or one too few for the formula, a step or the end."""
    style = rng.random()
    if style < 0.45:
        return FULL
    exact = needed(variables, clauses, steps)
    if style < 0.8:
        return exact
    if style < 0.9:
        return less(needed(variables, clauses, steps[:rng.randint(0, len(steps))]), rng.choice((WORDS, CLAUSES)))
    if style < 0.95:
        return less(exact, rng.randrange(4))
    return tuple(rng.choice((n, n, n + 1, rng.randint(0, n))) for n in exact)


def random_cases(rng):
    while True:
        data = random_book(rng, "tiny" if rng.random() < 0.8 else "small")
        if reference.entry_read_book(data)[0] != "accepted":
            continue
        variables, clauses = formula_of(data)
        if len(clauses) > 1200:
            continue
        steps = refuting_steps(rng, variables, clauses)
        # few books that have a plan, or that a single step refutes
        if not steps or len(steps) == 1:
            if rng.random() < 0.97:
                continue
            steps = steps or honest_steps(rng, variables, clauses, 3)
            if not steps or len(encode_steps(steps)) > MOST_FILE:
                continue
        yield case(None, data, encode_steps(steps), random_lent(rng, variables, clauses, steps))
        for _ in range(EACH):
            yield case(None, data, damaged_refutation(rng, variables, clauses, steps), random_lent(rng, variables, clauses, steps))


def all_records(rng):
    """The made ones, then random ones for ever."""
    for group in (document_cases(), cut_cases(), frame_cases(), literal_cases(), hint_cases(), state_cases(), ending_cases(), order_cases(),
                  slice_cases(), kept_cases(), book_cases(rng), long_cases(rng), hundreds_cases(rng), broad_cases(rng), large_formulas(),
                  long_timetables(), random_cases(rng)):
        yield from group


def records(rng, note):
    return itertools.islice(all_records(rng), COUNT)
