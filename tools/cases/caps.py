"""At most so many borders, and the fewest: the formula under caps of 0, 1, one less than there are nodes of kind 1, as many, and far more, of small
books and of as many nodes as there may be, with just as many words lent as it has, and one too few; assignments, plans and refutations under such
caps, and those of another cap; plans that set more than the cap, behind all else that is wrong with them; the combined verdict with n wrong by one
either way, with more borders than are needed, with n = 0, with each pair of things wrong at once, and with slices just long enough and one too short;
then random books, half of them with borders that are needed; each refusal of a book. Where the answer was found by hand, it stands with the case."""
import itertools

from .. import reference
from ..books import free_nodes
from ..carrying_books import carrying_book
from ..inputs import encode_steps, read_steps, step_frame
from ..known import (ASSIGNMENT_FEWEST, ASSIGNMENT_L, ASSIGNMENT_MORE, BOOK_FEWEST, BOOK_L, CAPPED, PLAN_FEWEST, PLAN_L, PLAN_MORE, REFUTATION_FEWEST,
                     chasing, great_ring, many_free, standing_row)
from ..random_books import random_book, refused_books
from ..random_inputs import (assignment_of, edge_caps, fewest, random_assignments, random_cap, random_fewest, random_plans, random_refutations,
                             set_count)
from ..reference import MOST_NUMBER
from ..small_solver import refutation_steps
from .formula import short
from .records import ACCEPTED, LENT, Record, fewest_record, lending

NAME, SEED = "caps.cases", 17
# how many random books there are, and the most clauses of one
BOOKS, MOST_CLAUSES = 40, 500
FULL = LENT["W"]
# how often an answer has to occur
OFTEN = {**{str(n): 3 for n in range(1, 12)}, "12": 60, "13": 40, "14": 100, "17": 10, "18": 5, "19": 5, "20": 40, "21": 60, "22": 100, ACCEPTED: 400}


def totals(data, cap):
    """The variables, clauses and words of a formula under a cap."""
    return reference.entry_write_formula(data, 10 ** 9, cap)[1:4]


def less(lent, which):
    """The same with one slice an entry shorter."""
    return tuple(n - (at == which) for at, n in enumerate(lent))


# --------------------------------------------------------------- the formula


def text_case(data, cap, room=None, said=None):
    question = "F" if short(data, cap) else "D"
    return Record(question, data, b"", b"" if room is None else lending(question, room), said, cap)


def formula_cases():
    for cap in (*CAPPED, 4, 96, MOST_NUMBER, None):
        words = totals(BOOK_FEWEST, cap)[2]
        yield text_case(BOOK_FEWEST, cap)
        yield text_case(BOOK_FEWEST, cap, words)
        yield Record("F", BOOK_FEWEST, b"", lending("F", words - 1), "12 0", cap)
    # no node of kind 1, and document 01's book
    for cap in (0, 1, MOST_NUMBER):
        yield Record("F", BOOK_L, cap=cap)
    for count in (1, 2, 5, 96):
        for cap in sorted({0, 1, 2, count // 2, count - 2, count - 1, count, count + 1, count + 100, 2 ** 32, 2 ** 63, MOST_NUMBER} - {-1}):
            yield text_case(many_free(count)[0], cap)


def great_counter(cap):
    """96 nodes of kind 1 and as many intervals as leave no word free under this cap, or none for one interval more: how many."""
    for T in itertools.count(1):
        if totals(many_free(96, T)[0], cap)[2] > LENT["F"][0]:
            return T - 1


def great_cases():
    """The longest counter, in a book whose formula then just fits, and in one that it makes too long; without the cap both fit."""
    for cap in (47, 48, 49, 24, 72):
        T = great_counter(cap)
        for intervals in (T, T + 1):
            data, plan = many_free(96, intervals)
            yield text_case(data, cap, None, None if intervals == T else "12 0")
            yield text_case(data, None)
            good = reference.entry_check_plan(data, plan, 10 ** 6, cap)[1]
            yield Record("A", data, good, b"", ACCEPTED, cap)
            yield Record("A", data, good[:-1], b"", "13 0", cap)
            yield Record("P", data, plan, lending("P", len(good)), ACCEPTED, cap)
            yield Record("P", data, plan, lending("P", len(good) - 1), "12 0", cap)
            yield Record("N", data, b"", b"", "21 0" if intervals == T else "12 0", cap)
            yield fewest_record(data, cap + 1, good[:96], b"", said="13 0" if intervals == T else "12 0")
    # 64 borders, all of which carry, and as many as a slice has room for: one more variable is 12
    data, plan, _ = chasing(1)
    for cap in (0, 32, 63):
        yield Record("P", data, plan, b"", "22 0", cap)
    for cap in (64, 65):
        yield Record("P", data, plan, b"", ACCEPTED, cap)
    for cap in (None, 0, 1, 32, 64):
        yield Record("P", great_ring(24), bytes(64), b"", "15 0" if reference.Variables(reference.read_book(great_ring(24)), cap).count <= 65536 else "12 0",
                     cap)


# ------------------------------------------ assignments, plans, refutations


def assignment_cases():
    """Of each cap what a plan is written as, judged under each cap; with each added variable changed; with all of them set."""
    book = reference.read_book(BOOK_FEWEST)
    for plan, count in ((PLAN_FEWEST, 1), (PLAN_MORE, 3)):
        for cap in (*CAPPED, 4, MOST_NUMBER, None):
            good = reference.write_assignment(book, *reference.read_plan(book, plan), cap)
            yield Record("A", BOOK_FEWEST, good, b"", ACCEPTED if cap is None or count <= cap else None, cap)
            for other in (0, 1, 2, 3, None):
                yield Record("A", BOOK_FEWEST, good, cap=other)
            for at in range(17, len(good)):
                yield Record("A", BOOK_FEWEST, good[:at] + bytes([1 - good[at]]) + good[at + 1:], cap=cap)
            yield Record("A", BOOK_FEWEST, good[:17] + b"\1" * (len(good) - 17), cap=cap)
            yield Record("A", BOOK_FEWEST, good[:17] + b"\2" * (len(good) - 17), cap=cap)
            yield Record("A", BOOK_FEWEST, good + b"\0", b"", "13 0", cap)
            yield Record("A", BOOK_FEWEST, good, lending("A", len(plan) - 1), "12 0", cap)
    # each set of borders under each cap: the least counts that are said of it, and none
    for borders in itertools.product((0, 1), repeat=3):
        for cap in (0, 1, 2):
            made = reference.write_assignment(book, borders, [[0], [2]], cap)
            yield Record("A", BOOK_FEWEST, made, b"", ACCEPTED if borders[1] and sum(borders) <= cap else None, cap)
            yield Record("A", BOOK_FEWEST, made[:17] + bytes(len(made) - 17), cap=cap)


def plan_cases():
    """22 behind 12, 15 and 16."""
    for cap in (*CAPPED, 4, MOST_NUMBER, None):
        need = 17 + CAPPED.get(cap, ((), 0))[1]
        for plan, count in ((PLAN_FEWEST, 1), (PLAN_MORE, 3), (b"\1\1\0" + PLAN_FEWEST[3:], 2), (b"\0\1\1" + PLAN_FEWEST[3:], 2)):
            within = cap is None or count <= cap
            yield Record("P", BOOK_FEWEST, plan, b"", ACCEPTED if within else "22 0", cap)
            yield Record("P", BOOK_FEWEST, plan, lending("P", need), ACCEPTED if within else "22 0", cap)
            yield Record("P", BOOK_FEWEST, plan, lending("P", need - 1), "12 0", cap)
            yield Record("P", BOOK_FEWEST, plan[:-1], b"", "15 0", cap)
            yield Record("P", BOOK_FEWEST, b"\2" + plan[1:], b"", "15 0", cap)
            yield Record("P", BOOK_FEWEST, plan[:-2] + b"\0\0", b"", "16 2", cap)
        yield Record("P", BOOK_FEWEST, bytes(3) + PLAN_FEWEST[3:], b"", "16 6", cap)
        yield Record("P", BOOK_FEWEST, b"\1\0\1" + PLAN_FEWEST[3:], b"", "16 6", cap)
        yield Record("P", BOOK_L, PLAN_L, b"", ACCEPTED, cap)
        yield Record("A", BOOK_L, ASSIGNMENT_L, b"", ACCEPTED, cap)
        yield Record("P", BOOK_FEWEST[:-1], PLAN_MORE, lending("P", 0), "1 0", cap)


def refutation_cases():
    """The refutation under cap 0 is one under no other cap; slices just long enough, and one too short."""
    for cap in (*CAPPED, 4, MOST_NUMBER, None):
        # 46, -2 under cap 0, is no clause without a cap, and another under caps 1 and 2
        yield Record("N", BOOK_FEWEST, REFUTATION_FEWEST, b"", {0: ACCEPTED, 1: "20 1", 2: "20 1"}.get(cap, "19 1"), cap)
        variables, clauses, words = totals(BOOK_FEWEST, cap)
        exact = (words + 1, clauses + 1, variables, variables)
        yield Record("N", BOOK_FEWEST, REFUTATION_FEWEST, lending("N", *exact), cap=cap)
        for which in range(4):
            yield Record("N", BOOK_FEWEST, REFUTATION_FEWEST, lending("N", *less(exact, which)), cap=cap)
        # a step may name an added variable, and no more
        yield Record("N", BOOK_FEWEST, step_frame([18], [1]), b"", None if variables > 17 else "18 1", cap)
        yield Record("N", BOOK_FEWEST, step_frame([variables], [clauses]), cap=cap)
        yield Record("N", BOOK_FEWEST, step_frame([variables + 1], [1]), b"", "18 1", cap)
        yield Record("N", BOOK_FEWEST, step_frame([], [clauses + 1]), b"", "19 1", cap)
    # more borders are needed than the cap has
    for places, segments in (((0, 1, 2), 3), ((0, 3), 4), ((4, 2, 0), 5)):
        data, plan = standing_row(places, segments)
        for cap in range(segments + 2):
            refuted = cap < len(places) - 1
            steps = refutation_steps(*reference.formula(reference.read_book(data), cap)) if refuted else [([], [1])]
            yield Record("N", data, encode_steps(steps), b"", ACCEPTED if refuted else "20 1", cap)
            yield Record("P", data, plan, b"", "22 0" if refuted else ACCEPTED, cap)


# ---------------------------------------------------------- the fewest borders


def combined(n, assignment, refutation, said, lent=FULL, book=BOOK_FEWEST):
    return fewest_record(book, n, assignment, refutation, lent, said)


def number_cases():
    """n, one less, one more, and far more; what a plan with more borders than it needs is told."""
    good, more, steps = ASSIGNMENT_FEWEST, ASSIGNMENT_MORE, REFUTATION_FEWEST
    yield combined(1, good, steps, ACCEPTED)
    for n in (0, 2, 3, 4, 96, 2 ** 32 + 1, MOST_NUMBER):
        for refutation in (steps, b""):
            yield combined(n, good, refutation, "22 0")
    yield combined(1, more, steps, "22 0")
    yield combined(2, more, steps, "22 0")
    # three set, and under cap 2 there is a plan
    yield combined(3, more, steps, "20 1")
    yield combined(3, more, b"", "21 0")
    yield combined(0, more, b"", "22 0")
    # claims that are not least
    yield combined(1, good[:9] + b"\0" + good[10:], steps, None)


def order_cases():
    """Each pair of things wrong at once."""
    good, more, steps = ASSIGNMENT_FEWEST, ASSIGNMENT_MORE, REFUTATION_FEWEST
    wrong = ((good[:-1], "13 0"), (b"", "13 0"), (b"\2" + good[1:], "13 0"), (bytes(17), "14 1"), (good[:8] + b"\0" + good[9:], "14 31"),
             (more, "22 0"))
    for assignment, said in wrong:
        for refutation in (steps, b"", b"\0", steps[:-1], steps + b"\0", step_frame([], [0])):
            yield combined(1, assignment, refutation, said)
        # 12 ahead of them, but for n = 0, which asks for nothing
        yield combined(1, assignment, steps, "12 0", (0,) * 4)
        yield combined(0, assignment, b"", said, (0,) * 4)
        yield combined(0, assignment, b"\0", said)
        yield combined(2, assignment, b"", said)
        yield combined(1, assignment, steps, "1 0", (0,) * 4, BOOK_FEWEST[:-1])
        yield combined(0, assignment, steps, "3 0", (0,) * 4, BOOK_FEWEST + b"\0")
    for refutation, said in ((b"", "21 0"), (b"\0", "17 1"), (steps[:-1], "17 1"), (steps + b"\0", "21 0"), (step_frame([], [0]), "19 1"),
                             (step_frame([18], [1]), "18 1"), (step_frame([], [1]), "20 1"), (step_frame([-2], [46]), "21 0")):
        yield combined(1, good, refutation, said)
        yield combined(2, good, refutation, "22 0")


def none_cases():
    """n = 0: nothing is lent for a refutation, and there is none."""
    for data, plan in (many_free(3), many_free(96), (BOOK_L, PLAN_L)):
        book = reference.read_book(data)
        none = assignment_of(book, plan)
        for lent in (FULL, (0,) * 4):
            yield combined(0, none, b"", ACCEPTED, lent, data)
            for refutation in (b"\0", step_frame([], []), step_frame([], [1]), REFUTATION_FEWEST):
                yield combined(0, none, refutation, "21 0", lent, data)
        yield combined(1, none, b"", "22 0", FULL, data)
        yield combined(1, none, b"", "12 0", (0,) * 4, data)
        yield combined(0, none[:-1], b"\0", "13 0", FULL, data)
        if free_nodes(book):
            # a border that is not needed
            one = b"\1" + none[1:]
            yield combined(0, one, b"", "22 0", FULL, data)
            yield combined(1, one, b"", "21 0", FULL, data)


def slice_cases():
    """Just enough for the formula under cap n - 1 and the steps, and one less; what n = 2 and 3 ask for, whose formula is longer."""
    exact = (140 + 1, 47 + 1, 17, 17)
    yield combined(1, ASSIGNMENT_FEWEST, REFUTATION_FEWEST, ACCEPTED, exact)
    for which in range(4):
        yield combined(1, ASSIGNMENT_FEWEST, REFUTATION_FEWEST, "12 0", less(exact, which))
    # the formula fits, and the step does not: 12 comes behind 22 then
    for which in (0, 1):
        yield combined(1, ASSIGNMENT_MORE, REFUTATION_FEWEST, "22 0", less(exact, which))
        yield combined(1, ASSIGNMENT_FEWEST, step_frame([], [1]), "12 0", less(exact, which))
    for n in (1, 2, 3, 4, 5, MOST_NUMBER):
        variables, clauses, words = totals(BOOK_FEWEST, n - 1)
        needed = (words, clauses, variables, variables)
        yield combined(n, ASSIGNMENT_MORE, b"", "21 0" if n == 3 else "22 0", needed)
        for which in range(4):
            yield combined(n, ASSIGNMENT_MORE, b"", "12 0", less(needed, which))


def row_cases():
    """Trains in a row: as many borders as there are neighbours. With further ones, and with n off by one."""
    for places, segments, T in (((0, 1), 2, 2), ((0, 1, 2), 3, 1), ((0, 4), 5, 1), ((4, 2, 0), 5, 1), ((0, 1, 2, 3), 4, 1)):
        data, plan = standing_row(places, segments, T)
        book = reference.read_book(data)
        n = set_count(book, plan)
        steps = refutation_steps(*reference.formula(book, n - 1))
        most = bytes([1] * (segments + 1)) + plan[segments + 1:]
        for count, some in ((n, plan), (segments + 1, most)):
            for asked in {count - 1, count, count + 1, n}:
                said = "22 0" if asked != count else ACCEPTED if count == n else None
                yield fewest_record(data, asked, assignment_of(book, some), encode_steps(steps), said=said)
        # the refutation of a lower cap is none of this one
        if n > 1:
            yield fewest_record(data, n, assignment_of(book, plan), encode_steps(refutation_steps(*reference.formula(book, n - 2))))


# ------------------------------------------------------------- random books


def some_book(rng, number):
    """A tiny book that passes; every other one has a plan that borders carry."""
    while True:
        data = carrying_book(rng, "tiny")[0] if number % 2 else random_book(rng, "tiny")
        if reference.entry_read_book(data)[0] == "accepted" and len(reference.formula(reference.read_book(data))[1]) <= MOST_CLAUSES:
            return data


def lent_somehow(rng, data, cap, steps):
    """All that the programs lend, just enough for the formula under the cap and these bytes of steps, or one too few of something."""
    if rng.random() < 0.6:
        return FULL
    variables, clauses, words = totals(data, cap)
    exact = (words + sum(len(literals) + 1 for literals, _ in steps), clauses + len(steps), variables, variables)
    return exact if rng.random() < 0.5 else less(exact, rng.randrange(4))


def steps_of(refutation):
    """The steps of bytes, none where they are none."""
    try:
        return read_steps(refutation)
    except reference.Refused:
        return []


def random_cases(rng):
    for number in range(BOOKS):
        data = some_book(rng, number)
        book = reference.read_book(data)
        cap = rng.choice(edge_caps(book)[1:]) if number % 4 else random_cap(rng, book)
        yield text_case(data, cap)
        for second in random_assignments(rng, book, 3, cap=cap):
            yield Record("A", data, second, cap=cap)
        for second in random_plans(rng, book, 4):
            yield Record("P", data, second, cap=cap)
        for second in random_refutations(rng, book, 2, cap=cap):
            if len(second) <= 1000:
                yield Record("N", data, second, lending("N", *lent_somehow(rng, data, cap, steps_of(second))), cap=cap)
        for given in random_fewest(rng, book, 5, fewest(book)):
            if len(given.refutation) <= 1000:
                lent = lent_somehow(rng, data, given.n - 1 if given.n else None, steps_of(given.refutation))
                yield fewest_record(data, given.n, given.assignment, given.refutation, lent)


def refused_cases(rng):
    for number, data in refused_books(rng, 1):
        said = f"{number} 0"
        yield Record("F", data, b"", lending("F", 0), said, 0)
        yield Record("A", data, ASSIGNMENT_L, lending("A", 0), said, 1)
        yield Record("P", data, PLAN_L, lending("P", 0), said, 0)
        yield Record("N", data, b"", lending("N", 0, 0, 0, 0), said, 0)
        for n in (0, 1):
            yield fewest_record(data, n, ASSIGNMENT_L, b"", (0,) * 4, said)


def records(rng, note):
    for group in (formula_cases(), great_cases(), assignment_cases(), plan_cases(), refutation_cases(), number_cases(), order_cases(), none_cases(),
                  slice_cases(), row_cases(), random_cases(rng), refused_cases(rng)):
        yield from group
