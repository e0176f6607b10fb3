"""The commands' own code on stored files: each check with an input that it accepts and inputs that it refuses; results that are new, that
replace a file, that must not be written, and that are not named; inputs of 65,536 and of 65,537 bytes in either place; missing files. Old books
that are rewritten, in place too; one whose new book fills the slice, and one whose new book is too long for it. Train graphs, up to the longest
page, with plans and books that are refused, too long or missing. Lists of carriers, up to the longest; empty ones, which leave an empty file; and
in place of an input. Formulas, assignments, plans and refutations under a cap, and the combined verdict, with each of its three inputs refused, too
long or missing."""
from ..books import spec_bytes
from ..inputs import step_frame
from ..known import (ASSIGNMENT_FEWEST, ASSIGNMENT_L, ASSIGNMENT_MORE, ASSIGNMENT_PADDED, BOOK_CARRIED, BOOK_FEWEST, BOOK_GRAPH, BOOK_L, OLD_L,
                     PLAN_CARRIED, PLAN_FEWEST, PLAN_GRAPH, PLAN_L, PLAN_MEETING, PLAN_MORE, PLAN_PADDED, REFUTATION_FEWEST, REFUTATION_M,
                     REFUTATION_PADDED, book_m, chasing, circling, lone_spec, outgrowing, padded, standing)
from ..reference import LENT_BYTES, MOST_NUMBER, OLD
from .records import Record

NAME, SEED = "programs.cases", 0
# a name of a file that is not there; a result's name that no case may write
MISSING, KEPT = "missing", "kept"


def files():
    """The stored files, by name."""
    large_book, large_plan, _ = standing(64)
    round_book, round_plan = circling(256)
    chasing_book, chasing_plan, _ = chasing(64)
    return {
        KEPT: b"kept", "empty": b"", "zeros": bytes(LENT_BYTES), "long": bytes(LENT_BYTES + 1),
        "old": b"longer than any plan of these books",
        "book": BOOK_L, "no_plan": book_m(0, 1), "cut_book": BOOK_L[:-1], "more_book": BOOK_L + b"\0",
        "full_book": padded(0), "full_no_plan": padded(1), "long_book": padded(0) + b"\0",
        "assignment": ASSIGNMENT_L, "full_book_assignment": ASSIGNMENT_PADDED,
        "zero_assignment": bytes(6), "two_assignment": b"\2" + bytes(5),
        "plan": PLAN_L, "full_book_plan": PLAN_PADDED, "odd_plan": b"\2" + bytes(3), "far_plan": bytes([0, 0, 1, 0]),
        "refutation": REFUTATION_M, "cut_refutation": REFUTATION_M[:-1], "wrong_kind": step_frame([], [16, 17, 19], kind=21),
        "far_literal": step_frame([11], [16]), "far_hint": step_frame([], [100]), "unproved": step_frame([], [19, 16, 17]),
        "unfinished": step_frame([6], [19, 17]),
        "full_refutation": REFUTATION_PADDED,
        "large_book": large_book, "large_plan": large_plan,
        "graph_book": BOOK_GRAPH, "graph_plan": PLAN_GRAPH, "round_book": round_book, "round_plan": round_plan,
        "carried_book": BOOK_CARRIED, "carried_plan": PLAN_CARRIED, "meeting_plan": PLAN_MEETING,
        "chasing_book": chasing_book, "chasing_plan": chasing_plan,
        "fewest_book": BOOK_FEWEST, "fewest_plan": PLAN_FEWEST, "more_plan": PLAN_MORE, "fewest_assignment": ASSIGNMENT_FEWEST,
        "more_assignment": ASSIGNMENT_MORE, "fewest_refutation": REFUTATION_FEWEST,
        # old books, which only upgrade_book takes
        "book_before": OLD_L, "no_plan_before": book_m(0, 1, OLD), "cut_before": OLD_L[:-1], "more_before": OLD_L + b"\0",
        "late_before": spec_bytes(lone_spec(33, 0, 0, 33), OLD), "full_before": padded(0, OLD), "outgrowing_before": outgrowing(),
    }


def two_inputs(question, book, good, refused):
    """An accepted input, refused ones, refused books, long and missing inputs; each with a result's name."""
    yield question, book, good, KEPT if question == "n" else "first_" + question
    for second in (*refused, "empty", "zeros", "long", MISSING):
        yield question, book, second, KEPT
    for other in ("cut_book", "more_book", "empty", "zeros", "long_book", "long", MISSING):
        yield question, other, good, KEPT
    yield question, "long", "long", KEPT
    yield question, "long", MISSING, KEPT
    yield question, "cut_book", "long", "none"
    yield question, MISSING, MISSING, "none"


def listed():
    """The cases: question, book, second input, result."""
    for book in ("book", "no_plan", "cut_book", "empty", "full_book", "long_book", "zeros", "long", "large_book", MISSING):
        yield "f", book, "", ""
    yield "f", "book", "", KEPT
    for question, book, good, refused in (
            ("a", "book", "assignment", ("zero_assignment", "two_assignment", "plan")), ("p", "book", "plan", ("odd_plan", "far_plan", "assignment")),
            ("n", "no_plan", "refutation", ("cut_refutation", "wrong_kind", "far_literal", "far_hint", "unproved", "unfinished"))):
        yield from two_inputs(question, book, good, refused)
        # no result is named
        yield question, book, good, ""
        yield question, book, refused[0], ""
    yield "a", "full_book", "full_book_assignment", "new_plan"
    yield "p", "full_book", "full_book_plan", "new_assignment"
    yield "n", "full_no_plan", "full_refutation", KEPT
    # the result fills the slice, and is the next case's input
    yield "p", "large_book", "large_plan", "large_assignment"
    yield "a", "large_book", "large_assignment", "old"
    # one file in two places
    yield "a", "book", "assignment", "assignment"
    yield "p", "book", "assignment", "book"


def rewritten():
    """The cases of upgrade_book: question, old book, nothing, result."""
    # a new book that is made, that replaces a shorter file, and that the other commands take; an old one is none for them
    yield "u", "book_before", "", "upgraded_book"
    yield "f", "upgraded_book", "", ""
    yield "a", "upgraded_book", "assignment", "upgraded_plan"
    yield "u", "no_plan_before", "", "upgraded_plan"
    yield "n", "upgraded_plan", "refutation", KEPT
    yield "f", "book_before", "", ""
    yield "p", "book_before", "plan", KEPT
    for other in ("cut_before", "more_before", "late_before", "outgrowing_before", "book", "upgraded_book", "plan", "empty", "zeros", "long",
                  MISSING):
        yield "u", other, "", KEPT
    yield "u", "long_book", "", "none"
    yield "u", MISSING, "", "none"
    # the result fills the slice, and is the next case's input
    yield "u", "full_before", "", "upgraded_full"
    yield "p", "upgraded_full", "full_book_plan", "upgraded_plan"
    # a longer file is replaced
    yield "u", "book_before", "", "upgraded_full"
    # in place; then it is no old book
    yield "u", "book_before", "", "book_before"
    yield "u", "book_before", "", "book_before"
    yield "f", "book_before", "", ""


def drawn():
    """The cases of print_graph: question, book, plan; it has no result's name."""
    for book, plan in (("graph_book", "graph_plan"), ("round_book", "round_plan"), ("full_book", "full_book_plan")):
        yield "g", book, plan, ""
    for plan in ("plan", "odd_plan", "far_plan", "assignment", "empty", "zeros", "long", MISSING):
        yield "g", "book", plan, ""
    for other in ("no_plan", "no_plan_before", "cut_book", "more_book", "empty", "zeros", "long_book", "long", MISSING):
        yield "g", other, "plan", ""
    yield "g", "long_book", "full_book_plan", ""
    yield "g", "cut_book", "long", ""
    yield "g", "long", "long", ""
    yield "g", "long", MISSING, ""
    yield "g", MISSING, "long", ""
    yield "g", MISSING, MISSING, ""


def carried():
    """The cases of list_carriers: question, book, plan, result."""
    yield from two_inputs("c", "carried_book", "carried_plan", ("meeting_plan", "odd_plan", "plan"))
    yield "c", "chasing_book", "chasing_plan", "carriers"
    # a longer list is replaced, by one that is empty too; and that by a list
    yield "c", "carried_book", "carried_plan", "carriers"
    yield "c", "book", "plan", "carriers"
    yield "c", "carried_book", "carried_plan", "carriers"
    yield "c", "large_book", "large_plan", "carriers"
    # an empty list makes a file, and a refusal leaves it
    yield "c", "full_book", "full_book_plan", "no_carriers"
    yield "c", "carried_book", "meeting_plan", "no_carriers"
    yield "c", "no_plan_before", "plan", "no_carriers"
    # in place of the plan, which is none then, and of the book
    yield "c", "carried_book", "carried_plan", "carried_plan"
    yield "c", "carried_book", "carried_plan", "carried_plan"
    yield "c", "chasing_book", "chasing_plan", "chasing_book"
    yield "c", "chasing_book", "chasing_plan", "carriers"
    yield "p", "carried_book", "carried_plan", KEPT


def capped():
    """The cases under a cap: the cap, question, book, second input, result."""
    for cap in (0, 1, 2, 3, MOST_NUMBER):
        yield cap, "f", "fewest_book", "", ""
        # an assignment that is made under the cap, where there is one, and unpacked again under that and under another
        made = f"made_{min(cap, 4)}"
        yield cap, "p", "fewest_book", "fewest_plan", made
        yield cap, "a", "fewest_book", made, "unpacked"
        yield cap, "a", "fewest_book", "made_1", "unpacked"
        yield cap, "a", "fewest_book", "fewest_assignment", ""
        yield cap, "p", "fewest_book", "more_plan", "made_more"
        yield cap, "n", "fewest_book", "fewest_refutation", KEPT
    for cap in (0, MOST_NUMBER):
        yield cap, "f", "book", "", ""
        yield cap, "f", MISSING, "", ""
        yield cap, "f", "long", "", ""
        yield cap, "a", "book", "assignment", ""
        yield cap, "p", "book", "long", KEPT
        yield cap, "p", "book", MISSING, KEPT
        yield cap, "p", "cut_book", "plan", KEPT
        yield cap, "n", "no_plan", "refutation", KEPT
        # as many variables as a slice holds: the cap adds none, and with cap 1 it does
        yield cap, "p", "large_book", "large_plan", ""
    yield 1, "p", "large_book", "large_plan", KEPT


def combined():
    """The cases of check_fewest: n, question, book, assignment, refutation."""
    good = "fewest_book", "fewest_assignment", "fewest_refutation"
    for n in (0, 1, 2, 2 ** 32 + 1, MOST_NUMBER):
        yield n, "w", *good
        yield n, "w", good[0], "more_assignment", good[2]
        yield n, "w", *good[:2], "empty"
    for n, assignment in ((0, "assignment"), (1, "assignment")):
        yield n, "w", "book", assignment, "empty"
        yield n, "w", "book", assignment, "refutation"
    for place, others in enumerate((("cut_book", "more_book", "old", "empty", "zeros", "long_book", "long", MISSING),
                                    ("zero_assignment", "two_assignment", "plan", "empty", "zeros", "long", MISSING),
                                    ("cut_refutation", "wrong_kind", "far_literal", "far_hint", "unproved", "unfinished", "zeros", "long", MISSING))):
        for other in others:
            yield 1, "w", *good[:place], other, *good[place + 1:]
    # a missing file ahead of a long one, wherever they stand; at n = 0 too
    for names in (("long", MISSING, "empty"), (MISSING, "long", "empty"), ("empty", "long", MISSING), (MISSING,) * 3, ("long",) * 3):
        for n in (0, 1):
            yield n, "w", *names


def without(cases):
    """The same with no cap ahead."""
    return [(None, *given) for given in cases]


def records(rng, note):
    before = (*without(rewritten()), *without(drawn()), *without(carried()))
    # the last ones write over the book
    for cap, question, *names in (*before, *capped(), *combined(), *without(listed())):
        yield Record(question, *(name.encode() for name in names), cap=cap)
