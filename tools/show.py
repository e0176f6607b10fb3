"""Prints a book in readable lines, from which `make` gives the same bytes again; or, with --book, a plan, an assignment or a refutation
for that book; or, with --as carriers, a list of carriers. Remarks stand behind #; the first says what the reference's check answers. A plan
and an assignment need --book. A refutation can be shown without it, but then with no answer and no numbers of clauses, which depend on the book.

Directed segments are written 5> for segment 5 from its node a to its node b, and 5< for b to a. Of a plan: each node with a border, and
for each train and interval its run, by number and by directed segments, rear first. Of an assignment: what each variable stands for that
is true, and where the first false clause is, that clause. Of a refutation: each step with its clause's number, its literals and its
hints. Of a list of carriers: each node, and where trains first meet without its border. What the file is is found from its bytes, and with
--book from its length; --as says it where that does not tell, and always of a list of carriers. --cap says under which cap an assignment or a
refutation was made, or a plan is to be written: an assignment has more variables then, and clauses have other numbers behind family I.

What can't be shown: with a book that is refused nothing but that refusal, since runs and variables have no numbers then. Bytes beyond
a plan's or an assignment's length, from the first frame on that is no step, or behind the last whole entry, are shown as bytes.

Exit status: 0 shown, whether accepted or refused; 1 the book is refused, or it can't be told what the file is; 2 wrong usage, or a file
can't be read.
"""
import sys

from . import reference
from .books import counted, kind_words, split
from .features import entries_of
from .program import CAP, whole_number
from .reference import ABSENT, ENTRY_BYTES, GONE, STEP, two_bytes
from .repository import read_bytes
from .text import book_lines, old_words, row, verdict_words

KINDS = ("book", "plan", "assignment", "refutation", "carriers")


class Unclear(Exception):
    """Why a file can't be shown."""


def arguments(parser):
    parser.add_argument("file", metavar="FILE", help="the file to show")
    parser.add_argument("--book", metavar="BOOK", help="the book that a plan, an assignment or a refutation is for; the first two need it")
    parser.add_argument("--as", dest="kind", choices=KINDS, help="what the file is, where its bytes do not tell; a plan or an assignment with --book")
    parser.add_argument("--runs", action="store_true", help="of a book: its trains' run lists too, behind #")
    parser.add_argument(CAP, metavar="N", type=whole_number, help="of a plan, an assignment or a refutation: at most so many nodes of kind 1 set")


# ------------------------------------------------------------ what a file is


def kind_of(data, book, cap=None):
    """What bytes are, with a book or without one."""
    frames, _ = split(data)
    first = frames[0][0] if frames else None
    if book is None:
        if first == STEP:
            return "refutation"
        if first in range(reference.HEAD, reference.END + 1):
            return "book"
        raise Unclear("this begins neither like a book nor like a refutation; a plan or an assignment needs its book: give --book BOOK; "
                      "--as book or --as refutation shows the bytes all the same")
    plan, assignment = reference.plan_length(book), reference.Variables(book, cap).count
    fitting = [name for name, length in (("plan", plan), ("assignment", assignment)) if len(data) == length]
    if len(fitting) == 1:
        return fitting[0]
    if not fitting and first == STEP:
        return "refutation"
    under = "" if cap is None else f" under cap {cap}"
    raise Unclear(f"{len(data)} bytes; a plan of this book has {plan}, an assignment {assignment}{under}: give --as, or --cap N if it was made under another cap")


# --------------------------------------------------------------------- plans


def run_words(book, train, number):
    """A run by its number and its directed segments."""
    if number >= len(book.runs[train]):
        return f"run {number}, which this train has not"
    return f"run {number}, segments {row(book.runs[train][number])}"


def move_words(book, train, move):
    return {ABSENT: "absent", GONE: "gone"}.get(move) or run_words(book, train, move)


def border_lines(book, borders):
    """The nodes with a border, or with a byte that is neither 0 nor 1."""
    lines = []
    for node, byte in enumerate(borders):
        if byte:
            odd = "" if byte == 1 else f", byte {byte}"
            lines.append(f"border at node {node}{odd}  # kind {book.nodes[node]}, {kind_words(book.nodes[node])}")
    return lines or ["no borders"]


def plan_lines(book, plan):
    """The lines of a plan, as far as its bytes go."""
    nodes, length = len(book.nodes), reference.plan_length(book)
    lines = border_lines(book, plan[:nodes])
    places = [(train, interval) for train in range(len(book.trains)) for interval in range(book.T)]
    for at, (train, interval) in zip(range(nodes, len(plan) - 1, 2), places):
        lines.append(f"train {train}, interval {interval}: {move_words(book, train, two_bytes(plan, at))}")
    return lines + length_lines(plan, length, "a plan")


def length_lines(data, length, what):
    """What a wrong length leaves unshown."""
    if len(data) < length:
        return [f"ends here: {len(data)} bytes, and {what} of this book has {length}"]
    return [f"behind it: {data[length:].hex(' ')}"] if len(data) > length else []


# --------------------------------------------------------------- assignments


def meanings(book, cap=None):
    """What each variable stands for, in order from variable 1."""
    words = [f"border at node {node}" for node in range(len(book.nodes))]
    for train, runs in enumerate(book.runs):
        for interval in range(book.T):
            at = f"train {train}, interval {interval}: "
            words += [at + run_words(book, train, number) for number in range(len(runs))]
            words += [at + "gone"] + [at + f"claims segment {segment}" for segment in range(len(book.segments))]
    return words + [count_words(node, count) for node, count in counted(book, cap)]


def count_words(node, count):
    return f"of the nodes of kind 1 up to {node} at least {count} {'is' if count == 1 else 'are'} set"


def literal_words(literal, words):
    return f"{literal} ({'not ' if literal < 0 else ''}{words[abs(literal) - 1]})"


def assignment_lines(book, assignment, answer, cap):
    words = meanings(book, cap)
    lines = []
    if answer[:2] == ("refused", 14):
        clause = next(clause for number, clause in enumerate(reference.each_clause(book, cap), 1) if number == answer[2])
        lines.append(f"# clause {answer[2]} is false: " + (" or ".join(literal_words(x, words) for x in clause) or "it is empty"))
    for number, (byte, word) in enumerate(zip(assignment, words), 1):
        if byte:
            odd = "" if byte == 1 else f", byte {byte}"
            lines.append(f"variable {number}{odd}: {word}")
    return lines + length_lines(assignment, len(words), "an assignment")


# --------------------------------------------------------------- refutations


def refutation_lines(data, clauses):
    """The steps; clauses is how many the formula has, or None where there is no book."""
    lines, at, number = [], 0, 0
    while at < len(data):
        number += 1
        try:
            step, at = reference.read_step(data, at, number)
        except reference.Refused:
            return lines + [f"no step: {data[at:].hex(' ')}"]
        own = "" if clauses is None else f", clause {clauses + number}"
        literals = " ".join(map(str, step.literals)) or "empty"
        lines.append(f"step {number}{own}: {literals}; hints {' '.join(map(str, step.hints)) or 'none'}")
    return lines or ["no steps"]


# ------------------------------------------------------------------ carriers


def carrier_lines(data):
    """Each node of a list, and where trains first meet without its border."""
    whole = len(data) // ENTRY_BYTES * ENTRY_BYTES
    lines = [f"node {node}: without its border trains {lower} and {higher} meet, first in interval {interval}"
             for node, interval, lower, higher in entries_of(data[:whole])]
    return (lines if data else ["no border by itself carries the plan"]) + length_lines(data, whole, "a list")


# ------------------------------------------------------------------ all kinds


def run_lines(data):
    """Each train's run list, as remarks."""
    book = reference.read_book(data)
    return [f"# train {train}, {run_words(book, train, number)}" for train, runs in enumerate(book.runs) for number in range(len(runs))]


def lines_for(kind, data, book_data, book, cap):
    """The lines of a plan, an assignment or a refutation for a book that is accepted."""
    answer = reference.check_two("check_" + kind, book_data, data, cap)
    if kind == "plan":
        lines = plan_lines(book, data)
    elif kind == "assignment":
        lines = assignment_lines(book, data, answer, cap)
    else:
        lines = refutation_lines(data, sum(1 for _ in reference.each_clause(book, cap)))
    return [f"# {verdict_words(answer)}{'' if cap is None else f', under cap {cap}'}", *lines]


def shown(data, book_data, kind, runs, cap=None):
    """The lines of a file; Unclear where there are none."""
    if kind == "carriers":
        return carrier_lines(data)
    if book_data is None:
        kind = kind or kind_of(data, None)
        if kind == "refutation":
            return refutation_lines(data, None)
        if kind != "book":
            raise Unclear(f"{'an' if kind[0] == 'a' else 'a'} {kind} needs its book: give --book BOOK too")
        accepted = reference.entry_read_book(data)[0] == "accepted"
        return book_lines(data) + (run_lines(data) if runs and accepted else [])
    answer = reference.entry_read_book(book_data)
    if answer[0] != "accepted":
        raise Unclear("the book is " + verdict_words(answer) + old_words(book_data))
    book = reference.read_book(book_data)
    kind = kind or kind_of(data, book, cap)
    return book_lines(data) if kind == "book" else lines_for(kind, data, book_data, book, cap)


def run(options):
    book_data = read_bytes(options.book) if options.book else None
    try:
        lines = shown(read_bytes(options.file), book_data, options.kind, options.runs, options.cap)
    except Unclear as why:
        print(f"tools show: {why}", file=sys.stderr)
        return 1
    print("\n".join(lines))
    return 0
