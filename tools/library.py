"""Calls the library from Python and holds it against the reference: every function on BOOKS random books from SEED, some of them damaged,
with good and spoiled inputs, caps of every kind, and outputs that are too short. It makes the archive (by `bin/archive`, which proves what is not
proved yet) and links it into a shared object for this. That include/gentupag.h has the same structs, numbers and functions is asked of a C compiler.

Exit status: 0 none differs, 1 some differ, 2 wrong usage.
"""
import ctypes
import itertools
import os
import random
import subprocess
import sys
import tempfile
from collections import Counter

from . import reference
from .books import counted
from .carrying_books import carried_plans, carrying_book
from .random_books import book_to_rewrite, damaged_book, random_book, random_size
from .random_inputs import kept_plans, random_assignments, random_borders, random_cap, random_fewest, random_plans, random_refutations
from .repository import ROOT, Stop, write_text

WORD = ctypes.c_size_t

# The structs of the header, by name: their fields behind number and detail.
STRUCTS = {
    "verdict": "",
    "output": "length",
    "totals": "variables clauses words",
    "sizes": "intervals nodes free_nodes segments trains variables clauses words plan_bytes",
    "run": "missing runs place length path",
    "variable": "kind train interval item count",
}

# What a function answers, and the types of its parameters: B bytes, b an output of bytes, w of words, n of numbers, u a number. Those that are
# about the formula take a cap ahead, by two numbers.
FUNCTIONS = {
    "read_book": ("verdict", "B"),
    "measure_book_under": ("sizes", "uuB"),
    "write_formula_under": ("totals", "uuBw"),
    "judge_assignment_under": ("verdict", "uuBB"),
    "unpack_plan_under": ("output", "uuBBb"),
    "check_plan_under": ("output", "uuBBb"),
    "check_refutation_under": ("verdict", "uuBBwnbn"),
    "check_fewest": ("verdict", "BuBBwnbn"),
    "label_sections": ("output", "BBb"),
    "show_run": ("run", "Buu"),
    "explain_variable_under": ("variable", "uuBu"),
    "upgrade_book": ("output", "Bb"),
    "print_graph": ("output", "BBb"),
    "list_carriers": ("output", "BBb"),
}

# what `kind` says of a variable
NO_VARIABLE, IS_BORDER, IS_RUN, IS_GONE, IS_CLAIM, IS_COUNT = range(6)
ELEMENTS = {"B": ctypes.c_uint8, "b": ctypes.c_uint8, "w": ctypes.c_int32, "n": WORD}
# what an output holds before a call
OLD = 7
# the most clauses of a book that assignments, plans and refutations are made for
MOST_CLAUSES = 8000


def struct(name, fields):
    path = {"path": ctypes.c_uint8 * 16}
    return type(name, (ctypes.Structure,), {"_fields_": [(f, path.get(f, WORD)) for f in ("number detail " + fields).split()]})


TYPES = {name: struct(name, fields) for name, fields in STRUCTS.items()}


def plain(answer):
    """A struct's fields, as a row of numbers."""
    values = [getattr(answer, name) for name, _ in answer._fields_]
    return tuple(list(v) if isinstance(v, ctypes.Array) else v for v in values)


class Library:
    """The library's functions. Outputs are given by their lengths; an answer is its fields and what each output holds then."""

    def __init__(self, archive, folder):
        shared = os.path.join(folder, "libgentupag.so")
        subprocess.run(["gcc", "-shared", "-o", shared, "-Wl,--whole-archive", archive, "-Wl,--no-whole-archive"], check=True)
        self.loaded = ctypes.CDLL(shared)

    def __getattr__(self, name):
        answer, kinds = FUNCTIONS[name]
        function = self.loaded["gentupag_" + name]
        function.restype = TYPES[answer]
        function.argtypes = [t for k in kinds for t in ([WORD] if k == "u" else [ctypes.POINTER(ELEMENTS[k]), WORD])]

        def call(*given):
            words, outputs = [], []
            for kind, value in zip(kinds, given):
                if kind == "u":
                    words.append(value)
                    continue
                lent = isinstance(value, int)
                length = value if lent else len(value)
                room = (ELEMENTS[kind] * max(length, 1))(*([OLD] * length if lent else value))
                words += [room, length]
                if lent:
                    outputs.append((room, length))
            answered = plain(function(*words))
            return answered, [list(room[:length]) for room, length in outputs]

        return call


def build():
    """The archive's path; the proofs are run where something changed."""
    made = subprocess.run([os.path.join(ROOT, "bin", "archive")], capture_output=True, text=True)
    if made.returncode:
        raise Stop("bin/archive failed:\n" + made.stdout[-2000:] + made.stderr[-2000:])
    return os.path.join(ROOT, "target", "staticlib", "libgentupag.a")


# The header's numbers: `missing` of a run and `kind` of a variable.
NUMBERS = {"NOTHING_MISSING": 0, "NO_TRAIN": 1, "NO_RUN": 2, "NO_VARIABLE": 0, "IS_BORDER": 1, "IS_RUN": 2, "IS_GONE": 3, "IS_CLAIM": 4,
           "IS_COUNT": 5}
C_TYPES = {"B": "const uint8_t *, size_t", "b": "uint8_t *, size_t", "w": "int32_t *, size_t", "n": "size_t *, size_t", "u": "size_t"}


def header_source():
    """A C program that prints where each field of each struct lies, and the numbers. It only compiles where the functions have their types."""
    lines = ['#include "gentupag.h"', "#include <stdio.h>"]
    for name, (answer, kinds) in FUNCTIONS.items():
        kind = f"gentupag_{answer}({', '.join(C_TYPES[k] for k in kinds)})"
        lines.append(f'_Static_assert(__builtin_types_compatible_p(__typeof__(gentupag_{name}), {kind}), "{name}");')
    lines.append("int main(void) {")
    for name, kind in TYPES.items():
        lines.append(f'printf("%zu\\n", sizeof(gentupag_{name}));')
        lines += [f'printf("%zu\\n", offsetof(gentupag_{name}, {field}));' for field, _ in kind._fields_]
    lines += [f'printf("%d\\n", GENTUPAG_{name});' for name in NUMBERS]
    return "\n".join(lines + ["return 0; }", ""])


def header_numbers():
    """What that program has to print."""
    found = []
    for kind in TYPES.values():
        found.append(ctypes.sizeof(kind))
        found += [getattr(kind, field).offset for field, _ in kind._fields_]
    return found + list(NUMBERS.values())


def check_header(folder, include):
    """Whether a C compiler reads the header as the structs and functions are taken here."""
    source, program = os.path.join(folder, "header.c"), os.path.join(folder, "header")
    write_text(source, header_source())
    made = subprocess.run(["gcc", "-Wall", "-Wextra", "-Werror", "-I", include, source, "-o", program], capture_output=True, text=True)
    if made.returncode:
        raise Stop("include/gentupag.h has other functions than the library, or does not compile:\n" + made.stderr)
    printed = subprocess.run([program], capture_output=True, text=True, check=True).stdout.split()
    if [int(n) for n in printed] != header_numbers():
        raise Stop("include/gentupag.h has other fields or numbers than the library")


# ---- what the reference says, in the same form


def refused(name, number, detail):
    rest = [[0] * 16 if field == "path" else 0 for field in STRUCTS[name].split()]
    return (number, detail, *rest)


def said(name, verdict, fields):
    """The struct of a verdict of the reference."""
    if verdict[0] == "refused":
        return refused(name, verdict[1], verdict[2])
    return (0, 0, *fields(*verdict[1:]))


def after(length, written):
    """What an output of so many entries holds after the call."""
    return list(written) + [OLD] * (length - len(written))


def book_or_refusal(data):
    try:
        return reference.read_book(data), None
    except reference.Refused as refusal:
        return None, (refusal.number, refusal.detail)


def measured(book, cap=None):
    variables, clauses = reference.formula(book, cap)
    return (0, 0, book.T, len(book.nodes), book.nodes.count(1), len(book.segments), len(book.trains), variables, len(clauses),
            reference.word_count(clauses), reference.plan_length(book))


def labelled(book, borders, room):
    """The answer, and the labels that are written."""
    if room < len(book.segments):
        return (12, 0, 0), []
    if len(borders) != len(book.nodes) or any(b > 1 for b in borders):
        return (15, 0, 0), []
    labels = [min(together) for together in reference.sections(book, borders)]
    return (0, 0, len(labels)), labels


def run_shown(book, train, run):
    if train >= len(book.trains):
        return (0, 0, 1, 0, 0, 0, [0] * 16)
    runs = book.runs[train]
    if run >= len(runs):
        return (0, 0, 2, len(runs), 0, 0, [0] * 16)
    path = runs[run]
    return (0, 0, 0, len(runs), book.trains[train].l, len(path), path + [0] * (16 - len(path)))


def meanings(book, cap=None):
    """What each variable stands for, by its number: kind, train, interval, item, count."""
    v = reference.Variables(book)
    found = {v.border(n): (IS_BORDER, 0, 0, n, 0) for n in range(len(book.nodes))}
    for train, runs in enumerate(book.runs):
        for interval in range(book.T):
            found.update({v.run(train, interval, r): (IS_RUN, train, interval, r, 0) for r in range(len(runs))})
            found[v.gone(train, interval)] = (IS_GONE, train, interval, 0, 0)
            found.update({v.claim(train, interval, s): (IS_CLAIM, train, interval, s, 0) for s in range(len(book.segments))})
    found.update({at: (IS_COUNT, 0, 0, node, count) for at, (node, count) in enumerate(counted(book, cap), v.count + 1)})
    return reference.Variables(book, cap).count, found


def given_as(rng, cap):
    """The two numbers that say a cap: where there is none the second may be anything, and where there is one the first, but 0."""
    if cap is None:
        return 0, rng.choice((0, 1, reference.MOST_NUMBER))
    return rng.choice((1, 1, 2, reference.MOST_NUMBER)), cap


# ---- questions: a function, its arguments, the reference's answer and outputs


def book_questions(rng, data):
    book, refusal = book_or_refusal(data)
    yield "read_book", (data,), said("verdict", reference.entry_read_book(data), lambda: ()), []
    if refusal:
        train, run, variable, room = rng.randrange(9), rng.randrange(9), rng.randrange(99), rng.randrange(70)
        under = given_as(rng, rng.choice((None, 0, 1, 50, reference.MOST_NUMBER)))
        yield "measure_book_under", (*under, data), refused("sizes", *refusal), []
        yield "show_run", (data, train, run), refused("run", *refusal), []
        yield "explain_variable_under", (*under, data, variable), refused("variable", *refusal), []
        yield "judge_assignment_under", (*under, data, b""), refused("verdict", *refusal), []
        yield "unpack_plan_under", (*under, data, b"", room), refused("output", *refusal), [[OLD] * room]
        for name in ("label_sections", "print_graph", "list_carriers"):
            yield name, (data, b"", room), refused("output", *refusal), [[OLD] * room]
        yield "write_formula_under", (*under, data, room), refused("totals", *refusal), [[OLD] * room]
        yield "check_fewest", (data, rng.randrange(3), b"", b"", *[room] * 4), refused("verdict", *refusal), [[0] * room] * 4
        return
    for cap in (None, random_cap(rng, book)):
        yield from formula_questions(rng, data, book, cap)
    nodes, segments = len(book.nodes), len(book.segments)
    for room in (segments, segments + 2, segments - 1):
        borders = bytes(random_borders(rng, book))
        spoiled = rng.choice((borders, borders, borders[:-1], borders + b"\0", borders[:nodes // 2] + b"\2" + borders[nodes // 2 + 1:]))
        answer, written = labelled(book, spoiled, room)
        yield "label_sections", (data, spoiled, room), answer, [after(room, written)]
    for _ in range(10):
        train, run = rng.randrange(len(book.trains) + 1), rng.randrange(300)
        asked = rng.choice((run, run % 20, 2 ** 64 - 1))
        yield "show_run", (data, train, asked), run_shown(book, train, asked), []


def formula_questions(rng, data, book, cap):
    """The sizes, the words and the variables of a book's formula."""
    under, size = given_as(rng, cap), measured(book, cap)
    yield "measure_book_under", (*under, data), size, []
    for room in (size[9], size[9] + 3, size[9] - 1):
        verdict = reference.entry_write_formula(data, room, cap)
        written = verdict[4] if verdict[0] == "accepted" else []
        yield "write_formula_under", (*under, data, room), said("totals", verdict, lambda v, c, w, _: (v, c, w)), [after(room, written)]
    count, found = meanings(book, cap)
    first = reference.Variables(book).count
    asked = [0, 1, first, first + 1, count, count + 1, 2 ** 64 - 1] + [rng.randrange(count + 9) for _ in range(20)]
    for variable in asked + [rng.randint(first, count) for _ in range(5)]:
        yield "explain_variable_under", (*under, data, variable), (0, 0, *found.get(variable, (NO_VARIABLE, 0, 0, 0, 0))), []


def output_question(name, entry, data, second, room):
    verdict = entry(data, second, room)
    written = verdict[1] if verdict[0] == "accepted" else b""
    return name, (data, second, room), said("output", verdict, lambda result: (len(result),)), [after(room, written)]


def under_question(rng, name, entry, given, cap):
    """The same under a cap; what is given is a book, a second input and the output's length."""
    _, asked, answer, outputs = output_question(name, lambda *three: entry(*three, cap), *given)
    return name, (*given_as(rng, cap), *asked), answer, outputs


def graph_question(rng, data, book, plan):
    """A plan's page, with room for it, for more, or for less."""
    room = reference.page_length(book) + rng.choice((-1, 0, 0, 2))
    return output_question("print_graph", reference.entry_print_graph, data, plan, room)


def carriers_question(rng, data, book, plan):
    """The borders that carry a plan, with room for an entry a kind 1 node, for more, or for less."""
    room = max(reference.carriers_length(book) + rng.choice((-1, 0, 0, 2)), 0)
    return output_question("list_carriers", reference.entry_list_carriers, data, plan, room)


def input_questions(rng, data, book, cap=None):
    variables, plan_bytes = reference.Variables(book, cap).count, reference.plan_length(book)
    for assignment in random_assignments(rng, book, 4, cap=cap):
        verdict = reference.entry_check_assignment(data, assignment, cap)
        yield "judge_assignment_under", (*given_as(rng, cap), data, assignment), said("verdict", verdict, lambda: ()), []
        given = data, assignment, plan_bytes + rng.choice((-1, 0, 0, 2))
        yield under_question(rng, "unpack_plan_under", reference.entry_unpack_plan, given, cap)
    for plan in random_plans(rng, book, 4):
        given = data, plan, variables + rng.choice((-1, 0, 0, 2))
        yield under_question(rng, "check_plan_under", reference.entry_check_plan, given, cap)
        yield graph_question(rng, data, book, plan)
        yield carriers_question(rng, data, book, plan)
    for plan in itertools.islice(kept_plans(rng, book), 4):
        yield graph_question(rng, data, book, plan)
    for refutation in random_refutations(rng, book, 4, cap=cap):
        lent = lent_about(rng, book, cap)
        verdict = reference.entry_check_refutation(data, refutation, *lent, cap)
        yield "check_refutation_under", (*given_as(rng, cap), data, refutation, *lent), said("verdict", verdict, lambda: ()), [[0] * n for n in lent]


def lent_about(rng, book, cap):
    """Slices for a refutation: as long as the formula needs, longer, or one too short."""
    variables, clauses = reference.formula(book, cap)
    return [reference.word_count(clauses) + rng.choice((-1, 0, 9, 400)), len(clauses) + rng.choice((-1, 0, 3, 90)),
            variables + rng.choice((0, 0, 2, -1)), variables + rng.choice((0, 0, 2, -1))]


def fewest_questions(rng, data, book):
    """The combined verdict, with slices about as long as the formula under cap n - 1 needs, or longer; at n = 0 they may be empty."""
    for given in random_fewest(rng, book, 6):
        lent = lent_about(rng, book, given.n - 1) if given.n else [rng.choice((0, 9)) for _ in range(4)]
        lent = lent if rng.random() < 0.3 else [n + 500 for n in lent]
        verdict = reference.entry_check_fewest(data, *given, *lent)
        yield "check_fewest", (data, *given, *lent), said("verdict", verdict, lambda: ()), [[0] * n for n in lent]


def rewriting_questions(rng):
    """An old book, or what is none, with room for the new one, a byte less, more, and none."""
    old = book_to_rewrite(rng)
    verdict = reference.entry_upgrade_book(old, 2 ** 32)
    length = len(verdict[1]) if verdict[0] == "accepted" else len(old)
    for room in (length, length - 1, length + rng.randrange(1, 40), 0):
        verdict = reference.entry_upgrade_book(old, max(room, 0))
        written = verdict[1] if verdict[0] == "accepted" else b""
        yield "upgrade_book", (old, max(room, 0)), said("output", verdict, lambda new: (len(new),)), [after(max(room, 0), written)]


def questions(rng, count):
    for _ in range(count):
        data = damaged_book(rng) if rng.random() < 1 / 3 else random_book(rng, random_size(rng))
        yield from book_questions(rng, data)
        book, refusal = book_or_refusal(data)
        if not refusal and len(reference.formula(book)[1]) <= MOST_CLAUSES:
            yield from input_questions(rng, data, book)
            yield from input_questions(rng, data, book, random_cap(rng, book))
            yield from fewest_questions(rng, data, book)
        data = carrying_book(rng, "tiny")[0]
        book = reference.read_book(data)
        yield from input_questions(rng, data, book, random_cap(rng, book))
        yield from fewest_questions(rng, data, book)
        yield from rewriting_questions(rng)
        for given in carried_plans(rng, rng.choice(("tiny", "small", "large"))):
            yield carriers_question(rng, *given)


def arguments(parser):
    parser.add_argument("--books", type=int, default=200, metavar="BOOKS", help="how many books (200)")
    parser.add_argument("--seed", type=int, default=1, metavar="SEED", help="where the random numbers begin (1)")


def run(options):
    agreed, differ = Counter(), 0
    with tempfile.TemporaryDirectory() as folder:
        check_header(folder, os.path.join(ROOT, "include"))
        library = Library(build(), folder)
        for name, given, answer, outputs in questions(random.Random(options.seed), options.books):
            found = getattr(library, name)(*given)
            if found == (answer, outputs):
                agreed[name] += 1
                continue
            differ += 1
            print(f"{name} {given!r}\n  library   {found[0]}\n  reference {answer}", file=sys.stderr)
    for name, number in sorted(agreed.items()):
        print(f"{name:<18}{number:>7}")
    print(f"{sum(agreed.values())} answers agree, {differ} differ")
    return 1 if differ else 0
