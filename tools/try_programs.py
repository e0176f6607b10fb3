"""Tries the built program as a user would: commands, names, files, lengths, outputs, and the verdicts of document 01's examples; and the
scripts of bin/, which call it. Prints each expectation that fails, and then how many were tried. Expected lines and bytes are worked out by
hand, but for a long text, a long assignment and a long page, which are the reference's.

Exit status: 0 all held, 1 some failed, 2 wrong usage, or the program is missing.
"""
import os
import shutil
import subprocess
import tempfile
import time
from collections import namedtuple

from . import reference
from .inputs import encode_steps, step_frame
from .known import (ASSIGNMENT_FEWEST, ASSIGNMENT_L, ASSIGNMENT_MORE, ASSIGNMENT_PADDED, BOOK_CARRIED, BOOK_FEWEST, BOOK_GRAPH, BOOK_L, CAPPED,
                    FORMULA_L, LIST_CARRIED, OLD_L, PAGE_GRAPH, PAGE_L, PLAN_CARRIED, PLAN_FEWEST, PLAN_GRAPH, PLAN_L, PLAN_MEETING, PLAN_MORE,
                    PLAN_PADDED, REFUTATION_FEWEST, REFUTATION_M, REFUTATION_PADDED, book_m, chasing, circling, far, outgrowing, padded, standing)
from .program import CAP, CABINET, CAPPED as TAKE_A_CAP, COMMANDS, FEWEST, PROGRAMS, built
from .repository import ROOT, write_bytes

MOST = reference.LENT_BYTES
# seconds for one try
LIMIT = 10
# the user "nobody", where the script itself may read everything
NOBODY = 65534

BOOK_M, BOOK_M_SHUT = book_m(0, 1), book_m(0, 0)

ACCEPTED, TOO_LONG = b"accepted\n", b"12 0\n"

# A command that checks a second input: a book and an input that it accepts, what it prints then, the result, and two inputs that it refuses, with
# their lines.
Check = namedtuple("Check", "program book good said result bad bad_line short short_line")
CHECKS = (
    # all zeros: clause 3, "3 4 5", is the first that is false
    Check("check_assignment", BOOK_L, ASSIGNMENT_L, ACCEPTED, PLAN_L, bytes(6), b"14 3\n", ASSIGNMENT_L[:-1], b"13 0\n"),
    # run 1 begins elsewhere: rule 2
    Check("check_plan", BOOK_L, PLAN_L, ACCEPTED, ASSIGNMENT_L, bytes([0, 0, 1, 0]), b"16 2\n", PLAN_L[:-1], b"15 0\n"),
    # document 01 gives this order of hints
    Check("check_refutation", BOOK_M, REFUTATION_M, ACCEPTED, None, step_frame([], [19, 16, 17]), b"20 1\n", REFUTATION_M[:-1], b"17 1\n"),
    # a plan as above; the page is printed in place of a verdict
    Check("print_graph", BOOK_L, PLAN_L, PAGE_L, None, bytes([0, 0, 1, 0]), b"16 2\n", PLAN_L + b"\0", b"15 0\n"),
    # the border at node 1 is not set, and trains 1 and 2 meet
    Check("list_carriers", BOOK_CARRIED, PLAN_CARRIED, ACCEPTED, LIST_CARRIED, PLAN_MEETING, b"16 6\n", PLAN_CARRIED[:-1], b"15 0\n"),
)
# those that have a result, and those that two names are enough for
WITH_RESULT = [check for check in CHECKS if check.result is not None]
TWO_NAMES = [check for check in CHECKS if COMMANDS[check.program].least == 2]

Answer = namedtuple("Answer", "out err status")


class Tries:
    """Runs commands in a folder of its own, and counts what was expected and what failed."""

    def __init__(self, program, folder):
        self.program, self.folder = program, folder
        self.tried, self.failed, self.made = 0, 0, 0
        self.left_out = []

    def expect(self, what, holds, answer):
        self.tried += 1
        if not holds:
            self.failed += 1
            print(f"FAILED: {what}: {shown(answer)}")

    def path(self, name):
        return os.path.join(self.folder, name)

    def unused(self):
        self.made += 1
        return self.path(f"file{self.made}")

    def file(self, data):
        """A new file with these bytes; its name."""
        name = self.unused()
        write_bytes(name, data)
        return name

    def names(self, check, book, second):
        """The names for a check: the inputs and, where two names are not enough, that of a new file."""
        return (book, second) if check in TWO_NAMES else (book, second, self.unused())

    def run(self, command, *names, stdin=b"", **how):
        return self.run_words((command, *names), stdin, **how)

    def run_words(self, words, stdin=b"", program=None, **how):
        """What the program printed on each output, and its status; status None where it did not end in time."""
        how = {"stdout": subprocess.PIPE, "stderr": subprocess.PIPE, "cwd": self.folder, **how}
        how["stdin" if isinstance(stdin, int) else "input"] = stdin
        try:
            done = subprocess.run([program or self.program, *words], timeout=LIMIT, check=False, **how)
        except subprocess.TimeoutExpired:
            return Answer(b"", b"", None)
        return Answer(done.stdout or b"", done.stderr or b"", done.returncode)

    def verdict(self, what, line, answer):
        """This line, whole, and nothing on standard error."""
        self.expect(f"{what}: expected {line!r}", answer[:2] == (line, b"") and ended(answer), answer)

    def no_verdict(self, what, said, answer):
        """Nothing on standard output, and this on standard error."""
        holds = not answer.out and answer.err and said in answer.err and ended(answer)
        self.expect(f"{what}: expected no verdict, and {said!r} on standard error", holds, answer)


def ended(answer):
    """By itself: neither too late nor by a signal."""
    return answer.status is not None and answer.status >= 0


def shown(answer):
    """An answer, cut where it is long."""
    if not isinstance(answer, Answer):
        return repr(answer)[:300]
    if answer.status is None:
        return f"still running after {LIMIT} s"
    return f"printed {answer.out[:100]!r}, on standard error {answer.err[:200]!r}, status {answer.status}"


def read(name):
    try:
        with open(name, "rb") as file:
            return file.read()
    except FileNotFoundError:
        return None


def stamp(name):
    """What changes when a file is written: its bytes, and when that was."""
    return read(name), os.stat(name).st_mtime_ns


# ---- document 01's examples


def try_examples(t):
    t.verdict("print_formula, book L", FORMULA_L, t.run("print_formula", stdin=BOOK_L))
    for book, clause, what in ((BOOK_M, b"6 7 0", "window 0 to 1"), (BOOK_M_SHUT, b"0", "window 0 to 0")):
        answer = t.run("print_formula", stdin=book)
        lines = answer.out.split(b"\n")
        # line 0 is the header, so clause 19 is line 19
        t.expect(f"print_formula, book M, {what}: clause 19 is {clause!r}", len(lines) > 19 and lines[19] == clause, answer)
        t.expect(f"print_formula, book M, {what}: ends with a line end", answer.out.endswith(b" 0\n"), answer)
    for book, hints, line in (
            (BOOK_M, [16, 17, 19], ACCEPTED), (BOOK_M, [19, 16, 17], b"20 1\n"), (BOOK_M_SHUT, [19], ACCEPTED), (BOOK_M, [19], b"20 1\n")):
        names = t.file(book), t.file(step_frame([], hints))
        t.verdict(f"check_refutation, book M, hints {hints}", line, t.run("check_refutation", *names))


# ---- the result


def try_results(t):
    for check in TWO_NAMES:
        book, good, bad = t.file(check.book), t.file(check.good), t.file(check.bad)
        before = os.listdir(t.folder)
        t.verdict(f"{check.program}, two names", check.said, t.run(check.program, book, good))
        t.verdict(f"{check.program}, two names, refused", check.bad_line, t.run(check.program, book, bad))
        t.verdict(f"{check.program}, an input of another length", check.short_line, t.run(check.program, book, t.file(check.short)))
        made = set(os.listdir(t.folder)) - set(before) - {f"file{t.made}"}
        t.expect(f"{check.program}, two names: no file is made", not made, made)
    for check in WITH_RESULT:
        try_last(t, check.program, check.program, (check.book, check.good), check.result)
        try_refused_third(t, check)


def try_last(t, what, program, inputs, result):
    """The result alone stands in the last file: made anew, over a longer file, over an empty one; and the inputs stay as they are."""
    names = [t.file(data) for data in inputs]
    for how, last in (("new", t.unused()), ("longer before", t.file(b"x" * 100000)), ("empty before", t.file(b""))):
        t.verdict(f"{what}, last file {how}", ACCEPTED, t.run(program, *names, last))
        t.expect(f"{what}, last file {how}: exactly the result", read(last) == result, read(last))
    t.expect(f"{what}: inputs untouched", tuple(map(read, names)) == inputs, None)


def refused_inputs(check):
    """Pairs of inputs that are refused for several reasons, with their lines."""
    yield check.book, check.bad, check.bad_line
    yield check.book, check.short, check.short_line
    yield b"", check.good, b"1 0\n"
    yield check.book + b"\0", check.good, b"3 0\n"
    yield bytes(MOST + 1), check.good, TOO_LONG
    yield check.book, bytes(MOST + 1), TOO_LONG


def try_refused_third(t, check):
    """A refusal neither makes the third file nor touches it."""
    for book, second, line in refused_inputs(check):
        names, old, new = (t.file(book), t.file(second)), t.file(b"kept"), t.unused()
        before = stamp(old)
        what = f"{check.program}, refused, third file"
        t.verdict(f"{what} there", line, t.run(check.program, *names, old))
        t.expect(f"{what} there: untouched", stamp(old) == before, read(old))
        t.verdict(f"{what} missing", line, t.run(check.program, *names, new))
        t.expect(f"{what} missing: not made", not os.path.exists(new), read(new))


# ---- names


def try_usage(t, what, word, answer):
    """Usage on standard error, with the command's word, and no verdict."""
    t.no_verdict(what, b"usage", answer)
    t.expect(f"{what}: {word!r} is named", word.encode() in answer.err, answer)


def try_commands(t):
    """No command, an unknown one, or one with a name too many: usage, and no verdict; and nothing is read as a book."""
    for words in ((), ("",), ("check",), ("check_plans",), ("check_pla",), ("CHECK_PLAN",), ("check_plan ",), ("print_formula\n",), ("--help",)):
        names = (t.file(BOOK_L), t.file(PLAN_L)) if words else ()
        answer = t.run_words((*words, *names), stdin=BOOK_L)
        t.no_verdict(f"command {words}", b"usage", answer)
        t.expect(f"command {words}: all commands are named", all(word.encode() in answer.err for word in COMMANDS), answer)
    for count in (1, 2, 3):
        names = [t.file(BOOK_L) for _ in range(count)]
        try_usage(t, f"print_formula, {count} names", "print_formula", t.run("print_formula", *names, stdin=BOOK_L))


def try_name_counts(t):
    """Too few and too many names: a line of usage, no verdict, and no file is written."""
    for check in CHECKS:
        book, good, third = t.file(check.book), t.file(check.good), t.file(b"kept")
        names = (book, good, third, t.file(b""), t.file(b""))
        right = range(COMMANDS[check.program].least, COMMANDS[check.program].most + 1)
        for count in set(range(6)).difference(right):
            try_usage(t, f"{check.program}, {count} names", check.program, t.run(check.program, *names[:count]))
        untouched = list(map(read, names[:3])) == [check.book, check.good, b"kept"]
        t.expect(f"{check.program}, wrong numbers of names: files untouched", untouched, None)


def try_unreadable(t):
    """A file that cannot be read is named on standard error, and there is no verdict, whatever the other file is."""
    os.mkdir(t.path("folder"))
    inside = t.file(b"") + "/x"
    wrong = [("missing", t.path("missing")), ("a folder", t.path("folder")), ("inside a file", inside), ("empty name", "")]
    for check in CHECKS:
        for what, name in wrong:
            for other in (check.book, check.good, bytes(MOST + 1), b""):
                try_unreadable_places(t, check, what, name, t.file(other))
        both = t.run(check.program, *t.names(check, t.path("missing"), t.path("missing2")))
        t.no_verdict(f"{check.program}, both missing", b"missing: ", both)


def try_unreadable_places(t, check, what, name, other):
    """The file in each place, with this file in the other one."""
    third, said = t.file(b"kept"), os.fsencode(name) + b": "
    rest = [third] if check.result is not None else []
    t.no_verdict(f"{check.program}, book {what}", said, t.run(check.program, name, other, *rest))
    t.no_verdict(f"{check.program}, second input {what}", said, t.run(check.program, other, name, *rest))
    t.expect(f"{check.program}, an input {what}: third file untouched", read(third) == b"kept", read(third))


def try_unreadable_standard_input(t):
    """print_formula has no name to give, but a book that cannot be read has no verdict either."""
    folder = os.open(t.folder, os.O_RDONLY)
    t.no_verdict("print_formula, standard input is a folder", b"\n", t.run("print_formula", stdin=folder))
    os.close(folder)
    closed = t.run("print_formula", stdin=subprocess.DEVNULL, preexec_fn=lambda: os.close(0))
    t.no_verdict("print_formula, standard input is closed", b"\n", closed)


def try_without_permission(t):
    """As one who may not read everything, if the script itself may."""
    how = {"user": NOBODY, "group": NOBODY, "extra_groups": []} if os.geteuid() == 0 else {}
    try:
        for check in CHECKS:
            try_closed_files(t, check, how)
    except (PermissionError, subprocess.SubprocessError) as error:
        t.left_out.append(f"files without permission ({error})")


def try_closed_files(t, check, how):
    book, good, closed = t.file(check.book), t.file(check.good), t.file(check.good)
    for name in (book, good):
        os.chmod(name, 0o644)
    os.chmod(closed, 0)
    said = os.fsencode(closed) + b": "
    t.no_verdict(f"{check.program}, book without permission", said, t.run(check.program, *t.names(check, closed, good), **how))
    t.no_verdict(f"{check.program}, second input without permission", said, t.run(check.program, *t.names(check, book, closed), **how))
    if check.result is not None:
        answer = t.run(check.program, book, good, closed, **how)
        stands(t, f"{check.program}, third file without permission", closed, answer)
        os.chmod(closed, 0o600)
        t.expect(f"{check.program}, third file without permission: untouched", read(closed) == check.good, read(closed))


def stands(t, what, name, answer):
    """The verdict, and a word about the file on standard error."""
    said = os.fsencode(name) + b": "
    holds = answer.out == ACCEPTED and said in answer.err and ended(answer)
    t.expect(f"{what}: expected accepted, and {said!r} on standard error", holds, answer)


def try_unwritable_third(t):
    """An empty list has no bytes that a full device could refuse; but its file can't be made either."""
    never, full = (t.path("folder"), t.path("missing/x"), ""), ("/dev/full",) if os.path.exists("/dev/full") else ()
    empty = CHECKS[-1]._replace(book=BOOK_L, good=PLAN_L)
    for check, names in (*((check, never + full) for check in WITH_RESULT), (empty, never)):
        book, good = t.file(check.book), t.file(check.good)
        for third in names:
            stands(t, f"{check.program}, third name {third!r}", third, t.run(check.program, book, good, third))


def try_same_names(t):
    """One file as both inputs, or as an input and the result."""
    for check, line in zip(CHECKS, (b"13 0\n", b"15 0\n", b"17 1\n", b"15 0\n", b"15 0\n")):
        book = t.file(check.book)
        t.verdict(f"{check.program}, the book twice", line, t.run(check.program, *t.names(check, book, book)))
    for check in WITH_RESULT:
        for place in (0, 1):
            names = [t.file(check.book), t.file(check.bad)]
            what = f"{check.program}, input {place + 1} is the third file too"
            t.verdict(f"{what}, refused", check.bad_line, t.run(check.program, *names, names[place]))
            t.expect(f"{what}, refused: untouched", list(map(read, names)) == [check.book, check.bad], None)
            write_bytes(names[1], check.good)
            t.verdict(f"{what}, accepted", ACCEPTED, t.run(check.program, *names, names[place]))
            t.expect(f"{what}, accepted: the result", read(names[place]) == check.result, read(names[place]))


def try_odd_names(t):
    """Blanks, a dash in front, letters that are no ASCII, bytes that are no text, a link, the longest name and one longer than that."""
    check = CHECKS[0]
    good = t.file(check.good)
    os.symlink(t.file(check.book), t.path("link"))
    for name in ("a book", "-h", "--", "Fl\u00fcelen", "x" * 255, "./" * 2047 + "b"):
        write_bytes(os.path.join(os.fsencode(t.folder), os.fsencode(name)) if len(name) < 256 else t.path("b"), check.book)
        t.verdict(f"{check.program}, book named {name[:20]!r}", ACCEPTED, t.run(check.program, name, good))
    t.verdict(f"{check.program}, book named by a link", ACCEPTED, t.run(check.program, "link", good))
    # files are opened by names that are text
    write_bytes(os.path.join(os.fsencode(t.folder), b"\xff\xfe"), check.book)
    t.no_verdict(f"{check.program}, book named by bytes that are no text", b"\xff\xfe: ", t.run(check.program, b"\xff\xfe", good))
    # such a name must not be cut: it would name another file
    t.no_verdict(f"{check.program}, book with a name of 4,099 bytes", b": ", t.run(check.program, "./" * 2048 + "bad", good))
    answer = t.run(check.program, t.path("link"), good, "a plan")
    t.verdict(f"{check.program}, third file with a blank in its name", ACCEPTED, answer)
    t.expect(f"{check.program}, third file with a blank in its name: the result", read(t.path("a plan")) == check.result, answer)


# ---- lengths


def long_books(good, line):
    """A good book of 65,536 bytes with its line, a bad one, and each with a byte more."""
    bad = b"\xff" * MOST
    yield "65,536 bytes", good, line
    yield "65,536 bad bytes", bad, b"1 0\n"
    yield "65,537 bytes", good + b"\0", TOO_LONG
    yield "65,537 bad bytes", bad + b"\xff", TOO_LONG


def try_book_lengths(t):
    text = reference.print_formula(padded(0))
    t.expect("the reference accepts a book of 65,536 bytes", text.startswith(b"p cnf 19 "), text)
    for what, book, line in long_books(padded(0), text):
        t.verdict(f"print_formula, {what}", line, t.run("print_formula", stdin=book))
    for check, second, call in zip(CHECKS, (ASSIGNMENT_PADDED, PLAN_PADDED, REFUTATION_PADDED, PLAN_PADDED, PLAN_PADDED), (0, 0, 1, 0, 0)):
        # the page is that of book L: one train, which stands on segment 0 in the one interval
        for what, book, line in long_books(padded(call), check.said):
            t.verdict(f"{check.program}, book of {what}", line, t.run(check.program, *t.names(check, t.file(book), t.file(second))))


def try_second_lengths(t):
    """12 comes before all else: whatever the book is, an input of 65,537 bytes has that line, and one of 65,536 another."""
    for check, line in zip(CHECKS, (b"13 0\n", b"15 0\n", b"17 1\n", b"15 0\n", b"15 0\n")):
        books = (("a good book", check.book, line), ("an empty book", b"", b"1 0\n"), ("a bad book", b"\xff" * 9, b"1 0\n"),
                 ("a book with a byte behind", check.book + b"\0", b"3 0\n"))
        for what, book, expected in books:
            for size in (MOST, MOST + 1):
                answer = t.run(check.program, *t.names(check, t.file(book), t.file(bytes(size))))
                t.verdict(f"{check.program}, {what} and {size} bytes", expected if size == MOST else TOO_LONG, answer)
        both = t.file(bytes(MOST + 1))
        t.verdict(f"{check.program}, both of 65,537 bytes", TOO_LONG, t.run(check.program, *t.names(check, both, both)))


def try_full_output(t):
    """An assignment of exactly 65,536 bytes, which fills the slice, written and read; with one node more it is 12."""
    data, plan, moves = standing(64)
    good = reference.write_assignment(reference.read_book(data), [0] * 64, moves)
    assert len(good) == MOST
    book, third = t.file(data), t.unused()
    t.verdict("check_plan, a result of 65,536 bytes", ACCEPTED, t.run("check_plan", book, t.file(plan), third))
    t.expect("check_plan, a result of 65,536 bytes: written whole", read(third) == good, len(read(third) or b""))
    back = t.unused()
    t.verdict("check_assignment, 65,536 bytes", ACCEPTED, t.run("check_assignment", book, t.file(good), back))
    t.expect("check_assignment, 65,536 bytes: the plan again", read(back) == plan, read(back))
    data, plan, _ = standing(65)
    t.verdict("check_plan, 65,537 variables", TOO_LONG, t.run("check_plan", t.file(data), t.file(plan)))
    t.verdict("check_assignment, 65,537 variables", b"13 0\n", t.run("check_assignment", t.file(data), t.file(good)))
    t.verdict("check_refutation, 65,537 variables", TOO_LONG, t.run("check_refutation", t.file(data), t.file(REFUTATION_M)))
    t.verdict("print_formula, 65,537 variables", TOO_LONG, t.run("print_formula", stdin=data))


def try_full_refutation(t):
    """A refutation of exactly 65,536 bytes, and the same with a byte behind it."""
    steps = [([6], [19, 17])] * 3 + [([-5], [15])] * 4676
    data = encode_steps(steps) + REFUTATION_M
    assert len(data) == MOST
    book = t.file(BOOK_M)
    t.verdict("check_refutation, 65,536 bytes", ACCEPTED, t.run("check_refutation", book, t.file(data)))
    t.verdict("check_refutation, 65,537 bytes", TOO_LONG, t.run("check_refutation", book, t.file(data + b"\0")))
    t.verdict("check_refutation, 65,535 bytes", b"17 4680\n", t.run("check_refutation", book, t.file(data[:-1])))


def try_empty(t):
    t.verdict("print_formula, nothing", b"1 0\n", t.run("print_formula"))
    for check, line in zip(CHECKS, (b"13 0\n", b"15 0\n", b"21 0\n", b"15 0\n", b"15 0\n")):
        empty, book, good = t.file(b""), t.file(check.book), t.file(check.good)
        t.verdict(f"{check.program}, empty book", b"1 0\n", t.run(check.program, *t.names(check, empty, good)))
        t.verdict(f"{check.program}, empty second input", line, t.run(check.program, *t.names(check, book, empty)))
        t.verdict(f"{check.program}, both empty", b"1 0\n", t.run(check.program, *t.names(check, empty, empty)))
        t.verdict(f"{check.program}, /dev/null", b"1 0\n", t.run(check.program, *t.names(check, "/dev/null", "/dev/null")))


# ---- outputs and inputs that are no plain files


def without_reader():
    """The writing end of a pipe that nobody reads."""
    reading, writing = os.pipe()
    os.close(reading)
    return writing


def close_output():
    os.close(1)


def close_all():
    os.closerange(0, 3)


def try_closed_output(t):
    """What should have been printed is lost, and standard error says so; the program ends, and the inputs are as they were: a file that is
    opened next may get number 1."""
    long_text = padded(0)
    jobs = [("print_formula", (), BOOK_L), ("print_formula", (), long_text), ("print_formula", (), b"")]
    jobs.append(("print_graph", tuple(map(t.file, circling(256))), b""))
    for check in CHECKS:
        rest = [t.unused()] if check.result is not None else []
        jobs.append((check.program, (t.file(check.book), t.file(check.good), *rest), b""))
        jobs.append((check.program, (t.file(check.book), t.file(check.bad), *rest), b""))
        jobs.append((check.program, (), b""))
        jobs.append((check.program, t.names(check, t.path("missing"), t.path("missing")), b""))
    for program, names, stdin in jobs:
        before = [read(name) for name in names[:2]]
        for what, answer in closed_outputs(t, program, names, stdin):
            t.expect(f"{program}, {len(names)} names, {what}: ends", answer.status is not None, answer)
            if what in ("output closed", "device full") and (program == "print_formula" or None not in before and names):
                t.expect(f"{program}, {len(names)} names, {what}: said", answer.err.startswith(b"standard output: "), answer)
            t.expect(f"{program}, {len(names)} names, {what}: inputs untouched", [read(name) for name in names[:2]] == before, answer)


def closed_outputs(t, program, names, stdin):
    """The program with each output that takes nothing."""
    yield "output closed", t.run(program, *names, stdin=stdin, stdout=None, preexec_fn=close_output)
    yield "all closed", t.run(program, *names, stdin=stdin, stdout=None, stderr=None, preexec_fn=close_all)
    writing = without_reader()
    yield "no reader", t.run(program, *names, stdin=stdin, stdout=writing)
    os.close(writing)
    if os.path.exists("/dev/full"):
        with open("/dev/full", "wb") as full:
            yield "device full", t.run(program, *names, stdin=stdin, stdout=full)
            yield "both devices full", t.run(program, *names, stdin=stdin, stdout=full, stderr=full)


def in_pieces(t, program, names, data, size):
    """Feeds standard input in pieces with pauses between them, as a slow pipe does."""
    words = [t.program, program, *names]
    with subprocess.Popen(words, stdin=subprocess.PIPE, stdout=subprocess.PIPE, stderr=subprocess.PIPE, bufsize=0) as process:
        try:
            for at in range(0, len(data), size):
                process.stdin.write(data[at:at + size])
                time.sleep(0.001)
        except BrokenPipeError:
            pass                # it has read enough
        try:
            out, err = process.communicate(timeout=LIMIT)
        except subprocess.TimeoutExpired:
            process.kill()
            return Answer(b"", b"", None)
    return Answer(out, err, process.returncode)


def try_pipes(t):
    """Input from a pipe comes in pieces; input without an end is too long."""
    t.verdict("print_formula, a byte at a time", FORMULA_L, in_pieces(t, "print_formula", (), BOOK_L, 1))
    long_text = padded(0)
    text = reference.print_formula(long_text)
    t.verdict("print_formula, 65,536 bytes in pieces", text, in_pieces(t, "print_formula", (), long_text, 1000))
    t.verdict("print_formula, 65,537 bytes in pieces", TOO_LONG, in_pieces(t, "print_formula", (), long_text + b"\0", 1000))
    for check in CHECKS:
        book, good = t.file(check.book), t.file(check.good)
        what = f"{check.program}, an input by a pipe"
        t.verdict(what, check.said, in_pieces(t, check.program, t.names(check, "/dev/stdin", good), check.book, 3))
        t.verdict(what, check.said, in_pieces(t, check.program, t.names(check, book, "/dev/stdin"), check.good, 1))
        t.verdict(what, TOO_LONG, in_pieces(t, check.program, t.names(check, book, "/dev/stdin"), bytes(MOST + 1), 5000))
        t.verdict(f"{check.program}, a book without end", TOO_LONG, t.run(check.program, *t.names(check, "/dev/zero", good)))
        t.verdict(f"{check.program}, a second input without end", TOO_LONG, t.run(check.program, *t.names(check, book, "/dev/zero")))
    with open("/dev/zero", "rb") as zeros:
        t.verdict("print_formula, a book without end", TOO_LONG, t.run("print_formula", stdin=zeros.fileno()))


# ---- old books

OLD_M = book_m(0, 1, reference.OLD)


def refused_old_books():
    """What upgrade_book refuses, with its line."""
    yield "nothing", b"", b"1 0\n"
    yield "a cut old book", OLD_L[:-1], b"1 0\n"
    yield "an old book with a byte behind", OLD_L + b"\0", b"3 0\n"
    yield "a book of the format in force", BOOK_L, b"4 0\n"
    # the ninth byte is T
    yield "33 intervals", OLD_L[:8] + b"\x21" + OLD_L[9:], b"6 0\n"
    yield "a plan", PLAN_L, b"2 0\n"
    yield "65,537 bytes", bytes(MOST + 1), TOO_LONG
    yield "a new book of 65,540 bytes", outgrowing(), TOO_LONG


def try_old_books(t):
    """An old book is refused by the other commands, and rewritten by upgrade_book; what it writes they take."""
    t.verdict("print_formula, old book L", b"4 0\n", t.run("print_formula", stdin=OLD_L))
    t.verdict("check_assignment, old book L", b"4 0\n", t.run("check_assignment", t.file(OLD_L), t.file(ASSIGNMENT_L)))
    for what, old, book in (("book L", OLD_L, BOOK_L), ("book M", OLD_M, BOOK_M), ("65,532 bytes", padded(0, reference.OLD), padded(0))):
        try_last(t, f"upgrade_book, {what}", "upgrade_book", (old,), book)
    t.verdict("print_formula, rewritten book L", FORMULA_L, t.run("print_formula", stdin=read_rewritten(t, OLD_L)))


def read_rewritten(t, old):
    """What upgrade_book writes of an old book."""
    new = t.unused()
    t.run("upgrade_book", t.file(old), new)
    return read(new) or b""


def try_refused_old_books(t):
    """A refusal neither makes the second file nor touches it."""
    for what, data, line in refused_old_books():
        name, there, new = t.file(data), t.file(b"kept"), t.unused()
        before = stamp(there)
        t.verdict(f"upgrade_book, {what}", line, t.run("upgrade_book", name, there))
        t.expect(f"upgrade_book, {what}: the second file untouched", stamp(there) == before, read(there))
        t.verdict(f"upgrade_book, {what}", line, t.run("upgrade_book", name, new))
        t.expect(f"upgrade_book, {what}: no file made", not os.path.exists(new), read(new))


def try_old_book_names(t):
    """Wrong numbers of names, files that can't be read or written, one file in both places, input by a pipe or without an end."""
    old, kept = t.file(OLD_L), t.file(b"kept")
    for names in ((), (old,), (old, kept, t.unused()), (old, kept, t.unused(), t.unused())):
        try_usage(t, f"upgrade_book, {len(names)} names", "upgrade_book", t.run("upgrade_book", *names, stdin=OLD_L))
    for name in (t.path("missing"), t.folder, ""):
        t.no_verdict(f"upgrade_book, unreadable {name!r}", os.fsencode(name) + b": ", t.run("upgrade_book", name, kept))
    t.expect("upgrade_book, wrong names: files untouched", (read(old), read(kept)) == (OLD_L, b"kept"), None)
    for new in (t.folder, t.path("missing/x"), "/dev/full", ""):
        if new != "/dev/full" or os.path.exists(new):
            stands(t, f"upgrade_book, second name {new!r}", new, t.run("upgrade_book", old, new))
    t.verdict("upgrade_book, in place", ACCEPTED, t.run("upgrade_book", old, old))
    t.expect("upgrade_book, in place: the new book", read(old) == BOOK_L, read(old))
    t.verdict("upgrade_book, in place again", b"4 0\n", t.run("upgrade_book", old, old))
    t.expect("upgrade_book, in place again: untouched", read(old) == BOOK_L, read(old))
    new = t.unused()
    t.verdict("upgrade_book, an old book by a pipe", ACCEPTED, in_pieces(t, "upgrade_book", ("/dev/stdin", new), OLD_L, 1))
    t.expect("upgrade_book, an old book by a pipe: the new book", read(new) == BOOK_L, read(new))
    t.verdict("upgrade_book, an old book without end", TOO_LONG, t.run("upgrade_book", "/dev/zero", kept))


# ---- train graphs


def try_graphs(t):
    """Pages, up to the longest one; the plan's file stays as it is."""
    book, plan = t.file(BOOK_GRAPH), t.file(PLAN_GRAPH)
    t.verdict("print_graph, absent, moves 8, gone", PAGE_GRAPH, t.run("print_graph", book, plan))
    t.expect("print_graph: inputs untouched", (read(book), read(plan)) == (BOOK_GRAPH, PLAN_GRAPH), None)
    book, plan = circling(256)
    page = reference.print_graph(book, plan)
    t.expect("the reference's page of 256 intervals", len(page) == 81 * 256 and page.endswith(b"55-56 1     \n"), page[-81:])
    t.verdict("print_graph, 256 intervals", page, t.run("print_graph", t.file(book), t.file(plan)))
    t.verdict("print_graph, 256 intervals, a plan by a pipe", page, in_pieces(t, "print_graph", (t.file(book), "/dev/stdin"), plan, 1000))
    t.verdict("print_graph, old book L", b"4 0\n", t.run("print_graph", t.file(OLD_L), t.file(PLAN_L)))
    # more variables than check_plan has room for
    data, plan, _ = standing(65)
    page = reference.print_graph(data, plan)
    t.expect("the reference's page of a plan with 65,537 variables", len(page) == 81 * 31, page)
    t.verdict("print_graph, 65,537 variables", page, t.run("print_graph", t.file(data), t.file(plan)))


# ---- lists of carriers


def lists():
    """Books, plans and their lists: several entries, none where no border may be set or none carries, the longest, the greatest numbers."""
    yield "three trains", BOOK_CARRIED, PLAN_CARRIED, LIST_CARRIED
    yield "no border of kind 1", BOOK_L, PLAN_L, b""
    yield "64 borders", *chasing(256)
    yield "64 borders that carry nothing", *circling(256, bordered=True), b""
    yield "the last node, interval and trains", *far(256)
    # more variables than check_plan has room for
    yield "65,537 variables", *standing(65)[:2], b""


def try_lists(t):
    """An accepted list stands in its file, and where it is empty the file is, whatever it held."""
    for what, book, plan, carriers in lists():
        try_last(t, f"list_carriers, {what}", "list_carriers", (book, plan), carriers)
    book, plan, carriers = chasing(256)
    out = t.unused()
    t.verdict("list_carriers, a plan by a pipe", ACCEPTED, in_pieces(t, "list_carriers", (t.file(book), "/dev/stdin", out), plan, 1000))
    t.expect("list_carriers, a plan by a pipe: the list", read(out) == carriers, read(out))
    t.verdict("list_carriers, old book L", b"4 0\n", t.run("list_carriers", t.file(OLD_L), t.file(PLAN_L), t.unused()))


# ---- at most so many borders

# what N may be: each with the cap that it is; and what it may not be
NUMBERS = (("0", 0), ("1", 1), ("2", 2), ("3", 3), ("00", 0), ("0001", 1), ("0" * 60 + "2", 2), ("96", 96), ("4294967296", 2 ** 32),
           ("18446744073709551615", 2 ** 64 - 1))
NO_NUMBERS = ("", "-1", "-0", "+1", " 1", "1 ", "1\n", "0x1", "1e3", "1.0", "1,000", "one", "\N{FULLWIDTH DIGIT ONE}", "18446744073709551616",
              "18446744073709551617", "99999999999999999999", "36893488147419103232", "1" + "0" * 30, "--", CAP)


def capped_text(text, cap):
    """The formula's text under a cap, from that without one, by what was worked out by hand."""
    added, more = CAPPED.get(cap, ((), 0))
    first, *lines = text.decode().splitlines()
    variables, clauses = map(int, first.split()[2:])
    lines += [" ".join(map(str, (*clause, 0))) for clause in added]
    return "".join(line + "\n" for line in (f"p cnf {variables + more} {clauses + len(added)}", *lines)).encode()


def try_caps(t):
    """Each command that takes a cap, under each number that N may be."""
    text = t.run("print_formula", stdin=BOOK_FEWEST).out
    t.expect("print_formula, without a cap", text.startswith(b"p cnf 17 44\n"), text[:40])
    book, plan, more, steps = map(t.file, (BOOK_FEWEST, PLAN_FEWEST, PLAN_MORE, REFUTATION_FEWEST))
    for word, cap in NUMBERS:
        what = f"cap {word[:30]}"
        t.verdict(f"print_formula, {what}", capped_text(text, cap), t.run("print_formula", CAP, word, stdin=BOOK_FEWEST))
        made, back = t.unused(), t.unused()
        t.verdict(f"check_plan, {what}", ACCEPTED if cap else b"22 0\n", t.run("check_plan", CAP, word, book, plan, made))
        t.verdict(f"check_plan, two names, {what}", ACCEPTED if cap > 2 else b"22 0\n", t.run("check_plan", CAP, word, book, more))
        if cap:
            t.verdict(f"check_assignment, {what}", ACCEPTED, t.run("check_assignment", CAP, word, book, made, back))
            t.expect(f"check_assignment, {what}: the plan again", read(back) == PLAN_FEWEST, read(back))
        # 46, -2 under cap 0, is no clause without a cap, and another under caps 1 and 2
        line = {0: ACCEPTED, 1: b"20 1\n", 2: b"20 1\n"}.get(cap, b"19 1\n")
        t.verdict(f"check_refutation, {what}", line, t.run("check_refutation", CAP, word, book, steps))
    t.verdict("check_assignment, of another cap", b"13 0\n", t.run("check_assignment", CAP, "1", book, t.file(ASSIGNMENT_FEWEST)))
    t.verdict("check_assignment, more than the cap", b"14 46\n", t.run("check_assignment", CAP, "0", book, t.file(ASSIGNMENT_FEWEST)))
    t.verdict("check_assignment, no cap", ACCEPTED, t.run("check_assignment", book, t.file(ASSIGNMENT_MORE)))


def try_refused_caps(t):
    """A plan above the cap: 22 behind 15 and 16, and no file is written."""
    book, kept = t.file(BOOK_FEWEST), t.file(b"kept")
    before = stamp(kept)
    for what, plan, line in (("more borders", PLAN_MORE, b"22 0\n"), ("a byte less", PLAN_MORE[:-1], b"15 0\n"),
                             ("no border", bytes(3) + PLAN_FEWEST[3:], b"16 6\n")):
        t.verdict(f"check_plan, cap 0, {what}", line, t.run("check_plan", CAP, "0", book, t.file(plan), kept))
    t.expect("check_plan, cap 0: the third file untouched", stamp(kept) == before, read(kept))
    # 64 + 65,472 variables fill the slice, and cap 1 adds 63
    data, plan, _ = standing(64)
    for word, line in (("0", ACCEPTED), ("1", TOO_LONG), ("63", TOO_LONG), ("64", ACCEPTED)):
        t.verdict(f"check_plan, 65,536 variables, cap {word}", line, t.run("check_plan", CAP, word, t.file(data), t.file(plan)))


def try_cap_words(t):
    """What is no number, a cap without names, in another place, twice, or for a command that takes none: usage, no verdict, nothing written."""
    for check in CHECKS[:3]:
        book, good, kept = t.file(check.book), t.file(check.good), t.file(b"kept")
        names = (book, good, kept)[:COMMANDS[check.program].most]
        for word in NO_NUMBERS:
            try_usage(t, f"{check.program}, cap {word[:30]!r}", check.program, t.run(check.program, CAP, word, *names))
        for words in ((CAP,), (CAP, "1"), (CAP, "1", book), (CAP, "1", CAP, "1", *names), (*names, CAP, "1"), (CAP, "1", *names, kept, kept)):
            try_usage(t, f"{check.program}, {len(words)} words with a cap", check.program, t.run(check.program, *words))
        t.expect(f"{check.program}, wrong caps: files untouched", [read(book), read(good), read(kept)] == [check.book, check.good, b"kept"], None)
    for word in NO_NUMBERS:
        try_usage(t, f"print_formula, cap {word[:30]!r}", "print_formula", t.run("print_formula", CAP, word, stdin=BOOK_L))
    for words in ((CAP,), (CAP, "1", "1"), ("1", CAP), (CAP, "1", CAP, "1"), (CAP + "=1",)):
        try_usage(t, f"print_formula {words}", "print_formula", t.run("print_formula", *words, stdin=BOOK_L))
    for command in set(COMMANDS) - set(TAKE_A_CAP):
        names = [t.file(b"kept") for _ in range(COMMANDS[command].most)]
        try_usage(t, f"{command}, which takes no cap", command, t.run(command, CAP, "1", *names))
        try_usage(t, f"{command}, the option for a name", command, t.run(command, CAP, *names[1:]))
    # behind the names it is a name
    t.verdict("check_plan, a third file named as the option", ACCEPTED, t.run("check_plan", t.file(BOOK_L), t.file(PLAN_L), CAP))
    t.expect("check_plan, a third file named as the option: the result", read(t.path(CAP)) == ASSIGNMENT_L, read(t.path(CAP)))


# ---- the fewest borders


def fewest_lines():
    """Words for N, assignments and refutations, with the line."""
    good, more, steps = ASSIGNMENT_FEWEST, ASSIGNMENT_MORE, REFUTATION_FEWEST
    yield "the fewest", "1", good, steps, ACCEPTED
    yield "the fewest, with zeros ahead", "0001", good, steps, ACCEPTED
    for word in ("0", "2", "3", "97", "4294967297", "18446744073709551615"):
        yield f"n = {word}", word, good, steps, b"22 0\n"
        yield f"n = {word}, an empty refutation", word, good, b"", b"22 0\n"
    yield "more borders than needed", "3", more, steps, b"20 1\n"
    yield "more borders than n", "1", more, steps, b"22 0\n"
    yield "14 ahead of 22", "2", bytes(17), steps, b"14 1\n"
    yield "13 ahead of 22", "2", good[1:], steps, b"13 0\n"
    yield "an empty refutation", "1", good, b"", b"21 0\n"
    yield "a cut refutation", "1", good, steps[:-1], b"17 1\n"
    yield "22 ahead of a cut refutation", "2", good, steps[:-1], b"22 0\n"
    yield "65,537 bytes of assignment", "1", bytes(MOST + 1), steps, TOO_LONG
    yield "65,537 bytes of refutation", "0", good, bytes(MOST + 1), TOO_LONG


def try_fewest(t):
    book = t.file(BOOK_FEWEST)
    for what, word, assignment, refutation, line in fewest_lines():
        t.verdict(f"{FEWEST}, {what}", line, t.run(FEWEST, book, word, t.file(assignment), t.file(refutation)))
    # book L has no node of kind 1, so that n = 0 and no refutation
    for word, refutation, line in (("0", b"", ACCEPTED), ("0", b"\0", b"21 0\n"), ("0", REFUTATION_M, b"21 0\n"), ("1", b"", b"22 0\n")):
        t.verdict(f"{FEWEST}, book L, n = {word}", line, t.run(FEWEST, t.file(BOOK_L), word, t.file(ASSIGNMENT_L), t.file(refutation)))
    for what, data, line in (("a cut book", BOOK_FEWEST[:-1], b"1 0\n"), ("an old book", OLD_L, b"4 0\n"), ("65,537 bytes", bytes(MOST + 1), TOO_LONG)):
        for word in ("0", "1"):
            t.verdict(f"{FEWEST}, {what}", line, t.run(FEWEST, t.file(data), word, t.file(ASSIGNMENT_FEWEST), t.file(REFUTATION_FEWEST)))


def try_fewest_words(t):
    """Too few and too many words, and what is no number: usage; inputs by a pipe; they stay as they are."""
    inputs = BOOK_FEWEST, ASSIGNMENT_FEWEST, REFUTATION_FEWEST
    book, assignment, refutation = names = list(map(t.file, inputs))
    words = (book, "1", assignment, refutation, t.unused(), t.unused())
    for count in (0, 1, 2, 3, 5, 6):
        try_usage(t, f"{FEWEST}, {count} words", FEWEST, t.run(FEWEST, *words[:count]))
    for word in NO_NUMBERS:
        try_usage(t, f"{FEWEST}, n {word[:30]!r}", FEWEST, t.run(FEWEST, book, word, assignment, refutation))
        # and so it is where a file is missing
        try_usage(t, f"{FEWEST}, n {word[:30]!r}, no book", FEWEST, t.run(FEWEST, t.path("missing"), word, assignment, refutation))
    for place in range(3):
        piped = ["/dev/stdin" if at == place else name for at, name in enumerate(names)]
        t.verdict(f"{FEWEST}, input {place + 1} by a pipe", ACCEPTED, in_pieces(t, FEWEST, (piped[0], "1", *piped[1:]), inputs[place], 3))
    t.expect(f"{FEWEST}: inputs untouched", tuple(map(read, names)) == inputs, None)
    t.verdict(f"{FEWEST}, one file three times", b"13 0\n", t.run(FEWEST, book, "1", book, book))


def try_fewest_unreadable(t):
    """A file that can't be read, in each place, beside good ones and beside long ones: it is named, and there is no verdict."""
    names, long = list(map(t.file, (BOOK_FEWEST, ASSIGNMENT_FEWEST, REFUTATION_FEWEST))), t.file(bytes(MOST + 1))
    for place in range(3):
        for wrong in (t.path("missing"), t.folder, ""):
            for others in (names, [long] * 3):
                given = [wrong if at == place else name for at, name in enumerate(others)]
                answer = t.run(FEWEST, given[0], "1", *given[1:])
                t.no_verdict(f"{FEWEST}, input {place + 1} unreadable {wrong!r}", os.fsencode(wrong) + b": ", answer)


# ---- the scripts


def copied_scripts(t):
    """The scripts of bin/ with the program where they look for it, in a folder of their own; None where there are none."""
    source, copy = os.path.join(ROOT, "bin"), t.path("repository")
    if not all(os.access(os.path.join(source, word), os.X_OK) for word in COMMANDS):
        return None
    shutil.copytree(source, os.path.join(copy, "bin"), symlinks=True)
    out = os.path.join(copy, os.path.relpath(PROGRAMS, ROOT))
    os.makedirs(out)
    shutil.copy(t.program, os.path.join(out, CABINET))
    return os.path.join(copy, "bin")


def try_scripts(t):
    """Each script of bin/ is its command, by its path from any folder."""
    scripts = copied_scripts(t)
    if scripts is None:
        t.left_out.append("the scripts (bin/ has not all of them)")
        return
    formula = os.path.join(scripts, "print_formula")
    t.verdict("bin/print_formula", FORMULA_L, t.run_words((), BOOK_L, formula))
    t.no_verdict("bin/print_formula, a name", b"usage", t.run_words((t.file(BOOK_L),), BOOK_L, formula))
    rewriting, new = os.path.join(scripts, "upgrade_book"), t.unused()
    t.verdict("bin/upgrade_book", ACCEPTED, t.run_words((t.file(OLD_L), new), program=rewriting))
    t.expect("bin/upgrade_book: the new book", read(new) == BOOK_L, read(new))
    t.verdict("bin/upgrade_book, refused", b"4 0\n", t.run_words((t.file(BOOK_L), new), program=rewriting))
    t.no_verdict("bin/upgrade_book, one name", b"usage", t.run_words((t.file(OLD_L),), program=rewriting))
    names = [t.file(BOOK_FEWEST), "1", t.file(ASSIGNMENT_FEWEST), t.file(REFUTATION_FEWEST)]
    t.verdict(f"bin/{FEWEST}", ACCEPTED, t.run_words(names, program=os.path.join(scripts, FEWEST)))
    t.verdict("bin/check_refutation, cap 0", ACCEPTED, t.run_words((CAP, "0", names[0], names[3]), program=os.path.join(scripts, "check_refutation")))
    for check in CHECKS:
        script = os.path.join(scripts, check.program)
        names, third = (t.file(check.book), t.file(check.good)), t.unused()
        t.verdict(f"bin/{check.program}", check.said, t.run_words(t.names(check, *names), program=script))
        t.verdict(f"bin/{check.program}, refused", check.bad_line, t.run_words(t.names(check, names[0], t.file(check.bad)), program=script))
        t.no_verdict(f"bin/{check.program}, one name", b"usage", t.run_words(names[:1], program=script))
        odd = t.path("a name with blanks")
        write_bytes(odd, check.good)
        t.verdict(f"bin/{check.program}, a name with blanks", check.said, t.run_words(t.names(check, names[0], odd), program=script))
        if check.result is not None:
            t.verdict(f"bin/{check.program}, three names", ACCEPTED, t.run_words((*names, third), program=script))
            t.expect(f"bin/{check.program}, three names: the result", read(third) == check.result, read(third))


# ---- terminals


def try_terminals(t):
    """An input ends where it is ended twice, once for the slice and once for the byte that tells a longer one; what is typed behind the first end
    tells of a read that failed, and there is no verdict."""
    for what, typed, line in (("ended twice", b"x\n\x04\x04", b"1 0\n"), ("more behind an end", b"x\n\x04y\n\x04", None)):
        master, terminal = os.openpty()
        try:
            os.write(master, typed)
            answer = t.run("print_formula", stdin=terminal)
        finally:
            os.close(master)
            os.close(terminal)
        if line is None:
            t.no_verdict(f"print_formula at a terminal, {what}", b"standard input can't be read", answer)
        else:
            t.verdict(f"print_formula at a terminal, {what}", line, answer)


# ---- all of it


GROUPS = (
    try_examples, try_results, try_commands, try_name_counts, try_unreadable, try_unreadable_standard_input, try_without_permission,
    try_unwritable_third, try_same_names, try_odd_names, try_book_lengths, try_second_lengths, try_full_output, try_full_refutation, try_empty,
    try_closed_output, try_pipes, try_old_books, try_refused_old_books, try_old_book_names, try_graphs, try_lists, try_caps, try_refused_caps,
    try_cap_words, try_fewest, try_fewest_words, try_fewest_unreadable, try_terminals, try_scripts)


def copied(program, folder):
    """The program in a folder of the trials' own, where others may run it, and where a new build does not exchange it."""
    os.mkdir(os.path.join(folder, "bin"))
    os.chmod(folder, 0o755)
    return shutil.copy(program, os.path.join(folder, "bin", CABINET))


def arguments(parser):
    parser.add_argument("--bin", metavar="DIR", default=PROGRAMS, help="the folder of the program, by default crates/cabinet/out")


def run(options):
    program = built(options.bin, CABINET)
    with tempfile.TemporaryDirectory() as folder:
        t = Tries(copied(program, folder), folder)
        for group in GROUPS:
            group(t)
    for what in t.left_out:
        print(f"not tried: {what}")
    print(f"{t.tried} expectations, {t.failed} failed")
    return 1 if t.failed else 0
