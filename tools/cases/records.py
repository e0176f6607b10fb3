"""The records of stored cases, and the reference's answer to each.

A record is one byte, the question's letter; a byte 1 where there is a cap and 0 where there is none, and the cap in eight bytes, 0 where there is
none; three four-byte lengths; and three parts of these lengths, at most 65,536 bytes each. Numbers are little-endian. Only F, D, A, P, N and f, a, p, n
have a cap, and W and w have n in its place, always with the byte 1. For a capital letter the parts are a book, a second input, and four-byte
numbers that say how much is lent; where one is missing, it is as much as the programs lend.

  B  read the book: its counts                        A  unpack an assignment's plan: the verdict, and an accepted one's plan; then judge
  R  its run lists                                       the assignment alone: the verdict
  F  its formula's text                               P  check a plan: the verdict, and an accepted one's assignment
  D  that text's length and checksum                  N  check a refutation: the verdict
                                                      W  the combined verdict on an assignment and a refutation. Its third part begins with all
                                                         four numbers that say how much is lent, and the refutation stands behind them
                                                      U  rewrite an old book: the verdict, and an accepted one's new book
                                                      G  draw a plan's train graph: the verdict, and an accepted one's page
                                                      C  list the borders that carry a plan: the verdict, and the list, if it has entries

For a small letter the parts are the names of stored files: the book's, the second input's and the result's, which may be empty. f, a, p, n,
u and c are print_formula, the three checks, upgrade_book, which has no second input, and list_carriers; the answer is what the command prints, and
then the file that has the result's name by then, on a line. g is print_graph and w check_fewest, which have no result: the answer is what the
command prints, and nothing else; the parts of w name the book, the assignment and the refutation.
"""
import struct
from collections import namedtuple

from .. import reference
from ..ask import answered, fewest
from ..program import BY_LETTER, CAPPED, COMMANDS, FEWEST
from ..reference import LENT_BYTES, LENT_CLAUSES, LENT_TRAIL, LENT_VALUES, LENT_WORDS

# what the programs lend, by question
LENT = {"F": (LENT_WORDS,), "D": (LENT_WORDS,), "A": (LENT_BYTES,), "P": (LENT_BYTES,), "U": (LENT_BYTES,), "G": (LENT_BYTES,),
        "C": (LENT_BYTES,), "N": (LENT_WORDS, LENT_CLAUSES, LENT_VALUES, LENT_TRAIL)}
LENT["W"] = LENT["N"]
# the questions that may have a cap, and those that have n in its place
UNDER, WITH_N = {*"FDAPN", *(COMMANDS[name].letter for name in CAPPED)}, {"W", COMMANDS[FEWEST].letter}
# letter, whether there is a cap, the cap, three lengths; and the numbers of W ahead of its refutation
HEAD, NUMBERS = struct.Struct("<c?Q3I"), struct.Struct("<4I")
NO_FILE = b"no file\n"
ACCEPTED = "accepted"

# an answer: its name, which is accepted, a refusal's number or nothing, and its bytes
Answer = namedtuple("Answer", "name data")


class Record:
    """A question with its parts. `said` is the line of the answer where it was worked out beforehand, or None; `cap` is the cap or n, or None."""

    def __init__(self, question, first, second=b"", third=b"", said=None, cap=None):
        self.question, self.parts, self.said, self.cap = question, (first, second, third), said, cap
        assert max(map(len, self.parts)) <= LENT_BYTES
        assert cap is not None if question in WITH_N else cap is None or question in UNDER

    def data(self):
        head = HEAD.pack(self.question.encode(), self.cap is not None, self.cap or 0, *map(len, self.parts))
        return head + b"".join(self.parts)

    def __str__(self):
        under = "" if self.cap is None else f", n = {self.cap}" if self.question in WITH_N else f", under cap {self.cap}"
        return f"{self.question} of {', '.join(shown_part(part) for part in self.parts)}{under}"


def shown_part(part):
    """A part for a person: a name, or bytes, cut where they are long."""
    if part.isascii() and part.decode().isidentifier():
        return part.decode()
    return (part.hex() if len(part) <= 40 else f"{part[:40].hex()}.. of {len(part)} bytes") or "nothing"


def split(data):
    """The records of a file."""
    records, at = [], 0
    while at < len(data):
        letter, capped, cap, *lengths = HEAD.unpack_from(data, at)
        at += HEAD.size
        parts = []
        for length in lengths:
            parts.append(data[at:at + length])
            at += length
        records.append(Record(letter.decode(), *parts, cap=cap if capped else None))
    assert at == len(data)
    return records


# ------------------------------------------------------------- what is lent


def numbers(*values):
    return struct.pack(f"<{len(values)}I", *values)


def lending(question, *values):
    """The third part for so much lent; what is lent by default is left out at the end."""
    assert all(0 <= n <= most for n, most in zip(values, LENT[question]))
    given = list(values)
    while given and given[-1] == LENT[question][len(given) - 1]:
        given.pop()
    return numbers(*given)


def lent(record):
    """How much a record lends of each slice."""
    third = record.parts[2]
    given = struct.unpack(f"<{len(third) // 4}I", third)
    most = LENT[record.question]
    return tuple(min(n, least) for n, least in zip(given, most)) + most[len(given):]


# ------------------------------------------------------------------ answers


def refusal_line(number, detail):
    return b"%d %d\n" % (number, detail)


def read_answer(record, files):
    try:
        book = reference.read_book(record.parts[0])
    except reference.Refused as refused:
        return Answer(str(refused.number), refusal_line(refused.number, refused.detail))
    calls = sum(len(train.calls) for train in book.trains)
    counts = (len(book.nodes), len(book.segments), len(book.joins), len(book.trains), calls)
    return Answer(ACCEPTED, b"accepted %d %d %d %d %d\n" % counts)


def first_at(places, place, start):
    """The first number from `start` on at which the place stands, or how many places there are."""
    return next((at for at in range(start, len(places)) if places[at] == place), len(places))


def train_lines(number, train, runs):
    """How many runs a train has, and each with the first run that follows it and the next that starts where it does."""
    starts = [reference.start_place(train, run) for run in runs]
    lines = ["train %d: %d runs" % (number, len(runs))]
    for at, run in enumerate(runs):
        path = "".join(f"{x} " for x in run)
        first = first_at(starts, reference.end_place(train, run), 0)
        lines.append("%s| %d %d" % (path, first, first_at(starts, starts[at], at + 1)))
    return lines


def runs_answer(record, files):
    try:
        book = reference.read_book(record.parts[0])
    except reference.Refused as refused:
        return Answer(str(refused.number), refusal_line(refused.number, refused.detail))
    lines = []
    for number, train in enumerate(book.trains):
        lines += train_lines(number, train, book.runs[number])
    return Answer(ACCEPTED, "".join(line + "\n" for line in lines).encode())


def formula_answer(record, files):
    found = reference.entry_write_formula(record.parts[0], *lent(record), record.cap)
    if found[0] == "accepted":
        return Answer(ACCEPTED, reference.dimacs(reference.read_book(record.parts[0]), record.cap))
    return Answer(str(found[1]), refusal_line(*found[1:]))


def checksum(text):
    total = 0
    for byte in text:
        total = (total * 257 + byte + 1) % 1000000007
    return total


def digest_answer(record, files):
    name, text = formula_answer(record, files)
    return Answer(name, b"%d %d\n" % (len(text), checksum(text)))


def verdict_answer(found):
    """The verdict's line and, where it is accepted and has one that is not empty, the result on a line."""
    line = reference.verdict_line(found)
    result = b"".join(found[1:]) if found[0] == "accepted" else b""
    return Answer(line.split()[0].decode(), line + (result + b"\n" if result else b""))


def assignment_answer(record, files):
    """Unpacked, then judged alone."""
    unpacked = verdict_answer(reference.entry_unpack_plan(*record.parts[:2], *lent(record), record.cap))
    judged = verdict_answer(reference.entry_check_assignment(*record.parts[:2], record.cap))
    return Answer(unpacked.name, unpacked.data + judged.data)


def plan_answer(record, files):
    return verdict_answer(reference.entry_check_plan(*record.parts[:2], *lent(record), record.cap))


def refutation_answer(record, files):
    return verdict_answer(reference.entry_check_refutation(*record.parts[:2], *lent(record), record.cap))


def fewest_record(book, n, assignment, refutation, given=LENT["W"], said=None):
    """The record of a combined verdict, with so much lent."""
    return Record("W", book, assignment, NUMBERS.pack(*given) + refutation, said, n)


def fewest_answer(record, files):
    book, assignment, third = record.parts
    given = [min(n, most) for n, most in zip(NUMBERS.unpack_from(third), LENT["W"])]
    return verdict_answer(reference.entry_check_fewest(book, record.cap, assignment, third[NUMBERS.size:], *given))


def upgrade_answer(record, files):
    return verdict_answer(reference.entry_upgrade_book(record.parts[0], *lent(record)))


def graph_answer(record, files):
    return verdict_answer(reference.entry_print_graph(*record.parts[:2], *lent(record)))


def carriers_answer(record, files):
    return verdict_answer(reference.entry_list_carriers(*record.parts[:2], *lent(record)))


def command_says(command, cap, given, files):
    """What a command prints; an accepted input's result is stored under its name, where it has one."""
    # the book of print_formula is its standard input
    names, result = given[:max(COMMANDS[command].inputs, 1)], given[2]
    if any(name not in files for name in names):
        return b""
    inputs = [files[name] for name in names]
    if command == "print_formula":
        return reference.print_formula(*inputs, cap)
    if command == "print_graph":
        return reference.print_graph(*inputs)
    if command == FEWEST:
        return fewest(cap, *inputs)
    line, made = answered(command, *inputs, named=bool(result), cap=cap)
    if made is not None and result:
        files[result] = made
    return line


def command_answer(record, files):
    """The answer of a command on files; a file that a result's name has by then is shown, but where a command takes no such name and has no use for
    one."""
    command, names = BY_LETTER[record.question], [part.decode() for part in record.parts]
    said = command_says(command, record.cap, names, files)
    # a formula begins with "p cnf", and a page with the blanks ahead of interval 0
    name = "nothing" if not said else ACCEPTED if said.startswith((b"p", b" ")) else said.split()[0].decode()
    if command in ("print_graph", FEWEST):
        return Answer(name, said)
    return Answer(name, said + (files[names[2]] + b"\n" if names[2] in files else NO_FILE))


ANSWERS = {"B": read_answer, "R": runs_answer, "F": formula_answer, "D": digest_answer, "A": assignment_answer, "P": plan_answer,
           "N": refutation_answer, "W": fewest_answer, "U": upgrade_answer, "G": graph_answer, "C": carriers_answer,
           **{letter: command_answer for letter in BY_LETTER}}


def answer(record, files):
    """The reference's answer to a record; `files` has the stored files by name, and is changed where one is written."""
    found = ANSWERS[record.question](record, files)
    line = found.data.split(b"\n")[0].decode("latin1")
    assert record.said in (None, line), f"{record}: {record.said} was worked out, and the reference says {line}"
    return found
