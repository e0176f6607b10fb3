"""Readable lines of a book, and the book's bytes from such lines.

A frame is a line. Behind # stands a remark, which is not read back. A frame that is none of document 01's kinds, or whose payload has
not its kind's length, is a line of its kind and bytes; bytes at the end that are no whole frame are a line of bytes. So every file has
its lines, and the lines give the very file.
"""
import difflib
import re

from . import reference
from .books import BORDER_KINDS, encode, kind_words, split
from .reference import CALL, END, HEAD, JOIN, NEW, NODE, OLD, SEGMENT, TRAIN, UNBREAKABLE

# The line of each kind: {} is a field, in the payload's order, # the frame's number among those of its kind. A train's row of directed segments
# stands behind its fields, and says how many there are.
LINES = {
    HEAD: "head: {} metres a segment, {} seconds an interval, {} intervals",
    NODE: "node #: border kind {}",
    SEGMENT: "segment #: nodes {} {}, TTD {}",
    JOIN: "join: node {}, segments {} {}",
    TRAIN: "train #: {} metres, {} km/h, departs at {}, stands on",
    CALL: "call: train {}, segment {}, at some time from {} to {}",
    UNBREAKABLE: "unbreakable: TTD {}",
    END: "end",
}
FRAME, REST = "frame of kind ", "rest: "


# the most bytes of a frame's payload
MOST = 65535


class BadText(Exception):
    """A line that says no frame, and why."""


class TooLong(BadText):
    """A line whose frame no book can have, since its length has two bytes."""


# ---------------------------------------------------------------- directions


def directed(x):
    """A directed segment: 5> is segment 5 from its node a to its node b, 5< from b to a."""
    return f"{x // 2}{'<' if x % 2 else '>'}"


def row(path):
    return " ".join(map(directed, path)) or "nothing"


def read_row(words):
    """The numbers of directed segments that are written so."""
    if words == ["nothing"]:
        return []
    for word in words:
        if not re.fullmatch("[0-9]+[<>]", word):
            raise BadText(f"{word} is no directed segment, as 5> or 5<")
    return [2 * int(word[:-1]) + (word[-1] == "<") for word in words]


# ------------------------------------------------------------ a book's lines


def payload_fits(kind, payload):
    """Whether the payload has the fields of its kind, and nothing else."""
    return kind in LINES and len(payload) == reference.payload_length(kind, payload, NEW)


def frame_line(kind, payload, number):
    """The line of one frame; number counts those of its kind."""
    if not payload_fits(kind, payload):
        return f"{FRAME}{kind}: {payload.hex(' ')}".rstrip()
    line = LINES[kind].replace("#", str(number)).format(*reference.fields_of(kind, payload, NEW))
    return f"{line} {row(payload[reference.fields_length(TRAIN, NEW):])}" if kind == TRAIN else line


def remark(kind, payload, number, book):
    """What a reader of the line may want to know besides; the book where it is accepted."""
    if kind == NODE and len(payload) == 1 and payload[0] in BORDER_KINDS:
        return kind_words(payload[0])
    if kind == TRAIN and book is not None:
        train = book.trains[number]
        return f"{train.l} long, up to {train.k} an interval, {len(book.runs[number])} runs"
    return ""


def verdict_words(answer):
    return "accepted" if answer[0] == "accepted" else "refused: {} {}".format(*answer[1:])


def old_words(data):
    """What to do with an old book, told by its Head; nothing of any other bytes."""
    frames, _ = split(data)
    old = frames and frames[0][0] == HEAD and len(frames[0][1]) == reference.fields_length(HEAD, OLD)
    return "; an old book, which bin/upgrade_book rewrites" if old else ""


def book_lines(data):
    """The lines of a book, or of any bytes."""
    frames, rest = split(data)
    answer = reference.entry_read_book(data)
    book, counts = reference.read_book(data) if answer[0] == "accepted" else None, {}
    lines = [f"# {verdict_words(answer)}{old_words(data)}"]
    for kind, payload in frames:
        number = counts.get(kind, 0)
        # a frame with another length than its kind's is no node, segment or train
        counts[kind] = number + payload_fits(kind, payload)
        said = remark(kind, payload, number, book)
        lines.append(frame_line(kind, payload, number) + (f"  # {said}" if said else ""))
    return lines + ([REST + rest.hex(" ")] if rest else [])


# ------------------------------------------------------------ a book's bytes


def pattern(kind):
    """What a line of this kind looks like."""
    form = re.escape(LINES[kind]).replace(re.escape("{}"), "([0-9]+)").replace(re.escape("#"), "(?P<number>[0-9]+)")
    return re.compile(form + (r" (?P<row>.+)" if kind == TRAIN else ""))


PATTERNS = {kind: pattern(kind) for kind in LINES}


def read_hex(words):
    try:
        return bytes.fromhex(words)
    except ValueError:
        raise BadText(f"no bytes in hexadecimal: {words}") from None


def packed(kind, found):
    """The payload that a line's fields say."""
    fields = [int(word) for name, word in zip(group_names(found), found.groups()) if name is None]
    try:
        place = read_row(found["row"].split()) if kind == TRAIN else []
        numbers = [*fields, len(place)] if kind == TRAIN else fields
        return reference.fields_bytes(kind, numbers, NEW) + bytes(place)
    except (OverflowError, ValueError):
        raise BadText("a number is larger than its field holds") from None


def group_names(found):
    """For each group of a match its name, or None where it is a field."""
    named = {index: name for name, index in found.re.groupindex.items()}
    return [named.get(index) for index in range(1, found.re.groups + 1)]


def read_frame(line, counts):
    """The frame that a line says, as [kind, payload]."""
    other = re.fullmatch(FRAME + "([0-9]+):(.*)", line)
    if other:
        if int(other[1]) > 65535:
            raise BadText("a kind has two bytes")
        return [int(other[1]), frame_payload(read_hex(other[2]))]
    for kind, shape in PATTERNS.items():
        found = shape.fullmatch(line)
        if found:
            check_number(found, counts.get(kind, 0))
            counts[kind] = counts.get(kind, 0) + 1
            return [kind, packed(kind, found)]
    raise BadText(f"this is no line of a book; the nearest has the form: {nearest_form(line)}")


def frame_payload(payload):
    if len(payload) > MOST:
        raise TooLong(f"a frame has at most {MOST:,} bytes, and this one has {len(payload):,}")
    return payload


def forms():
    """Every line that there is, with N for a number."""
    for kind, form in LINES.items():
        yield form.replace("#", "N").replace("{}", "N") + (" N> N<" if kind == TRAIN else "")
    yield from (FRAME + "N: 01 02", REST + "01 02")


def nearest_form(line):
    """The form that a line is most like; the word that it begins with tells first."""
    plain, word = re.sub("[0-9]+", "N", line), re.split("[ :]", line)[0]
    def likeness(form):
        first = difflib.SequenceMatcher(None, re.split("[ :]", form)[0], word).ratio()
        return first > 0.7 and first, difflib.SequenceMatcher(None, form, plain).ratio()
    return max(forms(), key=likeness)


def check_number(found, number):
    """Nodes, segments and trains number from 0 in file order; the line has to say the same."""
    said = found.groupdict().get("number")
    if said is not None and int(said) != number:
        raise BadText(f"this is number {number}, and the line says {said}")


def book_bytes(lines):
    """The bytes of a book's lines; BadText says which line is wrong."""
    frames, rest, counts = [], b"", {}
    for at, line in enumerate(lines, 1):
        line = line.split("#")[0].strip()
        try:
            if rest and line:
                raise BadText("nothing stands behind the rest")
            if line.startswith(REST):
                rest = read_hex(line.removeprefix(REST))
            elif line:
                frames.append(read_frame(line, counts))
        except BadText as wrong:
            raise type(wrong)(f"line {at}: {wrong}") from None
    return encode(frames) + rest
