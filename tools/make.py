"""Writes a book from readable text: TEXT has the lines that `show` prints of a book, BOOK is the file to write. What stands behind # is
passed over, and so are empty lines. A line is a frame, in the book's order:

  head: 100 metres a segment, 10 seconds an interval, 6 intervals
  node 0: border kind 1                             KINDS
  segment 0: nodes 0 1, TTD 0                       from its node a to its node b
  join: node 1, segments 0 1
  train 0: 100 metres, 36 km/h, departs at 0, stands on 0>
  call: train 0, segment 5, at some time from 0 to 6
  unbreakable: TTD 0
  end

5> is segment 5 from a to b, 5< from b to a; a train's place is written rear first. Frames of other kinds or lengths are written as
`frame of kind 9: 01 02`, and bytes that are no whole frame as a last line `rest: 05 00`. Prints how long the book is and what the
reference says of it, with the line of a frame that is refused; a book that is refused is written all the same.

A switch is a node with two joins, of the stem with each branch. Where two TTDs meet no border is needed: any kind will do.

Exit status: 0 written; 1 a line is wrong, and nothing was written; 2 wrong usage, the text is no UTF-8, a line's frame has more than 65,535
bytes, or a file can't be read or written.
"""
import sys

from .books import BORDER_KINDS, kind_words
from .reference import entry_read_book
from .repository import Stop, read_text, write_bytes
from .text import BadText, TooLong, book_bytes, verdict_words

# refusals: the one of a book that has no end yet, and the last of those that are of a frame
NO_END, LAST_OF_A_FRAME = 1, 9


def arguments(parser):
    parser.description = parser.description.replace("KINDS", ", ".join(f"{kind} {kind_words(kind)}" for kind in BORDER_KINDS))
    parser.add_argument("text", metavar="TEXT", help="the file with the lines")
    parser.add_argument("book", metavar="BOOK", help="the file to write")


def refused_line(lines):
    """The number of the line whose frame is refused, from 1: parts that end before it only want an end. None where it is no frame's fault."""
    for number in range(1, len(lines) + 1):
        answer = entry_read_book(book_bytes(lines[:number]))
        if answer[0] != "accepted" and answer[1] != NO_END:
            return number if answer[1] <= LAST_OF_A_FRAME else None
    return None


def verdict_on(data, lines):
    """What the reference says of the book, and of which line."""
    answer = entry_read_book(data)
    number = None if answer[0] == "accepted" else refused_line(lines)
    return verdict_words(answer) + (f", at line {number}: {lines[number - 1].strip()}" if number else "")


def run(options):
    try:
        lines = read_text(options.text).split("\n")
        data = book_bytes(lines)
    except TooLong as wrong:
        raise Stop(f"{options.text}, {wrong}") from None
    except BadText as wrong:
        print(f"tools make: {options.text}, {wrong}", file=sys.stderr)
        return 1
    write_bytes(options.book, data)
    print(f"{options.book}: {len(data):,} bytes, {verdict_on(data, lines)}")
    return 0
