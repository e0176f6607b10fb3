"""What the reference, document 01 once more in plain Python, says of a book and a second input: the lines that the commands of the
built program print, and the result in the last file, where one is named and the input is accepted.

  print_formula [BOOK]                      the formula in DIMACS CNF; without a name the book comes from standard input
  check_assignment BOOK ASSIGNMENT [PLAN]   without a third name no plan is unpacked
  check_plan BOOK PLAN [ASSIGNMENT]
  check_refutation BOOK REFUTATION
  check_fewest BOOK N ASSIGNMENT REFUTATION a plan with N borders of kind 1 exists, and none with fewer
  upgrade_book OLD NEW                      an old book, of times of one byte, rewritten
  print_graph BOOK PLAN                     the plan's train graph, a line an interval
  list_carriers BOOK PLAN OUT               which borders carry the plan, four bytes each

With --cap N ahead of the names the first four are about the formula under a cap: at most N nodes of border kind 1 set.

Exit status: 0 answered, accepted or refused; 2 wrong usage, or a file can't be read.
"""
import argparse
import sys

from . import reference
from .program import CAP, CAPPED, CHECKS, COMMANDS, FEWEST, whole_number
from .repository import read_bytes, write_bytes


def arguments(parser):
    parser.add_argument("command", metavar="COMMAND", choices=COMMANDS, help=", ".join(COMMANDS))
    parser.add_argument("names", metavar="FILE", nargs=argparse.REMAINDER, help="the files, as above; ahead of them perhaps --cap N")
    parser.set_defaults(complain=parser.error)


def answered(command, *inputs, named=True, cap=None):
    """The verdict's line, and an accepted input's result, which may be empty, or None. An assignment's plan is unpacked where a file is named
    for it, and only there."""
    if command == "list_carriers":
        return reference.list_carriers(*inputs)
    check = "unpack_plan" if command == "check_assignment" and named else command
    answer = reference.check_two(check, *inputs, cap) if command in CHECKS else reference.rewrite(*inputs)
    return reference.verdict_line(answer), answer[1] if answer[0] == "accepted" and len(answer) > 1 else None


def check(command, names, cap=None):
    """The verdict's line; an accepted input's result goes to the file behind the inputs."""
    count = COMMANDS[command].inputs
    line, result = answered(command, *map(read_bytes, names[:count]), named=len(names) > count, cap=cap)
    if len(names) > count and result is not None:
        write_bytes(names[count], result)
    return line


def fewest(n, book, assignment, refutation):
    """The line of the combined verdict."""
    return reference.verdict_line(reference.check_fewest(book, n, assignment, refutation))


def said_by(command, names, cap=None):
    """What a command prints."""
    if command == "print_formula":
        return reference.print_formula(read_bytes(names[0]) if names else sys.stdin.buffer.read(), cap)
    if command == "print_graph":
        return reference.print_graph(*map(read_bytes, names))
    if command == FEWEST:
        return fewest(whole_number(names[1]), *map(read_bytes, (names[0], *names[2:])))
    return check(command, names, cap)


def least_and_most(command):
    """How many names there may be: as the program takes, but for the book of print_formula, which may be named here."""
    return COMMANDS[command].least, max(COMMANDS[command].most, 1)


def split_cap(command, words):
    """The cap, or None, and the names behind it."""
    if command not in CAPPED or words[:1] != [CAP]:
        return None, words
    return whole_number("".join(words[1:2])), words[2:]


def run(options):
    try:
        cap, names = split_cap(options.command, options.names)
        least, most = least_and_most(options.command)
        if not least <= len(names) <= most:
            options.complain(f"{options.command} takes {least if least == most else f'{least} or {most}'} names")
        line = said_by(options.command, names, cap)
    except argparse.ArgumentTypeError as error:
        options.complain(str(error))
    sys.stdout.buffer.write(line)
    sys.stdout.buffer.flush()
    return 0
