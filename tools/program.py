"""The built programs: the one with all commands, its commands, and where they are."""
import argparse
import os
from collections import namedtuple

from .reference import MOST_NUMBER
from .repository import Stop, out_of

# the program with all commands, and where it is built
CABINET = "cabinet"
PROGRAMS = out_of(CABINET)

# A command: its letter in the records of stored cases, how many of its names are inputs, the least and the most names that it takes, and whether
# it takes a cap, by the option CAP ahead of the names. The name behind the inputs is the result's. Of check_fewest, whose inputs are a book, an
# assignment and a refutation, the second word is n.
Command = namedtuple("Command", "letter inputs least most capped")
COMMANDS = {
    "print_formula": Command("f", 0, 0, 0, True),
    "check_assignment": Command("a", 2, 2, 3, True),
    "check_plan": Command("p", 2, 2, 3, True),
    "check_refutation": Command("n", 2, 2, 2, True),
    "check_fewest": Command("w", 3, 4, 4, False),
    "upgrade_book": Command("u", 1, 2, 2, False),
    "print_graph": Command("g", 2, 2, 2, False),
    "list_carriers": Command("c", 2, 3, 3, False),
}
CAP, FEWEST = "--cap", "check_fewest"
# those that check a second input; the others that take one make something of a plan
CHECKS = ("check_assignment", "check_plan", "check_refutation")
CAPPED = tuple(name for name, command in COMMANDS.items() if command.capped)
BY_LETTER = {command.letter: name for name, command in COMMANDS.items()}


def cap_words(cap):
    """The option for a cap; nothing for none."""
    return [] if cap is None else [CAP, str(cap)]


def whole_number(word):
    """A cap or an n, as the program takes it: digits 0 to 9, and no more than 64 bits hold."""
    short = word.lstrip("0") or "0"
    if not (word.isascii() and word.isdigit()) or len(short) > 20 or int(short) > MOST_NUMBER:
        raise argparse.ArgumentTypeError(f"{word[:30]!r} is no number from 0 to {MOST_NUMBER}, in digits")
    return int(short)


def has_result(name):
    """Whether a command takes the name of a file for its result."""
    return name != FEWEST and COMMANDS[name].most > COMMANDS[name].inputs


def built(folder, name):
    """The path of a program that has to be built already."""
    program = os.path.abspath(os.path.join(folder, name))
    if not os.access(program, os.X_OK):
        raise Stop(f"no program {program}: rt run in crates/{name} builds it")
    return program
