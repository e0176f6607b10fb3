"""The command line: one subcommand a module. A module has `arguments`, which takes a parser, and `run`, which takes the options and
answers the exit status; the text at its head is the subcommand's help."""
import argparse
import importlib
import os
import sys

from .repository import Stop

# Subcommand: its module, and what it does. A module has its subcommand's name, but where that is taken: `reference` is asked by ask.py, since
# reference.py is the reference itself; `solve` is solver.py, since solve.py is the solver script, which imports nothing of the package; `try`
# is a word of Python; and the commands of the packages cases and tests are their command.py.
COMMANDS = {
    "example": ("example", "prove and build what is needed, and run the main job on the example books"),
    "show": ("show", "print a book, a plan, an assignment or a refutation in readable lines"),
    "make": ("make", "write a book from the lines that show prints"),
    "solve": ("solver", "decide a formula by the solver script or by one of Debian's solvers"),
    "reference": ("ask", "what the reference says of a book and a second input"),
    "samples": ("samples", "test the reference on document 01's examples and by brute force"),
    "compare": ("compare", "hold the definitions against the reference on random inputs"),
    "cases": ("cases.command", "make, check or run the stored cases"),
    "library": ("library", "hold the library that people link against the reference"),
    "try": ("try_programs", "try the built program as a user would"),
    "fresh": ("fresh", "hold program, reference and solvers together on new random books"),
    "wrong": ("wrong", "try wrong programs, which the proofs must refuse"),
    "crates": ("crates", "what each crate names, and whether crates.txt says the same"),
    "gate": ("gate", "run the gate and write down its times"),
    "generated": ("generated", "write the pages of docs/generated/"),
    "test": ("tests.command", "test these tools themselves"),
}


class Help(argparse.RawDescriptionHelpFormatter):
    """Texts as they are written, with room for the names of arguments."""

    def __init__(self, prog):
        super().__init__(prog, max_help_position=28, width=120)


def parser_for(words):
    """The parser of all subcommands; only the module of the one that is asked for is loaded."""
    lines = [f"  {name:<12}{what}" for name, (_, what) in COMMANDS.items()]
    top = argparse.ArgumentParser(prog="tools", formatter_class=Help, description="\n".join((
        "The tools around the core. Each subcommand has a --help of its own, with its exit statuses.", "", *lines)))
    below = top.add_subparsers(metavar="SUBCOMMAND", required=True, help="one of these")
    for name, (module, _) in COMMANDS.items():
        parser = below.add_parser(name, formatter_class=Help)
        if words[:1] == [name]:
            loaded = importlib.import_module("." + module, __package__)
            parser.description = loaded.__doc__
            parser.set_defaults(run=loaded.run)
            loaded.arguments(parser)
    return top


def main(words):
    options = parser_for(words).parse_args(words)
    try:
        status = options.run(options)
        sys.stdout.flush()
        return status
    except BrokenPipeError:
        # nobody reads on, as behind `| head`
        os.dup2(os.open(os.devnull, os.O_WRONLY), sys.stdout.fileno())
        return 1
    except (OSError, Stop) as error:
        print(f"tools {words[0]}: {error}", file=sys.stderr)
        return 2
