"""Tests these tools themselves, without the toolchain: readable text and back, records and answers, lists of wrong programs, crates.txt, logs
of the gate, the solver script, the books of bench/. What takes long or needs `rt` is played by small scripts. Names of tests take those
alone, as test_text or test_wrong.Tidy.

Exit status: 0 all passed, 1 some failed, 2 wrong usage, or there is no such test.
"""
import importlib
import os
import unittest

from ..repository import Stop


def arguments(parser):
    parser.add_argument("names", metavar="NAME", nargs="*", help="modules, classes or functions of tests; by default all")


def there_is(name):
    """Whether a module of tests has this name, or something in one."""
    module, *parts = name.split(".")
    if f"{module}.py" not in os.listdir(os.path.dirname(os.path.abspath(__file__))) or not module.startswith("test_"):
        return False
    found = importlib.import_module(f"{__package__}.{module}")
    for part in parts:
        found = getattr(found, part, None)
    return found is not None


def run(options):
    loader = unittest.defaultTestLoader
    unknown = [name for name in options.names if not there_is(name)]
    if unknown:
        raise Stop(f"no test {', '.join(unknown)}; names are as test_text, test_text.Books or test_text.Books.test_examples")
    if options.names:
        suite = loader.loadTestsFromNames([f"{__package__}.{name}" for name in options.names])
    else:
        here = os.path.dirname(os.path.abspath(__file__))
        suite = loader.discover(here, top_level_dir=os.path.dirname(os.path.dirname(here)))
    result = unittest.TextTestRunner(verbosity=1).run(suite)
    return 0 if result.wasSuccessful() else 1
