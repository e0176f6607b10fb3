"""Makes the stored cases of crates/cases anew, from seeds that are fixed, so that the files come out byte for byte the same: data/ with a
file of records a module and the files that the records name, args with the names of the record files, and stdout with the reference's
answers. Prints how many cases each file has, by answer. With --check nothing is written; it says whether the stored files are what would
be written. With --run the built program crates/cases/out/cases is run on a copy of data/, and the first case of each file is named whose
answer is not the stored one. --file takes some of the files alone; the others stay as they are.

Exit status: 0 written, or all is as it should be; 1 --check or --run found a difference; 2 wrong usage, or a file is missing.
"""
import os
import random
import shutil
import subprocess
import tempfile
from collections import Counter

from ..counts import listed
from ..program import built
from ..repository import CRATES, out_of, read_bytes, write_bytes
from . import FILES
from .records import answer, split

CRATE = os.path.join(CRATES, "cases")
# seconds for the program on one file
LIMIT = 300


def arguments(parser):
    how = parser.add_mutually_exclusive_group()
    how.add_argument("--check", action="store_true", help="write nothing; say whether the stored files are what would be written")
    how.add_argument("--run", dest="run_program", action="store_true", help="run the built program on the stored files")
    parser.add_argument("--file", nargs="+", metavar="NAME", default=[module.NAME for module in FILES],
                        choices=[module.NAME for module in FILES], help="only these files of records, such as reading.cases")
    parser.add_argument("--bin", metavar="DIR", default=out_of("cases"), help="with --run, the folder of the program, by default crates/cases/out")


# ------------------------------------------------------------------ one file


class Made:
    """A file of records with its answers: made anew, or as it is stored."""

    def __init__(self, module, records, remarks=()):
        self.module, self.records, self.remarks = module, list(records), list(remarks)
        files = stored_files(module)
        self.answers = [answer(record, files) for record in self.records]
        self.counts = Counter(found.name for found in self.answers)

    def data(self):
        return b"".join(record.data() for record in self.records)

    def said(self):
        """What the program is to print of the file."""
        return self.module.NAME.encode() + b"\n" + b"".join(found.data for found in self.answers)

    def check_often(self):
        seldom = [name for name, least in getattr(self.module, "OFTEN", {}).items() if self.counts[name] < least]
        assert not seldom, f"{self.module.NAME}: too few of {', '.join(seldom)}"


def stored_files(module):
    """The stored files that a module's records name, as they are before the first case."""
    return module.files() if hasattr(module, "files") else {}


def made_anew(module):
    remarks = []
    made = Made(module, module.records(random.Random(module.SEED), remarks.append), remarks)
    made.check_often()
    return made


def as_stored(module):
    return Made(module, split(read_bytes(data_path(module.NAME))))


def describe(made):
    print(f"{made.module.NAME}: {len(made.records):,} cases, {len(made.data()):,} bytes, {len(made.said()):,} bytes of answers")
    print(f"  {listed(made.counts)}")
    for line in made.remarks:
        print(f"  {line}")


# -------------------------------------------------------------- stored files


def data_path(name):
    return os.path.join(CRATE, "data", name)


def path(name):
    return os.path.join(CRATE, name)


def stored(name):
    return read_bytes(name) if os.path.exists(name) else None


def said_by_file():
    """What the stored file stdout has for each file of records. Every answer ends with its line, so that a name stands at a line's
    start; and no answer has one."""
    text, parts = stored(path("stdout")) or b"", {}
    starts = [(module.NAME, (b"\n" + text).find(b"\n%s\n" % module.NAME.encode())) for module in FILES]
    there = sorted((at, name) for name, at in starts if at >= 0)
    for (at, name), after in zip(there, [at for at, _ in there[1:]] + [len(text)]):
        parts[name] = text[at:after]
    return parts


def all_files(makes):
    """Every file of data/ that these files of records bring with them, by name."""
    files = {}
    for made in makes:
        files[made.module.NAME] = made.data()
        files.update(stored_files(made.module))
    return files


def expected(makes):
    """Every path with the bytes that it is to have. Of files of records that were not made, answers are taken as they are stored."""
    said = {**said_by_file(), **{made.module.NAME: made.said() for made in makes}}
    names = [module.NAME for module in FILES if module.NAME in said]
    wanted = {data_path(name): data for name, data in all_files(makes).items()}
    wanted[path("args")] = "".join(name + "\n" for name in names).encode()
    wanted[path("stdout")] = b"".join(said[name] for name in names)
    return wanted


def left_over():
    """Files of data/ that no module has."""
    known = {module.NAME for module in FILES}.union(*(stored_files(module) for module in FILES))
    folder = path("data")
    return sorted(set(os.listdir(folder)) - known) if os.path.isdir(folder) else []


def write(makes):
    os.makedirs(path("data"), exist_ok=True)
    for name, data in expected(makes).items():
        write_bytes(name, data)
    for name in left_over():
        os.remove(data_path(name))
        print(f"removed: data/{name}")


def check(makes):
    """Names the stored files that are other than they would be made."""
    wrong = [os.path.relpath(name, CRATE) for name, data in expected(makes).items() if stored(name) != data]
    wrong += [f"data/{name}" for name in left_over()]
    print(f"other than it would be made: {', '.join(wrong)}" if wrong else "the stored files are what would be made")
    return 1 if wrong else 0


# --------------------------------------------------------------- the program


def first_difference(made, got):
    """The number of the first record whose answer differs in what the program printed, and where its answer should begin; or None."""
    at = len(made.module.NAME) + 1
    if got[:at] != made.said()[:at]:
        return 0, 0
    for number, found in enumerate(made.answers, 1):
        if got[at:at + len(found.data)] != found.data:
            return number, at
        at += len(found.data)
    return None if len(got) == at else (len(made.answers) + 1, at)


def said_instead(got, at, length):
    """What stands where an answer should."""
    return got[at:at + max(length, 60)][:300]


def report(made, got):
    """Says where the program's answers to a file first differ from the reference's."""
    found = first_difference(made, got)
    if found is None:
        print(f"{made.module.NAME}: the program answers as the reference does")
        return
    number, at = found
    if 0 < number <= len(made.answers):
        what, wanted = f"record {number}, {made.records[number - 1]}", made.answers[number - 1].data
    else:
        what, wanted = ("the file's name", made.module.NAME.encode()) if number == 0 else ("behind the last record", b"")
    print(f"{made.module.NAME}: {what}\n  expected {wanted[:300]!r}\n  got      {said_instead(got, at, len(wanted))!r}")


def run_file(program, name):
    """What the program prints of one file of records, on a copy of data/ of its own. On standard error it names files that are not there, as
    some records ask for; so that is shown only where the program fails."""
    with tempfile.TemporaryDirectory() as folder:
        copy = shutil.copytree(path("data"), os.path.join(folder, "data"))
        done = subprocess.run([program, name], cwd=copy, stdin=subprocess.DEVNULL, capture_output=True, timeout=LIMIT, check=False)
    if done.returncode:
        said = done.stderr.decode(errors="replace").strip().split("\n")[-1]
        print(f"{name}: the program ended with status {done.returncode}" + (f": {said}" if said else ""))
    return done.stdout


def try_file(program, module, said):
    """Runs one file. Only where it prints something else than is stored, the reference is asked again, to find the case."""
    got = run_file(program, module.NAME)
    if got == said:
        print(f"{module.NAME}: {len(split(read_bytes(data_path(module.NAME)))):,} answers as stored")
        return 0
    made = as_stored(module)
    if made.said() != said:
        print(f"{module.NAME}: the stored answers are not the reference's; `tools cases` makes them")
    report(made, got)
    return 1


def run_program(modules, folder):
    program = built(folder, "cases")
    said = said_by_file()
    return max([try_file(program, module, said.get(module.NAME)) for module in modules])


def run(options):
    modules = [module for module in FILES if module.NAME in options.file]
    if options.run_program:
        return run_program(modules, options.bin)
    makes = []
    for module in modules:
        makes.append(made_anew(module))
        describe(makes[-1])
    if options.check:
        return check(makes)
    write(makes)
    return 0
