"""Tries wrong programs: each must be refused by the prover because a fact fails.

crates/NAME/wrong_programs.txt lists them, in blocks parted by an empty line: a head line `FUNCTION: what the wrong program does`, then one or
more pairs of lines `old: ..` and `new: ..`, texts of the function's body that stand there once, and what stands in their place.
FUNCTION is looked for in the list's own crate first and then in all crates and their modules, so that a function that is moved keeps its
wrong programs; where several have the name, `crate::function` or `crate::module::function` says which. --tidy moves each entry to the list of
the crate where its function is, and tries nothing.

An edit changes one function's body, and a function is proved by its own contract and its callees' contracts alone, so wrong programs of
different functions are tried together: a round (`rt check` in the crate's folder) has at most one of each function. One that is only held up by
another of its round is tried again by itself. All is done in copies of the repository, which must be proved (`rt all check`). The gate tries the
edits crates/NAME/must-fail/*.edit one by one; they count here too, where it is asked which public functions have fewer than two.

Writes docs/generated/wrong_programs.md; where crates are named, only their rows are replaced.

Exit status: 0 all were refused by a fact; 1 some were not; 2 a list is wrong, or wrong usage.
"""
import os
import queue
import re
import shutil
import subprocess
import sys
import tempfile
import threading
from collections import Counter, namedtuple

from .edits import edits_of
from .repository import ROOT, commit, page, read_text, today, write_text

LIST = "wrong_programs.txt"
PAGE = "wrong_programs.md"
# the most characters of the prover's words that are shown
MOST = 100
# what the prover says where an edit has only made the proof unfit for the code
UNFIT = ("that can be named from here", "has no field", "is not a field of", "this `×` type has")
# what it says of a statement because of another one
HELD_UP = ("was not admitted", "was not checked", "were not checked")
# what it says of a function that no proof was tried of: a goal that is left is a fact, and a missing part of the proof is none
LEFT_OPEN, MISSING = ("did not prove", "does not close"), ("expected a measure", "expected an invariant", "is not made yet")

# A function: its path from the crate on, whether it is public, whether it promises something, its file, its first line and the one behind its last,
# and what the prover writes behind its type's name where the type has it by a trait.
Function = namedtuple("Function", "path public promises file first end given", defaults=("",))
# A wrong program: the function's name as the list has it, what it does, and the pairs of texts; `block` is its text in the list.
Entry = namedtuple("Entry", "name what pairs block")
# What came of one: the function, what it does, the prover's first words, and whether a fact failed.
Row = namedtuple("Row", "function what said refused")


class WrongList(Exception):
    """What is wrong with a list."""


def arguments(parser):
    parser.add_argument("crates", metavar="CRATE", nargs="*", help="only these crates")
    parser.add_argument("--tidy", action="store_true", help="move entries to the crates of their functions, and try nothing")
    parser.add_argument("--jobs", type=int, default=2, metavar="N", help="so many crates at once, each in a copy of its own; by default 2")


# ---------------------------------------------------------------- functions


def crates_of(root):
    return sorted(name for name in os.listdir(os.path.join(root, "crates")) if os.path.isdir(os.path.join(root, "crates", name, "src")))


def module_of(source):
    """The path of modules that a file below src/ is."""
    name = os.path.splitext(source)[0]
    return () if name in ("lib", "main") else tuple(name.split(os.sep))


def end_of(lines, first, indent):
    """The line behind a function's last."""
    if lines[first].rstrip().endswith("}") and "{" in lines[first]:
        return first + 1
    return next(at for at in range(first, len(lines)) if lines[at] == indent + "}") + 1


def given_by(trait):
    """What the prover writes behind a type's name for what the type has by a trait: `From<Result<(), Refusal>>` is `FromResultUnitRefusal`."""
    words = re.findall(r"\w+|\(\)", re.sub(r"(\w+)?::", "", trait or ""))
    return "".join("Unit" if word == "()" else word[0].upper() + word[1:] for word in words)


def functions_in(text, path, file):
    """The functions of one file; a method has its type's or its trait's name ahead."""
    found, owner, shared, given = [], (), False, ""
    lines = text.split("\n")
    for at, line in enumerate(lines):
        opened = re.match(r"(pub )?(?:impl(?:<[^>]*>)?|(trait)) (?:([^{]*) for )?(\w+)", line)
        if opened:
            # the functions of a public trait are public
            owner, shared, given = (opened[4],), bool(opened[1] and opened[2]), given_by(opened[3])
        elif line == "}":
            owner, shared, given = (), False, ""
        head = re.match(r'( *)(pub(?:\([a-z]+\))? )?(extern "C" )?fn (\w+)', line)
        if head:
            end = end_of(lines, at, head[1])
            promises = any(re.match(r"\s*ensures\b", part) for part in lines[at:end])
            found.append(Function((*path, *owner, head[4]), shared or head[2] == "pub ", promises, file, at, end, given))
    return found


def functions_of(root, crate):
    """The functions of a crate, over all its modules."""
    base, found = os.path.join(root, "crates", crate, "src"), []
    for folder, _, names in sorted(os.walk(base)):
        for name in sorted(names):
            if name.endswith(".rt"):
                file = os.path.join(folder, name)
                path = (crate, *module_of(os.path.relpath(file, base)))
                found += functions_in(read_text(file), path, os.path.relpath(file, root))
    return found


def full_name(function):
    return "::".join(function.path)


def has_name(function, name):
    """Whether a name, or a crate's name and a name, ends the function's path."""
    words = tuple(name.split("::"))
    if function.path[-len(words):] == words:
        return True
    return len(words) > 1 and function.path[0] == words[0] and function.path[1 - len(words):] == words[1:]


def find(functions, crate, name):
    """The function that an entry of a crate's list names: one with just this path, the crate's own, or another crate's."""
    named = [f for f in functions if has_name(f, name)]
    for found in ([f for f in named if full_name(f) == name], [f for f in named if f.path[0] == crate], named):
        if len(found) == 1:
            return found[0]
        if found:
            raise WrongList(f"{crate}: {name} is any of {', '.join(map(full_name, found))}: write crate::function")
    raise WrongList(f"{crate}: no crate has a function {name}")


# -------------------------------------------------------------------- lists


def list_path(root, crate):
    return os.path.join(root, "crates", crate, LIST)


def read_entry(block, where):
    head, *rest = block.split("\n")
    right = ": " in head and rest and len(rest) % 2 == 0 and all(
        line.startswith(("old: ", "new:")[at % 2]) for at, line in enumerate(rest))
    if not right:
        raise WrongList(f"{where}: an entry is `FUNCTION: what it does`, then pairs of `old: ` and `new: `:\n{block}")
    name, what = head.split(": ", 1)
    pairs = [(old.removeprefix("old: "), new.removeprefix("new:").removeprefix(" ")) for old, new in zip(rest[::2], rest[1::2])]
    return Entry(name, what, pairs, block)


def read_list(root, crate):
    path = list_path(root, crate)
    if not os.path.exists(path):
        return []
    blocks = re.split(r"\n\s*\n", read_text(path).strip())
    return [read_entry(block, crate) for block in blocks if block]


def write_list(root, crate, entries):
    """A list with no entries is no file."""
    path = list_path(root, crate)
    if entries:
        write_text(path, "\n\n".join(entry.block for entry in entries) + "\n")
    elif os.path.exists(path):
        os.remove(path)
        if not os.listdir(os.path.dirname(path)):
            os.rmdir(os.path.dirname(path))


def all_lists(root):
    """Each crate's entries, of every folder of crates/ that has a list, whether it has sources still or not."""
    names = sorted(os.listdir(os.path.join(root, "crates")))
    return {name: read_list(root, name) for name in names if os.path.exists(list_path(root, name))}


def placed(root):
    """All entries by the crate where their function is, with that function; and what is wrong with others, with the list that has them."""
    functions = [f for crate in crates_of(root) for f in functions_of(root, crate)]
    by_crate, wrong = {}, []
    for crate, entries in all_lists(root).items():
        for entry in entries:
            try:
                function = find(functions, crate, entry.name)
                by_crate.setdefault(function.path[0], []).append((crate, entry, function))
            except WrongList as why:
                wrong.append((crate, entry, why))
    return by_crate, wrong


def tidy(root):
    """Moves each entry to the list of its function's crate; its own stay ahead. Answers how many were moved, and what is wrong."""
    by_crate, wrong = placed(root)
    moved = 0
    for crate in {*all_lists(root), *by_crate}:
        here = by_crate.get(crate, [])
        own = [entry for source, entry, _ in here if source == crate] + [entry for source, entry, _ in wrong if source == crate]
        others = [entry for source, entry, _ in here if source != crate]
        moved += len(others)
        write_list(root, crate, own + others)
    return moved, [why for _, _, why in wrong]


# -------------------------------------------------------------- wrong bodies


def body_start(lines, function):
    """The line behind the body's opening bracket, which stands alone behind a contract, under the head, or else at the end of the head."""
    alone, places = re.match(" *", lines[function.first])[0] + "{", range(function.first, function.end)
    opened = [at for at in places if lines[at] == alone] or [at for at in places if lines[at].rstrip().endswith("{")]
    return 1 + opened[0]


def edited(text, function, entry):
    """The source with one wrong program. Lines keep their numbers, since a text and what replaces it are parts of one line."""
    lines = text.split("\n")
    start = body_start(lines, function)
    body = "\n".join(lines[start:function.end])
    for old, new in entry.pairs:
        if body.count(old) != 1:
            raise WrongList(f"{full_name(function)}: {old!r} stands {body.count(old)} times in its body")
        body = body.replace(old, new)
    return "\n".join(lines[:start] + [body] + lines[function.end:])


def rounds(found):
    """The entries with their functions in rounds, each with at most one of a function."""
    made = []
    for entry, function in found:
        for tried in made:
            if all(other.path != function.path for _, other in tried):
                tried.append((entry, function))
                break
        else:
            made.append([(entry, function)])
    return made


# ------------------------------------------------------- what the prover says


def said_path(function):
    """A function's path as the prover has it."""
    *ahead, last, name = function.path
    return (*ahead, last + function.given, name)


def is_own(function, line):
    """Whether an error stands in a function's proof or in its source; the prover names files from the crate's folder on."""
    module = "/".join(said_path(function)[1:-1])
    folder = re.search(r"(?:^|/)proofs/(?:%s)(\+?[\w+]+)/" % (re.escape(module) + "/" if module else ""), line)
    if folder and function.path[-1] in folder[1].split("+"):
        return True
    crate, inside = re.match(r"crates/(\w+)/(.*)", function.file).groups()
    source = re.match(r"(?:\./|.*/crates/%s/)?%s:(\d+):\d+: error: " % (crate, re.escape(inside)), line)
    return bool(source) and function.first < int(source[1]) <= function.end


def verdict(function, output):
    """What the prover says of a wrong function: the words, and what they mean: a fact, proved, unfit, or held up by another function."""
    name, held = "::".join(said_path(function)), None
    # what an error says goes on in the lines that are indented below it
    for line in re.sub(r"\n  +", " ", output).split("\n"):
        if line == f"fn {name}: proved":
            return "proved", "proved"
        if line.startswith(f"fn {name}: no proof"):
            if any(part in line for part in LEFT_OPEN):
                return line.split("; ", 1)[-1], "fact"
            if any(part in line for part in MISSING):
                return line.split(": ", 1)[-1], "unfit"
            held = held or line.split(": ", 1)[-1]
            continue
        if ": error: " not in line or not is_own(function, line):
            continue
        words = line.split(": error: ", 1)[1]
        if any(part in words for part in HELD_UP):
            held = held or words
            continue
        return words, "unfit" if any(unfit in words for unfit in UNFIT) else "fact"
    return held or "no word of this function", "held up"


def check_round(copy, crate, entries):
    """Puts the wrong bodies in, has the prover say what it thinks, and puts the good ones back."""
    good = {}
    try:
        for entry, function in entries:
            path = os.path.join(copy, function.file)
            text = read_text(path)
            good.setdefault(path, text)
            write_text(path, edited(text, function, entry))
        done = subprocess.run(["rt", "check"], cwd=os.path.join(copy, "crates", crate), capture_output=True, text=True, check=False)
    finally:
        for path, text in good.items():
            write_text(path, text)
    return done.stdout + done.stderr


def try_crate(copy, crate, found):
    """All rounds of a crate in a copy; answers a row for each wrong program."""
    rows, again = [], []
    waiting = rounds(found)
    while waiting:
        entries = waiting.pop(0)
        output = check_round(copy, crate, entries)
        for entry, function in entries:
            said, meaning = verdict(function, output)
            if meaning == "held up" and len(entries) > 1:
                again.append([(entry, function)])
                continue
            rows.append(Row(full_name(function), entry.what, first_words(said), meaning == "fact"))
            print(f"{rows[-1].function} | {entry.what} | {'' if meaning == 'fact' else 'NOT REFUSED BY A FACT: '}{rows[-1].said}", flush=True)
        if not waiting:
            waiting, again = again, []
    return rows


def copied(root, folder):
    """A copy of the repository, with what is proved already and without what a trial does not need."""
    copy = os.path.join(folder, "copy")
    shutil.copytree(root, copy, ignore=shutil.ignore_patterns(".git", "must-fail", "bin", "target"))
    return copy


def try_all(root, by_crate, jobs):
    """The rows of each crate, so many crates at once."""
    waiting, rows = queue.Queue(), {}
    # the longest first, so that none is left alone at the end
    for crate in sorted(by_crate, key=lambda name: -len(by_crate[name])):
        waiting.put(crate)

    def work():
        with tempfile.TemporaryDirectory() as folder:
            copy = copied(root, folder)
            while True:
                try:
                    crate = waiting.get_nowait()
                except queue.Empty:
                    return
                rows[crate] = try_crate(copy, crate, by_crate[crate])

    workers = [threading.Thread(target=work) for _ in range(max(1, min(jobs, len(by_crate))))]
    for worker in workers:
        worker.start()
    for worker in workers:
        worker.join()
    return rows


# ----------------------------------------------------------- fewer than two


def gate_edits(root, crate, functions):
    """How many of the gate's edits change each function of a crate."""
    counts = Counter()
    for edit in edits_of(root, crate):
        counts.update(edited_functions(root, crate, functions, edit))
    return counts


def edited_functions(root, crate, functions, edit):
    """The functions that an edit changes."""
    found = set()
    for change in edit.changes:
        file = os.path.join("crates", crate, change.file)
        if file.endswith(".rt"):
            text = read_text(os.path.join(root, file))
            at = text[:text.find(change.old)].count("\n")
            found |= {full_name(f) for f in functions if f.file == file and f.first <= at < f.end}
    return found


def fewer_than_two(root, by_crate):
    """The public functions that promise something and have fewer than two wrong programs."""
    short = []
    for crate in crates_of(root):
        functions = functions_of(root, crate)
        counts = gate_edits(root, crate, functions)
        counts.update(full_name(function) for _, _, function in by_crate.get(crate, []))
        short += [full_name(f) for f in functions if f.public and f.promises and counts[full_name(f)] < 2]
    return short


# ----------------------------------------------------------------- the page


def first_words(said):
    """What stands in a cell, cut where it is long, and not between two backticks, which would be left open."""
    if len(said) <= MOST:
        return said
    cut = said[:MOST]
    if cut.count("`") % 2:
        cut = cut[:cut.rindex("`")].rstrip() or cut + "`"
    return cut + " .."


def cell(text):
    return text.replace("\\", "\\\\").replace("|", "\\|")


def cells(line):
    """The cells of a row of a table, as `cell` wrote them."""
    parts = re.split(r"(?<!\\) \| ", line.removeprefix("| ").removesuffix(" |"))
    return [re.sub(r"\\([|\\])", r"\1", part) for part in parts]


def row_line(row):
    said = row.said if row.refused else f"NOT REFUSED BY A FACT: {row.said}"
    return f"| `{row.function}` | {cell(row.what)} | {cell(said)} |"


def crate_line(crate, rows, date, version):
    refused = sum(row.refused for row in rows)
    return f"| {crate} | {len(rows)} | {refused} | {date} | {version} |"


def read_page(text):
    """The lines of a page by crate: the crate's own line, and the lines of its rows."""
    crates, rows = {}, {}
    for line in text.split("\n"):
        if re.match(r"\| `\w+::", line):
            rows.setdefault(cells(line)[0].strip("`").split("::")[0], []).append(line)
        elif re.match(r"\| \w+ \| \d+ \|", line):
            crates[cells(line)[0]] = line
    return crates, rows


def page_text(crates, rows, short):
    numbers = [cells(line) for line in crates.values()]
    tried, refused = (sum(int(parts[at]) for parts in numbers) for at in (1, 2))
    return "\n".join([
        "# Wrong programs", "",
        "Written by `python3 tools wrong`, which puts each of these into the body of its function; `crates/NAME/wrong_programs.txt`",
        "has the texts. A wrong program has to be refused because a fact fails; the last column has the prover's first words.", "",
        f"{tried} tried, {refused} refused by a fact, {tried - refused} not.", "",
        "Public functions with a contract that have fewer than two, the gate's edits counted too: "
        + (", ".join(f"`{name}`" for name in short) or "none") + ".", "",
        "| Crate | Tried | Refused by a fact | Date | Commit |", "|---|---|---|---|---|", *(crates[name] for name in sorted(crates)), "",
        "| Function | Wrong program | First words of the prover |", "|---|---|---|",
        *(line for name in sorted(rows) for line in rows[name]), ""])


def new_page(old, tried, names, short):
    """The page with the rows of the crates that were tried; those of crates that are no more are dropped."""
    crates, rows = read_page(old)
    for crate, found in tried.items():
        crates[crate] = crate_line(crate, found, today(), commit())
        rows[crate] = [row_line(row) for row in found]
    keep = [name for name in crates if name in names]
    return page_text({name: crates[name] for name in keep}, {name: rows.get(name, []) for name in keep}, short)


# -------------------------------------------------------------- the command


def run_tidy(root):
    moved, wrong = tidy(root)
    for why in wrong:
        print(f"tools wrong: {why}", file=sys.stderr)
    print(f"{moved} entries moved")
    return 2 if wrong else 0


def check_bodies(root, by_crate):
    """Every text stands once in its function's body; a list that is wrong is told before anything is tried."""
    for found in by_crate.values():
        for _, entry, function in found:
            edited(read_text(os.path.join(root, function.file)), function, entry)


def run(options):
    if options.tidy:
        return run_tidy(ROOT)
    unknown = set(options.crates) - set(crates_of(ROOT))
    by_crate, wrong = placed(ROOT)
    try:
        if unknown:
            raise WrongList(f"no crate {', '.join(sorted(unknown))}")
        for _, _, why in wrong:
            raise why
        check_bodies(ROOT, by_crate)
    except WrongList as why:
        print(f"tools wrong: {why}", file=sys.stderr)
        return 2
    chosen = options.crates or list(by_crate)
    asked = {crate: [(entry, function) for _, entry, function in by_crate.get(crate, [])] for crate in chosen}
    tried = try_all(ROOT, asked, options.jobs)
    old = read_text(page(PAGE)) if os.path.exists(page(PAGE)) else ""
    short = fewer_than_two(ROOT, by_crate)
    write_text(page(PAGE), new_page(old, tried, crates_of(ROOT), short))
    rows = [row for found in tried.values() for row in found]
    failed = sum(not row.refused for row in rows)
    print(f"{len(rows) - failed} wrong programs refused by a fact, {failed} not")
    print(f"public functions with fewer than two: {', '.join(short) or 'none'}")
    return 1 if failed else 0
