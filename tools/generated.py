"""Writes the pages of docs/generated/. Without --all those that take less than a minute: crates.md (crates and layers), edits.md (the must-fail
edits that the gate tries), tools.md (the subcommands) and cases.md (how many stored cases there are, by file and by answer; the reference is
asked each of them again). With --all every page: first gate.md, as `gate` writes it, and then wrong_programs.md, as `wrong` does. Both take
long, and need `rt`: the gate proves every crate that it has not passed on this machine, and each wrong program is held against the prover.

Exit status: 0 written; 1 a stored answer is not the reference's, or with --all the gate did not pass or a wrong program was not refused;
2 wrong usage, or a file is missing.
"""
import argparse
import sys

from . import command, crates, gate, wrong
from .cases import FILES
from .cases.command import as_stored, said_by_file
from .counts import ordered
from .edits import edits_of
from .repository import ROOT, page, write_text


def arguments(parser):
    parser.add_argument("--all", action="store_true", help="run `gate` and `wrong` too, which take long: gate.md and wrong_programs.md")


# --------------------------------------------------------------------- cases


def cases_page(makes):
    """The counts of all cases, a row a file and a column an answer."""
    names = ordered({name for made in makes for name in made.counts})
    rows = [[made.module.NAME, len(made.records), *(made.counts[name] for name in names)] for made in makes]
    rows.append(["all", *(sum(row[at] for row in rows) for at in range(1, len(names) + 2))])
    lines = ["| " + " | ".join(f"{part:,}" if isinstance(part, int) else part for part in row) + " |" for row in rows]
    sizes = [f"| {made.module.NAME} | {len(made.data()):,} | {len(made.said()):,} | {what_it_has(made.module)} |" for made in makes]
    return "\n".join([
        "# Stored cases", "",
        "Written by `python3 tools generated`. `crates/cases` answers these records, and its answers have to be the reference's. A column is a",
        "refusal's number, `accepted`, or `nothing` where a file is missing and there is no verdict.", "",
        "| File | Cases | " + " | ".join(names) + " |", "|---" * (len(names) + 2) + "|", *lines, "",
        "| File | Bytes of records | Bytes of answers | What it has |", "|---|---|---|---|", *sizes, ""])


def what_it_has(module):
    return " ".join(module.__doc__.split("\n\n")[0].split())


def write_cases():
    """The page; answers the files whose stored answers are not the reference's."""
    makes = [as_stored(module) for module in FILES]
    write_text(page("cases.md"), cases_page(makes))
    said = said_by_file()
    return [made.module.NAME for made in makes if made.said() != said.get(made.module.NAME)]


# --------------------------------------------------------------------- edits


def edit_row(crate, edit):
    """A row of the table."""
    files = "<br>".join(dict.fromkeys(change.file for change in edit.changes))
    texts = "<br>".join(f"`{wrong.cell(change.old.strip())}` → `{wrong.cell(change.new.strip())}`" for change in edit.changes)
    return f"| `{crate}/{edit.name}` | {wrong.cell(edit.what)} | {files} | {texts} |"


def edits_page():
    rows = [edit_row(crate, edit) for crate in crates.Listed().entries for edit in edits_of(ROOT, crate)]
    return "\n".join([
        "# Must-fail edits", "",
        f"Written by `python3 tools generated`. The gate tries these {len(rows)} one by one, and the prover must refuse each.", "",
        "| Edit | What it tries | File | Text and what stands in its place |", "|---|---|---|---|", *rows, ""])


# --------------------------------------------------------------------- tools


def tools_page():
    rows = [f"| `{name}` | {what} |" for name, (_, what) in command.COMMANDS.items()]
    return "\n".join([
        "# Tools", "",
        "Written by `python3 tools generated`. `python3 tools SUBCOMMAND --help` says more of each.", "",
        "| Subcommand | What it does |", "|---|---|", *rows, ""])


# --------------------------------------------------------------------- pages


def run_module(module):
    """A subcommand as it is without arguments; its status."""
    parser = argparse.ArgumentParser()
    module.arguments(parser)
    return module.run(parser.parse_args([]))


def run(options):
    statuses = [run_module(module) for module in (gate, wrong)] if options.all else []
    return max([*statuses, write_short()])


def write_short():
    """The pages that need no long run."""
    write_text(page(crates.PAGE), crates.crates_page(crates.Listed()))
    write_text(page("edits.md"), edits_page())
    write_text(page("tools.md"), tools_page())
    stale = write_cases()
    print("docs/generated/: crates.md, edits.md, tools.md, cases.md")
    if stale:
        print(f"tools generated: stored answers are not the reference's: {', '.join(stale)}", file=sys.stderr)
    return 1 if stale else 0
