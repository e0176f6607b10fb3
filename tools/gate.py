"""Runs the gate, .ci/run, shows what it prints, and writes docs/generated/gate.md: date, commit, minutes by the clock and of the processor,
the last line, what was proved in this run and what an earlier one had proved, the programs that were run, and where the prover refused each
must-fail edit. The whole log is kept as target/gate.log. With --log nothing is run: the page is made of a log that is there already; a block of
real, user and sys at its end, as bash's `time` prints it, gives the minutes, and --commit says which commit was tried. The page is best written
by `python3 tools gate` in the clean clone itself, whose commit it names. A log of an older toolchain has the seconds of each crate and edit; they
are shown where they are there.

Exit status: 0 the gate passed; 1 it did not, or the log has no line that says so; 2 wrong usage, or a file is missing.
"""
import datetime
import os
import re
import resource
import subprocess
import sys
import tempfile
import time

from .repository import ROOT, commit, page, read_text, today, write_text

PAGE = "gate.md"
SECONDS = r"(?: \((\d+) s\))?$"
PROVED = re.compile(r"rt: (\w+) proved" + SECONDS)
# proved by an earlier run on the same machine, of the same files over the same libraries
KEPT = re.compile(r"rt: (\w+) is kept: ")
RAN = re.compile(r"rt: (\w+) ran\b.*?" + SECONDS)
# the place of the first error, and by an older toolchain the seconds
EDIT = re.compile(r"rt: must-fail (\w+)/(\w+)(?:\.edit)?: refused, as it must be(.*)$")
OLDER = re.compile(r" \((?:first at (.*?); )?(\d+) s\)$")
PLACE = re.compile(r"(?: \(only .*?\))?: (?:note: )?(?:\./)?(\S+:\d+:\d+): ")
# what the prover refuses for its own sake says less of a contract
ONLY = re.compile(r" \((only .*?)[,)]")
WRONG = re.compile(r"rt: (.*(?:NOT PROVED|FAILED|NOT REFUSED|NOT TRIED|BAD EDIT).*)$")
# what .ci/run says itself, in place of the last line
BAD_EDITS = re.compile(r"(must-fail edits are bad\b.*)$")
SUMMARY = re.compile(r"rt: (ok[;,].*)$")
# a remark behind it says that some crates were tried alone, which is not the gate
LAST = re.compile(r"(\d+) passed, (\d+) failed( \(.*\))?$")
CLOCK = re.compile(r"(real|user|sys)\s+(?:(\d+)m)?([\d.]+)s?$")


def arguments(parser):
    parser.add_argument("--log", metavar="FILE", help="make the page of this log, and run nothing")
    parser.add_argument("--commit", metavar="TEXT", help="the commit that was tried, where that is not the present tree's")


class Log:
    """What a log of the gate says. Seconds are None where it has none."""

    def __init__(self, text):
        self.proved, self.kept, self.ran, self.edits, self.wrong = {}, set(), {}, {}, []
        self.summary, self.last, self.clock = None, None, {}
        for line in text.split("\n"):
            self.take(line.rstrip())

    def take(self, line):
        if found := PROVED.match(line):
            self.proved[found[1]] = number(found[2])
        elif found := KEPT.match(line):
            self.proved[found[1]] = None
            self.kept.add(found[1])
        elif found := RAN.match(line):
            self.ran[found[1]] = number(found[2])
        elif found := EDIT.match(line):
            self.edits.setdefault(found[1], {})[found[2]] = refused_at(found[3])
        elif found := WRONG.match(line) or BAD_EDITS.match(line):
            self.wrong.append(found[1])
        elif found := SUMMARY.match(line):
            self.summary = found[1]
        elif LAST.match(line):
            self.last = line
        elif found := CLOCK.match(line):
            self.clock[found[1]] = 60 * int(found[2] or 0) + float(found[3])

    def passed(self):
        found = LAST.match(self.last or "")
        return bool(found) and int(found[1]) > 0 and int(found[2]) == 0 and not found[3]

    def wall(self):
        return self.clock.get("real")

    def processor(self):
        return self.clock["user"] + self.clock.get("sys", 0) if "user" in self.clock else None


def number(word):
    return int(word) if word else None


def refused_at(words):
    """The seconds of an edit, if they are told, and the place of its first error, with what the prover says where that tells little."""
    if older := OLDER.match(words):
        return int(older[2]), older[1] or ""
    only, place = ONLY.match(words), PLACE.match(words)
    return None, ", ".join(part[1] for part in (place, only) if part)


# ----------------------------------------------------------------- the page


def minutes(seconds):
    return "not known" if seconds is None else f"{int(seconds) // 60} min {int(seconds) % 60} s"


def together(all_seconds):
    """The sum of the seconds, if the log has any."""
    told = [seconds for seconds in all_seconds if seconds is not None]
    return f", {sum(told)} s together" if told else ""


def edit_words(edits):
    return ", ".join(name if seconds is None else f"{name} {seconds}" for name, (seconds, _) in sorted(edits.items()))


def shown(log, found, name):
    """A crate's cell: its seconds, or that it is there."""
    if name not in found:
        return ""
    word = "kept" if found is log.proved and name in log.kept else "yes"
    return word if found[name] is None else found[name]


def gate_page(log, when):
    names = sorted({*log.proved, *log.edits}, key=lambda name: (-(log.proved.get(name) or 0), name))
    rows = [f"| `{name}` | {shown(log, log.proved, name)} | {shown(log, log.ran, name)} | {edit_words(log.edits.get(name, {}))} |" for name in names]
    places = [f"| `{name}/{edit}` | {where or 'not said'} |" for name in sorted(log.edits) for edit, (_, where) in sorted(log.edits[name].items())]
    all_edits = [seconds for edits in log.edits.values() for seconds, _ in edits.values()]
    kept = f", {len(log.kept)} of them kept from an earlier run" if log.kept else ""
    has_times = any(seconds is not None for seconds in [*log.proved.values(), *all_edits])
    times = " Seconds are by the clock, of crates and edits that run beside each other." if has_times else ""
    return "\n".join([
        "# The gate", "",
        f"Written by `python3 tools gate` {when}.{times}", "",
        f"- Last line: `{log.last or 'none'}`",
        *([f"- {log.summary}"] if log.summary else []),
        f"- By the clock: {minutes(log.wall())}; of the processor: {minutes(log.processor())}",
        f"- {len(log.proved)} crates{together(log.proved.values())}{kept}; {len(all_edits)} edits{together(all_edits)}; "
        f"{len(log.ran)} programs run",
        *(f"- {line}" for line in log.wrong), "",
        "| Crate | Proved | Run | Edits |", "|---|---|---|---|", *rows, "",
        "| Edit | First error at |", "|---|---|", *places, ""])


def of_file(name):
    """The day on which a log was written."""
    return datetime.date.fromtimestamp(os.path.getmtime(name)).isoformat()


# ------------------------------------------------------------------ the run


def processor_seconds():
    used = resource.getrusage(resource.RUSAGE_CHILDREN)
    return used.ru_utime, used.ru_stime


def run_gate(root, keep):
    """Runs the gate, shows each line, and writes it to `keep`; the times stand behind it as bash's `time` prints them."""
    start, before = time.monotonic(), processor_seconds()
    how = {"stdout": subprocess.PIPE, "stderr": subprocess.STDOUT, "text": True, "errors": "replace"}
    with subprocess.Popen([os.path.join(root, ".ci", "run")], **how) as gate:
        for line in gate.stdout:
            sys.stdout.write(line)
            sys.stdout.flush()
            keep.write(line)
    user, system = (after - first for after, first in zip(processor_seconds(), before))
    for name, seconds in (("real", time.monotonic() - start), ("user", user), ("sys", system)):
        keep.write(f"{name} {int(seconds // 60)}m{seconds % 60:.1f}s\n")
    return gate.returncode


def run_and_keep(root):
    """The log's text and the gate's status. The log lies elsewhere until the gate has ended, lest a gate that clears target/ takes it along."""
    with tempfile.TemporaryFile("w+", encoding="utf-8") as keep:
        status = run_gate(root, keep)
        keep.seek(0)
        text = keep.read()
    write_text(os.path.join(root, "target", "gate.log"), text)
    return text, status


def run(options):
    tried = options.commit or commit()
    if options.log:
        text, status, when = read_text(options.log), 0, f"from a log of {of_file(options.log)}, commit {tried}"
    else:
        text, status = run_and_keep(ROOT)
        when = f"on {today()}, commit {tried}, with {os.cpu_count()} processors"
    log = Log(text)
    write_text(page(PAGE), gate_page(log, when))
    ended = log.last or "".join(log.wrong[-1:]) or "the gate did not end"
    print(f"docs/generated/{PAGE}: {ended}; {minutes(log.wall())} by the clock")
    return 0 if log.passed() and status == 0 else 1
