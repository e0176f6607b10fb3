"""Reads crates.txt and the sources of each crate. Writes docs/generated/crates.md: the layers, and each crate with its description and the crates
that it names. In crates.txt the lines directly above a crate that begin with `# ` are its description, and a line that begins with `## ` is
the heading of the crates below it. A line is `NAME: CRATE ..`, or `NAME staticlib: CRATE ..` for a static library. With --check nothing is
written; it says which entries of crates.txt are missing, and which are not needed, a crate needing only what its own src/, specs/ and proofs/
name. A crate is named by `use NAME::..` or `NAME::..` in Rattle, where no module of the crate has that name, and by `Rattle.NAME.` in
definitions, proofs and ghost uses. std is never listed.

Exit status: 0 written, or every entry is as it should be; 1 --check found one that is not; 2 wrong usage, or a file is missing.
"""
import os
import re

from .repository import ROOT, page, read_text, write_text

# the kit's libraries that crates.txt may name
KIT = ("check", "libc", "io", "os", "bytes")
PAGE = "crates.md"


def arguments(parser):
    parser.add_argument("--check", action="store_true", help="write nothing; say which entries of crates.txt are wrong")


# ---------------------------------------------------------------- crates.txt


class Listed:
    """What crates.txt has, in its order: each crate's entries, the words behind its name, the remarks directly above it, and its heading, which may
    be none."""

    def __init__(self, root=ROOT):
        self.root, self.entries, self.kinds, self.remarks, self.headings = root, {}, {}, {}, {}
        waiting, heading = [], ""
        for line in read_text(os.path.join(root, "crates.txt")).split("\n"):
            if line.startswith("## "):
                waiting, heading = [], line.removeprefix("## ").strip()
            elif line.startswith("#"):
                waiting.append(line.lstrip("# "))
            elif line.strip():
                words, entries = line.split("#")[0].split(":")
                # behind the name a word may stand: `staticlib`
                name, *kind = words.split()
                self.entries[name], self.kinds[name] = entries.split(), kind
                self.remarks[name] = " ".join(waiting)
                self.headings[name] = heading
                waiting = []
            else:
                waiting = []

    def sections(self):
        """Each heading with its crates, in order."""
        names = {}
        for name, heading in self.headings.items():
            names.setdefault(heading, []).append(name)
        return names.items()

    def in_order(self, names):
        """Names as crates.txt has them, then the kit's libraries, then unknown ones."""
        known = [*self.entries, *KIT]
        return sorted(names, key=lambda name: (known.index(name) if name in known else len(known), name))


def below(listed, name, entries=None):
    """The crates of the repository that a crate rests on, at any distance, in crates.txt's order."""
    entries = entries or listed.entries
    found, waiting = set(), [name]
    while waiting:
        new = {other for other in entries[waiting.pop()] if other in entries} - found
        found |= new
        waiting += new
    return listed.in_order(found)


# --------------------------------------------------------------- the sources


def sources(root, crate):
    """The paths of a crate's files of Rattle, definitions and proofs."""
    for part in ("src", "specs", "proofs"):
        for folder, _, names in os.walk(os.path.join(root, "crates", crate, part)):
            yield from (os.path.join(folder, name) for name in sorted(names) if name.endswith((".rt", ".antt")))


def without_comments(text, mark):
    return re.sub(rf"(^|\s){mark}.*", "", text, flags=re.M)


def own_modules(texts):
    """The modules that a crate's Rattle declares."""
    return {name for text in texts for name in re.findall(r"^\s*(?:pub )?mod (\w+)\s*[;{]", text, re.M)}


def names_in_rattle(text):
    """The first words of paths, and what is used by itself."""
    return set(re.findall(r"(?<![\w:.])([a-z_]\w*)::", text)) | set(re.findall(r"^\s*(?:pub )?use (\w+)(?:;| as )", text, re.M))


def named_by(listed, crate):
    """The crates and libraries that a crate's own files name, in crates.txt's order."""
    rattle, found = [], set()
    for path in sources(listed.root, crate):
        in_rattle = path.endswith(".rt")
        text = without_comments(read_text(path), "//" if in_rattle else "--")
        found |= set(re.findall(r"(?<![\w.])Rattle\.(\w+)\.", text))
        if in_rattle:
            rattle.append(text)
    possible = {*listed.entries, *KIT} - own_modules(rattle)
    found |= {name for text in rattle for name in names_in_rattle(text)} & possible
    return listed.in_order(found - {crate, "std"})


# ---------------------------------------------------------------------- check


def wrong_entries(listed, crate):
    """What is missing from a crate's entries, what is not needed, and what is named and is no crate."""
    needed, has = named_by(listed, crate), listed.entries[crate]
    unknown = [name for name in needed if name not in listed.entries and name not in KIT]
    missing = [name for name in needed if name not in has and name not in unknown]
    return missing, [name for name in has if name not in needed], unknown


def check(listed):
    wrong = 0
    for crate in listed.entries:
        for what, names in zip(("missing", "not needed", "no crate"), wrong_entries(listed, crate)):
            if names:
                print(f"{crate}: {what}: {' '.join(names)}")
                wrong += len(names)
    entries = sum(map(len, listed.entries.values()))
    print(f"{len(listed.entries)} crates, {entries} entries, {wrong} wrong")
    return 1 if wrong else 0


# ----------------------------------------------------------------------- page


def layers(entries):
    """The crates by layer: each one above all that it names."""
    level = {}
    def level_of(name):
        if name not in level:
            level[name] = 1 + max([level_of(other) for other in entries[name] if other in entries], default=-1)
        return level[name]
    by_level = {}
    for name in entries:
        by_level.setdefault(level_of(name), []).append(name)
    return [by_level[n] for n in sorted(by_level)]


def directly(listed, name, entries):
    """Of what a crate names, what no other that it names rests on."""
    reached = {far for near in entries[name] if near in entries for far in below(listed, near, entries)}
    return [other for other in entries[name] if other not in reached]


def picture(entries):
    """The layers as text, the highest first."""
    rows = layers(entries)
    return "\n".join(f"{n:>3}  {'  '.join(rows[n])}" for n in reversed(range(len(rows))))


def named_words(listed, name, entries):
    near = directly(listed, name, entries)
    far = [other for other in entries[name] if other not in near]
    words = ", ".join(f"`{other}`" for other in near)
    return (words + (f" ({', '.join(far)})" if far else "")) or "nothing"


def table(listed, names, entries):
    rows = [f"| `{name}` | {listed.remarks[name]} | {named_words(listed, name, entries)} |" for name in names]
    return ["| Crate | What it has | Names |", "|---|---|---|", *rows, ""]


def crates_page(listed):
    entries = {name: named_by(listed, name) for name in listed.entries}
    tables = [line for heading, names in listed.sections()
              for line in [*([f"## {heading}", ""] if heading else []), *table(listed, names, entries)]]
    return "\n".join([
        "# Crates", "",
        "Written by `python3 tools crates` from `crates.txt` and the sources. A crate stands in a layer above all that it names.", "",
        "```text", picture(entries), "```", "",
        "In the last column stands what a crate's own files name; in brackets what it also reaches through the others.", "",
        *tables])


def run(options):
    listed = Listed()
    if options.check:
        return check(listed)
    write_text(page(PAGE), crates_page(listed))
    print(f"docs/generated/{PAGE}: {len(listed.entries)} crates")
    return 0
