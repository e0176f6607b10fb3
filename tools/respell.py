"""Brings the repository's own definitions and lemmas to today's spelling: words in snake case, types and modules as they are.

usage: python3 tools/respell.py [--names FILE]     at the top of the repository, once, behind the toolchain's own script

A word is a part of a name between dashes that begins with a small letter. Functions of src/, exported names, strings and file names keep
theirs. Where a lemma had the snake form of a definition already, the definition gets it, and the lemma ends in `_lem`. --names writes what
was renamed, a pair a line.
"""
import os
import re
import sys

NAME = re.compile(r"(?<![\w'/·-])[a-zα-ω][\w'·]*(?:-[\w'·*≤<≡]+)*")
LEMMAS = ("is_open", "meets_at", "one_more", "one_step", "read_at", "read_under")
WORDS = {"getD": "get_or"}
SUFFIX = (".antt", ".rt")


def word(text):
    """A part of a name in snake case: `mayLeave` is `may_leave`, `not_T` and `x'` stay."""
    if text in WORDS:
        return WORDS[text]
    parts = []
    for part in text.split("_"):
        if re.match(r"[a-z]", part) and re.search(r"[A-Z]", part):
            part = re.sub(r"(?<=[a-z0-9'])(?=[A-Z])|(?<=[A-Z])(?=[A-Z][a-z])", "_", part).lower()
        parts.append(part)
    return "_".join(parts)


def renamed(name):
    return "-".join(word(part) for part in name.split("-"))


def turn(text, is_code, names):
    def one(m):
        old = m.group(0)
        if re.match(r"b'[A-Z]'", old):
            return old
        new = old + "_lem" if old in LEMMAS and not is_code else renamed(old)
        if new != old:
            names[old] = new
        return new

    return NAME.sub(one, text)


def main(argv):
    names = {}
    for folder, dirs, files in os.walk("crates"):
        dirs[:] = sorted(d for d in dirs if d != "out")
        for f in sorted(files):
            path = os.path.join(folder, f)
            if not f.endswith(SUFFIX):
                continue
            with open(path, encoding="utf-8") as it:
                text = it.read()
            new = turn(text, f.endswith(".rt"), names)
            if new != text:
                with open(path, "w", encoding="utf-8") as it:
                    it.write(new)
    if argv[:1] == ["--names"]:
        with open(argv[1], "w", encoding="utf-8") as it:
            it.writelines(f"{old} {new}\n" for old, new in sorted(names.items()))
    print(len(names), "names")


if __name__ == "__main__":
    main(sys.argv[1:])
