"""The gate's must-fail edits: crates/NAME/must-fail/*.edit. A line `file: ..` names a file of the crate, the lines `old: ..` and `new: ..` behind
it a text there and what stands in its place; the first other line, which begins with #, says what the edit tries."""
import os
from collections import namedtuple

from .repository import read_text

# An edit: its name, what it tries, and its changes.
Edit = namedtuple("Edit", "name what changes")
# A change: the file below the crate's folder, a text there, and what stands in its place.
Change = namedtuple("Change", "file old new")


def read_edit(name, text):
    said, changes, file, old = [], [], "", ""
    for line in text.split("\n"):
        word, _, rest = line.partition(":")
        rest = rest.removeprefix(" ")
        if word == "file":
            file = rest
        elif word == "old":
            old = rest
        elif word == "new":
            changes.append(Change(file, old, rest))
        elif line.strip():
            said.append(line.lstrip("# "))
    return Edit(name, said[0] if said else name.replace("_", " "), changes)


def edits_of(root, crate):
    """The edits of a crate."""
    folder = os.path.join(root, "crates", crate, "must-fail")
    names = sorted(os.listdir(folder)) if os.path.isdir(folder) else []
    return [read_edit(name.removesuffix(".edit"), read_text(os.path.join(folder, name))) for name in names if name.endswith(".edit")]
