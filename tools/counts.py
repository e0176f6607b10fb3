"""Counts of answers by name: refusals by number, then words."""


def answer_name(answer):
    """The refusal's number, or accepted."""
    return "accepted" if answer[0] == "accepted" else str(answer[1])


def line_name(line):
    """The same of a printed line: its first word."""
    return (line.split() or [b"nothing"])[0].decode("latin1")


def ordered(names):
    """Numbers by size, then words."""
    return sorted(names, key=lambda name: (not name.isdigit(), int(name) if name.isdigit() else 0, name))


def listed(counter):
    return ", ".join(f"{name}: {counter[name]:,}" for name in ordered(counter)) or "none"
