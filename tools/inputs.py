"""Plans and refutations as bytes, from their fields and back."""
import struct

from . import reference


class TooLong(Exception):
    """A step is longer than a frame holds, or a search was given up."""


# ------------------------------------------------------------------- plans


def plan_bytes(borders, moves):
    values = [x for row_ in moves for x in row_]
    return bytes(borders) + struct.pack("<%dH" % len(values), *values)


def split_plan(book, plan):
    n, T = len(book.nodes), book.T
    rest = plan[n:]
    moves = [list(rest[x:x + T]) for x in range(0, len(rest), T)]
    return list(plan[:n]), moves


# -------------------------------------------------------------- refutations


def step_frame(literals, hints, kind=20, count=None):
    count = len(literals) if count is None else count
    payload = struct.pack("<H", count & 0xFFFF)
    payload += b"".join(struct.pack("<I", x & 0xFFFFFFFF)
                        for x in list(literals) + list(hints))
    if len(payload) > 65535:
        raise TooLong()
    return struct.pack("<HH", len(payload), kind) + payload


def encode_steps(steps):
    return b"".join(step_frame(*step) for step in steps)


def read_steps(data):
    """The steps of a refutation as pairs of literals and hints."""
    at, steps = 0, []
    while at < len(data):
        step, at = reference.read_step(data, at, len(steps) + 1)
        steps.append(tuple(step))
    return steps
