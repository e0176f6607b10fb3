"""Books as bytes: a book's fields before they are frames, its frames, and the frames of bytes."""
import struct

from .reference import CALL, END, FIELDS, HEAD, JOIN, NEW, NODE, SEGMENT, TIME, TRAIN, UNBREAKABLE, fields_bytes, two_bytes, widths

# Each border kind: the words that are shown for it, and the bytes that a plan may have at such a node. Besides the reference, which says it
# from the documents by itself, the kinds stand nowhere else; random books have all of them, and books that are known by name what they need.
NEVER, MAY_BE_SET, ALWAYS, EXIT = range(4)
BORDER_KINDS = {
    NEVER: ("never", (0,)),
    MAY_BE_SET: ("may be set", (0, 1)),
    ALWAYS: ("always set", (1,)),
    EXIT: ("an exit, never set", (0,)),
}


def kind_words(kind):
    """What a border kind is called."""
    return BORDER_KINDS[kind][0]


def border_bytes(kind):
    """What a plan may have at a node of this kind."""
    return BORDER_KINDS[kind][1]


def bordered_kinds():
    """The kinds of nodes that may have a border."""
    return tuple(kind for kind in BORDER_KINDS if 1 in border_bytes(kind))


def free_nodes(book):
    """The nodes that may be set, in rising number; a cap counts these and no others."""
    return [node for node, kind in enumerate(book.nodes) if kind == MAY_BE_SET]


def counted(book, cap):
    """What the variables that a cap adds stand for, in order: of the nodes of kind 1 up to a node at least so many are set. By the count, from 1 to
    the cap, then by the node, from the first that could be the last of so many; as many nodes as there are more of than the cap."""
    free = free_nodes(book)
    if cap is None or cap >= len(free):
        return []
    return [(free[count - 1 + more], count) for count in range(1, cap + 1) for more in range(len(free) - cap)]


class Spec:
    """A book before it is bytes; fields may be as wrong as wished."""

    def __init__(self, rs=100, rt=10, T=1):
        self.rs, self.rt, self.T = rs, rt, T
        self.nodes = []
        self.segments = []      # (a, b, ttd)
        self.joins = []         # (node, s1, s2)
        self.trains = []        # (length, speed, departure, place)
        self.calls = []         # (train, segment, first, last)
        self.unbreakable = []


def train_payload(length, speed, departure, place, n=None, form=NEW):
    n = len(place) if n is None else n
    return fields_bytes(TRAIN, (length, speed, departure, n), form) + bytes(place)


def frames_of(spec, form=NEW):
    """The book's frames as [kind, payload] pairs, in order; in the format in force, or in the old one."""
    frames = [[HEAD, fields_bytes(HEAD, (spec.rs, spec.rt, spec.T), form)]]
    frames += [[NODE, bytes([kind])] for kind in spec.nodes]
    frames += [[SEGMENT, bytes(s)] for s in spec.segments]
    frames += [[JOIN, bytes(j)] for j in spec.joins]
    frames += [[TRAIN, train_payload(*t, form=form)] for t in spec.trains]
    frames += [[CALL, fields_bytes(CALL, c, form)] for c in spec.calls]
    frames += [[UNBREAKABLE, bytes([t])] for t in spec.unbreakable]
    return frames + [[END, b""]]


def encode(frames):
    return b"".join(struct.pack("<HH", len(payload), kind) + payload
                    for kind, payload in frames)


def spec_bytes(spec, form=NEW):
    return encode(frames_of(spec, form))


def time_bytes(kind, form=NEW):
    """The places of a payload's bytes that are a time's."""
    places, at = [], 0
    for width, field in zip(widths(kind, form), FIELDS[kind]):
        places += range(at, at + width) if field == TIME else ()
        at += width
    return places


def split(data):
    """The whole frames that bytes begin with, as [kind, payload] pairs that may be written to, and the bytes behind them."""
    frames, at = [], 0
    while len(data) - at >= 4 and at + 4 + two_bytes(data, at) <= len(data):
        end = at + 4 + two_bytes(data, at)
        frames.append([two_bytes(data, at + 2), bytearray(data[at + 4:end])])
        at = end
    return frames, data[at:]


def put(frames, kind, which, payload):
    """Replace one frame's payload, of those of that kind."""
    at = [x for x, frame in enumerate(frames) if frame[0] == kind][which]
    frames[at][1] = bytes(payload)
