"""What a book or a list of carriers has in it, looked up there and not in how it was made, so that counts say what was tried."""
import itertools

from . import reference as ref
from .books import EXIT

# a search for a ring ends after so many paths
MOST_PATHS = 20000


def on(place):
    """The segments of a row of directed ones."""
    return {x // 2 for x in place}


def after(book, x):
    """The directed segments that this one leads to."""
    return [y for y in range(2 * len(book.segments)) if ref.follows(book, x, y)]


def closed_path(book, segments):
    """Whether a path through some of these segments, three or more, comes back to its beginning."""
    directed = [x for x in range(2 * len(book.segments)) if x // 2 in segments]
    following = {x: [y for y in after(book, x) if y // 2 in segments] for x in directed}
    waiting = [(x,) for x in directed]
    for _ in range(MOST_PATHS):
        if not waiting:
            return False
        path = waiting.pop()
        if len(path) > 2 and path[0] in following[path[-1]]:
            return True
        waiting += [path + (y,) for y in following[path[-1]] if y // 2 not in on(path)]
    return False


def ring_in_one_ttd(book):
    ttds = [ttd for _, _, ttd in book.segments]
    return any(closed_path(book, {s for s, other in enumerate(ttds) if other == ttd}) for ttd in set(ttds))


def has_switch(book):
    return any(len(after(book, x)) > 1 for x in range(2 * len(book.segments)))


def parallel_tracks(book):
    """The pairs of segments that share both nodes."""
    ends = [set(segment[:2]) for segment in book.segments]
    return [(x, y) for x, y in itertools.combinations(range(len(ends)), 2) if ends[x] == ends[y]]


def several_ttds(book):
    """A node with segments of two TTDs, and two of one of them."""
    there = ([ttd for a, b, ttd in book.segments if node in (a, b)] for node in range(len(book.nodes)))
    return any(1 < len(set(ttds)) < len(ttds) for ttds in there)


def unbreakable(book):
    """An unbreakable TTD of two segments or more."""
    ttds = [ttd for _, _, ttd in book.segments]
    return any(ttds.count(ttd) > 1 for ttd in book.unbreakable)


def shut_window(book):
    return any(last < train.departure for train in book.trains for _, _, last in train.calls)


def features(book):
    """Whether each is to be found in the book, by name."""
    return {
        "a ring": closed_path(book, set(range(len(book.segments)))),
        "a ring within one TTD": ring_in_one_ttd(book),
        "a switch": has_switch(book),
        "tracks that share both nodes": bool(parallel_tracks(book)),
        "several TTDs at a node": several_ttds(book),
        "an unbreakable TTD": unbreakable(book),
        "l above 1": any(train.l > 1 for train in book.trains),
        "k above 1": any(train.k > 1 for train in book.trains),
        "a window shut before departure": shut_window(book),
        "a late departure": any(train.departure for train in book.trains),
        "an exit": EXIT in book.nodes,
        "no exit": EXIT not in book.nodes,
    }


def entries_of(carriers):
    """The entries of a list of carriers: node, interval, lower and higher train."""
    return [tuple(carriers[at:at + ref.ENTRY_BYTES]) for at in range(0, len(carriers), ref.ENTRY_BYTES)]


def list_features(carriers):
    """The names of what occurs in a list of carriers."""
    entries = entries_of(carriers)
    there = {
        "empty": not entries,
        "one entry": len(entries) == 1,
        "several entries": len(entries) > 1,
        "an interval above 0": any(t > 0 for _, t, _, _ in entries),
        "several intervals": len({t for _, t, _, _ in entries}) > 1,
        "other trains than 0 and 1": any(pair != [0, 1] for _, _, *pair in entries),
        "several pairs": len({(i, j) for _, _, i, j in entries}) > 1,
    }
    return [name for name, has in there.items() if has]
