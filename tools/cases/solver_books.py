"""Random books for a solver: trains on one way, or against each other, over loops and junctions; and books nearly alike."""
from .. import reference
from ..books import EXIT, MAY_BE_SET, NEVER, Spec, encode, put, spec_bytes, split
from ..random_books import random_lengths, random_path, random_track, ring, row, track_of, turned

# ---------------------------------------------------------------- the track

# A track by its ways. A way is a row of segments, each by the node where it begins, the node where it ends, and a letter where others
# share both nodes; neighbours in a way are joined.
# Where trains can pass each other: loops of two tracks with stems of one segment or two, the smallest twice; a loop of three tracks, one
# with sides of one and two segments, a ring with a second track.
LOOPS = (
    ("01 12a 23", "01 12b 23"),
    ("01 12a 23", "01 12b 23"),
    ("01 12a 23 34", "01 12b 23 34"),
    ("01 12a 23", "01 12b 23", "01 12c 23"),
    ("01 12 23 34", "01 13 34"),
    ("01 12 20 01", "20 01b 12"),
)
# Rings: with a stem by which trains enter, with a stem by which they also come back, two at a node; a triangle with three stems, two
# tracks that cross, a switch with three branches, a crossover between two tracks.
JUNCTIONS = (
    ("30 01 12 20 01",),
    ("30 01 12 20 03",),
    ("01 12 20 01", "03 34 40 03"),
    ("01 12 24", "01 13 35", "42 23 35"),
    ("01 12", "31 14"),
    ("01 12", "01 13", "01 14"),
    ("01 12 23", "45 56 67", "01 16 67"),
)


def segment_name(word):
    """One name for either direction."""
    return word if word[0] < word[1] else word[1] + word[0] + word[2:]


def track_of_ways(rng, shapes, n):
    """One of the shapes, of at most n segments, in any order and turned either way."""
    ways = [way.split() for way in rng.choice(shapes)]
    names = sorted({segment_name(word) for way in ways for word in way})
    if len(names) > n:
        return track_of_ways(rng, shapes, n)
    rng.shuffle(names)
    joins = set()
    for way in ways:
        for one, two in zip(way, way[1:]):
            x, y = sorted(names.index(segment_name(word)) for word in (one, two))
            joins.add((int(two[0]), x, y))
    segments = [turned(rng, int(name[0]), int(name[1])) for name in names]
    return 1 + max(map(max, segments)), segments, sorted(joins)


def loop(rng, n):
    return track_of_ways(rng, LOOPS, n)


def junction(rng, n):
    return track_of_ways(rng, JUNCTIONS, n)


TOPOLOGIES = (loop, junction, junction, row, ring, ring, ring)


def lay_track(rng, spec, n, topologies):
    """A random track, often with a TTD a segment, or with nodes that may be borders."""
    random_track(rng, spec, n, topologies)
    style = rng.random()
    if style < 0.4:
        spec.segments = [(a, b, s) for s, (a, b, _) in enumerate(spec.segments)]
        spec.unbreakable = []
    elif style < 0.8 and not spec.unbreakable:
        spec.nodes = [rng.choice((*(MAY_BE_SET,) * 4, kind)) for kind in spec.nodes]


# --------------------------------------------------------------- the trains


def long_way(rng, book):
    """A path that random walks meet, a long one where there is one."""
    for length in range(rng.randint(3, 6), 0, -1):
        for _ in range(10):
            way = random_path(rng, book, length)
            if way:
                return way


def add_train(rng, spec, way, start, departure, plain):
    """A train that starts on the way, bound for its end. Answers when it can be there."""
    l, k = (1, 1) if plain else (min(rng.choice((1, 1, 1, 2, 2, 3)), len(way) - start), rng.choice((1, 1, 1, 2, 2, 3)))
    figures = random_lengths(rng, spec, l, k)
    spec.calls.append((len(spec.trains), way[-1] // 2, departure, None))
    spec.trains.append(figures + (departure, way[start:start + l]))
    return departure + max(1, reference.rounded_up(len(way) - start - l, k))


def add_trains(rng, spec, way, count, against):
    """Trains on one way, or every second one against the others. One of two that begin at the same end starts ahead or departs late.

    Answers how many intervals they need if none is in another's way."""
    ways, need, plain = (way, [x ^ 1 for x in reversed(way)]), 0, rng.random() < 0.2 * count
    for tr in range(count):
        back, nth = (tr % 2, tr // 2) if against else (0, tr)
        start = nth if rng.random() < (0.1 if against else 0.4) and nth < len(way) else 0
        late = nth * rng.choice((1, 2, 2)) + rng.choice((0, 0, 1))
        need = max(need, add_train(rng, spec, ways[back], start, 0 if start == nth and rng.random() < 0.8 else late, plain))
    return need


def random_call(rng, spec, way):
    """A call of any train on the way; its window is any one, or shut before the train departs."""
    tr = rng.randrange(len(spec.trains))
    departure = spec.trains[tr][2]
    times = range(departure) if departure and rng.random() < 0.5 else range(spec.T + 1)
    return (tr, rng.choice(way) // 2, *sorted(rng.choices(times, k=2)))


def set_calls(rng, spec, way):
    """Windows of the goals shut with the last interval, few sooner. Other calls stand ahead of the goals."""
    goals = [(tr, goal, first, rng.choice((spec.T,) * 9 + (rng.randint(first, spec.T),))) for tr, goal, first, _ in spec.calls]
    spec.calls = [random_call(rng, spec, way) for _ in range(rng.choice((0, 0, 0, 0, 0, 1, 1, 2)))] + goals


def set_exits(rng, spec, way):
    """Exits at the ends of the way, mostly: who has come there can leave."""
    for x in (way[-1], way[0] ^ 1):
        if rng.random() < 0.85:
            a, b, _ = spec.segments[x // 2]
            spec.nodes[a if x % 2 else b] = EXIT


def trains_on_a_way(rng):
    """A book of trains that share a way; the more there are, the smaller is the track."""
    spec = Spec(*rng.choice(((100, 10), (100, 10), (1, 1), (250, 30), (7, 13))))
    count, against = rng.choice((1, 2, 2, 3, 3, 3, 4, 4)), rng.random() < 0.6
    lay_track(rng, spec, rng.randint(4, 8 - count), (loop,) if against and rng.random() < 0.9 else TOPOLOGIES)
    way = long_way(rng, track_of(spec))
    spec.T = add_trains(rng, spec, way, count, against) + rng.randint(0, 3) + (count > 3)
    set_calls(rng, spec, way)
    set_exits(rng, spec, way)
    return spec_bytes(spec)


# ------------------------------------------------------- books nearly alike


def unset(data):
    """The book with each node that may be a border made one that never is."""
    frames, _ = split(data)
    for kind, payload in frames:
        if kind == reference.NODE and payload[0] == MAY_BE_SET:
            payload[0] = NEVER
    return encode(frames)


def shorter(data):
    """The book with one interval less. No reader takes it where a train would depart after the last one."""
    frames, _ = split(data)
    rs, rt, T = reference.fields_of(reference.HEAD, frames[0][1], reference.NEW)
    put(frames, reference.HEAD, 0, reference.fields_bytes(reference.HEAD, (rs, rt, T - 1), reference.NEW))
    for frame in frames:
        if frame[0] == reference.CALL:
            train, segment, *times = reference.fields_of(*frame, reference.NEW)
            frame[1] = reference.fields_bytes(reference.CALL, (train, segment, *(min(time, T - 1) for time in times)), reference.NEW)
    return encode(frames)


def altered(rng, data):
    """The book with one byte different, such that the reader takes it."""
    while True:
        at = rng.randrange(len(data))
        changed = data[:at] + bytes([data[at] + rng.choice((-1, 1)) & 255]) + data[at + 1:]
        if reference.entry_read_book(changed)[0] == "accepted":
            return changed
