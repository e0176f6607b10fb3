"""Random and damaged books, in the format in force and as old books, from a random.Random and nothing else, so that one seed always gives the
same books."""
import functools
import itertools
import struct

from . import reference as ref
from .books import (BORDER_KINDS, EXIT, MAY_BE_SET, NEVER, Spec, bordered_kinds, encode, frames_of, put, spec_bytes, split, time_bytes,
                    train_payload)
from .known import LIMITS
from .reference import CALL, END, HEAD, JOIN, NEW, NODE, OLD, SEGMENT, TRAIN, UNBREAKABLE

# -------------------------------------------------------------- topologies


def turned(rng, a, b):
    return (a, b) if rng.random() < 0.7 else (b, a)


def row(rng, n):
    segments = [turned(rng, i, i + 1) for i in range(n)]
    return n + 1, segments, [(i + 1, i, i + 1) for i in range(n - 1)]


def ring(rng, n):
    """A ring of n; of two it is a pair of tracks that share both nodes."""
    n = max(n, 2)
    segments = [turned(rng, i, (i + 1) % n) for i in range(n)]
    joins = [((i + 1) % n, i, (i + 1) % n) for i in range(n)]
    return n, segments, joins


def switch(rng, n):
    """A stem that parts into two branches at its last node."""
    nodes, segments, joins = row(rng, max(1, n - 2))
    point, stem = nodes - 1, len(segments) - 1
    for _ in range(2):
        segments.append(turned(rng, point, nodes))
        joins.append((point, stem, len(segments) - 1))
        nodes += 1
    return nodes, segments, joins


def passing_loop(rng, n):
    """Stem, two or three tracks that share both nodes, stem."""
    tracks = 2 if n < 6 else rng.choice((2, 3))
    segments = [turned(rng, 0, 1)]
    segments += [turned(rng, 1, 2) for _ in range(tracks)]
    segments.append(turned(rng, 2, 3))
    out = len(segments) - 1
    joins = []
    for s in range(1, tracks + 1):
        joins += [(1, 0, s), (2, s, out)]
    if rng.random() < 0.2:
        joins.append((rng.choice((1, 2)), 1, 2))
    return 4, segments, joins


def scattered(rng, n):
    """Any segments between a few nodes, any joins of those that touch."""
    nodes = rng.randint(2, n + 1)
    segments = [tuple(rng.sample(range(nodes), 2)) for _ in range(n)]
    touching = [(v, x, y) for v in range(nodes) for x in range(n)
                for y in range(x + 1, n)
                if v in segments[x] and v in segments[y]]
    joins = rng.sample(touching, min(len(touching), rng.randint(0, n + 1)))
    return nodes, segments, joins


TOPOLOGIES = (row, row, ring, switch, passing_loop, scattered)


# ------------------------------------------------------------ random books


def random_path(rng, book, length):
    """A path of that length met by a random walk, or None."""
    path = [rng.randrange(2 * len(book.segments))]
    while len(path) < length:
        following = [y for y in range(2 * len(book.segments))
                     if ref.follows(book, path[-1], y)
                     and y // 2 not in {x // 2 for x in path}]
        if not following:
            return None
        path.append(rng.choice(following))
    return path


def random_lengths(rng, spec, l, k):
    """Metres and km/h that round to l and k, often on the edge."""
    length = rng.choice((l * spec.rs, (l - 1) * spec.rs + 1,
                         rng.randint((l - 1) * spec.rs + 1, l * spec.rs)))
    # more than k less a half, at most k and a half
    low = (2 * k - 1) * 18 * spec.rs // (10 * spec.rt) + 1
    high = (2 * k + 1) * 18 * spec.rs // (10 * spec.rt)
    if high < low or high > 65535:
        return None
    return length, rng.choice((low, high, rng.randint(low, high)))


def random_track(rng, spec, n, topologies=TOPOLOGIES):
    nodes, pairs, joins = rng.choice(topologies)(rng, n)
    kinds = rng.choice((tuple(BORDER_KINDS), (MAY_BE_SET,), (MAY_BE_SET,), (NEVER, MAY_BE_SET), (NEVER,), (MAY_BE_SET, *bordered_kinds())))
    spec.nodes = [rng.choice(kinds) for _ in range(nodes)]
    ttds = rng.sample(range(64), rng.choice((1, 1, 2, 3, 4)))
    blocks = rng.random() < 0.5
    for s, (a, b) in enumerate(pairs):
        ttd = ttds[s * len(ttds) // len(pairs)] if blocks else rng.choice(ttds)
        spec.segments.append((a, b, ttd))
    if rng.random() < 0.15 and joins:
        joins.remove(rng.choice(joins))
    spec.joins = [(v, x, y) if rng.random() < 0.8 else (v, y, x)
                  for v, x, y in joins]
    rng.shuffle(spec.joins)
    if rng.random() < 0.25:
        spec.unbreakable = random_unbreakable(rng, spec, ttds)


def random_unbreakable(rng, spec, ttds):
    """One or two TTDs; mostly such that no border could break them."""
    chosen = [rng.choice([t for _, _, t in spec.segments])]
    chosen += chosen if rng.random() < 0.3 else []
    if rng.random() < 0.85:
        inner = [v for v in range(len(spec.nodes))
                 if sum(v in (a, b) and t == chosen[0]
                        for a, b, t in spec.segments) >= 2]
        for v in inner:
            spec.nodes[v] = NEVER
    return chosen


def free_path(rng, spec, book, length):
    """A path that mostly keeps off the other trains' places."""
    taken = {x // 2 for train in spec.trains for x in train[3]}
    for _ in range(rng.choice((1, 10, 10, 10))):
        place = random_path(rng, book, length)
        if place and not taken & {x // 2 for x in place}:
            return place
    return place


def random_train(rng, spec, book):
    l = rng.choice((1, 1, 1, 2, 2, 3))
    k = rng.choice((1, 1, 1, 2, 2, 3))
    place = free_path(rng, spec, book, l)
    figures = random_lengths(rng, spec, l, k)
    if place is None or figures is None:
        return False
    departure = rng.choice((0, 0, 0, rng.randrange(spec.T)))
    spec.trains.append(figures + (departure, place))
    return True


def random_calls(rng, spec, book):
    """Some calls a train, windows wide, narrow or shut before departure."""
    for tr, (_, _, departure, place) in enumerate(spec.trains):
        for _ in range(rng.choice((1, 1, 1, 2, 3))):
            walk = random_path(rng, book, rng.randint(1, 3))
            walk = place if rng.random() < 0.3 else walk or place
            segment = rng.choice(place + walk) // 2
            style = rng.random()
            if style < 0.55:
                first, last = departure, spec.T
            elif style < 0.93 or departure == 0:
                first, last = sorted(rng.choices(range(spec.T + 1), k=2))
            else:
                first, last = sorted(rng.choices(range(departure), k=2))
            spec.calls.append((tr, segment, first, last))
    rng.shuffle(spec.calls)


def random_exits(rng, spec):
    """Exits, mostly: where a line ends at a train's goal, now and then elsewhere at a goal, seldom anywhere."""
    if rng.random() < 0.2:
        return
    goals = {tr: segment for tr, segment, _, _ in spec.calls}
    ends = {node for segment in goals.values() for node in spec.segments[segment][:2]}
    for node in range(len(spec.nodes)):
        outer = sum(node in segment[:2] for segment in spec.segments) < 2
        if rng.random() < (0.05 if node not in ends else 0.8 if outer else 0.3):
            spec.nodes[node] = EXIT


# the most segments, intervals and trains tried, and the range of clauses; a long book has more intervals than the others, and little else
SIZES = {"tiny": (4, 3, 2, 1, 300), "small": (8, 6, 4, 200, 3000), "long": (2, None, 1, 1, 3000)}


def random_spec(rng, size, form=NEW):
    most_segments, most_intervals, most_trains, _, _ = SIZES[size]
    rs, rt = rng.choice(((100, 10), (100, 10), (1, 1), (250, 30), (7, 13),
                         (500, 15), (8191, 3000)))
    spec = Spec(rs, rt, random_intervals(rng, form) if size == "long" else rng.randint(1, most_intervals))
    random_track(rng, spec, rng.randint(1, most_segments), (row,) if size == "long" else TOPOLOGIES)
    book = track_of(spec)
    for _ in range(rng.randint(1, most_trains)):
        random_train(rng, spec, book)
    random_calls(rng, spec, book)
    random_exits(rng, spec)
    if size == "long":
        set_late(rng, spec)
    return spec


def random_intervals(rng, form):
    """More intervals than other books have; in the format in force more than old books can have, at times as many as there may be."""
    least, most = 7 if form == OLD else OLD.greatest_T + 1, form.greatest_T
    return rng.choice((least, most - 1, most, most, rng.randint(least, most), rng.randint(least, min(2 * least, most))))


def set_late(rng, spec):
    """A departure in one of the last intervals, mostly, which keeps the formula short; and windows about the last times."""
    if rng.random() < 0.7:
        spec.trains = [(length, speed, max(spec.T - rng.choice((1, 1, 2, 3)), 0), place) for length, speed, _, place in spec.trains]
    for at, (tr, segment, first, last) in enumerate(spec.calls):
        if rng.random() < 0.6:
            first, last = sorted(rng.choices((spec.T, spec.T, spec.T - 1, spec.T - 2, first), k=2))
        spec.calls[at] = (tr, segment, first, last)


def track_of(spec):
    """The spec's nodes, segments and joins as the reference holds them."""
    book = ref.Book()
    book.nodes, book.segments = spec.nodes, spec.segments
    book.joined = {(v, min(x, y), max(x, y)) for v, x, y in spec.joins}
    return book


def random_book(rng, size="tiny", form=NEW):
    """A small book that looks well-formed; some of them are refused."""
    least, most = SIZES[size][3:]
    while True:
        data = spec_bytes(random_spec(rng, size, form), form)
        try:
            book = ref.read_book(data, form)
        except ref.Refused:
            if rng.random() < 0.2:
                return data
            continue
        count = sum(1 for _ in itertools.islice(ref.each_clause(book),
                                                most + 1))
        if least <= count <= most:
            return data


def random_size(rng):
    """Mostly tiny, few with many intervals."""
    return rng.choice(("tiny",) * 12 + ("small",) * 2 + ("long",))


# ------------------------------------------------------------ damaged books


def rich_spec(rng):
    """A book with every kind of frame, and fields worth damaging."""
    spec = Spec(100, 10, rng.randint(2, 4))
    spec.nodes = [1, 0, 0, 2, EXIT]
    spec.segments = [(0, 1, 3), (1, 2, 3), (2, 3, 3), (3, 4, 5)]
    spec.joins = [(1, 0, 1), (2, 2, 1), (3, 2, 3)]
    spec.trains = [(150, 72, 0, [0, 2]), (100, 36, 1, [6])]
    spec.calls = [(0, 2, 0, spec.T), (1, 3, 1, spec.T), (0, 3, 1, spec.T)]
    spec.unbreakable = [3, 5, 3]
    return spec


def wrong_fields(T, form=NEW):
    """(kind, which of its frames, payload) of fields wrong by one; of a time of two bytes either may be wrong."""
    def train(length=150, speed=72, d=0, place=(0, 2), n=None):
        return (TRAIN, 0, train_payload(length, speed, d, place, n, form))

    def held(numbers):
        """Those that a time's field holds."""
        return [number for number in numbers if number < 256 ** form.time_width]

    most = form.greatest_T
    heads = [(0, 10, 1), (100, 0, 1), (65535, 65535, most)]
    heads += [(100, 10, t) for t in held((0, most + 1, 255 if form == OLD else 511, 512, 256 + T, 256 * T, 65535)) if not 0 < t <= most]
    wrong = [(HEAD, 0, ref.fields_bytes(HEAD, head, form)) for head in heads]
    wrong += [(NODE, 2, [kind]) for kind in (max(BORDER_KINDS) + 1, 255)]
    wrong += [(SEGMENT, 1, p) for p in (
        (1, 1, 3), (5, 2, 3), (1, 5, 3), (255, 1, 3), (1, 2, 64), (1, 2, 255))]
    wrong += [(JOIN, 1, p) for p in (
        (5, 2, 1), (2, 2, 2), (2, 4, 1), (2, 2, 4), (2, 255, 255), (2, 0, 1),
        (2, 1, 3), (1, 0, 1), (1, 1, 0), (0, 2, 1))]
    wrong += [train(d=d) for d in held((T, T - 1, 255, 256, 256 + T - 1, 256 * (T - 1), 65535))]
    wrong += [train(length=0),
              train(place=(0, 8)), train(place=(9, 2)), train(place=(0, 255)),
              train(length=801), train(length=65535), train(speed=18), train(speed=19),
              train(speed=0), train(speed=307), train(speed=306),
              train(speed=65535), train(length=100), train(length=201),
              train(place=()), train(place=(0,)), train(place=(0, 2, 4)),
              train(place=(0, 0)), train(place=(0, 1)), train(place=(0, 3)),
              train(place=(2, 0)), train(place=(3, 1)), train(place=(0, 4)),
              train(place=(4, 6)), train(n=1), train(n=3), train(n=0),
              train(n=255), train(length=0, speed=0, place=(8,))]
    calls = [(2, 3, 1, T), (255, 3, 1, T), (1, 4, 1, T), (1, 255, 1, T),
             (1, 3, 2, 1), (1, 3, 0, T + 1), (1, 3, T, T), (1, 3, T + 1, T + 1),
             (0, 3, 0, T)]
    calls += [(1, 3, first, T) for first in held((256, 256 + T, 65535))]
    calls += [(1, 3, 1, last) for last in held((256, 256 + T, 256 * T, 65535))]
    calls += [(1, 3, 256 + 1, last) for last in held((256 + T,))]
    wrong += [(CALL, 1, ref.fields_bytes(CALL, call, form)) for call in calls]
    wrong += [(UNBREAKABLE, 1, [t]) for t in (4, 64, 255, 0)]
    return wrong


def damage_field(rng, frames, form):
    T = ref.fields_of(HEAD, frames[0][1], form)[2]
    put(frames, *rng.choice(wrong_fields(min(max(T, 1), form.greatest_T), form)))


def damage_time(rng, frames, form):
    """Any byte of a time gets any value, or one that is off by one."""
    frame = rng.choice([f for f in frames if f[0] in (HEAD, TRAIN, CALL)])
    payload, at = bytearray(frame[1]), rng.choice(time_bytes(frame[0], form))
    payload[at] = rng.choice((payload[at] + 1, payload[at] - 1, 1, rng.randrange(256))) % 256
    frame[1] = bytes(payload)


def damage_join_copy(rng, frames):
    joins = [x for x, f in enumerate(frames) if f[0] == JOIN]
    node, x, y = frames[rng.choice(joins)][1]
    pair = (x, y) if rng.random() < 0.5 else (y, x)
    frames.insert(joins[-1] + 1, [JOIN, bytes((node,) + pair)])


def damage_unbreakable(rng, frames):
    """A node inside the unbreakable TTD gets a kind that may have a border."""
    put(frames, NODE, rng.choice((1, 2)), [rng.choice(bordered_kinds())])


def damage_unjoined(rng, frames):
    """Drop a join, so that a row may be no path."""
    joins = [x for x, f in enumerate(frames) if f[0] == JOIN]
    del frames[rng.choice(joins)]


def damage_kind(rng, frames):
    frame = rng.choice(frames)
    frame[0] = rng.choice((0, 9, 20, 255, 256 + frame[0] & 0xFFFF, 65535,
                           rng.randint(1, 8)))


def damage_order(rng, frames):
    at = rng.randrange(len(frames) - 1)
    style = rng.randrange(5)
    if style == 0:
        frames[at], frames[at + 1] = frames[at + 1], frames[at]
    elif style == 1:
        frames.insert(at + 1, list(frames[0]))
    elif style == 2:
        del frames[0]
    elif style == 3:
        frames.append(list(rng.choice(frames)))
    else:
        frames.insert(rng.randrange(len(frames)), list(frames[at]))


def damage_length(rng, frames):
    """A payload a byte long or short, or of any length."""
    kind = rng.randint(HEAD, END)
    frame = rng.choice([f for f in frames if f[0] == kind] or frames)
    style = rng.randrange(4)
    if style == 0:
        frame[1] = frame[1][:-1]
    elif style == 1:
        frame[1] = frame[1] + bytes([rng.randrange(256)])
    elif style == 2:
        frame[1] = b""
    else:
        frame[1] = rng.randbytes(rng.randrange(12))


def damage_missing(rng, frames):
    """All frames of a kind go, or one frame, or the calls of one train."""
    style = rng.randrange(3)
    if style == 0:
        kind = rng.randint(HEAD, END)
        frames[:] = [f for f in frames if f[0] != kind]
    elif style == 1:
        del frames[rng.randrange(len(frames))]
    else:
        tr = rng.choice((0, 1))
        frames[:] = [f for f in frames if f[0] != CALL or f[1][:1] != bytes([tr])]


def frame_damages(form):
    """The ways to damage a book's frames; fields most often."""
    field, time = (functools.partial(damage, form=form) for damage in (damage_field, damage_time))
    return (field,) * 5 + (
        time, damage_join_copy, damage_unbreakable, damage_unjoined, damage_kind,
        damage_order, damage_length, damage_missing)


def damaged_bytes(rng, data):
    """Bytes cut, added, flipped, or a length field that lies."""
    if not data:
        return data
    style = rng.randrange(7)
    if style == 0:
        return data[:rng.randrange(len(data))]
    if style == 1:
        return data + rng.randbytes(rng.randint(1, 6))
    if style == 2:
        return data[:-4] + struct.pack("<HH", rng.randint(1, 5), END)
    if style == 3:
        payload = rng.randbytes(rng.randint(1, 3))
        tail = rng.choice((b"", b"\0", bytes(4)))
        return data[:-4] + encode([[END, payload]]) + tail
    if style == 4:
        return data + encode([rng.choice(([END, b""], [NODE, b"\0"]))])
    at = rng.randrange(len(data))
    new = rng.choice((data[at] ^ (1 << rng.randrange(8)), rng.randrange(256)))
    return data[:at] + bytes([new]) + data[at + 1:]


def damaged_book(rng, form=NEW):
    """A book with one or two things wrong; a few are only at a limit."""
    style = rng.random()
    if style < 0.01:
        return rng.choice((b"", b"\0", bytes(4), rng.randbytes(40)))
    if style < 0.08:
        spec = rng.choice(LIMITS)(rng.choice((0, 1, 1)))
        data = spec_bytes(spec, form)
        return data if rng.random() < 0.9 else damaged_bytes(rng, data)
    frames = frames_of(rich_spec(rng), form)
    for _ in range(rng.choice((0, 1, 1, 1, 1, 2))):
        try:
            rng.choice(frame_damages(form))(rng, frames)
        except (IndexError, ValueError):
            pass                # the frame to damage is gone already
    data = encode(frames)
    return damaged_bytes(rng, data) if rng.random() < 0.3 else data


def refused_books(rng, each):
    """Damaged books, so many for each refusal of a book, with that refusal's number."""
    left = {number: each for number in range(1, 12)}
    while any(left.values()):
        data = damaged_book(rng)
        found = ref.entry_read_book(data)
        if found[0] != "accepted" and left[found[1]]:
            left[found[1]] -= 1
            yield found[1], data


# --------------------------------------------------------- for the rewriter


def repeated(rng, data):
    """The book with its Unbreakable frames repeated, in any order."""
    frames, rest = split(data)
    last = [frame for frame in frames if frame[0] == UNBREAKABLE]
    more = rng.choices(last, k=rng.randint(1, 5)) if last else []
    end = [at for at, frame in enumerate(frames) if frame[0] == END]
    for frame in more if end else []:
        frames.insert(end[0], frame)
    return encode(frames) + rest


def random_old_book(rng):
    """An old book that looks well-formed; some of them are refused."""
    data = random_book(rng, random_size(rng), OLD) if rng.random() < 0.7 else spec_bytes(rich_spec(rng), OLD)
    return repeated(rng, data) if rng.random() < 0.4 else data


def other_format(rng):
    """No old book: one of the format in force, or an old one whose T is too great, or that has a frame of the format in force."""
    style = rng.randrange(4)
    if style == 0:
        return random_book(rng, random_size(rng))
    if style == 1:
        return damaged_book(rng)
    if style == 2:
        frames = frames_of(rich_spec(rng), OLD)
        frames[0][1] = ref.fields_bytes(HEAD, (100, 10, OLD.greatest_T + 1), OLD)
        return encode(frames)
    spec = rich_spec(rng)
    frames, new = frames_of(spec, OLD), frames_of(spec)
    at = rng.choice([at for at, frame in enumerate(frames) if frame[0] in (HEAD, TRAIN, CALL)])
    frames[at] = new[at]
    return encode(frames)


def book_to_rewrite(rng):
    """What the rewriter may be given: good old books, damaged ones, and what is no old book."""
    style = rng.random()
    if style < 0.45:
        return random_old_book(rng)
    return damaged_book(rng, OLD) if style < 0.9 else other_format(rng)
