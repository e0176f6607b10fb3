"""Random books in which trains must pass each other, for `fresh`: shapes of track, trains that swap their places, windows."""
from collections import deque, namedtuple

from . import random_books
from . import reference as ref
from .books import Spec, spec_bytes
from .features import on

# ---------------------------------------------------------- shapes of track


def two_loops(rng):
    """Stem, two tracks, stem, two tracks, stem: the two tracks of a pair share both nodes."""
    pairs = [(0, 1), (1, 2), (1, 2), (2, 3), (3, 4), (3, 4), (4, 5)]
    joins = [(1, 0, 1), (1, 0, 2), (2, 1, 3), (2, 2, 3), (3, 3, 4), (3, 3, 5), (4, 4, 6), (4, 5, 6)]
    return 6, [random_books.turned(rng, a, b) for a, b in pairs], joins


def ring_with_stem(rng):
    """A ring that a stem enters by a switch, so that trains come round to where they were."""
    nodes, segments, joins = random_books.ring(rng, rng.randint(3, 5))
    stem = len(segments)
    segments.append(random_books.turned(rng, nodes, 0))
    return nodes + 1, segments, joins + [(0, stem, side) for side in rng.choice(((0,), (0, stem - 1)))]


def crossing(rng):
    """Two lines that cross at a node, each joined to its own, now and then with one switch between them."""
    pairs = [(1, 0), (0, 2), (3, 0), (0, 4)]
    joins = [(0, 0, 1), (0, 2, 3)] + rng.choice(([], [(0, 0, 3)]))
    return 5, [random_books.turned(rng, a, b) for a, b in pairs], joins


def siding(rng):
    """A line with a dead end beside it: who waits there stays there."""
    nodes, segments, joins = random_books.row(rng, rng.randint(3, 4))
    segments.append(random_books.turned(rng, 1, nodes))
    return nodes + 1, segments, joins + [(1, 0, len(segments) - 1)]


def passing_loop(rng):
    return random_books.passing_loop(rng, rng.choice((4, 5, 6)))


SHAPES = (two_loops, ring_with_stem, ring_with_stem, crossing, siding, *[passing_loop] * 8,
          *[lambda rng: random_books.ring(rng, rng.randint(2, 6))] * 4,
          lambda rng: random_books.switch(rng, rng.randint(3, 5)),
          lambda rng: random_books.row(rng, rng.randint(2, 5)),
          lambda rng: random_books.scattered(rng, rng.randint(3, 6)))


def lay_track(rng, spec, plain):
    """Nodes, segments, joins: a TTD for each segment, one for all, blocks of neighbours, or any. A plain one is a passing loop with
    borders wherever they are wanted."""
    nodes, pairs, joins = passing_loop(rng) if plain else rng.choice(SHAPES)(rng)
    kinds = (1, 1, 2) if plain else rng.choice(((1,), (1,), (1,), (1, 2), (1, 1, 2), (0, 1), (0, 1, 2)))
    spec.nodes = [rng.choice(kinds) for _ in range(nodes)]
    count = min(len(pairs), rng.choice((1, 2, 3, 64, 64)))
    ttds = rng.sample(range(64), count)
    places = [s * count // len(pairs) for s in range(len(pairs))]
    if rng.random() < 0.3:
        rng.shuffle(places)
    spec.segments = [(a, b, ttds[place]) for (a, b), place in zip(pairs, places)]
    spec.joins = [(v, *rng.sample((x, y), 2)) for v, x, y in joins]
    if rng.random() < 0.25:
        spec.unbreakable = random_books.random_unbreakable(rng, spec, ttds)


# ------------------------------------------- trains that must pass each other

Pace = namedtuple("Pace", "l k")


def distance(track, here, there):
    """How many segments a train at one place goes until it has one of another, alone on the track; None where it never does."""
    waiting, found = deque([(0, tuple(here))]), {tuple(here)}
    while waiting:
        gone, place = waiting.popleft()
        if on(place) & on(there):
            return gone
        for y in range(2 * len(track.segments)):
            after = place[1:] + (y,)
            if y // 2 not in on(place) and ref.follows(track, place[-1], y) and after not in found:
                found.add(after)
                waiting.append((gone + 1, after))
    return None


def facing_places(rng, track, paces, far):
    """Two places apart from each other, mostly such that each train can come to the other's, and far from there; or None."""
    anywhere, pairs = not far and rng.random() < 0.1, []
    for _ in range(30):
        here, there = (random_books.random_path(rng, track, pace.l) for pace in paces)
        if not here or not there or on(here) & on(there):
            continue
        ways = distance(track, here, there), distance(track, there, here)
        if anywhere or None not in ways:
            pairs.append((0 if None in ways else sum(ways), here, there))
    if not pairs:
        return None
    return max(pairs)[1:] if far or rng.random() < 0.6 else rng.choice(pairs)[1:]


def fitting_intervals(rng, track, paces):
    """A number of intervals with which the formula likely fits the slice: pairs of runs are most of its words."""
    runs = [len(ref.list_runs(track, pace)) for pace in paces]
    words = sum(3 * (r + 1) * r // 2 + 12 * r for r in runs)
    most = max(1, ref.LENT_WORDS // words)
    return rng.choice((min(most, 7), max(1, min(most, 7) - rng.randrange(4)))) + (rng.random() < 0.05)


def add_passing_trains(rng, spec, places, paces, plain):
    """The first two trains swap their places; those behind them start where one of the two does, later, and go where it goes. In the
    middle of the time the first two may have gone."""
    for tr, pace in enumerate(paces):
        figures = random_books.random_lengths(rng, spec, *pace)
        if figures is None:
            return False
        usual = spec.T // 2 if tr > 1 else 0
        departure = usual if plain or rng.random() < 0.8 else rng.randrange(spec.T)
        spec.trains.append((*figures, departure, places[tr % 2]))
    for tr, train in enumerate(spec.trains):
        if rng.random() < 0.15 and not plain:
            # a call anywhere
            spec.calls.append((tr, rng.randrange(len(spec.segments)), train[2], spec.T))
        window = (train[2], spec.T) if plain else random_window(rng, spec.T, train[2])
        spec.calls.append((tr, rng.choice(places[1 - tr % 2]) // 2, *window))
    return True


def random_window(rng, T, departure):
    """Open to the end, narrow, or shut before departure."""
    style = rng.random()
    if style < 0.1:
        return sorted(rng.choices(range(departure, T + 1), k=2))
    if style < 0.3 and departure:
        return sorted(rng.choices(range(departure), k=2))
    return departure, T


def random_paces(rng, count):
    """Those who start at the same place are equally long. More than two are short and slow: else the formula is too long for the slice
    before they have passed."""
    if count > 2:
        lengths, speeds = rng.choice(((1, 1),) * 4 + ((1, 2),)), (1, 1, 1, 1, 2)
    else:
        lengths, speeds = rng.choice(((1, 1), (1, 1), (1, 1), (1, 2), (2, 1), (2, 2), (3, 1))), (1, 1, 1, 2, 2, 3)
    return [Pace(lengths[tr % 2], rng.choice(speeds)) for tr in range(count)]


def passing_book(rng):
    """A book with two to four trains that must pass each other. Three and four seldom can: most of those are made plain."""
    while True:
        spec = Spec(*rng.choice(((100, 10), (250, 30), (7, 13))))
        count = rng.choice((2, 2, 2, 3, 4))
        plain = count > 2 and rng.random() < 0.6
        lay_track(rng, spec, plain)
        track = random_books.track_of(spec)
        paces = random_paces(rng, count)
        places = facing_places(rng, track, paces[:2], plain)
        if places is None:
            continue
        spec.T = fitting_intervals(rng, track, paces)
        if add_passing_trains(rng, spec, places, paces, plain):
            random_books.random_exits(rng, spec)
            return spec_bytes(spec)


def make_book(rng):
    style = rng.random()
    if style < 0.08:
        return random_books.damaged_book(rng)
    if style < 0.11:
        return random_books.random_book(rng, "long")
    if style < 0.35:
        return random_books.random_book(rng, "tiny")
    if style < 0.45:
        return random_books.random_book(rng, "small")
    return passing_book(rng)
