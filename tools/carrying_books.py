"""Random books with a plan that borders carry, made together, so that no solver is needed and eight trains are not too many: each train keeps off
the sections that the others have, with as many borders as there may be; then those go that may."""
from . import reference as ref
from .books import Spec, spec_bytes
from .inputs import plan_bytes
from .random_books import free_path, random_exits, random_lengths, random_track, track_of
from .random_inputs import all_borders, border_plans, random_walk, with_needed_borders

# the most segments, intervals and trains tried
SIZES = {"tiny": (4, 3, 3), "small": (6, 4, 5), "large": (16, 8, 8)}
# how often movements are tried for a book
TRIES = 10


def random_spec(rng, size):
    """Trains with a place apart from the others', mostly, and the call there."""
    segments, intervals, trains = SIZES[size]
    spec = Spec(100, 10, rng.randint(1, intervals))
    random_track(rng, spec, rng.randint(2, segments))
    track = track_of(spec)
    for _ in range(rng.randint(2, trains)):
        l, k = rng.choice((1, 1, 1, 1, 2, 3)), rng.choice((1, 1, 1, 2, 3))
        place = free_path(rng, spec, track, l)
        if place:
            departure = rng.choice((0, 0, rng.randrange(spec.T)))
            spec.trains.append((*random_lengths(rng, spec, l, k), departure, place))
            spec.calls.append((len(spec.trains) - 1, rng.choice(place) // 2, departure, spec.T))
    random_exits(rng, spec)
    return spec


def parted_plan(rng, book):
    """Trains one after another, each off the sections of those before it; None where one finds no way."""
    borders, moves = all_borders(book), []
    together, taken = ref.sections(book, borders), [set() for _ in range(book.T)]
    for tr in range(len(book.trains)):
        row = random_walk(rng, book, tr, rng.random() < 0.3, lambda t, run: not taken[t].intersection(ref.touched(together, run)))
        if row is None:
            return None
        moves.append(row)
        for t in range(book.T):
            taken[t].update(ref.touched(together, ref.run_in(book, moves, tr, t)))
    return plan_bytes(borders, moves)


def carrying_book(rng, size):
    """A book, and a plan that keeps the rules, some of whose borders carry it."""
    while True:
        data = spec_bytes(random_spec(rng, size))
        if ref.entry_read_book(data)[0] == "refused":
            continue
        book = ref.read_book(data)
        for _ in range(TRIES):
            plan = parted_plan(rng, book)
            needed = plan and with_needed_borders(rng, book, plan)
            if needed and ref.carriers(book, *ref.read_plan(book, needed)):
                return data, needed


def carried_plans(rng, size):
    """Such a book, with the same as it is read and each of several plans that keep the rules: that one, and with other borders."""
    data, plan = carrying_book(rng, size)
    book = ref.read_book(data)
    return [(data, book, some) for some in border_plans(rng, book, plan)]
