"""Books that are known by name: document 01's, rows, stars and rings, books on each limit, books with many intervals, books as long as a slice,
books whose train graphs show every kind of cell, books whose plans are carried by borders, and books whose fewest borders are known; with the
inputs, pages, lists and clauses of some that were worked out by hand."""
from . import reference as ref
from .books import EXIT, MAY_BE_SET, NEVER, Spec, spec_bytes
from .inputs import plan_bytes, step_frame
from .reference import NEW, OLD

# -------------------------------------------------------- document 01's books

# Document 01's books L and M are old books; BOOK_L and book_m are the same with times of two bytes.
OLD_L = bytes.fromhex(
    "050001006400 0a0001 0100020000 0100020000 03000300000100"
    "07000500500024 00000100 0400060000000001 00000800")
BOOK_L = bytes.fromhex(
    "060001006400 0a000100 0100020000 0100020000 03000300000100"
    "08000500500024 0000000100 06000600000000000100 00000800")

FORMULA_L = b"""p cnf 6 10
-1 0
-2 0
3 4 5 0
-3 -4 0
-3 -5 0
-4 -5 0
-4 0
-5 0
-3 6 0
-4 6 0
"""


# of book L: no borders, run 0 and its claim
ASSIGNMENT_L, PLAN_L = bytes.fromhex("000001000001"), bytes(4)


def spec_l():
    spec = Spec(100, 10, 1)
    spec.nodes, spec.segments = [0, 0], [(0, 1, 0)]
    spec.trains, spec.calls = [(80, 36, 0, [0])], [(0, 0, 0, 1)]
    return spec


def spec_m(first, last, segment=1):
    """Text: "L with a third node of kind 0, the unjoined segment 1 (nodes 1, 2) in
    TTD 0 and the call on segment 1"."""
    spec = spec_l()
    spec.nodes.append(0)
    spec.segments.append((1, 2, 0))
    spec.calls = [(0, segment, first, last)]
    return spec


def book_m(first, last, form=NEW):
    return spec_bytes(spec_m(first, last), form)


# the empty step that document 01 gives for book M with its window open
REFUTATION_M = step_frame([], [16, 17, 19])


def row_spec(count, joined=True, length=100, speed=36, rs=100, rt=10):
    spec = Spec(rs, rt)
    spec.nodes = [0] * (count + 1)
    spec.segments = [(s, s + 1, 0) for s in range(count)]
    if joined:
        spec.joins = [(s + 1, s, s + 1) for s in range(count - 1)]
    l = ref.rounded_up(length, rs)
    add_train(spec, [2 * s for s in range(l)], length=length, speed=speed)
    return spec


# rs, rt, km/h and the speed in segments: P3's six edges, then exact halves and what lies beside them, up to the greatest that fields hold
SPEEDS = (
    (100, 10, 18, 0), (100, 10, 19, 1), (100, 10, 54, 1), (100, 10, 55, 2), (100, 10, 306, 8), (100, 10, 307, 9),
    (5, 27, 1, 1), (5, 27, 3, 4), (1, 9, 3, 7), (65535, 39321, 3, 0), (65535, 39321, 9, 1), (65535, 58982, 6, 2), (65535, 39321, 51, 8),
    (2, 1, 4, 1), (65535, 13110, 65535, 3642), (65535, 1, 65535, 0), (65535, 2, 65535, 1), (65535, 65535, 30, 8), (65535, 65535, 31, 9),
    (65535, 65535, 65535, 18204), (1, 65535, 65535, 1193010062), (1, 1, 30, 8), (1, 1, 31, 9), (1, 1, 1, 0), (1, 1, 2, 1),
)


def speed_spec(rs, rt, speed):
    """A row of nine segments of rs metres, and a train of one segment at this speed."""
    return row_spec(9, length=rs, speed=speed, rs=rs, rt=rt)


# ------------------------------------------------- books that touch a limit


def star(count, T=1):
    """A spec of count segments that all touch node 0, unjoined."""
    spec = Spec(T=T)
    spec.nodes = [0] * (count + 1)
    spec.segments = [(0, s + 1, s % 64) for s in range(count)]
    return spec


def add_train(spec, place, calls=1, length=None, speed=36):
    spec.trains.append((length or 100 * len(place), speed, 0, place))
    call = (len(spec.trains) - 1, place[0] // 2, 0, spec.T)
    spec.calls += [call] * calls


def limit_nodes(over):
    spec = star(3)
    spec.nodes = [1] * (96 + over)
    add_train(spec, [0])
    return spec


def limit_segments(over):
    spec = star(64)
    spec.segments += [(0, 1, 7)] * over
    add_train(spec, [0])
    return spec


def limit_joins(over):
    """128 joins at one node give 256 runs of two segments, and no longer."""
    spec = star(17)
    pairs = [(0, x, y) for x in range(17) for y in range(x + 1, 17)]
    spec.joins = pairs[:128 + over]
    add_train(spec, [1, 2])
    return spec


def limit_trains(over):
    spec = star(9 + over)
    for s in range(8 + over):
        add_train(spec, [2 * s])
    return spec


def limit_calls(over):
    spec = star(2)
    add_train(spec, [0])
    add_train(spec, [2], calls=4 + over)
    return spec


def limit_runs(over):
    """A ring of 64 gives 128 + 128 runs; one more join gives two more."""
    spec = Spec()
    spec.nodes = [0] * 65
    spec.segments = [(s, (s + 1) % 64, s) for s in range(64)]
    spec.joins = [((s + 1) % 64, s, (s + 1) % 64) for s in range(64)]
    if over:
        spec.segments[63] = (63, 1, 63)
        spec.joins[63] = (1, 63, 1)
        spec.joins.append((1, 63, 0))
    add_train(spec, [0])
    return spec


def explosion(over):
    """Parallel tracks, all joined at both nodes: runs without number."""
    spec = Spec()
    spec.nodes = [1, 1]
    tracks = 10 + over
    spec.segments = [(0, 1, 0)] * tracks
    spec.joins = [(v, x, y) for v in (0, 1) for x in range(tracks)
                  for y in range(x + 1, tracks)]
    add_train(spec, [0, 3, 4, 7], speed=306)
    return spec


LIMITS = (limit_nodes, limit_segments, limit_joins, limit_trains, limit_calls,
          limit_runs, explosion)


# ------------------------------------------------------------------- rings

# the words of a ring's formula, then the ring: nodes, intervals, spare nodes, TTDs, and l and k of each train
RINGS = (
    (16384, (7, 4, 23, 1, ((1, 1), (1, 2)))),
    (16384, (6, 4, 25, 3, ((2, 1), (1, 1), (1, 2)))),
    (16385, (7, 2, 6, 3, ((1, 3), (1, 1), (1, 2)))),
    (16385, (6, 3, 44, 1, ((1, 2), (1, 3)))),
    (33166, (6, 4, 0, 1, ((2, 3), (1, 2), (1, 2)))),
)
# smaller ones
SMALL_RINGS = (
    (3, 2, 0, 1, ((1, 1), (1, 1), (1, 1))),
    (3, 3, 0, 2, ((2, 1), (1, 2))),
    (4, 2, 1, 1, ((1, 2), (2, 1), (1, 1))),
    (4, 4, 2, 3, ((2, 2), (1, 1))),
    (5, 3, 0, 2, ((3, 2), (2, 1))),
)


def ring(nodes, intervals, spare, ttds, trains):
    """Nodes of kinds 0 to 3 in turn, and spare ones of kind 0, two words each.

    Each train stands ahead of the one before it, and all but the first depart late.
    """
    spec = Spec(100, 10, intervals)
    spec.nodes = [v % 4 for v in range(nodes)] + [0] * spare
    spec.segments = [(s, (s + 1) % nodes, s * ttds // nodes) for s in range(nodes)]
    spec.joins = [((s + 1) % nodes, s, (s + 1) % nodes) for s in range(nodes)]
    at = 0
    for train, (l, k) in enumerate(trains):
        place = [2 * ((at + s) % nodes) for s in range(l)]
        spec.trains.append((100 * l, 36 * k, min(train, 1), place))
        spec.calls.append((train, (train + nodes // 2) % nodes, 0, intervals))
        at += l
    return spec_bytes(spec)


def great_ring(intervals):
    """A ring of 64 segments, each a TTD of its own, and 8 trains that stand where their call is; 256 runs a train."""
    spec = Spec(100, 10, intervals)
    spec.nodes = [1] * 64
    spec.segments = [(s, (s + 1) % 64, s) for s in range(64)]
    spec.joins = [((s + 1) % 64, s, (s + 1) % 64) for s in range(64)]
    for train in range(8):
        spec.trains.append((100, 36, train % 3, [2 * train]))
        spec.calls.append((train, train, 0, intervals))
    return spec_bytes(spec)


# ------------------------------------------------------------------- exits


def leaving_spec(kinds, place, goal, departure):
    """Two joined segments, the three nodes of these kinds, two intervals, and a train as long as its place, with its goal."""
    spec = Spec(100, 10, 2)
    spec.nodes, spec.segments, spec.joins = list(kinds), [(0, 1, 0), (1, 2, 0)], [(1, 0, 1)]
    spec.trains, spec.calls = [(100 * len(place), 36, departure, place)], [(0, goal, 0, 2)]
    return spec


# P4's cases: the nodes' kinds, the train's place, goal and departure, its moves, and the least broken rule, or 0. Run 0 is the place itself
# where that is [0] or [0, 2]; run 3 is [3], and run 5 moves to segment 0 from there.
LEAVING = (
    ((0, 0, 0), [0], 0, 0, (0, ref.GONE), 3),               # a goal reached, and no exit
    ((0, 0, 0), [0], 0, 0, (0, 0), 0),                      # so it stays
    ((EXIT, 0, 0), [0], 0, 0, (0, ref.GONE), 3),            # an exit behind the train
    ((0, 0, EXIT), [0], 0, 0, (0, ref.GONE), 3),            # where another segment ends
    ((0, EXIT, 0), [0], 0, 0, (0, ref.GONE), 0),            # in mid line
    ((0, EXIT, 0), [0], 0, 0, (4, ref.GONE), 3),            # it has run through
    ((0, EXIT, 0), [0], 1, 0, (0, ref.GONE), 3),            # front at the exit, and the goal not in the place
    ((0, EXIT, 0), [3], 1, 0, (3, ref.GONE), 0),            # the other way
    ((EXIT, 0, 0), [3], 0, 0, (5, ref.GONE), 0),            # it moves to the exit first
    ((0, 0, EXIT), [0, 2], 0, 0, (0, ref.GONE), 0),         # front at the exit, the goal under the rear
    ((0, 0, EXIT), [0, 2], 1, 0, (0, ref.GONE), 0),         # under the front
    ((0, EXIT, 0), [0, 2], 0, 0, (0, ref.GONE), 3),         # the rear ends at an exit, the front does not
    ((0, EXIT, 0), [0], 0, 1, (ref.ABSENT, 0), 0),          # T = d + 1: the run of interval d
    ((0, EXIT, 0), [0], 0, 1, (ref.ABSENT, ref.GONE), 2),   # which gone cannot replace
)


# ------------------------------------------------- inputs as long as a slice


def filled(spec, form):
    """The book with as many Unbreakable frames as make 65,536 bytes in this format; they change nothing else."""
    spec.unbreakable = [0] * ((ref.LENT_BYTES - len(spec_bytes(spec, form))) // 5)
    assert len(spec_bytes(spec, form)) == ref.LENT_BYTES
    return spec


def padded(call, form=NEW):
    """Document 01's book M, its call on this segment, with three tracks more in a TTD of their own, so that Unbreakable frames can fill the
    65,536 bytes that it has in the format in force; it is 4 bytes shorter as an old book."""
    spec = spec_m(0, 1, call)
    spec.segments += [(0, 1, 1)] * 3
    return spec_bytes(filled(spec, NEW), form)


# Of that book with the call on segment 0: no borders, run 0, and the claims of both segments of TTD 0, which are one section.
ASSIGNMENT_PADDED, PLAN_PADDED = bytes.fromhex("000000" + "01" + 9 * "00" + "00" + "0101000000"), bytes(5)
# Of that book with the call on segment 1: three clauses deny the borders, 56 are of one move, 9 deny the runs that start elsewhere, one denies
# gone; of these 61 and 62 deny runs 2 and 3, and 70 asks for one of the two.
REFUTATION_PADDED = step_frame([], [61, 62, 70])


def outgrowing():
    """An old book of 65,536 bytes, document 01's book M; rewritten it has 4 more."""
    return spec_bytes(filled(spec_m(0, 1, 0), OLD), OLD)


# ---------------------------------------------------------- many intervals


def lone_spec(T, departure, first, last):
    """A train on the one segment that there is: 2 runs, so that the formula of 256 intervals fits the slices."""
    spec = spec_l()
    spec.T = T
    spec.trains, spec.calls = [(80, 36, departure, [0])], [(0, 0, first, last)]
    return spec


def late_m(T):
    """Book M with so many intervals; the train departs in the last one, and its call is at the time behind that."""
    spec = spec_m(T, T)
    spec.T = T
    spec.trains = [(80, 36, T - 1, [0])]
    return spec_bytes(spec)


def standing(nodes):
    """Eight trains that stand still for 31 intervals on a row of 63 segments, 200 runs each: nodes + 65,472 variables, and the plan."""
    spec = Spec(100, 10, 31)
    spec.nodes = [1] * nodes
    spec.segments = [(s, s + 1, s) for s in range(63)]
    spec.joins = [(s + 1, s, s + 1) for s in range(37)]
    for train in range(8):
        spec.trains.append((100, 36, 0, [2 * train]))
        spec.calls.append((train, train, 0, 31))
    moves = [[2 * train] * 31 for train in range(8)]
    return spec_bytes(spec), plan_bytes([0] * nodes, moves), moves


# ------------------------------------------------------------- train graphs


def page_of(*lines):
    """A page by its lines, without the blanks at their ends."""
    return b"".join(line.ljust(80) + b"\n" for line in lines)


# of book L's plan: one train, which stands on segment 0 in the one interval
PAGE_L = page_of(b"  0  00-00 0")


def graph_spec():
    """A row of ten segments with an exit at its end, and unjoined ones beside it up to segment 63, each a TTD of its own. A train of two segments
    departs in interval 1, and may move 8; another has its place on segment 63."""
    spec = Spec(100, 10, 3)
    spec.nodes = [0] * 10 + [EXIT, 0]
    spec.segments = [(s, s + 1, s) for s in range(10)] + [(10, 11, s) for s in range(10, 64)]
    spec.joins = [(s + 1, s, s + 1) for s in range(9)]
    spec.trains = [(200, 288, 1, [0, 2]), (100, 36, 0, [126])]
    spec.calls = [(0, 9, 0, 3), (1, 63, 0, 3)]
    return spec


BOOK_GRAPH = spec_bytes(graph_spec())
# Runs of 2 to 10 segments, a way and back: 18 + 16 + .. + 2 are 90, and the last two are the whole row there and back. The other train stands
# there and back on each of 64 segments: run 126 is [126].
PLAN_GRAPH = plan_bytes([0] * 12, [[ref.ABSENT, 88, ref.GONE], [126] * 3])
PAGE_GRAPH = page_of(b"  0  .        63-63 0", b"  1  00-09 8  63-63 0", b"  2  *        63-63 0")


def moving(l, back, moved):
    """A row of l + 8 segments with a train of l at its begin, or at its end and turned, which may move 8 and moves so many. Book and plan."""
    spec = row_spec(l + 8, length=100 * l, speed=288)
    place = [2 * s + 1 for s in reversed(range(8, l + 8))] if back else [2 * s for s in range(l)]
    spec.trains, spec.calls = [], []
    add_train(spec, place, speed=288)
    runs = ref.read_book(spec_bytes(spec)).runs[0]
    return spec_bytes(spec), plan_bytes([0] * (l + 9), [[r for r, run in enumerate(runs) if run[:l] == place and len(run) == l + moved]])


def lone(T, departure, gone):
    """A train on the one segment that there is, which ends at an exit: it stands there from its departure until it is gone. Book and plan."""
    spec = lone_spec(T, departure, 0, T)
    spec.nodes[1] = EXIT
    moves = [ref.ABSENT] * departure + [0] * (gone - departure) + [ref.GONE] * (T - gone)
    return spec_bytes(spec), plan_bytes([0, 0], [moves])


def on_segment(segment):
    """A train that stands on one of 64 segments that meet at a node. Book and plan."""
    spec = star(64)
    add_train(spec, [2 * segment])
    return spec_bytes(spec), plan_bytes([0] * 65, [[2 * segment]])


def circling(intervals, count=8, apart=8, bordered=False):
    """Trains on a ring of 64 segments, so many apart; they go round it by one segment an interval. Each segment is a TTD of its own; bordered, all
    are of one TTD, and each node has a border, which may be set. Book and plan."""
    spec = Spec(100, 10, intervals)
    spec.nodes = [MAY_BE_SET if bordered else NEVER] * 64
    spec.segments = [(s, (s + 1) % 64, 0 if bordered else s) for s in range(64)]
    spec.joins = [((s + 1) % 64, s, (s + 1) % 64) for s in range(64)]
    for train in range(count):
        spec.trains.append((100, 36, 0, [2 * apart * train]))
        spec.calls.append((train, apart * train, 0, intervals))
    # the runs that move follow 128 that stand, by their first segment, either way
    moves = [[128 + 2 * ((apart * train + t) % 64) for t in range(intervals)] for train in range(count)]
    return spec_bytes(spec), plan_bytes([int(bordered)] * 64, moves)


# ------------------------------------------------- borders that carry a plan


def list_of(*entries):
    """A list by its entries: node, interval, lower and higher train."""
    return bytes(x for entry in entries for x in entry)


def parted(kinds, segments, borders, places, late=(), T=1):
    """Unjoined segments, nodes of these kinds with these borders, and trains that stand on these segments from the first interval on, or from a
    late one that is given by train. Book and plan."""
    spec, moves = Spec(T=T), []
    spec.nodes, spec.segments = list(kinds), list(segments)
    for train, segment in enumerate(places):
        departure = dict(late).get(train, 0)
        spec.trains.append((100, 36, departure, [2 * segment]))
        spec.calls.append((train, segment, 0, T))
        # the runs of a segment there and back, none of which moves
        moves.append([ref.ABSENT] * departure + [2 * segment] * (T - departure))
    return spec_bytes(spec), plan_bytes(borders, moves)


# segments of one TTD: two and three in a row, four in a ring, two that share both nodes, three that share node 1; and two pairs that share it, each
# of a TTD of its own
TWO, THREE = ((0, 1, 0), (1, 2, 0)), ((0, 1, 0), (1, 2, 0), (2, 3, 0))
RING, PAIR = ((0, 1, 0), (1, 2, 0), (2, 3, 0), (3, 0, 0)), ((0, 1, 0), (1, 0, 0))
FORK, CROSSING = ((0, 1, 0), (1, 2, 0), (1, 3, 0)), ((0, 1, 0), (1, 2, 0), (3, 1, 1), (1, 4, 1))

# P5's cases of trains that stand for an interval: the nodes' kinds, segments, borders, where the trains stand, and the entries
CARRYING = (
    ((0, 1, 0), TWO, (0, 1, 0), (0, 1), [(1, 0, 0, 1)]),                                    # two trains, a border between them
    ((0, 1, 0), TWO, (0, 1, 0), (1, 0), [(1, 0, 0, 1)]),                                    # the higher one ahead
    ((0, 2, 0), TWO, (0, 1, 0), (0, 1), []),                                                # one that is always set
    ((1, 2, 1), TWO, (1, 1, 1), (0, 1), []),                                                # with others that may be set
    ((1, 1, 1), TWO, (1, 1, 1), (0, 1), [(1, 0, 0, 1)]),                                    # where a line ends it parts nothing
    ((0, 1, 0), TWO, (0, 1, 0), (0,), []),                                                  # one train
    ((0, 1, 0), ((0, 1, 0), (1, 2, 1)), (0, 1, 0), (0, 1), []),                             # two TTDs
    ((0, 1, 0), ((0, 1, 0), (1, 2, 1)), (0, 0, 0), (0, 1), []),                             # and no border there
    ((0, 1, 1, 0), THREE, (0, 1, 1, 0), (0, 2), []),                                        # two, either of which may go
    ((0, 1, 1, 0), THREE, (0, 1, 0, 0), (0, 2), [(1, 0, 0, 1)]),                            # and then the other may not
    ((0, 1, 1, 0), THREE, (0, 0, 1, 0), (0, 2), [(2, 0, 0, 1)]),
    ((0, 1, 2, 0), THREE, (0, 1, 1, 0), (0, 2), []),                                        # behind it one that is always set
    ((0, 1, 1, 0), THREE, (0, 1, 1, 0), (0, 1), [(1, 0, 0, 1)]),                            # one that carries, one that does not
    ((0, 1, 1, 0), THREE, (0, 1, 1, 0), (0, 1, 2), [(1, 0, 0, 1), (2, 0, 1, 2)]),           # each with its pair
    ((0, 1, 1, 0), THREE, (0, 1, 1, 0), (2, 1, 0), [(1, 0, 1, 2), (2, 0, 0, 1)]),           # the other way about
    ((0, 1, 2, 0), THREE, (0, 1, 1, 0), (0, 1, 2), [(1, 0, 0, 1)]),
    ((1, 1, 1, 1), RING, (1, 1, 1, 1), (0, 2), []),                                         # each has the next to help it
    ((1, 1, 1, 1), RING, (1, 0, 1, 0), (0, 2), [(0, 0, 0, 1), (2, 0, 0, 1)]),               # both are needed
    ((1, 1, 1, 1), RING, (1, 1, 1, 0), (0, 2), [(0, 0, 0, 1)]),                             # one side is parted twice
    ((1, 1, 1, 1), RING, (1, 1, 1, 1), (0, 1), [(1, 0, 0, 1)]),                             # neighbours: the other way is parted thrice
    ((1, 1, 1, 1), RING, (1, 1, 1, 1), (3, 2, 1, 0), [(0, 0, 0, 3), (1, 0, 2, 3), (2, 0, 1, 2), (3, 0, 0, 1)]),
    ((1, 1), PAIR, (1, 1), (0, 1), [(0, 0, 0, 1), (1, 0, 0, 1)]),
    ((1, 2), PAIR, (1, 1), (0, 1), [(0, 0, 0, 1)]),
    ((0, 1, 0, 0), FORK, (0, 1, 0, 0), (2, 0, 1), [(1, 0, 0, 1)]),                          # all three meet
    ((0, 1, 0, 0), FORK, (0, 1, 0, 0), (2, 0), [(1, 0, 0, 1)]),
    ((0, 1, 0, 0, 0), CROSSING, (0, 1, 0, 0, 0), (0, 1, 2, 3), [(1, 0, 0, 1)]),             # 0 and 1, 2 and 3
    ((0, 1, 0, 0, 0), CROSSING, (0, 1, 0, 0, 0), (0, 2, 1, 3), [(1, 0, 0, 2)]),             # 0 and 2, 1 and 3
    ((0, 1, 0, 0, 0), CROSSING, (0, 1, 0, 0, 0), (0, 2, 3, 1), [(1, 0, 0, 3)]),             # 0 and 3, 1 and 2: the lower train counts first
    ((0, 1, 0, 0, 0), CROSSING, (0, 1, 0, 0, 0), (2, 0, 1), [(1, 0, 1, 2)]),                # train 0 meets nobody
)


def far(T):
    """Trains on segments of their own TTD, but for the last two of eight: they are about the last node of 96, and the last of them departs in
    the last interval. Book, plan and list."""
    segments = [(s, s + 1, s) for s in range(6)] + [(94, 95, 6), (93, 95, 6)]
    return (*parted([NEVER] * 95 + [MAY_BE_SET], segments, [0] * 95 + [1], range(8), [(7, T - 1)], T), list_of((95, T - 1, 6, 7)))


# three trains in a row, the last of which departs in interval 1; the border at the row's end parts nothing
BOOK_CARRIED, PLAN_CARRIED = parted((NEVER, MAY_BE_SET, MAY_BE_SET, MAY_BE_SET), THREE, (0, 1, 1, 1), (2, 1, 0), [(2, 1)], 2)
LIST_CARRIED = list_of((1, 1, 1, 2), (2, 0, 0, 1))
# without the border at node 1: trains 1 and 2 meet
PLAN_MEETING = b"\0\0" + PLAN_CARRIED[2:]


def chasing(intervals):
    """Eight trains that go round the ring one behind another, each node with a border; and the list of all 64 borders, the longest there is, where
    there are 52 intervals or more. In interval t trains i and i + 1 are about node 2i + 2 + t: nodes 2 to 15 have two trains about them in
    the first two intervals, and the others are reached by the last two trains."""
    entries = [(node, node % 2, node // 2 - 1, node // 2) if 2 <= node < 16 else (node, (node - 14) % 64, 6, 7) for node in range(64)]
    return (*circling(intervals, 8, 2, True), list_of(*entries))


# ------------------------------------------------------- at most so many borders

# Two trains on two segments, with three nodes of kind 1, of which the middle one is needed: the book of docs/FORMATS.md, section 13. Variables 1 to 3
# are the borders; then of each train four runs, gone and two claims, from 4 and from 11 on. Of 44 clauses 1 and 12 ask for a move, 23 to 26 and 27 to
# 30 deny all but runs 0 and 2, 31 is -4 9, 37 is -13 17, 39 is -9 2 10, 44 is -10 -17.
BOOK_FEWEST, PLAN_FEWEST = parted((1, 1, 1), TWO, (0, 1, 0), (0, 1))
PLAN_MORE = b"\1\1\1" + PLAN_FEWEST[3:]
# borders and runs, and the claim of its own segment
ASSIGNMENT_FEWEST = bytes.fromhex("000100 01000000 00 0100 00000100 00 0001")
ASSIGNMENT_MORE = b"\1\1\1" + ASSIGNMENT_FEWEST[3:]
# what a cap adds: clauses 45 and up, and how many variables behind 17
CAPPED = {
    0: ([[-1], [-2], [-3]], 0),
    1: ([[-1, 18], [-2, 19], [-18, 19], [-2, -18], [-3, -19]], 2),
    2: ([[-1, 18], [-2, -18, 19], [-3, -19]], 2),
    3: ([], 0),
}
# by 46, -2, the sections are one; so train 0's claim of segment 0 is one of segment 1, which train 1 has
REFUTATION_FEWEST = step_frame([], [23, 24, 25, 26, 1, 31, 27, 28, 29, 30, 12, 37, 46, 39, 44])


def standing_row(places, segments, T=1):
    """Trains that stand on some segments of a row of one TTD, whose nodes are all of kind 1. Book, and the plan with one border between neighbours,
    right behind the first of the two, which are the fewest."""
    row = [(s, s + 1, 0) for s in range(segments)]
    borders = [int(node - 1 in sorted(places)[:-1]) for node in range(segments + 1)]
    return parted([MAY_BE_SET] * (segments + 1), row, borders, places, (), T)


def many_free(count, T=1):
    """A lone train beside so many nodes of kind 1, none of which is needed. Book, and the plan without a border."""
    spec = lone_spec(T, 0, 0, T)
    spec.nodes = [MAY_BE_SET] * count
    return spec_bytes(spec), plan_bytes([0] * count, [[0] * T])
