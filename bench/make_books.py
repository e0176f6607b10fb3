#!/usr/bin/env python3
"""Makes the books that bench.rs runs on. It takes how a book is written, random books and the reference from the package tools.

  make_books.py random SEED DIR  writes random books, refused ones and ones with many intervals among them, for `./bench same`
  make_books.py [DIR]  writes big_star.book, big_ring.book, big_lanes.book, small_l.book, the smaller rings ring_8.book, ring_16.book and
                       ring_32.book, stand_16.book, stand_64.book and many_nodes.book with their plans, shut.book and the scale books
                       into DIR, by default beside itself

small_l.book is document 01's book L. Each big book has T = 32, 8 trains (l = 1, k = 1, departure 0) and about 250 runs a train; a smaller
ring has 4 runs a segment. In a stand book the trains stand where their calls are. many_nodes.book has little but 96 nodes of kind 1, every
second one of which its plan sets: under cap 48 nearly all of its formula is the counter. A shut book has a call whose window shuts before the
departure, so its formula has an empty clause. A scale book has the most of everything that its shape allows: T = 256, 96 nodes, 64
segments, 8 trains, some 256 runs a train; scale_ring and scale_tracks have plans, in scale_long eight trains have no room. The plans of
scale_apart and scale_close, with every border set, are for the list of carriers: no border of the first one's carries it, and two thirds of
the second one's do.
The reference must accept each (read_book raises otherwise).
"""

import os
import random
import struct
import sys

HERE = os.path.dirname(os.path.abspath(__file__))
sys.path.insert(0, os.path.dirname(HERE))
from tools.books import EXIT, Spec, spec_bytes    # noqa: E402 (the path has to be right first)
from tools.passing_books import make_book   # noqa: E402
from tools.random_books import random_spec, refused_books    # noqa: E402
from tools.reference import read_book       # noqa: E402


def with_trains(spec, stride, calls):
    """8 trains on segments `stride` apart, each with calls elsewhere and windows 0 to 32."""
    spec.T = 32
    count = len(spec.segments)
    for tr in range(8):
        at = tr * stride % count
        spec.trains.append((100, 36, 0, [2 * at + tr % 2]))
        for c in range(calls):
            spec.calls.append((tr, (at + 5 + 7 * c) % count, 0, 32))
    return spec


def book_l(T=1, departure=0, first=0, last=1):
    """Document 01's book L, or its like with other times."""
    spec = Spec(T=T)
    spec.nodes, spec.segments = [0, 0], [(0, 1, 0)]
    spec.trains, spec.calls = [(80, 36, departure, [0])], [(0, 0, first, last)]
    return spec


def star():
    """62 segments of one TTD at one node, 63 joins there: 124 + 126 = 250 runs; family H is large."""
    spec = Spec()
    n = 62
    spec.nodes = [1] + [x % 4 for x in range(n)]
    spec.segments = [(0, s + 1, 0) if s % 2 else (s + 1, 0, 0) for s in range(n)]
    spec.joins = [(0, s, (s + 1) % n) for s in range(n)] + [(0, 0, 2)]
    return with_trains(spec, 7, 2)


def ring(n):
    """A ring of n segments, each its own TTD: 2n + 2n runs, with 64 the most, 256; no H."""
    spec = Spec()
    spec.nodes = [1, 1, 1, EXIT] * (n // 4)
    spec.segments = [(s, (s + 1) % n, s) for s in range(n)]
    spec.joins = [((s + 1) % n, s, (s + 1) % n) for s in range(n)]
    return with_trains(spec, n // 8, 1)


def lanes():
    """12 tracks side by side between two nodes, all joined at one and most at the other, with 8 stubs:
    few segments, many joins, so that each run has many followers; family E is large."""
    spec = Spec()
    spec.nodes = [1, 1] + [EXIT] * 8
    spec.segments = [(0, 1, 0)] * 12 + [(1, 2 + s, 1) for s in range(8)]
    pairs = [(v, x, y) for v in (0, 1) for x in range(12) for y in range(x + 1, 12)]
    spec.joins = pairs[:105]
    return with_trains(spec, 1, 4)


def stand(n):
    """A ring with trains that stand where their calls are: the plan of trains that never move keeps the rules."""
    spec = ring(n)
    spec.trains, spec.calls = [], []
    for tr in range(8):
        spec.trains.append((100, 36, 0, [2 * tr * (n // 8)]))
        spec.calls.append((tr, tr * (n // 8), 0, 32))
    return spec


def standing_plan(spec, border):
    """Every border set or none; each train in every interval the run of its own place, which has its directed segment's number."""
    codes = [struct.pack("<H", row[0]) for _, _, _, row in spec.trains for _ in range(spec.T)]
    return bytes([border]) * len(spec.nodes) + b"".join(codes)


def circling_plan(spec, border):
    """Every border set or none; each train goes round the ring, a segment an interval. The run that moves on from a place has the place's
    number, its rear directed segment's, behind all places."""
    n = len(spec.segments)
    codes = [struct.pack("<H", 2 * n + 2 * ((row[0] // 2 + i) % n)) for _, _, _, row in spec.trains for i in range(spec.T)]
    return bytes([border]) * len(spec.nodes) + b"".join(codes)


def many_nodes():
    """One segment, one train that stands there, T = 1, and 96 nodes of kind 1; with the plan that sets every second node."""
    spec = book_l()
    spec.nodes = [1] * 96
    return spec, bytes([1, 0]) * 48 + struct.pack("<H", 0)


def shut():
    """A ring of 16 segments in 4 TTDs, 3 trains, T = 8; the first train's call is over before it departs."""
    spec = Spec()
    spec.T = 8
    spec.nodes = [1] * 16
    spec.segments = [(s, (s + 1) % 16, s // 4) for s in range(16)]
    spec.joins = [((s + 1) % 16, s, (s + 1) % 16) for s in range(16)]
    for tr in range(3):
        spec.trains.append((100, 36, 1, [2 * 4 * tr]))
        spec.calls.append((tr, 4 * tr + 2, 0, 0 if tr == 0 else 8))
    return spec


# --------------------------------------------------- the largest books


def with_short_trains(spec, stride, calls):
    """8 trains of one segment, `stride` apart, that face from a to b; each calls so many segments from its own."""
    for tr in range(8):
        spec.trains.append((100, 36, 0, [2 * tr * stride]))
        spec.calls += [(tr, (tr * stride + c) % 64, 1, 256) for c in calls]
    return filled(spec)


def filled(spec):
    """96 nodes, by nodes without segments, and T = 256."""
    spec.T = 256
    spec.nodes += [1] * (96 - len(spec.nodes))
    return spec


def scale_line():
    """A line of 64 segments, each its own TTD: 128 + 126 runs."""
    spec = Spec()
    spec.nodes = [EXIT] + [1] * 63 + [EXIT]
    spec.segments = [(s, s + 1, s) for s in range(64)]
    spec.joins = [(s + 1, s, s + 1) for s in range(63)]
    return with_short_trains(spec, 8, (5, 7, 9, 0))


def scale_ring():
    """A ring of 64 segments: 128 + 128 runs. It is large by family C alone, the pairs of runs."""
    spec = ring(64)
    spec.trains, spec.calls = [], []
    return with_short_trains(spec, 8, (5, 7, 9, 0))


def tracks():
    """64 tracks of one TTD between two nodes: nothing has a larger family H."""
    spec = Spec()
    spec.nodes = [1, 1]
    spec.segments = [(0, 1, 0)] * 64
    return spec


def scale_tracks():
    """The first track is joined to 31 others at one node and to 33 at the other, so that each run has many followers: 128 + 128 runs.
    With both borders set eight trains may stand on tracks of their own."""
    spec = tracks()
    spec.joins = [(0, 0, s) for s in range(1, 32)] + [(1, 0, s) for s in range(1, 34)]
    return with_short_trains(spec, 1, (0, 0, 0, 0))


def scale_long():
    """16 of the tracks are joined to a ring with trains of 8 segments that move up to 7: 32 places, 256 runs of 8 to 15 segments, so
    that family G is large too."""
    spec = tracks()
    spec.joins = [((s + 1) % 2, s, (s + 1) % 16) for s in range(16)]
    for tr in range(8):
        row = [(2 * tr + s) % 16 for s in range(8)]
        spec.trains.append((800, 252, 0, [2 * s + s % 2 for s in row]))
        spec.calls += [(tr, (2 * tr + c) % 16, 1, 256) for c in (9, 11, 13, 15)]
    return filled(spec)


def scale_round(l):
    """A ring of 64 segments of one TTD, 128 + 128 runs, with 8 trains of l segments behind each other. When they go round, a segment an
    interval and every border set, 7 - l segments are free between their runs: with l = 6 no border carries the plan, so that each of the
    96 is cleared and judged in all 256 intervals; with l = 7 each of the ring's carries it."""
    spec = Spec()
    spec.nodes = [1] * 64
    spec.segments = [(s, (s + 1) % 64, 0) for s in range(64)]
    spec.joins = [((s + 1) % 64, s, (s + 1) % 64) for s in range(64)]
    for tr in range(8):
        spec.trains.append((100 * l, 36, 0, [2 * (8 * tr + s) for s in range(l)]))
        spec.calls += [(tr, (8 * tr + c) % 64, 1, 256) for c in (5, 7, 9, 0)]
    return filled(spec)


def with_shut_call(spec):
    """The first train departs an interval later, and its first call is over by then."""
    length, speed, _, place = spec.trains[0]
    spec.trains[0] = (length, speed, 1, place)
    train, segment, _, _ = spec.calls[0]
    spec.calls[0] = (train, segment, 0, 0)
    return spec


def scale_books():
    """By name each largest book, with a plan or None."""
    return {
        "scale_line": (scale_line(), None),
        "scale_ring": (scale_ring(), circling_plan(scale_ring(), 0)),
        "scale_tracks": (scale_tracks(), standing_plan(scale_tracks(), 1)),
        "scale_long": (scale_long(), None),
        "scale_apart": (scale_round(6), circling_plan(scale_round(6), 1)),
        "scale_close": (scale_round(7), circling_plan(scale_round(7), 1)),
        "scale_shut_ring": (with_shut_call(scale_ring()), None),
        "scale_shut_long": (with_shut_call(scale_long()), None),
    }


# ------------------------------------------------------------- the files


def all_files():
    """Every file by its name."""
    books = {"small_l": book_l(), "big_star": star(), "big_ring": ring(64), "big_lanes": lanes(), "shut": shut()}
    plans = {}
    for n in (8, 16, 32):
        books["ring_%d" % n] = ring(n)
    for n in (16, 64):
        books["stand_%d" % n] = stand(n)
        plans["stand_%d" % n] = standing_plan(stand(n), 0)
    for name, (spec, plan) in (scale_books() | {"many_nodes": many_nodes()}).items():
        books[name] = spec
        if plan:
            plans[name] = plan
    files = {name + ".book": spec_bytes(spec) for name, spec in books.items()}
    return files | {name + ".plan": plan for name, plan in plans.items()}


# T, departure, first and last where a second byte begins, or where only one of the two bytes is as it should be
EDGES = ((256, 255, 256, 256), (256, 255, 255, 256), (256, 255, 0, 254), (256, 256, 0, 256), (256, 0, 256, 255), (256, 0, 0, 257),
         (256, 0, 257, 257), (255, 254, 255, 255), (255, 255, 0, 255), (255, 0, 0, 256), (257, 0, 0, 1), (1, 256, 0, 1), (1, 0, 0, 256),
         (1, 0, 256, 257), (0, 0, 0, 0), (65280, 0, 0, 1), (65535, 65534, 65535, 65535))


def stretched(spec, T):
    """The same with T intervals, every time later by as much."""
    def later(time):
        return time * T // spec.T

    spec.trains = [(length, speed, later(departure), place) for length, speed, departure, place in spec.trains]
    spec.calls = [(train, segment, later(first), later(last)) for train, segment, first, last in spec.calls]
    spec.T = T
    return spec


def write_random(seed, folder):
    """700 random books, 12 for each refusal of a book, 20 of each of several numbers of intervals, some of them too large, and EDGES."""
    rng = random.Random(seed)
    books = [make_book(rng) for _ in range(700)] + [data for _, data in refused_books(rng, 12)]
    books += [spec_bytes(stretched(random_spec(rng, "tiny"), T)) for T in (32, 33, 255, 256, 257, 512) for _ in range(20)]
    books += [spec_bytes(book_l(*times)) for times in EDGES]
    for number, data in enumerate(filter(None, books)):
        with open(os.path.join(folder, "random_%03d.book" % number), "wb") as f:
            f.write(data)


def main(folder):
    for name, data in all_files().items():
        with open(os.path.join(folder, name), "wb") as f:
            f.write(data)
        if name.endswith(".book"):
            book = read_book(data)
            print("%s: %d bytes, %d nodes, %d segments, %d joins, %d trains, T %d, runs %s" % (
                name, len(data), len(book.nodes), len(book.segments), len(book.joins),
                len(book.trains), book.T, [len(r) for r in book.runs]))


if __name__ == "__main__":
    if sys.argv[1:2] == ["random"]:
        write_random(int(sys.argv[2]), sys.argv[3])
    else:
        main(sys.argv[1] if len(sys.argv) > 1 else HERE)
