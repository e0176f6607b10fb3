#!/usr/bin/env python3
"""A plain reference of document 01: book, plan, formula, verdict; with
document 02's requests P1: times of two bytes, and old books rewritten; P2: a
train graph on paper, printed by `print_graph BOOK PLAN`; P3: speeds to the
nearest segment; P4: a terminating train stays on the track; P5: which border
carries the plan, listed by `list_carriers BOOK PLAN OUT`; P6: judging apart
from unpacking, so that `check_assignment BOOK ASSIGNMENT` only judges, and
unpacks too when a third name says where the plan goes; and P7: at most so many
borders, by `--cap N` behind the word of a command that is about the formula,
and the combined verdict of `check_fewest BOOK N ASSIGNMENT REFUTATION`.
A cap is None, which is no cap, or a number from 0 up.

Every function states sentences of the documents as simply as it can.  Nothing
here is fast on purpose; the only care taken is that no input can make a
listing explode.
"""

import sys
from collections import namedtuple

ABSENT = 65534
GONE = 65535

# "Head ... Node ... Segment ... Join ... Train ... Call ... Unbreakable ... End"
HEAD, NODE, SEGMENT, JOIN, TRAIN, CALL, UNBREAKABLE, END = range(1, 9)

# P1: T, a train's departure and a call's first and last "become two bytes
# each, little-endian, and T may be 1 to 256".  In old books they have one
# byte, and T is 1 to 32.
Format = namedtuple("Format", "time_width greatest_T")
NEW, OLD = Format(2, 256), Format(1, 32)

# The widths of each kind's fields; a time is as wide as the format says.  A
# train has n more bytes behind its last field, which is n.
TIME = "time"
FIELDS = {HEAD: (2, 2, TIME), NODE: (1,), SEGMENT: (1, 1, 1), JOIN: (1, 1, 1),
          TRAIN: (2, 2, TIME, 1), CALL: (1, 1, TIME, TIME), UNBREAKABLE: (1,),
          END: ()}

# "At most 96 ... 64 ... 128 ... 8", "one to four a train", "at most 256 a train"
MOST_NODES, MOST_SEGMENTS, MOST_JOINS, MOST_TRAINS = 96, 64, 128, 8
MOST_CALLS, MOST_RUNS = 4, 256

# "border kind, 0 never, 1 may be set, 2 always set"
MAY_BE_SET = 1

# P4: "Node kind 3 is an exit without a border"
EXIT = 3

# "A file of frames ... of kind 20"
STEP = 20

# P2: "one line an interval, 80 bytes and a newline", "nine bytes a train"
LINE_BYTES, CELL_BYTES = 80, 9

# P5: "An entry is four bytes: node, interval, lower and higher train"
ENTRY_BYTES = 4

# P7: a cap and an n on the command line are at most this
MOST_NUMBER = 2 ** 64 - 1

# "they lend at most 64 KiB a slice"
LENT_BYTES = 65536
LENT_WORDS = LENT_BYTES // 4
LENT_CLAUSES = LENT_BYTES // 8
LENT_VALUES = LENT_BYTES
LENT_TRAIL = LENT_BYTES // 8


class Refused(Exception):
    """A refusal: "A refusal returns its number and a detail"."""

    def __init__(self, number, detail=0):
        super().__init__(number, detail)
        self.number = number
        self.detail = detail


class Train:
    """One train: its fields, l and k, and its calls in file order."""

    def __init__(self, length, speed, departure, place, l, k):
        self.length = length
        self.speed = speed
        self.departure = departure
        self.place = place
        self.l = l
        self.k = k
        self.calls = []

    def goal(self):
        """Text: "the train's last call in the file is its goal": its segment."""
        return self.calls[-1][0]


class Book:
    """What the frames say; "numbers from 0 in file order"."""

    def __init__(self, form=NEW):
        self.form = form
        self.rs = self.rt = self.T = 0
        self.nodes = []
        self.segments = []
        self.joins = []
        self.trains = []
        self.unbreakable = []
        self.runs = []
        self.joined = set()     # (node, lower segment, higher segment)


def refuse_if(condition, number, detail=0):
    if condition:
        raise Refused(number, detail)


def two_bytes(data, at):
    return int.from_bytes(data[at:at + 2], "little")


def rounded_up(a, b):
    return -(-a // b)


def to_the_nearest(a, b):
    """P3: "to the nearest whole segment, an exact half going down".  Of the two
    whole numbers about a/b the nearer one; both ways are counted in b-ths, so
    that all is "exact at the half"."""
    below = a // b
    above = below + 1
    way_down, way_up = a - below * b, above * b - a
    return above if way_up < way_down else below


# ---------------------------------------------------------------- the book


def read_book(data, form=NEW):
    """Frames in file order, each by rising number; then the book."""
    book = Book(form)
    at, last = 0, None
    while last != END:
        refuse_if(len(data) - at < 4, 1)
        length, kind = two_bytes(data, at), two_bytes(data, at + 2)
        refuse_if(at + 4 + length > len(data), 1)
        payload = data[at + 4:at + 4 + length]
        at += 4 + length
        refuse_if(not HEAD <= kind <= END, 2)
        refuse_if(out_of_order(last, kind), 3)
        refuse_if(kind == END and at < len(data), 3)
        refuse_if(length != payload_length(kind, payload, form), 4)
        if kind != END:
            TAKE[kind](book, payload)
        last = kind
    finish_book(book)
    return book


def out_of_order(last, kind):
    """Text: "first not Head, second Head, kind gone down"."""
    if last is None:
        return kind != HEAD
    return kind == HEAD or kind < last


def widths(kind, form):
    """The width of each field of a kind."""
    return [form.time_width if width == TIME else width
            for width in FIELDS[kind]]


def fields_length(kind, form):
    """Text: "payload length belong to the kind"; a train's row not counted."""
    return sum(widths(kind, form))


def payload_length(kind, payload, form):
    """The length the kind asks for; of a train "count n, then n directed"."""
    length = fields_length(kind, form)
    if kind == TRAIN and len(payload) >= length:
        return length + payload[length - 1]
    return length


def fields_of(kind, payload, form):
    """The fields as numbers, "all little-endian"; a train's row not among
    them."""
    numbers, at = [], 0
    for width in widths(kind, form):
        numbers.append(int.from_bytes(payload[at:at + width], "little"))
        at += width
    return numbers


def fields_bytes(kind, numbers, form):
    """The same the other way: the bytes of the fields."""
    return b"".join(number.to_bytes(width, "little")
                    for number, width in zip(numbers, widths(kind, form)))


def take_head(book, p):
    """Text: "rs, rt at least 1", "T may be 1 to 256", in old books 1 to 32."""
    book.rs, book.rt, book.T = fields_of(HEAD, p, book.form)
    refuse_if(book.rs < 1 or book.rt < 1, 6)
    refuse_if(not 1 <= book.T <= book.form.greatest_T, 6)


def take_node(book, p):
    """Text: "border kind, 0 never, 1 may be set, 2 always set. At most 96";
    P4: "Node kind 3 is an exit without a border"."""
    refuse_if(len(book.nodes) == MOST_NODES, 5)
    refuse_if(p[0] > EXIT, 6)
    book.nodes.append(p[0])


def take_segment(book, p):
    """Text: "node a, node b (different), TTD 0 to 63. At most 64"."""
    a, b, ttd = p
    refuse_if(len(book.segments) == MOST_SEGMENTS, 5)
    refuse_if(a >= len(book.nodes) or b >= len(book.nodes), 6)
    refuse_if(a == b or ttd > 63, 6)
    book.segments.append((a, b, ttd))


def take_join(book, p):
    """Text: "node, two different segments touching it", "a pair at one node
    stands once, in either order"."""
    node, s1, s2 = p
    refuse_if(len(book.joins) == MOST_JOINS, 5)
    refuse_if(node >= len(book.nodes), 6)
    refuse_if(max(s1, s2) >= len(book.segments) or s1 == s2, 6)
    refuse_if(not touches(book, s1, node) or not touches(book, s2, node), 6)
    pair = (node, min(s1, s2), max(s1, s2))
    refuse_if(pair in book.joined, 6)
    book.joined.add(pair)
    book.joins.append((node, s1, s2))


def take_train(book, p):
    """The train's fields, then l and k, then its row."""
    length, speed, departure, _ = fields_of(TRAIN, p, book.form)
    place = list(p[fields_length(TRAIN, book.form):])
    refuse_if(len(book.trains) == MOST_TRAINS, 5)
    refuse_if(length < 1 or departure >= book.T, 6)
    refuse_if(any(x // 2 >= len(book.segments) for x in place), 6)
    # "l is length/rs rounded up", "k is speed x rt x 5 / (18 x rs)", by P3 "to
    # the nearest whole segment, an exact half going down". "Both are 1 to 8."
    l = rounded_up(length, book.rs)
    k = to_the_nearest(speed * book.rt * 5, 18 * book.rs)
    refuse_if(not 1 <= l <= 8 or not 1 <= k <= 8, 7)
    refuse_if(len(place) != l or not is_path(book, place), 8)
    book.trains.append(Train(length, speed, departure, place, l, k))


def take_call(book, p):
    """Text: "train, segment, first, last, with first <= last <= T. One to four"."""
    train, segment, first, last = fields_of(CALL, p, book.form)
    known = train < len(book.trains)
    refuse_if(known and len(book.trains[train].calls) == MOST_CALLS, 5)
    refuse_if(not known or segment >= len(book.segments), 6)
    refuse_if(not first <= last <= book.T, 6)
    book.trains[train].calls.append((segment, first, last))


def take_unbreakable(book, p):
    """Text: "a TTD that some segment has. A repeat is allowed"; then "unbreakable
    TTD with two segments at a node of kind 1 or 2", so not of kind 3."""
    ttd = p[0]
    refuse_if(all(t != ttd for _, _, t in book.segments), 6)
    for node, kind in enumerate(book.nodes):
        there = [s for s in segments_at(book, node)
                 if book.segments[s][2] == ttd]
        refuse_if(kind in (1, 2) and len(there) >= 2, 9)
    book.unbreakable.append(ttd)


TAKE = {HEAD: take_head, NODE: take_node, SEGMENT: take_segment,
        JOIN: take_join, TRAIN: take_train, CALL: take_call,
        UNBREAKABLE: take_unbreakable}


def finish_book(book):
    """Text: "no train, or one without a call"; then "over 256 runs"."""
    refuse_if(not book.trains or any(not t.calls for t in book.trains), 10)
    for train in book.trains:
        runs = list_runs(book, train)
        refuse_if(len(runs) > MOST_RUNS, 11)
        book.runs.append(runs)


# ------------------------------------------------- old books and new ones


def each_frame(data):
    """The frames of a book that passes, as pairs of kind and payload."""
    at = 0
    while at < len(data):
        end = at + 4 + two_bytes(data, at)
        yield two_bytes(data, at + 2), data[at + 4:end]
        at = end


def upgrade_book(old):
    """P1: "With the old lengths and T to 32, the program refuses as the book's
    reader does at the time"; then "every time must read as the number it was,
    and every other payload field keeps its bytes"."""
    read_book(old, OLD)
    return b"".join(upgraded_frame(kind, p) for kind, p in each_frame(old))


def upgraded_frame(kind, p):
    """A frame whose times are as wide as in the new format."""
    row = p[fields_length(kind, OLD):]
    payload = fields_bytes(kind, fields_of(kind, p, OLD), NEW) + row
    return (len(payload).to_bytes(2, "little") + kind.to_bytes(2, "little")
            + payload)


# ------------------------------------------------------- paths and the runs


def touches(book, segment, node):
    return node in book.segments[segment][:2]


def segments_at(book, node):
    return [s for s in range(len(book.segments)) if touches(book, s, node)]


def begin_of(book, directed):
    """Text: "Directed segment 2s runs from a to b of segment s, 2s+1 from b to a"."""
    return book.segments[directed // 2][directed % 2]


def end_of(book, directed):
    return book.segments[directed // 2][1 - directed % 2]


def follows(book, x, y):
    """Text: "each ending where the next begins, with a join of the two there"."""
    node = end_of(book, x)
    low, high = sorted((x // 2, y // 2))
    return begin_of(book, y) == node and (node, low, high) in book.joined


def is_path(book, row):
    """Text: "a row of directed segments, all on different segments ..."."""
    different = len({x // 2 for x in row}) == len(row)
    return different and all(follows(book, x, y) for x, y in zip(row, row[1:]))


def list_runs(book, train):
    """Text: "listed by j, then by their directed numbers in dictionary order".
    The listing stops once it has passed 256."""
    directed = range(2 * len(book.segments))
    after = [[y for y in directed if follows(book, x, y)] for x in directed]
    runs = []
    for j in range(train.k + 1):
        for x in directed:
            extend([x], train.l + j - 1, after, runs)
    return runs


def extend(path, missing, after, runs):
    """Text: "each path extended one segment at a time until its length is met"."""
    if len(runs) > MOST_RUNS:
        return
    if missing == 0:
        runs.append(list(path))
        return
    used = {x // 2 for x in path}
    for y in after[path[-1]]:
        if y // 2 not in used:
            extend(path + [y], missing - 1, after, runs)


def start_place(train, run):
    """Text: "it starts at its first l"."""
    return run[:train.l]


def end_place(train, run):
    """Text: "and ends at its last l"."""
    return run[-train.l:]


def holds(place, segment):
    return any(x // 2 == segment for x in place)


def may_leave(book, train, end):
    """P4: "Gone may follow a run only if its end contains the goal and its
    front segment ends at an exit"."""
    return holds(end, train.goal()) and front_at_exit(book, end)


def front_at_exit(book, place):
    """P4: the node at which the front directed segment ends is the exit, in mid
    line too.  A place is "rear first", so its front is its last."""
    return book.nodes[end_of(book, place[-1])] == EXIT


# ------------------------------------------------------------ the sections


def sections(book, borders):
    """For each segment the sorted list of those together with it: "a chain of
    segments of that TTD links them, neighbours sharing a node that is no
    border"."""
    together = []
    for s in range(len(book.segments)):
        reached, waiting = {s}, [s]
        while waiting:
            x = waiting.pop()
            for y in range(len(book.segments)):
                if y not in reached and neighbours(book, borders, x, y):
                    reached.add(y)
                    waiting.append(y)
        together.append(sorted(reached))
    return together


def neighbours(book, borders, x, y):
    """Of one TTD and "sharing a node that is no border"."""
    a, b, ttd = book.segments[x]
    if book.segments[y][2] != ttd:
        return False
    return any(touches(book, y, node) and not borders[node] for node in (a, b))


# ---------------------------------------------------------- the plan rules


def broken_rule(book, borders, moves):
    """0, or the least of the six plan rules that the plan breaks."""
    rules = (keeps_rule_1, keeps_rule_2, keeps_rule_3, keeps_rule_4,
             keeps_rule_5, keeps_rule_6)
    for number, keeps in enumerate(rules, 1):
        if not keeps(book, borders, moves):
            return number
    return 0


def keeps_rule_1(book, borders, moves):
    """Text: "Borders respect their kinds"; P4: "Node kind 3 is an exit without
    a border"."""
    return all((kind, border) not in ((0, 1), (2, 0), (EXIT, 1))
               for kind, border in zip(book.nodes, borders))


def run_in(book, moves, tr, i):
    """The run of train tr in interval i, or None for absent and gone."""
    move = moves[tr][i]
    return None if move in (ABSENT, GONE) else book.runs[tr][move]


def keeps_rule_2(book, borders, moves):
    """Text: "Absent exactly in intervals before d; a run from the given place in
    interval d"."""
    for tr, train in enumerate(book.trains):
        d = train.departure
        for i in range(book.T):
            if (moves[tr][i] == ABSENT) != (i < d):
                return False
        run = run_in(book, moves, tr, d)
        if run is None or start_place(train, run) != train.place:
            return False
    return True


def keeps_rule_3(book, borders, moves):
    """Text: "Gone only after d, after gone or after a run whose end place
    contains the goal's segment. After gone, gone"; P4: "Gone may follow a
    run only if its end contains the goal and its front segment ends at an
    exit"."""
    for tr, train in enumerate(book.trains):
        for i in range(book.T):
            if i > 0 and moves[tr][i - 1] == GONE and moves[tr][i] != GONE:
                return False
            if moves[tr][i] == GONE and not may_be_gone(book, moves, tr, i):
                return False
    return True


def may_be_gone(book, moves, tr, i):
    train = book.trains[tr]
    if i <= train.departure:
        return False
    before = run_in(book, moves, tr, i - 1)
    if before is None:
        return moves[tr][i - 1] == GONE
    return may_leave(book, train, end_place(train, before))


def keeps_rule_4(book, borders, moves):
    """Text: "A run after a run starts at the place where that one ended"."""
    for tr, train in enumerate(book.trains):
        for i in range(1, book.T):
            before = run_in(book, moves, tr, i - 1)
            run = run_in(book, moves, tr, i)
            if before is None or run is None:
                continue
            if start_place(train, run) != end_place(train, before):
                return False
    return True


def place_at(book, moves, tr, t):
    """Text: "At time d its place is the given one; at time t > d it is the end of
    the run of interval t - 1, if there was one"."""
    train = book.trains[tr]
    if t == train.departure:
        return train.place
    if t < train.departure:
        return []
    run = run_in(book, moves, tr, t - 1)
    return [] if run is None else end_place(train, run)


def keeps_rule_5(book, borders, moves):
    """Text: "Each call: at some time from first to last the train's place contains
    the segment"."""
    for tr, train in enumerate(book.trains):
        for segment, first, last in train.calls:
            if not any(holds(place_at(book, moves, tr, t), segment)
                       for t in range(first, last + 1)):
                return False
    return True


def keeps_rule_6(book, borders, moves):
    """Text: "In each interval no section holds segments of two trains' runs"."""
    together = sections(book, borders)
    return not any(meeting_pairs(book, together, moves, i)
                   for i in range(book.T))


def meeting_pairs(book, together, moves, i):
    """The pairs of trains that meet in interval i: a "section holds segments of
    two trains' runs".  They stand "by lower and then by higher train"."""
    held = [set(touched(together, run_in(book, moves, tr, i)))
            for tr in range(len(book.trains))]
    return [(lower, higher) for lower in range(len(held))
            for higher in range(lower + 1, len(held))
            if held[lower] & held[higher]]


def touched(together, run):
    """The segments of the sections that a run touches."""
    return sorted({s for x in run or [] for s in together[x // 2]})


# ------------------------------------------------------------- the formula


class Variables:
    """Text: "node borders 1 to N; then by train and interval: its runs, gone, and
    one claim a segment"; P7: a cap's "extra variables follow all others, so
    that existing numbers hold"."""

    def __init__(self, book, cap=None):
        self.runs = [len(runs) for runs in book.runs]
        self.bases = []
        following = len(book.nodes) + 1
        for count in self.runs:
            width = count + 1 + len(book.segments)
            self.bases.append((following, width))
            following += book.T * width
        self.uncapped = following - 1
        self.band = band_width(book, cap)
        self.count = self.uncapped + (self.band * cap if self.band else 0)

    def border(self, node):
        return node + 1

    def run(self, tr, i, r):
        base, width = self.bases[tr]
        return base + i * width + r

    def gone(self, tr, i):
        return self.run(tr, i, self.runs[tr])

    def claim(self, tr, i, segment):
        return self.run(tr, i, self.runs[tr] + 1 + segment)

    def counter(self, j, k):
        """The cap's variable y(j, k), j from 1 to c and k from 0 to w - 1, j
        outermost."""
        return self.uncapped + (j - 1) * self.band + k + 1


def each_clause(book, cap=None):
    """The clauses, "families outermost"; P7: a cap's "clauses follow family
    I"."""
    v = Variables(book, cap)
    families = (family_a, family_b, family_c, family_d, family_e, family_f,
                family_g, family_h, family_i)
    for family in families:
        yield from family(book, v)
    yield from cap_clauses(book, v, cap)


def family_a(book, v):
    """Text: "kind 0: not border; kind 2: border"; P4: kind 3's "variable is
    denied as for kind 0"."""
    for node, kind in enumerate(book.nodes):
        if kind in (0, EXIT):
            yield [-v.border(node)]
        if kind == 2:
            yield [v.border(node)]


def family_b(book, v):
    """Text: "before d: no run, not gone"."""
    for tr, train in enumerate(book.trains):
        for i in range(train.departure):
            for r in range(len(book.runs[tr])):
                yield [-v.run(tr, i, r)]
            yield [-v.gone(tr, i)]


def family_c(book, v):
    """Text: "from d on: some run or gone; then no two (pairs in order)"."""
    for tr, train in enumerate(book.trains):
        for i in range(train.departure, book.T):
            moves = [v.run(tr, i, r) for r in range(len(book.runs[tr]))]
            moves.append(v.gone(tr, i))
            yield moves
            for at, x in enumerate(moves):
                for y in moves[at + 1:]:
                    yield [-x, -y]


def family_d(book, v):
    """Text: "interval d: not a run that starts elsewhere; not gone"."""
    for tr, train in enumerate(book.trains):
        d = train.departure
        for r, run in enumerate(book.runs[tr]):
            if start_place(train, run) != train.place:
                yield [-v.run(tr, d, r)]
        yield [-v.gone(tr, d)]


def family_e(book, v):
    """Text: "after d: each run of the interval before implies a run starting
    at its end, in list order, or, last, gone if its end contains the goal;
    then gone implies gone"; P4: "Gone may follow a run only if its end
    contains the goal and its front segment ends at an exit"."""
    for tr, train in enumerate(book.trains):
        starts = [start_place(train, run) for run in book.runs[tr]]
        ends = [end_place(train, run) for run in book.runs[tr]]
        nexts = [[q for q, start in enumerate(starts) if start == end]
                 for end in ends]
        for i in range(train.departure + 1, book.T):
            for r, end in enumerate(ends):
                clause = [-v.run(tr, i - 1, r)]
                clause += [v.run(tr, i, q) for q in nexts[r]]
                if may_leave(book, train, end):
                    clause.append(v.gone(tr, i))
                yield clause
            yield [-v.gone(tr, i - 1), v.gone(tr, i)]


def family_f(book, v):
    """Text: "each call, by train, then in file order: the runs of rule 5, by time;
    no clause if d is from first to last and the place at d serves"."""
    for tr, train in enumerate(book.trains):
        d = train.departure
        for segment, first, last in train.calls:
            if first <= d <= last and holds(train.place, segment):
                continue
            serving = [r for r, run in enumerate(book.runs[tr])
                       if holds(end_place(train, run), segment)]
            times = range(max(first, d + 1), last + 1)
            yield [v.run(tr, t - 1, r) for t in times for r in serving]


def family_g(book, v):
    """Text: "a run implies the claim of each of its segments, in path order", "in
    every interval"."""
    for tr in range(len(book.trains)):
        for i in range(book.T):
            for r, run in enumerate(book.runs[tr]):
                for x in run:
                    yield [-v.run(tr, i, r), v.claim(tr, i, x // 2)]


def family_h(book, v):
    """Text: "by node, then ordered pair of segments of one TTD there: claim of the
    first implies border or claim of the second", "in every interval"."""
    pairs = [(node, x, y) for node in range(len(book.nodes))
             for x in segments_at(book, node) for y in segments_at(book, node)
             if x != y and book.segments[x][2] == book.segments[y][2]]
    for tr in range(len(book.trains)):
        for i in range(book.T):
            for node, x, y in pairs:
                yield [-v.claim(tr, i, x), v.border(node), v.claim(tr, i, y)]


def family_i(book, v):
    """Text: "by interval, train pair, segment: not both claims"."""
    count = len(book.trains)
    pairs = [(x, y) for x in range(count) for y in range(x + 1, count)]
    for i in range(book.T):
        for x, y in pairs:
            for s in range(len(book.segments)):
                yield [-v.claim(x, i, s), -v.claim(y, i, s)]


def kind_1_nodes(book):
    """The nodes that "may be set", in rising node number."""
    return [node for node, kind in enumerate(book.nodes)
            if kind == MAY_BE_SET]


def kind_1_set(book, borders):
    """How many "kind 1 nodes set" there are."""
    return sum(borders[node] for node in kind_1_nodes(book))


def within_cap(book, borders, cap):
    """P7: "at most that many kind 1 nodes set"."""
    return cap is None or kind_1_set(book, borders) <= cap


def band_width(book, cap):
    """w = m - c for m kind 1 nodes and the cap c; 0 where nothing is added: P7:
    "A cap not below the count of kind 1 nodes adds nothing"."""
    count = len(kind_1_nodes(book))
    return 0 if cap is None or cap >= count else count - cap


def cap_clauses(book, v, cap):
    """P7: "at most that many kind 1 nodes set", in the order that "the team
    writes": by j = 1 to c + 1, then k = 0 to w - 1, how y(j, k) begins, and
    behind it how it goes on."""
    if v.band == 0:
        return
    for j in range(1, cap + 2):
        for k in range(v.band):
            yield begin_clause(book, v, cap, j, k)
            if j <= cap and k >= 1:
                yield [-v.counter(j, k - 1), v.counter(j, k)]


def begin_clause(book, v, cap, j, k):
    """Kind 1 node number j + k set, and j - 1 of those before it, imply j of
    the first j + k; j = c + 1 would be one too many, so nothing is implied."""
    clause = [-v.border(kind_1_nodes(book)[j + k - 1])]
    if j > 1:
        clause.append(-v.counter(j - 1, k))
    if j <= cap:
        clause.append(v.counter(j, k))
    return clause


def formula(book, cap=None):
    """The number of variables and the whole list of clauses."""
    return Variables(book, cap).count, list(each_clause(book, cap))


def word_count(clauses):
    """Text: "each clause closed by 0, which counts as a word"."""
    return sum(len(clause) + 1 for clause in clauses)


def dimacs(book, cap=None):
    """Text: "variables and clauses in the header, one clause a line"."""
    variables, clauses = formula(book, cap)
    lines = ["p cnf %d %d\n" % (variables, len(clauses))]
    for clause in clauses:
        lines.append("".join("%d " % x for x in clause) + "0\n")
    return "".join(lines).encode("ascii")


def lent_formula(book, words_len, clauses_len=None, cap=None):
    """The clauses, or 12 as soon as they pass what is lent for them."""
    clauses, words = [], 0
    for clause in each_clause(book, cap):
        clauses.append(clause)
        words += len(clause) + 1
        refuse_if(words > words_len, 12)
        refuse_if(clauses_len is not None and len(clauses) > clauses_len, 12)
    return clauses


# ------------------------------------------------------ assignment and plan


def is_true(assignment, literal):
    return assignment[abs(literal) - 1] == (1 if literal > 0 else 0)


def plan_length(book):
    """Text: "one byte a node, then, by train and interval, two bytes"."""
    return len(book.nodes) + 2 * len(book.trains) * book.T


def judge(book, assignment, cap=None):
    """What P6's pair shares: "both refuse by 13 and 14 with the same detail".
    13 is "length or byte wrong", 14 "a clause is false" with "the least false
    clause", clauses counted from 1.  P7: "Under a cap the demands' formula is
    document 01's with these clauses"."""
    refuse_if(len(assignment) != Variables(book, cap).count, 13)
    refuse_if(any(x > 1 for x in assignment), 13)
    for number, clause in enumerate(each_clause(book, cap), 1):
        true = any(is_true(assignment, x) for x in clause)
        refuse_if(not true, 14, number)


def decode(book, assignment):
    """Text: "its border bytes, then by train and interval the number of the run
    whose variable is 1, 65535 where gone is 1, 65534 where neither is"."""
    v = Variables(book)
    plan = bytearray(assignment[:len(book.nodes)])
    for tr in range(len(book.trains)):
        for i in range(book.T):
            value = GONE if is_true(assignment, v.gone(tr, i)) else ABSENT
            for r in reversed(range(len(book.runs[tr]))):
                if is_true(assignment, v.run(tr, i, r)):
                    value = r
            plan += value.to_bytes(2, "little")
    return bytes(plan)


def read_plan(book, plan):
    """The borders and the moves; 15 is "length or a value wrong"."""
    refuse_if(len(plan) != plan_length(book), 15)
    borders = list(plan[:len(book.nodes)])
    refuse_if(any(b > 1 for b in borders), 15)
    moves, at = [], len(book.nodes)
    for tr in range(len(book.trains)):
        row = [two_bytes(plan, at + 2 * i) for i in range(book.T)]
        refuse_if(any(len(book.runs[tr]) <= x < ABSENT for x in row), 15)
        moves.append(row)
        at += 2 * book.T
    return borders, moves


def accepted_plan(book, plan):
    """The borders and the moves of "a plan that keeps the rules"; 15, then 16
    with the "least broken rule"."""
    borders, moves = read_plan(book, plan)
    rule = broken_rule(book, borders, moves)
    refuse_if(rule != 0, 16, rule)
    return borders, moves


def write_assignment(book, borders, moves, cap=None):
    """Text: "A plan's assignment claims exactly the sections its runs touch"."""
    v = Variables(book, cap)
    together = sections(book, borders)
    assignment = bytearray(v.count)
    assignment[:len(borders)] = bytes(borders)
    for tr in range(len(book.trains)):
        for i in range(book.T):
            move = moves[tr][i]
            if move == GONE:
                assignment[v.gone(tr, i) - 1] = 1
            elif move != ABSENT:
                assignment[v.run(tr, i, move) - 1] = 1
            for s in touched(together, run_in(book, moves, tr, i)):
                assignment[v.claim(tr, i, s) - 1] = 1
    for j, k in counted(book, borders, v, cap):
        assignment[v.counter(j, k) - 1] = 1
    return bytes(assignment)


def counted(book, borders, v, cap):
    """The pairs j, k for which at least j of the first j + k kind 1 nodes are
    set."""
    if v.band == 0:
        return []
    row = [borders[node] for node in kind_1_nodes(book)]
    return [(j, k) for j in range(1, cap + 1) for k in range(v.band)
            if sum(row[:j + k]) >= j]


# ---------------------------------------------------------- the train graph


def page_length(book):
    """P2: "one line an interval, 80 bytes and a newline"."""
    return (LINE_BYTES + 1) * book.T


def train_graph(book, moves):
    """The page: "one line an interval", from 0 to T - 1."""
    return b"".join(graph_line(book, moves, i) for i in range(book.T))


def graph_line(book, moves, i):
    """P2: "Bytes 1 to 3 hold the interval, right-aligned; byte 4 is blank; then
    nine bytes a train", "The rest of the line is blanks"."""
    line = "%3d " % i
    for tr in range(len(book.trains)):
        line += graph_cell(book, moves, tr, i)
    return line.ljust(LINE_BYTES).encode("ascii") + b"\n"


def graph_cell(book, moves, tr, i):
    """P2: "Absent shows a dot in the cell's second byte, gone a star, the other
    eight blank"."""
    run = run_in(book, moves, tr, i)
    if run is not None:
        return run_cell(book.trains[tr], run)
    mark = "." if moves[tr][i] == ABSENT else "*"
    return (" " + mark).ljust(CELL_BYTES)


def run_cell(train, run):
    """P2: "blank, the rear segment at the start in two digits with a leading
    zero, a hyphen, the front segment at the end in two digits, blank, segments
    moved in one digit, blank".  A place is "rear first"; a run that "moves j"
    is "a path of l + j"."""
    rear = start_place(train, run)[0] // 2
    front = end_place(train, run)[-1] // 2
    moved = len(run) - train.l
    return " %02d-%02d %d " % (rear, front, moved)


# -------------------------------------------------- which border carries it


def carriers_length(book):
    """P5: "12 asks for an entry a kind 1 node", be it set or not."""
    return ENTRY_BYTES * book.nodes.count(MAY_BE_SET)


def list_of_carriers(book, borders, moves):
    """The bytes of the list for "a plan that keeps the rules": "An entry is four
    bytes: node, interval, lower and higher train"."""
    return b"".join(bytes(entry) for entry in carriers(book, borders, moves))


def carriers(book, borders, moves):
    """P5: "list in rising node number each set border of kind 1 whose clearing
    alone makes the plan break rule 6"; next to each its first meeting."""
    entries = []
    for node in range(len(book.nodes)):
        if not may_be_cleared(book, borders, node):
            continue
        less = cleared(borders, node)
        if not keeps_rule_6(book, less, moves):
            entries.append((node,) + first_meeting(book, less, moves))
    return entries


def may_be_cleared(book, borders, node):
    """P5: a "set border of kind 1"."""
    return book.nodes[node] == MAY_BE_SET and borders[node] == 1


def cleared(borders, node):
    """The borders after "clearing alone" this one."""
    return [0 if at == node else border for at, border in enumerate(borders)]


def first_meeting(book, borders, moves):
    """P5: "the earliest interval in which trains then meet, and of the pairs
    that meet in it the first by lower and then by higher train", of a plan
    that breaks rule 6."""
    together = sections(book, borders)
    meetings = [(i, lower, higher) for i in range(book.T)
                for lower, higher in meeting_pairs(book, together, moves, i)]
    return meetings[0]


# ----------------------------------------------------------- the refutation

Step = namedtuple("Step", "literals hints")


class Lent:
    """The clauses that hints may name, and how much is lent for them."""

    def __init__(self, book, words_len, clauses_len, cap=None):
        self.clauses = lent_formula(book, words_len, clauses_len, cap)
        self.words = word_count(self.clauses)
        self.words_len = words_len
        self.clauses_len = clauses_len

    def add(self, literals):
        """Text: "each proved step adds its own behind them"; 12 if it cannot."""
        refuse_if(self.words + len(literals) + 1 > self.words_len, 12)
        refuse_if(len(self.clauses) + 1 > self.clauses_len, 12)
        self.words += len(literals) + 1
        self.clauses.append(literals)


def check_steps(variables, lent, data):
    """The steps in file order, up to the empty one at the file's end."""
    at, number, ended = 0, 0, False
    while at < len(data):
        refuse_if(ended, 21)
        number += 1
        step, at = read_step(data, at, number)
        check_literals(variables, step, number)
        own = len(lent.clauses) + 1
        refuse_if(any(not 1 <= h < own for h in step.hints), 19, number)
        # 12 "comes after 19, with the step's words and clause added"; its own
        # clause is not one that its hints may name, so adding it now is safe.
        lent.add(step.literals)
        refuse_if(not proves(lent.clauses, step), 20, number)
        ended = not step.literals
    refuse_if(not ended, 21)


def read_step(data, at, number):
    """Text: "frame cut, kind not 20, payload not 2 + 4n + 4h"."""
    refuse_if(len(data) - at < 4, 17, number)
    length, kind = two_bytes(data, at), two_bytes(data, at + 2)
    refuse_if(at + 4 + length > len(data), 17, number)
    refuse_if(kind != STEP, 17, number)
    payload = data[at + 4:at + 4 + length]
    refuse_if(length < 2, 17, number)
    hints_at = 2 + 4 * two_bytes(payload, 0)
    refuse_if(length < hints_at or (length - hints_at) % 4 != 0, 17, number)
    literals = [int.from_bytes(payload[x:x + 4], "little", signed=True)
                for x in range(2, hints_at, 4)]
    hints = [int.from_bytes(payload[x:x + 4], "little")
             for x in range(hints_at, length, 4)]
    return Step(literals, hints), at + 4 + length


def check_literals(variables, step, number):
    """Text: "literal 0, unknown or not rising"."""
    before = 0
    for literal in step.literals:
        variable = abs(literal)
        refuse_if(not 1 <= variable <= variables, 18, number)
        refuse_if(variable <= before, 18, number)
        before = variable


def proves(clauses, step):
    """The step rule, hint by hint."""
    # "take each literal of the step false, every other variable open"
    true = {-literal for literal in step.literals}
    for at, hint in enumerate(step.hints):
        not_false = [x for x in clauses[hint - 1] if -x not in true]
        if not not_false:
            # "must be the last and proves the step"
            return at == len(step.hints) - 1
        if len(not_false) > 1 or not_false[0] in true:
            # "every other hint refutes nothing, and the step is refused there"
            return False
        # "a single literal not false, and that one open, makes it true"
        true.add(not_false[0])
    # "a step whose hints run out unproved is refused too"
    return False


# --------------------------------------------------------- the entry points


def verdict(check):
    """What a check returns, or its refusal."""
    try:
        return ("accepted",) + tuple(check())
    except Refused as refused:
        return ("refused", refused.number, refused.detail)


def entry_read_book(book_bytes):
    def check():
        read_book(book_bytes)
        return ()
    return verdict(check)


def entry_upgrade_book(old_bytes, new_len):
    def check():
        new = upgrade_book(old_bytes)
        refuse_if(new_len < len(new), 12)
        return (new,)
    return verdict(check)


def entry_write_formula(book_bytes, words_len, cap=None):
    def check():
        book = read_book(book_bytes)
        clauses = lent_formula(book, words_len, cap=cap)
        words = [x for clause in clauses for x in clause + [0]]
        return Variables(book, cap).count, len(clauses), len(words), words
    return verdict(check)


def entry_check_assignment(book_bytes, assignment_bytes, cap=None):
    """P6: "one judges an assignment and lends no plan slice"; with no slice
    lent, 12 has nothing to measure."""
    def check():
        judge(read_book(book_bytes), assignment_bytes, cap)
        return ()
    return verdict(check)


def entry_unpack_plan(book_bytes, assignment_bytes, plan_len, cap=None):
    """P6: "the other unpacks the plan from an assignment, judging it first",
    which is done "Once 12 is passed"."""
    def check():
        book = read_book(book_bytes)
        refuse_if(plan_len < plan_length(book), 12)
        judge(book, assignment_bytes, cap)
        return (decode(book, assignment_bytes),)
    return verdict(check)


def entry_check_plan(book_bytes, plan_bytes, assignment_len, cap=None):
    """P7: 22 "after 16 where a plan to be written as an assignment sets more
    than the cap"."""
    def check():
        book = read_book(book_bytes)
        refuse_if(assignment_len < Variables(book, cap).count, 12)
        borders, moves = accepted_plan(book, plan_bytes)
        refuse_if(not within_cap(book, borders, cap), 22)
        return (write_assignment(book, borders, moves, cap),)
    return verdict(check)


def entry_print_graph(book_bytes, plan_bytes, page_len):
    """P2: "12 also covers a short page, 15 and 16 a bad plan"."""
    def check():
        book = read_book(book_bytes)
        refuse_if(page_len < page_length(book), 12)
        _, moves = accepted_plan(book, plan_bytes)
        return (train_graph(book, moves),)
    return verdict(check)


def entry_list_carriers(book_bytes, plan_bytes, out_len):
    """P5: "12 asks for an entry a kind 1 node, 15 and 16 a bad plan"."""
    def check():
        book = read_book(book_bytes)
        refuse_if(out_len < carriers_length(book), 12)
        borders, moves = accepted_plan(book, plan_bytes)
        return (list_of_carriers(book, borders, moves),)
    return verdict(check)


def entry_check_refutation(book_bytes, refutation_bytes, words_len,
                           clauses_len, values_len, trail_len, cap=None):
    def check():
        book = read_book(book_bytes)
        variables, lent = lent_for_steps(book, words_len, clauses_len,
                                         values_len, trail_len, cap)
        check_steps(variables, lent, refutation_bytes)
        return ()
    return verdict(check)


def lent_for_steps(book, words_len, clauses_len, values_len, trail_len, cap):
    """The number of variables and the clauses, or 12, which "compares with
    formula words, clause count, variable count" of the formula under the
    cap."""
    variables = Variables(book, cap).count
    refuse_if(min(values_len, trail_len) < variables, 12)
    return variables, Lent(book, words_len, clauses_len, cap)


def entry_check_fewest(book_bytes, n, assignment_bytes, refutation_bytes,
                       words_len, clauses_len, values_len, trail_len):
    """P7: "A combined verdict takes n, an assignment of the formula without a
    cap, and a refutation of the formula under cap n minus 1"; 22 "after the
    assignment is accepted, where its plan sets another count of kind 1 nodes
    than n".  By "then 12; then the second input" what the refutation needs is
    asked for first; "With n = 0 there is no lower cap", and nothing is."""
    def check():
        book = read_book(book_bytes)
        lower = None
        if n > 0:
            lower = lent_for_steps(book, words_len, clauses_len, values_len,
                                   trail_len, n - 1)
        judge(book, assignment_bytes)
        refuse_if(unpacked_count(book, assignment_bytes) != n, 22)
        check_none_lower(lower, refutation_bytes)
        return ()
    return verdict(check)


def unpacked_count(book, assignment):
    """P7: the "count of kind 1 nodes" that an accepted assignment's "plan
    sets"."""
    borders, _ = read_plan(book, decode(book, assignment))
    return kind_1_set(book, borders)


def check_none_lower(lower, refutation):
    """P7: that there is "none with fewer": the steps under the lower cap; but
    "a non-empty refutation at n = 0 is refused by 21"."""
    if lower is None:
        refuse_if(len(refutation) > 0, 21)
    else:
        variables, lent = lower
        check_steps(variables, lent, refutation)


# ------------------------------------------------------------- the programs


def print_formula(book_bytes, cap=None):
    """The formula in DIMACS, or the line of the refusal."""
    answer = longer_input(book_bytes)
    answer = answer or entry_write_formula(book_bytes, LENT_WORDS, cap)
    if answer[0] == "accepted":
        return dimacs(read_book(book_bytes), cap)
    return verdict_line(answer)


def print_graph(book_bytes, plan_bytes):
    """The page of the train graph, or the line of the refusal."""
    answer = longer_input(book_bytes, plan_bytes)
    answer = answer or entry_print_graph(book_bytes, plan_bytes, LENT_BYTES)
    if answer[0] == "accepted":
        return answer[1]
    return verdict_line(answer)


def longer_input(*inputs):
    """Text: "refuse longer input by 12 first"."""
    if any(len(x) > LENT_BYTES for x in inputs):
        return ("refused", 12, 0)
    return None


def verdict_line(answer):
    """Text: "the word accepted on a line"; "its number, a blank and its detail"."""
    if answer[0] == "accepted":
        return b"accepted\n"
    return b"%d %d\n" % answer[1:]


def check_two(name, book_bytes, second, cap=None):
    """The verdict of one of the three checking programs; `unpack_plan` is what
    check_assignment does when a third name is given."""
    answer = longer_input(book_bytes, second)
    if answer:
        return answer
    if name == "check_assignment":
        return entry_check_assignment(book_bytes, second, cap)
    if name == "unpack_plan":
        return entry_unpack_plan(book_bytes, second, LENT_BYTES, cap)
    if name == "check_plan":
        return entry_check_plan(book_bytes, second, LENT_BYTES, cap)
    return entry_check_refutation(book_bytes, second, LENT_WORDS,
                                  LENT_CLAUSES, LENT_VALUES, LENT_TRAIL, cap)


def check_fewest(book_bytes, n, assignment_bytes, refutation_bytes):
    """The combined verdict of P7."""
    answer = longer_input(book_bytes, assignment_bytes, refutation_bytes)
    return answer or entry_check_fewest(
        book_bytes, n, assignment_bytes, refutation_bytes, LENT_WORDS,
        LENT_CLAUSES, LENT_VALUES, LENT_TRAIL)


def rewrite(old_bytes):
    """The verdict of the program that rewrites an old book."""
    return longer_input(old_bytes) or entry_upgrade_book(old_bytes, LENT_BYTES)


def list_carriers(book_bytes, plan_bytes):
    """The line of the verdict, and the bytes of the list or None on a refusal."""
    answer = longer_input(book_bytes, plan_bytes)
    answer = answer or entry_list_carriers(book_bytes, plan_bytes, LENT_BYTES)
    out = answer[1] if answer[0] == "accepted" else None
    return verdict_line(answer), out


def read_file(name):
    with open(name, "rb") as file:
        return file.read()


USAGE = ("usage: print_formula [--cap N] < BOOK | check_assignment [--cap N] "
         "BOOK ASSIGNMENT [PLAN] | check_plan [--cap N] BOOK PLAN [ASSIGNMENT] "
         "| check_refutation [--cap N] BOOK REFUTATION | check_fewest BOOK N "
         "ASSIGNMENT REFUTATION | upgrade_book OLD NEW | print_graph BOOK PLAN "
         "| list_carriers BOOK PLAN OUT")

# The commands that are about the formula, which "takes a cap".
CAPPED = ("print_formula", "check_assignment", "check_plan",
          "check_refutation")


def number_of(word):
    """A cap or an n: "Figures are base ten", in digits 0 to 9."""
    if not word or any(digit not in "0123456789" for digit in word):
        sys.exit(USAGE)
    number = 0
    for digit in word:
        number = 10 * number + int(digit)
        if number > MOST_NUMBER:
            sys.exit(USAGE)
    return number


def split_cap(arguments):
    """The words without the option `--cap N`, and its cap."""
    if arguments[0] not in CAPPED or arguments[1:2] != ["--cap"]:
        return arguments, None
    if len(arguments) < 3:
        sys.exit(USAGE)
    return arguments[:1] + arguments[3:], number_of(arguments[2])


def main(arguments):
    # the least and the most words, and how many name inputs
    counts = {"print_formula": (1, 1, 0), "check_assignment": (3, 4, 2),
              "check_plan": (3, 4, 2), "check_refutation": (3, 3, 2),
              "check_fewest": (5, 5, 3), "upgrade_book": (3, 3, 1),
              "print_graph": (3, 3, 2), "list_carriers": (4, 4, 2)}
    name = arguments[0] if arguments else None
    if name not in counts:
        sys.exit(USAGE)
    arguments, cap = split_cap(arguments)
    least, most, inputs = counts[name]
    if not least <= len(arguments) <= most:
        sys.exit(USAGE)
    if name == "print_formula":
        sys.stdout.buffer.write(print_formula(sys.stdin.buffer.read(), cap))
        return 0
    if name == "check_fewest":
        _, book, n, assignment, refutation = arguments
        n = number_of(n)
        answer = check_fewest(read_file(book), n, read_file(assignment),
                              read_file(refutation))
        sys.stdout.buffer.write(verdict_line(answer))
        return 0
    given = [read_file(file) for file in arguments[1:1 + inputs]]
    if name == "print_graph":
        sys.stdout.buffer.write(print_graph(*given))
        return 0
    if name == "list_carriers":
        line, out = list_carriers(*given)
        if out is not None:
            with open(arguments[1 + inputs], "wb") as file:
                file.write(out)
        sys.stdout.buffer.write(line)
        return 0
    has_output = len(arguments) > 1 + inputs
    if name == "check_assignment" and has_output:
        # P6: only a call that has somewhere "to put a plan" unpacks
        name = "unpack_plan"
    if inputs == 1:
        answer = rewrite(*given)
    else:
        answer = check_two(name, *given, cap)
    if has_output and answer[0] == "accepted":
        with open(arguments[1 + inputs], "wb") as file:
            file.write(answer[1])
    sys.stdout.buffer.write(verdict_line(answer))
    return 0


if __name__ == "__main__":
    sys.exit(main(sys.argv[1:]))
