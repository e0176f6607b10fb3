"""Tests the reference by itself, on inputs made from SEED: document 01's examples ("On each edge", starred or not), whose books L and M are
rewritten; random and damaged books, with every refusal of the book among them; old books, good and damaged, rewritten: the formula stays, and
so does every number; trains that leave over an exit, and that may not; train graphs, read back by their columns; lists of carriers, with each
border cleared and the plan judged again; assignments, plans and refutations, with every rule broken, under caps too; and brute force: on tiny books
every plan is enumerated, and a plan that keeps the rules exists exactly where the formula is satisfiable, under each cap one that sets no more
borders of kind 1; and the combined verdict is given for the fewest that are found so, and for no other number. Prints counts.

Exit status: 0 all held, 1 something did not (an assertion says what), 2 wrong usage.
"""
import random
import re
import sys
from collections import Counter

from . import reference as ref
from .all_plans import keeping, plans_to_try
from .books import BORDER_KINDS, EXIT, MAY_BE_SET, Spec, bordered_kinds, counted, free_nodes, spec_bytes, split
from .carrying_books import carried_plans, carrying_book
from .counts import answer_name, listed
from .features import entries_of, list_features
from .inputs import TooLong, encode_steps, plan_bytes, step_frame
from .known import (ASSIGNMENT_FEWEST, ASSIGNMENT_MORE, BOOK_CARRIED, BOOK_FEWEST, BOOK_GRAPH, BOOK_L, CAPPED, CARRYING, FORMULA_L, LEAVING,
                    LIST_CARRIED, OLD_L, PAGE_GRAPH, PAGE_L, PLAN_CARRIED, PLAN_FEWEST, PLAN_GRAPH, PLAN_L, PLAN_MORE, REFUTATION_FEWEST, SPEEDS,
                    add_train, book_m, chasing, circling, far, leaving_spec, list_of, lone_spec, many_free, outgrowing, padded, parted, row_spec,
                    spec_l, speed_spec, standing_row)
from .passing_books import passing_book
from .random_books import book_to_rewrite, damaged_book, random_book
from .random_inputs import (assignment_of, edge_caps, fewest, kept_plans, random_assignments, random_cap, random_fewest, random_plans,
                            random_refutations, set_count, solved, walked_plan, with_needed_borders)
from .small_solver import Solver

sys.setrecursionlimit(20000)

# ------------------------------------------------------- document 01's examples


def check_figures():
    """P3: "19 gives 1 ...", and of an old book too; document 01: "100 m gives 1 ..."."""
    for rs, rt, speed, k in SPEEDS:
        spec = speed_spec(rs, rt, speed)
        new, old = spec_bytes(spec), spec_bytes(spec, ref.OLD)
        if 1 <= k <= 8:
            assert ref.read_book(new).trains[0].k == k
            assert ref.upgrade_book(old) == new
        else:
            assert ref.entry_read_book(new) == ref.entry_upgrade_book(old, 10 ** 6) == ("refused", 7, 0)
    for length, l in ((100, 1), (101, 2)):
        data = spec_bytes(row_spec(9, length=length))
        assert ref.read_book(data).trains[0].l == l
    data = spec_bytes(row_spec(9, length=801))
    assert ref.entry_read_book(data) == ("refused", 7, 0)


def check_shapes():
    """The runs of two segments, and the sections of a row and a ring."""
    joined = ref.read_book(spec_bytes(row_spec(2)))
    assert joined.runs[0] == [[0], [1], [2], [3], [0, 2], [3, 1]]
    unjoined = ref.read_book(spec_bytes(row_spec(2, joined=False)))
    assert unjoined.runs[0] == [[0], [1], [2], [3]]
    three = ref.read_book(spec_bytes(row_spec(3)))
    assert ref.sections(three, [0, 1, 0, 0]) == [[0], [1, 2], [1, 2]]
    spec = Spec()
    spec.nodes = [1, 1, 1]
    spec.segments = [(0, 1, 0), (1, 2, 0), (2, 0, 0)]
    add_train(spec, [0])
    circle = ref.read_book(spec_bytes(spec))
    for borders in ([1, 0, 0], [0, 1, 0], [0, 0, 1]):
        assert ref.sections(circle, borders) == [[0, 1, 2]] * 3


def check_books_l_and_m():
    assert ref.dimacs(ref.read_book(BOOK_L)) == FORMULA_L
    assert ref.print_formula(BOOK_L) == FORMULA_L
    lent = (1000, 1000, 1000, 1000)
    wide, shut = book_m(0, 1), book_m(0, 0)
    assert ref.formula(ref.read_book(wide))[1][18] == [6, 7]
    assert ref.formula(ref.read_book(shut))[1][18] == []
    good, bad = step_frame([], [16, 17, 19]), step_frame([], [19, 16, 17])
    check = ref.entry_check_refutation
    assert check(wide, good, *lent) == ("accepted",)
    assert check(wide, bad, *lent) == ("refused", 20, 1)
    assert check(shut, step_frame([], [19]), *lent) == ("accepted",)
    assert check(shut, good, *lent) == ("accepted",)
    assert check(shut, bad, *lent) == ("refused", 20, 1)


def check_exits():
    """P4: who may be gone, in the plan rules and in the formula; an exit has no border; no kind 4; and the same of an old book."""
    for kinds, place, goal, departure, moves, rule in LEAVING:
        spec = leaving_spec(kinds, place, goal, departure)
        data, plan = spec_bytes(spec), plan_bytes([0, 0, 0], [list(moves)])
        book, answer = ref.read_book(data), ref.entry_check_plan(data, plan, 100)
        assert answer[1:] == (16, rule) if rule else answer[0] == "accepted"
        check_written(data, book, plan, answer)
        assert ref.upgrade_book(spec_bytes(spec, ref.OLD)) == data
        if EXIT in kinds:
            set_there = plan_bytes([int(kind == EXIT) for kind in kinds], [list(moves)])
            assert ref.entry_check_plan(data, set_there, 100) == ("refused", 16, 1)
            assert [-1 - kinds.index(EXIT)] in ref.formula(book)[1]
        spec.nodes[0] = max(BORDER_KINDS) + 1
        assert ref.entry_read_book(spec_bytes(spec)) == ref.entry_upgrade_book(spec_bytes(spec, ref.OLD), 1000) == ("refused", 6, 0)
    for kind in BORDER_KINDS:
        spec = leaving_spec((0, kind, 0), [0], 0, 0)
        spec.unbreakable = [0]
        assert ref.entry_read_book(spec_bytes(spec)) == (("refused", 9, 0) if kind in bordered_kinds() else ("accepted",))


def check_left(book, moves, tally):
    """P4, of a plan that keeps the rules: who is gone had its goal in its place and its front at an exit; "A book without exits keeps every
    train to the last interval"."""
    tally["plans of books without exits"] += EXIT not in book.nodes
    for train, runs, row in zip(book.trains, book.runs, moves):
        if ref.GONE in row:
            assert EXIT in book.nodes
            last = runs[row[row.index(ref.GONE) - 1]]
            assert train.goal() in [x // 2 for x in last[-train.l:]]
            assert book.nodes[book.segments[last[-1] // 2][1 - last[-1] % 2]] == EXIT
            tally["trains that leave"] += 1


# ------------------------------------------------- old books and new ones


def check_lengths():
    """P1: "Head payloads are now 6 bytes, train payloads 7 + n, call payloads 6", and T 1 to 256; an old book has 5, 6 + n and 4, and T
    to 32."""
    for form, lengths, most in ((ref.NEW, (6, 7, 6), 256), (ref.OLD, (5, 6, 4), 32)):
        assert tuple(ref.fields_length(kind, form) for kind in (ref.HEAD, ref.TRAIN, ref.CALL)) == lengths
        for T in (0, 1, most, most + 1):
            data = spec_bytes(lone_spec(T, 0, 0, T), form)
            answer = verdict_in(data, form)
            assert answer == (("accepted",) if 0 < T <= most else ("refused", 6, 0))
    book = ref.read_book(spec_bytes(lone_spec(256, 255, 256, 256)))
    assert (book.T, book.trains[0].departure, book.trains[0].calls) == (256, 255, [(0, 256, 256)])


def verdict_in(data, form):
    """What the book's reader says of bytes in a format."""
    def check():
        ref.read_book(data, form)
        return ()
    return ref.verdict(check)


def check_rewritten_l_and_m():
    """P1: "document 01's books L and M are old books", and "An old book is refused by 4 at its Head"."""
    assert spec_bytes(spec_l(), ref.OLD) == OLD_L and spec_bytes(spec_l()) == BOOK_L
    assert ref.entry_upgrade_book(OLD_L, len(BOOK_L)) == ("accepted", BOOK_L)
    assert ref.entry_upgrade_book(OLD_L, len(BOOK_L) - 1) == ("refused", 12, 0)
    assert ref.entry_upgrade_book(OLD_L[:-1], 0) == ("refused", 1, 0)
    for last in (0, 1):
        assert ref.upgrade_book(book_m(0, last, ref.OLD)) == book_m(0, last)
    for old in (OLD_L, book_m(0, 1, ref.OLD)):
        assert ref.entry_read_book(old) == ("refused", 4, 0)
        assert ref.entry_upgrade_book(ref.upgrade_book(old), 10 ** 6) == ("refused", 4, 0)
    assert ref.rewrite(padded(0, ref.OLD)) == ("accepted", padded(0))
    assert ref.rewrite(outgrowing()) == ref.rewrite(outgrowing() + b"\0") == ("refused", 12, 0)
    assert ref.entry_upgrade_book(outgrowing(), 10 ** 6)[0] == "accepted"


def check_rewriting(rng, count):
    """Old books, and what may be given for one: refused as the reader does, or with the formula and every field that they had."""
    tally = Counter()
    for _ in range(count):
        old = book_to_rewrite(rng)
        answer = ref.entry_upgrade_book(old, 10 ** 6)
        tally[answer_name(answer)] += 1
        assert answer[:3] == verdict_in(old, ref.OLD) or answer[0] == "accepted" == verdict_in(old, ref.OLD)[0]
        if answer[0] == "accepted":
            check_rewritten(old, answer[1])
    print(f"old books: {listed(tally)}")
    assert {str(x) for x in range(1, 12)} <= set(tally)


def check_rewritten(old, new):
    """The same frames, each with the same numbers and the same row; and "the same formula, clause for clause"."""
    assert ref.dimacs(ref.read_book(new)) == ref.dimacs(ref.read_book(old, ref.OLD))
    frames, again = split(old)[0], split(new)[0]
    assert [kind for kind, _ in frames] == [kind for kind, _ in again]
    for (kind, one), (_, two) in zip(frames, again):
        assert ref.fields_of(kind, one, ref.OLD) == ref.fields_of(kind, two, ref.NEW)
        assert one[ref.fields_length(kind, ref.OLD):] == two[ref.fields_length(kind, ref.NEW):]
        assert kind in (ref.HEAD, ref.TRAIN, ref.CALL) or one == two
    added = sum({ref.HEAD: 1, ref.TRAIN: 1, ref.CALL: 2}.get(kind, 0) for kind, _ in frames)
    assert len(new) == len(old) + added
    for room in (len(new) - 1, len(new)):
        assert ref.entry_upgrade_book(old, room) == (("accepted", new) if room == len(new) else ("refused", 12, 0))


# ------------------------------------------------------------ train graphs

CELL = re.compile(rb" (\d\d)-(\d\d) (\d) ")
MARKS = {b" .       ": "absent", b" *       ": "gone"}


def check_pages():
    """Pages worked out by hand; 12 where a byte of the page has no room, ahead of what is wrong with the plan, and behind the book."""
    for book, plan, page in ((BOOK_L, PLAN_L, PAGE_L), (BOOK_GRAPH, PLAN_GRAPH, PAGE_GRAPH)):
        assert ref.print_graph(book, plan) == page
        for room in (len(page), len(page) + 1):
            assert ref.entry_print_graph(book, plan, room) == ("accepted", page)
        for second in (plan, plan[1:], b"\2" + plan[1:], b"\1" + plan[1:]):
            assert ref.entry_print_graph(book, second, len(page) - 1) == ("refused", 12, 0)
        assert ref.entry_print_graph(book, plan + b"\0", len(page)) == ("refused", 15, 0)
        assert ref.entry_print_graph(book, b"\1" + plan[1:], len(page)) == ("refused", 16, 1)
        assert ref.entry_print_graph(book[:-1], plan, 0) == ("refused", 1, 0)
    # more intervals than have two digits, and a train in each cell of a line
    lines = ref.print_graph(*circling(256)).split(b"\n")
    assert len(lines) == 257 and not lines[256] and [lines[t][:5] for t in (9, 10, 99, 100, 255)] == [b"  9  ", b" 10  ", b" 99  ", b"100  ", b"255  "]
    assert lines[63] == b" 63  63-00 1  07-08 1  15-16 1  23-24 1  31-32 1  39-40 1  47-48 1  55-56 1     "


def read_page(page, trains):
    """What a page shows, by its columns: in each interval its number, "right-aligned", and each train's cell. "80 bytes and a newline"."""
    shown = []
    assert len(page) % 81 == 0
    for at in range(0, len(page), 81):
        line, rest = page[at:at + 81], page[at + 4 + 9 * trains:at + 80]
        assert line.index(b"\n") == 80 and line[:4] == b"%3d " % int(line[:3]) and not rest.strip(b" ")
        shown.append((int(line[:3]), [read_cell(line[4 + 9 * tr:13 + 9 * tr]) for tr in range(trains)]))
    return shown


def read_cell(cell):
    """Absent, gone, or rear segment, front segment and segments moved."""
    return MARKS.get(cell) or tuple(map(int, CELL.fullmatch(cell).groups()))


def fields_shown(book, moves):
    """The same of a plan's moves, by the runs that they name."""
    def field(tr, move):
        if move in (ref.ABSENT, ref.GONE):
            return "absent" if move == ref.ABSENT else "gone"
        run = book.runs[tr][move]
        return run[0] // 2, run[-1] // 2, len(run) - len(book.trains[tr].place)

    return [(t, [field(tr, row[t]) for tr, row in enumerate(moves)]) for t in range(book.T)]


def check_graphs(rng, count):
    """Pages read back; so "two plans with the same page agree on these fields". The width is that of "every plan", whatever rules it breaks."""
    tally, done = Counter(), 0
    while done < count:
        data = passing_book(rng) if done % 3 else random_book(rng, "long" if done % 15 == 9 else "tiny")
        if ref.entry_read_book(data)[0] == "refused":
            continue
        book, by_page = ref.read_book(data), {}
        done += 1
        for plan in kept_plans(rng, book, 60):
            answer, fields = ref.entry_print_graph(data, plan, 81 * book.T), fields_shown(book, ref.read_plan(book, plan)[1])
            assert answer[0] == "accepted" and read_page(answer[1], len(book.trains)) == fields
            tally["same page"] += answer[1] in by_page
            assert by_page.setdefault(answer[1], fields) == fields
            tally["plans"] += 1
            tally.update(cell if isinstance(cell, str) else f"moved {cell[2]}" for _, cells in fields for cell in cells)
        _, moves = walked_plan(rng, book)
        assert read_page(ref.train_graph(book, moves), len(book.trains)) == fields_shown(book, moves)
    print(f"train graphs: {listed(tally)}")
    assert {"absent", "gone", "moved 0", "moved 1", "moved 2", "same page"} <= set(tally)


# -------------------------------------------------------- lists of carriers


def check_lists():
    """Lists worked out by hand; 12 where an entry a kind 1 node has no room, ahead of what is wrong with the plan, and behind the book."""
    worked = [(*parted(*given), list_of(*entries)) for *given, entries in CARRYING]
    for book, plan, carriers in (*worked, (BOOK_CARRIED, PLAN_CARRIED, LIST_CARRIED), (BOOK_L, PLAN_L, b""), far(256), chasing(64)):
        room = 4 * split(book)[0].count([ref.NODE, b"\1"])
        met = [cleared(plan, node) for node, *_ in entries_of(carriers)[-1:]]
        assert ref.list_carriers(book, plan) == (b"accepted\n", carriers)
        for more in (0, 1):
            assert ref.entry_list_carriers(book, plan, room + more) == ("accepted", carriers)
        for second in (plan, plan[1:], b"\2" + plan[1:], *met):
            assert room == 0 or ref.entry_list_carriers(book, second, room - 1) == ("refused", 12, 0)
        assert ref.entry_list_carriers(book, plan + b"\0", room) == ("refused", 15, 0)
        assert all(ref.entry_list_carriers(book, second, room) == ("refused", 16, 6) for second in met)
        assert ref.entry_list_carriers(book[:-1], plan, 0) == ("refused", 1, 0)


def cleared(plan, node):
    return plan[:node] + b"\0" + plan[node + 1:]


def labels_of(book, borders):
    """A label for each segment, the same within a section: about a node without a border the segments of one TTD take the least of theirs."""
    labels = list(range(len(book.segments)))
    for node in range(len(book.nodes)):
        touching = [(s, ttd) for s, (a, b, ttd) in enumerate(book.segments) if node in (a, b) and not borders[node]]
        for ttd in {ttd for _, ttd in touching}:
            there = {labels[s] for s, other in touching if other == ttd}
            labels = [min(there) if label in there else label for label in labels]
    return labels


def meetings(book, plan):
    """All intervals and pairs of trains that then have a label in common: interval, lower and higher train."""
    borders, moves = ref.read_plan(book, plan)
    labels = labels_of(book, borders)

    def held(tr, t):
        move = moves[tr][t]
        return {labels[x // 2] for x in book.runs[tr][move]} if move < ref.ABSENT else set()

    pairs = [(i, j) for j in range(len(book.trains)) for i in range(j)]
    return [(t, i, j) for i, j in pairs for t in range(book.T) if held(i, t) & held(j, t)]


def check_listed(data, plan, tally):
    """The list of a plan that keeps the rules: each set border of kind 1 is cleared, and it is there exactly where trains meet then, which breaks
    rule 6, and else the plan keeps all six; next to it the least meeting. Answers its nodes."""
    book = ref.read_book(data)
    room = 4 * sum(kind == MAY_BE_SET for kind in book.nodes)
    answer = ref.entry_list_carriers(data, plan, room)
    assert answer[0] == "accepted" and len(answer[1]) <= room and not meetings(book, plan)
    assert room == 0 or ref.entry_list_carriers(data, plan, room - 1) == ("refused", 12, 0)
    met = {node: meeting for node, *meeting in entries_of(answer[1])}
    assert answer[1] == list_of(*((node, *met[node]) for node in sorted(met)))
    for node, kind in enumerate(book.nodes):
        if kind != MAY_BE_SET or not plan[node]:
            assert node not in met
            continue
        less = cleared(plan, node)
        then = meetings(book, less)
        assert ref.broken_rule(book, *ref.read_plan(book, less)) == (6 if then else 0)
        assert met.get(node, []) == list(min(then, default=()))
        tally["borders that carry" if then else "borders that do not"] += 1
    tally["plans"] += 1
    tally.update(list_features(answer[1]))
    return set(met)


def check_carriers(rng, count):
    """Lists of random plans that keep the rules, with few borders and with many; where none could go all are on the list."""
    tally = Counter()
    for number in range(count):
        for data, _, plan in carried_plans(rng, ("tiny", "small", "large")[number % 3]):
            check_listed(data, plan, tally)
        data = passing_book(rng) if number % 2 else random_book(rng, "small")
        if ref.entry_read_book(data)[0] == "refused":
            continue
        book = ref.read_book(data)
        for plan in kept_plans(rng, book, 20):
            check_listed(data, plan, tally)
            needed = with_needed_borders(rng, book, plan)
            assert check_listed(data, needed, tally) == {node for node, kind in enumerate(book.nodes) if kind == MAY_BE_SET and needed[node]}
    print(f"lists of carriers: {listed(tally)}")
    assert {"borders that carry", "borders that do not", "empty", "several entries", "several intervals", "several pairs"} <= set(tally)


# ------------------------------------------------------------------ caps

LENT = (10 ** 6,) * 4


def check_counters():
    """What a cap adds, worked out by hand, and how much of it for as many nodes as there may be; "A cap not below the count of kind 1 nodes adds
    nothing"."""
    book = ref.read_book(BOOK_FEWEST)
    variables, clauses = ref.formula(book)
    for cap, (added, more) in CAPPED.items():
        assert ref.formula(book, cap) == (variables + more, clauses + added)
    for cap in (4, 96, ref.MOST_NUMBER):
        assert ref.formula(book, cap) == (variables, clauses)
    most = [capped_totals(many_free(96)[0], cap) for cap in range(98)]
    assert most == [(c * (96 - c), 2 * c * (96 - c) + 96 - 2 * c, 7 * c * (96 - c) + 2 * (96 - c) - 3 * c) for c in range(96)] + [(0, 0, 0)] * 2
    assert max(most) == (2304, 4608, 16080)


def capped_totals(data, cap):
    """The variables, clauses and words that a cap adds."""
    without, under = (ref.entry_write_formula(data, 10 ** 6, some)[1:4] for some in (None, cap))
    return tuple(more - less for more, less in zip(under, without))


def check_combined():
    """The combined verdict, worked out by hand: n off by one either way, more borders than needed, n = 0, and the order of its refusals."""
    def said(n, assignment, refutation, lent=LENT, book=BOOK_FEWEST):
        return ref.entry_check_fewest(book, n, assignment, refutation, *lent)

    good, more, steps = ASSIGNMENT_FEWEST, ASSIGNMENT_MORE, REFUTATION_FEWEST
    assert said(1, good, steps) == ("accepted",)
    for n in (0, 2, 3, ref.MOST_NUMBER):
        assert said(n, good, steps) == said(n, good, b"") == ("refused", 22, 0)
    assert said(3, more, steps) == ("refused", 20, 1) and said(1, more, steps) == ("refused", 22, 0)
    # 12, 13 and 14 ahead of 22, and that ahead of what is wrong with the refutation
    assert said(2, good, b"", (0,) * 4) == ("refused", 12, 0) and said(0, good, b"", (0,) * 4) == ("refused", 22, 0)
    assert said(2, good[1:], b"") == ("refused", 13, 0) and said(0, bytes(17), b"") == ("refused", 14, 1) == said(2, bytes(17), b"")
    assert said(1, good, b"") == ("refused", 21, 0) and said(1, good, steps + b"\0") == ("refused", 21, 0)
    # just enough for the formula under cap 0 and the step, and one less
    exact = (140 + 1, 47 + 1, 17, 17)
    assert said(1, good, steps, exact) == ("accepted",)
    for which in range(4):
        assert said(1, good, steps, exact[:which] + (exact[which] - 1,) + exact[which + 1:]) == ("refused", 12, 0)
    # at n = 0 nothing is lent, and the refutation is empty
    data, plan = many_free(3)
    none = assignment_of(ref.read_book(data), plan)
    assert said(0, none, b"", (0,) * 4, data) == ("accepted",)
    for refutation in (b"\0", steps, step_frame([], [])):
        assert said(0, none, refutation, (0,) * 4, data) == ("refused", 21, 0)
    assert said(0, none[:-1], b"\0", (0,) * 4, data) == ("refused", 13, 0)
    assert said(0, none, b"", (0,) * 4, data[:-1]) == ("refused", 1, 0)


def check_capped_plans():
    """A plan written under a cap: 12 by the variables under it, 15, 16, 22."""
    for cap, plan, answer in ((0, PLAN_FEWEST, 22), (1, PLAN_FEWEST, 0), (1, PLAN_MORE, 22), (2, PLAN_MORE, 22), (3, PLAN_MORE, 0), (None, PLAN_MORE, 0),
                              (0, PLAN_FEWEST[1:], 15), (0, bytes(3) + PLAN_FEWEST[3:], 16), (0, bytes(3) + PLAN_FEWEST[3:5] + b"\0\0", 16)):
        need = 17 + CAPPED.get(cap, ((), 0))[1]
        found = ref.entry_check_plan(BOOK_FEWEST, plan, need, cap)
        assert found[1] == answer if answer else found[0] == "accepted" and len(found[1]) == need
        assert ref.entry_check_plan(BOOK_FEWEST, plan, need - 1, cap) == ("refused", 12, 0)
    for places, segments in (((0, 1, 2), 3), ((4, 0, 2), 5), ((0, 7), 8)):
        data, plan = standing_row(places, segments)
        good = fewest(ref.read_book(data))
        assert good.n == len(places) - 1 == set_count(ref.read_book(data), plan)


def caps_to_try(book):
    """All that add something, and those about and above the count of kind 1 nodes."""
    return sorted({cap for cap in edge_caps(book) if cap is not None}.union(range(len(free_nodes(book)))))


def check_caps(data, book, plans, tally):
    """Of a book all of whose plans that keep the rules are known: under each cap the formula is satisfiable exactly where one of them sets no more
    nodes of kind 1, and what satisfies it decodes to such a plan; a plan is written under a cap exactly where it does."""
    counts = [set_count(book, borders) for borders, _ in plans]
    for cap in caps_to_try(book):
        solver = Solver(*ref.formula(book, cap))
        some = solver.solve()
        assert some == any(count <= cap for count in counts)
        tally["caps with a plan" if some else "caps without"] += 1
        if some:
            check_under(data, book, bytes(1 if v > 0 else 0 for v in solver.value[1:]), cap)
        else:
            proof = encode_steps(solver.steps)
            assert ref.entry_check_refutation(data, proof, *LENT, cap) == ("accepted",)
        for (borders, moves), count in some_of(list(zip(plans, counts)), 6):
            check_written_under(data, plan_bytes(borders, moves), count, cap, tally)
    check_minimum(data, book, counts, tally)


def check_under(data, book, assignment, cap):
    """An assignment that satisfies the formula under a cap; without what the cap added it satisfies that without a cap."""
    answer = ref.entry_unpack_plan(data, assignment, ref.plan_length(book), cap)
    assert answer[0] == "accepted" and ref.entry_check_assignment(data, assignment, cap) == ("accepted",)
    assert ref.broken_rule(book, *ref.read_plan(book, answer[1])) == 0 and set_count(book, answer[1]) <= cap
    assert ref.entry_check_assignment(data, assignment[:ref.Variables(book).count]) == ("accepted",)


def check_written_under(data, plan, count, cap, tally):
    """A plan that keeps the rules, written under a cap and unpacked again; or 22."""
    answer = ref.entry_check_plan(data, plan, 10 ** 6, cap)
    if count > cap:
        assert answer == ("refused", 22, 0)
        tally["plans above a cap"] += 1
        return
    assert answer[0] == "accepted" and ref.entry_unpack_plan(data, answer[1], len(plan), cap) == ("accepted", plan)
    tally["plans within a cap"] += 1


def check_minimum(data, book, counts, tally):
    """The fewest that a search finds are the least of all plans; the combined verdict is given for that number, and for no other."""
    good = fewest(book, 20000)
    assert (good is None) == (not counts)
    if good is None:
        tally["books without a plan"] += 1
        return
    assert good.n == min(counts)
    tally[f"fewest {good.n}"] += 1
    for n in {*range(len(free_nodes(book)) + 2), ref.MOST_NUMBER}:
        answer = ref.entry_check_fewest(data, n, good.assignment, good.refutation, *LENT)
        assert answer == (("accepted",) if n == good.n else ("refused", 22, 0))


def check_more_borders(data, book, plans, tally):
    """A plan that sets more than the fewest is refused with that number by its count, and no refutation shows that there is none with fewer."""
    good = fewest(book, 20000)
    for borders, moves in some_of(plans, 3):
        count = set_count(book, borders)
        if count == good.n:
            continue
        assignment = ref.write_assignment(book, borders, moves)
        assert ref.entry_check_fewest(data, good.n, assignment, good.refutation, *LENT) == ("refused", 22, 0)
        assert ref.entry_check_fewest(data, count, assignment, good.refutation, *LENT)[1] in range(17, 22)
        tally["plans with more than the fewest"] += 1


def small_books(rng, count):
    """Tiny books; every other one has a plan that borders carry, so that some are needed."""
    done = 0
    while done < count:
        data = carrying_book(rng, "tiny")[0] if done % 2 else random_book(rng, "tiny")
        if ref.entry_read_book(data)[0] == "accepted":
            done += 1
            yield data


def check_minima(rng, count):
    """Caps and the fewest borders by brute force."""
    tally = Counter()
    for data in small_books(rng, count):
        book = ref.read_book(data)
        found = plans_to_try(book)
        if found is None:
            tally["too many plans to try"] += 1
            continue
        plans = keeping(book, found[1])
        try:
            check_caps(data, book, plans, tally)
        except TooLong:
            tally["given up"] += 1
            continue
        if plans:
            check_more_borders(data, book, plans, tally)
    print(f"caps: {listed(tally)}")
    assert {"caps with a plan", "caps without", "plans above a cap", "plans within a cap", "fewest 0", "fewest 1", "fewest 2",
            "plans with more than the fewest"} <= set(tally)


def check_verdicts(rng, count):
    """Random inputs of the combined verdict: accepted ones name the fewest; and each refusal occurs."""
    tally = Counter()
    for data in small_books(rng, count):
        book = ref.read_book(data)
        good = fewest(book)
        lent = [rng.choice((10 ** 6, 10 ** 6, 10 ** 6, 400)) for _ in range(4)]
        for given in random_fewest(rng, book, 12, good):
            answer = ref.entry_check_fewest(data, given.n, given.assignment, given.refutation, *lent)
            tally[answer_name(answer)] += 1
            assert answer[0] != "accepted" or good is None or given.n == good.n
    print(f"combined verdicts: {listed(tally)}")
    assert {"12", "13", "14", "17", "20", "21", "22", "accepted"} <= set(tally)


def check_meanings(rng, count):
    """What the tools say of a cap's variables, against the clauses: a plan's assignment has 1 exactly where the words are true."""
    for _ in range(count):
        data, plan = carrying_book(rng, "tiny")
        book = ref.read_book(data)
        for cap in range(set_count(book, plan), len(free_nodes(book)) + 1):
            added = ref.entry_check_plan(data, plan, 10 ** 6, cap)[1][ref.Variables(book).count:]
            true = [sum(plan[node] for node in free_nodes(book) if node <= last) >= least for last, least in counted(book, cap)]
            assert list(map(bool, added)) == true


# --------------------------------------------------------------- self-test


def check_meaning(data, tally):
    """A plan keeps the rules exactly when the formula is satisfiable."""
    book = ref.read_book(data)
    variables, clauses = ref.formula(book)
    try:
        solver = Solver(variables, clauses)
        satisfiable = solver.solve()
    except TooLong:
        tally["given up"] += 1
        return
    if satisfiable:
        tally["satisfiable"] += 1
        check_satisfied(data, book, solver)
    else:
        tally["unsatisfiable"] += 1
        check_refuted(data, book, clauses, solver.steps)
    plans = plans_to_try(book)
    if plans is None:
        tally["too many plans to try"] += 1
        return
    plans = keeping(book, plans[1])
    tally["all plans tried"] += 1
    tally["plans that keep the rules"] += len(plans)
    assert satisfiable == bool(plans)
    for borders, moves in plans:
        check_left(book, moves, tally)
    for borders, moves in some_of(plans, 20):
        check_kept(data, plan_bytes(borders, moves))


def some_of(items, most):
    return random.Random(len(items)).sample(items, min(most, len(items)))


def check_satisfied(data, book, solver):
    assignment = bytes(1 if v > 0 else 0 for v in solver.value[1:])
    answer = ref.entry_unpack_plan(data, assignment, ref.plan_length(book))
    assert answer[0] == "accepted" and ref.entry_check_assignment(data, assignment) == ("accepted",)
    assert ref.broken_rule(book, *ref.read_plan(book, answer[1])) == 0
    check_kept(data, answer[1])


def check_written(data, book, plan, answer, cap=None):
    """The least claims and counts satisfy the formula exactly when the rules are kept, within the cap."""
    if answer[1] == 15:
        return
    assignment = ref.write_assignment(book, *ref.read_plan(book, plan), cap)
    again = ref.entry_check_assignment(data, assignment, cap)
    assert (answer[0] == "accepted") == (again[0] == "accepted")


def check_kept(data, plan):
    """A plan that keeps the rules comes back from its assignment."""
    answer = ref.entry_check_plan(data, plan, 10 ** 6)
    assert answer[0] == "accepted"
    again = ref.entry_unpack_plan(data, answer[1], len(plan))
    assert again == ("accepted", plan)


def check_refuted(data, book, clauses, steps):
    """Accepted with just enough lent, refused by 12 with one less."""
    words = ref.word_count(clauses) + sum(len(s[0]) + 1 for s in steps)
    count, variables = len(clauses) + len(steps), ref.Variables(book).count
    exact = [words, count, variables, variables]
    proof = encode_steps(steps)
    assert ref.entry_check_refutation(data, proof, *exact) == ("accepted",)
    for x in range(4):
        less = exact[:x] + [exact[x] - 1] + exact[x + 1:]
        answer = ref.entry_check_refutation(data, proof, *less)
        assert answer == ("refused", 12, 0)


def check_books(rng, count):
    """Random and damaged books, counted by refusal."""
    tally = {"tiny": Counter(), "small": Counter(), "long": Counter(), "damaged": Counter()}
    for _ in range(count):
        for name in ("tiny", "small", "long"):
            answer = ref.entry_read_book(random_book(rng, name))
            tally[name][answer_name(answer)] += 1
        for _ in range(4):
            answer = ref.entry_read_book(damaged_book(rng))
            tally["damaged"][answer_name(answer)] += 1
    for name, counter in tally.items():
        print(f"books, {name}: {listed(counter)}")
    assert {str(x) for x in range(1, 12)} <= set(tally["damaged"])


def check_second_inputs(rng, count):
    """Assignments, plans and refutations of random books, without a cap and under one, counted."""
    tally = {"assignments": Counter(), "plans": Counter(),
             "refutations": Counter(), "rules broken": Counter()}
    done = 0
    while done < count:
        data = random_book(rng, "long" if done % 15 == 7 else "tiny" if done % 4 else "small")
        try:
            book = ref.read_book(data)
        except ref.Refused:
            continue
        done += 1
        cap = random_cap(rng, book) if done % 2 else None
        good = solved(book, cap=cap)
        for second in random_assignments(rng, book, 12, good, cap):
            answer = ref.entry_check_assignment(data, second, cap)
            tally["assignments"][answer_name(answer)] += 1
        for second in random_plans(rng, book, 20, good):
            answer = ref.entry_check_plan(data, second, 100000, cap)
            tally["plans"][answer_name(answer)] += 1
            check_written(data, book, second, answer, cap)
            if answer[1] == 16:
                tally["rules broken"][str(answer[2])] += 1
        lent = [rng.choice((10 ** 6, 10 ** 6, 10 ** 6, 400)) for _ in range(4)]
        for second in random_refutations(rng, book, 20, cap=cap):
            answer = ref.entry_check_refutation(data, second, *lent, cap)
            tally["refutations"][answer_name(answer)] += 1
            assert not (good and answer[0] == "accepted")
    for name, counter in tally.items():
        print(f"{name}: {listed(counter)}")
    assert {str(x) for x in range(1, 7)} <= set(tally["rules broken"])
    assert {str(x) for x in range(17, 22)} <= set(tally["refutations"])
    assert "22" in tally["plans"]


def arguments(parser):
    parser.add_argument("seed", metavar="SEED", nargs="?", type=int, default=1, help="a number, by default 1")


def run(options):
    rng = random.Random(options.seed)
    check_figures()
    check_shapes()
    check_books_l_and_m()
    check_exits()
    check_lengths()
    check_rewritten_l_and_m()
    check_pages()
    check_lists()
    check_counters()
    check_combined()
    check_capped_plans()
    print("the document's examples hold")
    check_books(rng, 400)
    check_rewriting(rng, 1000)
    check_second_inputs(rng, 150)
    meaning, tried = Counter(), 0
    while tried < 500:
        data = random_book(rng, "long" if tried % 25 == 9 else "tiny" if tried % 10 else "small")
        if ref.entry_read_book(data)[0] == "accepted":
            check_meaning(data, meaning)
            tried += 1
    print(f"meaning: {listed(meaning)}")
    check_graphs(rng, 200)
    check_carriers(rng, 300)
    check_minima(rng, 200)
    check_verdicts(rng, 100)
    check_meanings(rng, 60)
    print("all held")
    return 0
