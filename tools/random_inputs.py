"""Random, damaged and hostile caps, plans, assignments and refutations for a book, from a random.Random and nothing else."""
import struct
from collections import namedtuple

from . import reference as ref
from .books import border_bytes, free_nodes
from .inputs import TooLong, encode_steps, plan_bytes, step_frame
from .reference import ABSENT, GONE
from .small_solver import Solver, refutation_steps, satisfying_assignment

# ------------------------------------------------------------- random caps


def edge_caps(book):
    """None, and about both ends of what a cap can say, each once."""
    count = len(free_nodes(book))
    return list(dict.fromkeys(cap for cap in (None, 0, 1, count - 1, count, count + 3, ref.MOST_NUMBER) if cap is None or cap >= 0))


def random_cap(rng, book):
    """One of these, or one in between, which is the likeliest to add something."""
    between = rng.randint(0, max(len(free_nodes(book)) - 1, 0))
    return rng.choice((*edge_caps(book), between, between))


# ------------------------------------------------------------ random plans


def random_borders(rng, book):
    """Bytes that the kinds of the nodes allow."""
    allowed = map(border_bytes, book.nodes)
    return [rng.choice(some) if len(some) > 1 else some[0] for some in allowed]


def random_walk(rng, book, tr, still, free=lambda t, run: True):
    """A movement that keeps rules 2 to 4: runs end to end, each free in its interval, maybe gone; None where it comes to a dead end."""
    train, runs, place = book.trains[tr], book.runs[tr], book.trains[tr].place
    row_, gone = [ABSENT] * train.departure, False
    while len(row_) < book.T:
        leaves = ref.may_leave(book, train, place) and len(row_) > train.departure
        gone = gone or (leaves and rng.random() < 0.4)
        if gone:
            row_.append(GONE)
            continue
        ways = [r for r, run in enumerate(runs) if run[:train.l] == place and free(len(row_), run)]
        if not ways:
            return None
        r = ways[0] if still else rng.choice(ways)
        row_.append(r)
        place = ref.end_place(train, runs[r])
    return row_


def walked_plan(rng, book):
    still = rng.random() < 0.3
    moves = [random_walk(rng, book, tr, still and rng.random() < 0.8)
             for tr in range(len(book.trains))]
    return random_borders(rng, book), moves


def break_plan(rng, book, borders, moves):
    """Spoil one byte or move in place, by one of the rules."""
    tr = rng.randrange(len(book.trains))
    d, T = book.trains[tr].departure, book.T
    anywhere = rng.randrange(T)
    any_run = rng.randrange(len(book.runs[tr]))
    style = rng.randrange(6)
    if style == 0:
        borders[rng.randrange(len(borders))] ^= 1
    elif style == 1:
        moves[tr][anywhere] = rng.choice((ABSENT, any_run))
    elif style == 2:
        moves[tr][d] = rng.choice((GONE, ABSENT, any_run))
    elif style == 3:
        at = rng.randint(min(d + 1, T - 1), T - 1)
        count = rng.choice((1, T - at))
        moves[tr][at:at + count] = [GONE] * count
    elif style == 4:
        moves[tr][rng.randint(min(d + 1, T - 1), T - 1)] = any_run
    else:
        moves[tr] = random_walk(rng, book, tr, rng.random() < 0.3)


def spoiled_bytes(rng, data, values):
    """One byte flipped, of a set value, or one byte short or long."""
    style = rng.randrange(5)
    if style == 0:
        return data[:-1]
    if style == 1:
        return data + bytes([rng.choice((0, 1, 255))])
    if style == 2 and data:
        return data[1:]
    if not data:
        return rng.randbytes(2)
    at = rng.randrange(len(data))
    byte = rng.choice(values) if style == 3 else data[at] ^ (1 << rng.randrange(8))
    return data[:at] + bytes([byte]) + data[at + 1:]


def spoiled_input(rng, data):
    """The same of a plan or an assignment, whose bytes are mostly 0 and 1."""
    return spoiled_bytes(rng, data, (0, 1, 2, 255))


def flipped(data, at):
    """The bytes with a 0 made 1, or a 1 made 0."""
    return data[:at] + bytes([1 - data[at]]) + data[at + 1:]


def outside_plan(rng, book, borders, moves):
    """A run number past the list, or a border that is no 0 or 1."""
    tr = rng.randrange(len(book.trains))
    count = len(book.runs[tr])
    if rng.random() < 0.75:
        moves[tr][rng.randrange(book.T)] = rng.choice(
            (count, count + 1, ABSENT - 1, 256 + rng.randrange(count + 1), count - 1))
    else:
        borders[rng.randrange(len(borders))] = rng.choice((2, 255))


def solved(book, budget=2000, cap=None):
    """A satisfying assignment, None if there is none or none was found."""
    try:
        return satisfying_assignment(*ref.formula(book, cap), budget)
    except TooLong:
        return None


def nearly_plan(rng, book, good):
    """A good plan, where there is one, or trains that go anywhere, with up to three things wrong."""
    if good and rng.random() < 0.6:
        borders, moves = ref.read_plan(book, good)
    else:
        borders, moves = walked_plan(rng, book)
    for _ in range(rng.choice((0, 1, 1, 1, 2))):
        break_plan(rng, book, borders, moves)
    style = rng.random()
    if style < 0.12:
        outside_plan(rng, book, borders, moves)
    data = plan_bytes(borders, moves)
    return spoiled_input(rng, data) if 0.12 < style < 0.24 else data


def random_plans(rng, book, count=30, assignment=None):
    """Good plans where there is one, nearly good ones, hostile ones."""
    assignment = assignment or solved(book)
    good = ref.decode(book, assignment) if assignment else None
    if good:
        yield good
    yield from (b"", rng.randbytes(ref.plan_length(book)))
    for _ in range(count):
        yield nearly_plan(rng, book, good)


def kept_plans(rng, book, tries=30, assignment=None):
    """Different plans that keep the rules: what a solver finds, and those of random walks that happen to. Random plans are mostly refused."""
    assignment = assignment or solved(book)
    if not assignment:
        return
    good, found = ref.decode(book, assignment), set()
    for plan in (good, *(plan_bytes(*walked_plan(rng, book)) for _ in range(tries)), *(with_borders(rng, book, good) for _ in range(tries // 10))):
        if plan not in found and ref.broken_rule(book, *ref.read_plan(book, plan)) == 0:
            found.add(plan)
            yield plan


def with_borders(rng, book, plan):
    """The same movements with other borders."""
    return bytes(random_borders(rng, book)) + plan[len(book.nodes):]


def all_borders(book):
    """As many borders as there may be."""
    return [max(border_bytes(kind)) for kind in book.nodes]


def with_all_borders(book, plan):
    """The same movements with as many borders as there may be; where the rules were kept they are now."""
    return bytes(all_borders(book)) + plan[len(book.nodes):]


def with_needed_borders(rng, book, plan):
    """Of a plan that keeps the rules the movements with as many borders as there may be, cleared one after another, in any order, where the rules
    stay kept: each border of kind 1 that is left carries the plan."""
    borders, moves = ref.read_plan(book, with_all_borders(book, plan))
    for node in rng.sample(range(len(borders)), len(borders)):
        less = [*borders[:node], min(border_bytes(book.nodes[node])), *borders[node + 1:]]
        if ref.broken_rule(book, less, moves) == 0:
            borders = less
    return plan_bytes(borders, moves)


def with_more_borders(rng, book, plan):
    """The same movements with further borders, so that some may carry and others not."""
    more = [rng.choice((border, border, most)) for border, most in zip(plan, all_borders(book))]
    return bytes(more) + plan[len(book.nodes):]


def border_plans(rng, book, plan):
    """Of a plan that keeps the rules, plans that keep them too, with as many borders as there may be, with none that could go, with a few
    more than that, and as it is; each once."""
    needed = with_needed_borders(rng, book, plan)
    return list(dict.fromkeys((plan, with_all_borders(book, plan), needed, with_more_borders(rng, book, needed))))


# ------------------------------------------------------ random assignments


def claim_more(rng, book, assignment):
    """Set some claims that are not needed: they need not be least."""
    v, out = ref.Variables(book), bytearray(assignment)
    tr, all_of = rng.randrange(len(book.trains)), rng.random() < 0.5
    for i in range(book.T):
        for s in range(len(book.segments)):
            if all_of or rng.random() < 0.2:
                out[v.claim(tr, i, s) - 1] = 1
    return bytes(out)


def count_more(rng, book, assignment):
    """Set some of the variables that a cap adds, which need not be least either."""
    first, more = ref.Variables(book).count, rng.choice((0.2, 1))
    return assignment[:first] + bytes(byte | (rng.random() < more) for byte in assignment[first:])


def nearly_assignment(rng, book, good, cap=None):
    """A good assignment, where there is one, or one of trains that go anywhere: surplus claims, a variable changed, a wrong byte or length. Under a
    cap also surplus counts, one of its variables changed, and none of them there."""
    if good and rng.random() < 0.6:
        data = good
    else:
        borders, moves = walked_plan(rng, book)
        if rng.random() < 0.5:
            break_plan(rng, book, borders, moves)
        data = ref.write_assignment(book, borders, moves, cap)
    first = ref.Variables(book).count
    if len(data) > first and rng.random() < 0.5:
        return rng.choice((count_more(rng, book, data), flipped(data, rng.randrange(first, len(data))), data[:first], data))
    style = rng.random()
    if style < 0.25:
        return claim_more(rng, book, data)
    if style < 0.6:
        return flipped(data, rng.randrange(len(data)))
    return spoiled_input(rng, data) if style < 0.85 else data


def random_assignments(rng, book, count=30, assignment=None, cap=None):
    """Good assignments where there is one, nearly good ones, hostile ones."""
    good = assignment or solved(book, cap=cap)
    size = ref.Variables(book, cap).count
    if good:
        yield good
    yield from (b"", bytes(size), bytes([1]) * size, bytes([2]) * size)
    yield bytes(rng.randrange(2) for _ in range(size))
    for _ in range(count):
        yield nearly_assignment(rng, book, good, cap)


# ------------------------------------------------------ random refutations


def honest_steps(rng, variables, clauses, count):
    """Steps that keep the step rule, whether or not a plan exists."""
    solver = Solver(variables, clauses)
    for _ in range(count):
        if rng.random() < 0.3:
            at = rng.randrange(len(clauses))
            extra = rng.sample(range(1, variables + 1), min(2, variables))
            literals = {abs(x): x for x in clauses[at]}
            literals = {**{x: rng.choice((x, -x)) for x in extra}, **literals}
            solver.add(literals.values(), [at + 1])
            if not literals:
                break
            continue
        false = solver.begin()
        while false is None and len(solver.trail) < variables:
            x = rng.randint(1, variables)
            if solver.value[x] == 0:
                solver.assign(rng.choice((x, x, -x)), None)
                false = solver.propagate()
        if false is not None and not solver.leaf(false)[0]:
            break               # the empty step is the last
        solver.undo(0)
    return solver.steps


def wrong_literals(rng, variables, literals):
    """Literals that 18 refuses, or that another rule looks at."""
    least = -2 ** 31
    wrong = [0, variables + 1, -variables - 1, least, 2 ** 31 - 1, least + 1]
    out, style = list(literals), rng.randrange(6)
    if style == 0 or not out:
        out.insert(rng.randint(0, len(out)), rng.choice(wrong))
    elif style == 1:
        out[rng.randrange(len(out))] = rng.choice(wrong)
    elif style == 2:
        out.reverse()
    elif style == 3:
        x = rng.randrange(len(out))
        out.insert(x + 1, rng.choice((out[x], -out[x])))
    elif style == 4:
        x = rng.randrange(len(out))
        out[x] = -out[x]
    else:
        del out[rng.randrange(len(out))]
    return out


def wrong_hints(rng, own, hints):
    """Hints that 19 refuses, or repeated, useless, early or missing ones."""
    out, style = list(hints), rng.randrange(8)
    at = rng.randint(0, len(out))
    if style == 0:
        out.insert(at, rng.choice((0, own, own + 1, own - 1, 2 ** 31,
                                   2 ** 31 + 1, 2 ** 32 - 1, 2 ** 31 - 1)))
    elif style == 1:
        out.insert(at, rng.randint(1, max(1, own - 1)))
    elif style == 2 and out:
        out.insert(at, rng.choice(out))
    elif style == 3 and out:
        out.append(rng.choice((out[-1], 1)))
    elif style == 4 and out:
        del out[rng.randrange(len(out))]
    elif style == 5:
        rng.shuffle(out)
    elif style == 6 and out:
        out[rng.randrange(len(out))] = rng.choice((0, own, 1, own - 1))
    else:
        out = out[:-1]
    return out


def wrong_frame(rng, literals, hints):
    """A step's bytes with a lying count, kind or length."""
    good = step_frame(literals, hints)
    n = len(literals)
    style = rng.randrange(7)
    if style == 0:
        return step_frame(literals, hints, kind=rng.choice((0, 8, 19, 21, 276)))
    if style == 1:
        return step_frame(literals, hints, count=rng.choice(
            (n + len(hints) + 1, 65535, 16384, 32768, n + 1)))
    if style == 2:
        return step_frame(literals, hints, count=rng.choice((0, n + 1, n - 1)))
    if style == 3:
        return struct.pack("<HH", len(good) - 4 + rng.choice((-4, -1, 1, 4)) & 0xFFFF,
                           20) + good[4:]
    if style == 4:
        extra = rng.randbytes(rng.randint(1, 3))
        return struct.pack("<HH", len(good) - 4 + len(extra), 20) + good[4:] + extra
    if style == 5:
        return struct.pack("<HH", rng.choice((0, 1)), 20) + b"\0"
    return step_frame([], [])


def spoil_steps(rng, variables, clauses, steps):
    """The bytes of these steps with one of them wrong."""
    parts = [step_frame(*step) for step in steps]
    at = rng.randrange(len(steps))
    literals, hints = steps[at]
    own = len(clauses) + at + 1
    style = rng.randrange(4)
    if style == 0:
        literals = wrong_literals(rng, variables, literals)
    elif style == 1:
        hints = wrong_hints(rng, own, hints)
    elif style == 2:
        parts[at] = wrong_frame(rng, literals, hints)
        return b"".join(parts)
    else:
        del parts[at]
        return b"".join(parts)
    parts[at] = step_frame(literals, hints)
    return b"".join(parts)


def spoil_ending(rng, data, steps):
    """Bytes after the end, two empty steps, none, or the file cut."""
    last = step_frame(*steps[-1])
    style = rng.randrange(6)
    if style == 0:
        return data + rng.randbytes(rng.randint(1, 5))
    if style == 1:
        return data + last
    if style == 2:
        return data[:-len(last)]
    if style == 3:
        return data[:rng.randrange(len(data) + 1)]
    if style == 4:
        return data + step_frame([1], [1])
    at = rng.randrange(len(data))
    return data[:at] + bytes([data[at] ^ (1 << rng.randrange(8))]) + data[at + 1:]


def damaged_refutation(rng, variables, clauses, steps):
    """Bytes of a refutation with one thing wrong, or two."""
    style = rng.random()
    at = rng.randrange(len(steps))
    if style < 0.5:
        return spoil_steps(rng, variables, clauses, steps)
    if style < 0.75:
        return spoil_ending(rng, encode_steps(steps), steps)
    if style < 0.83:
        # a step once more: the numbers behind it are off by one
        return encode_steps(steps[:at + 1] + steps[at:])
    if style < 0.88:
        other = rng.randrange(len(steps))
        chosen = list(steps)
        chosen[at], chosen[other] = chosen[other], chosen[at]
        return encode_steps(chosen)
    # behind a step an empty one that would pass if what the step set had stayed
    literals, hints = steps[at]
    kept = rng.choice(([], literals[1:], literals[:-1]))
    return encode_steps(steps[:at + 1] + [(kept, rng.choice((hints[-1:], hints)))] + steps[at + 1:])


def random_refutations(rng, book, count=30, steps=None, budget=2000, cap=None):
    """A good refutation where there is one, nearly good and hostile ones."""
    variables, clauses = ref.formula(book, cap)
    try:
        steps = steps or refutation_steps(variables, clauses, budget)
    except TooLong:
        steps = None
    yield from (b"", step_frame([], []), step_frame([], [1]),
                step_frame([1], []), rng.randbytes(rng.randint(1, 60)))
    yield step_frame([], range(1, min(len(clauses), 16000) + 1))
    if steps:
        yield encode_steps(steps)
    for _ in range(count):
        chosen = steps if steps and rng.random() < 0.7 else None
        chosen = chosen or honest_steps(rng, variables, clauses, 3)
        if not chosen:
            continue
        style = rng.random()
        if style < 0.1:
            yield encode_steps(chosen)
        elif style < 0.75:
            yield spoil_steps(rng, variables, clauses, chosen)
        else:
            yield spoil_ending(rng, encode_steps(chosen), chosen)


# ------------------------------------------------- the fewest borders of kind 1

# n, an assignment and a refutation, for the combined verdict
Fewest = namedtuple("Fewest", "n assignment refutation")


def set_count(book, plan):
    """How many nodes of kind 1 a plan sets."""
    return sum(plan[node] for node in free_nodes(book))


def assignment_of(book, plan):
    """The least assignment of a plan, without a cap."""
    return ref.write_assignment(book, *ref.read_plan(book, plan))


def fewest(book, budget=2000):
    """The fewest nodes of kind 1 that a plan which keeps the rules sets, with what shows it; None where there is no plan, or a search was given
    up."""
    assignment, refutation = solved(book, budget), b""
    while assignment:
        plan = ref.decode(book, assignment)
        n = set_count(book, plan)
        if n == 0:
            break
        solver = Solver(*ref.formula(book, n - 1), budget)
        try:
            less = solver.solve()
        except TooLong:
            return None
        if not less:
            refutation = encode_steps(solver.steps)
            break
        assignment = bytes(1 if v > 0 else 0 for v in solver.value[1:])
    return Fewest(n, assignment_of(book, plan), refutation) if assignment else None


def wrong_number(rng, book, n):
    """Another n: one off either way, at an edge, or anything."""
    count = len(free_nodes(book))
    return rng.choice([x for x in (n - 1, n + 1, 0, count, count + 1, ref.MOST_NUMBER, rng.randint(0, count + 2)) if x >= 0])


def more_than_needed(rng, book, good):
    """The assignment of the same movements with further borders, and the n that it has then, or the n of before."""
    plan = with_more_borders(rng, book, ref.decode(book, good.assignment))
    return good._replace(assignment=assignment_of(book, plan), n=rng.choice((good.n, set_count(book, plan))))


def nearly_refutation(rng, book, good):
    """The refutation spoiled, one of another cap, or an empty one."""
    cap = rng.choice((max(good.n - 1, 0), good.n, None))
    return rng.choice(list(random_refutations(rng, book, 3, budget=300, cap=cap)))


def nearly_fewest(rng, book, good):
    """The fewest with something wrong, or with two things."""
    for _ in range(rng.choice((1, 1, 1, 2))):
        style = rng.random()
        if style < 0.3:
            good = good._replace(n=wrong_number(rng, book, good.n))
        elif style < 0.5:
            good = more_than_needed(rng, book, good)
        elif style < 0.7:
            good = good._replace(assignment=nearly_assignment(rng, book, good.assignment))
        else:
            good = good._replace(refutation=nearly_refutation(rng, book, good))
    return good


def random_fewest(rng, book, count=20, good=None):
    """The fewest of a book where it is found, nearly good ones, hostile ones; of a book without a plan only these."""
    good = good or fewest(book)
    if good:
        yield good
        for _ in range(count):
            try:
                yield nearly_fewest(rng, book, good)
            except (IndexError, ref.Refused):
                continue        # what is wrong already can't be spoiled in this way
    size = ref.Variables(book).count
    for n in rng.sample((0, 1, len(free_nodes(book)), ref.MOST_NUMBER), 2):
        yield Fewest(n, rng.choice((b"", bytes(size), bytes([1]) * size)), rng.choice((b"", step_frame([], [1]))))
    steps = list(random_refutations(rng, book, 2, budget=300, cap=rng.choice((None, 0))))
    yield Fewest(1, nearly_assignment(rng, book, None), rng.choice(steps))
