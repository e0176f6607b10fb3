#!/usr/bin/env python3
"""Decides a formula and shows it: an assignment, or a refutation in document 01's frames of kind 20.

    solve.py FORMULA OUT

FORMULA is DIMACS text. Prints "satisfiable" and writes one byte 0 or 1 a variable to OUT, or prints "unsatisfiable" and writes
the refutation there. It knows of nothing but the DIMACS text and the step rule, so that an error elsewhere is not shared here.

The search is conflict-driven clause learning: each conflict gives a clause, and that clause is a step, whose hints are the reasons
that it was resolved from. Steps that the empty step does not rest on are left out at the end.

Exit status: 0 answered, 1 a step is longer than a frame holds, 2 a file or its text is wrong.
"""

import heapq
import re
import struct
import sys

KIND = 20
PAYLOAD_MOST = 65535
VARIABLES_MOST = 2**31 - 1
# conflicts between restarts, times luby's numbers
RUN = 100
DECAY = 0.95
ACTIVITY_MOST = 1e100


class Failure(Exception):
    """Ends the program: the exit status, and a message."""


# ---- the formula


def number_of(word):
    # int alone would also take +1 and 1_0
    if not re.fullmatch("-?[0-9]+", word):
        raise Failure(2, f"no number: {word}")
    return int(word)


def read_lines(name):
    """The lines that are neither blank nor comments."""
    try:
        with open(name, encoding="ascii") as file:
            return [line for line in file if line.strip() and not line.startswith("c")]
    except OSError as error:
        raise Failure(2, str(error)) from None
    except UnicodeDecodeError:
        raise Failure(2, f"not ASCII text: {name}") from None


def read_formula(name):
    """The number of variables, and the clauses as they stand in the file."""
    lines = read_lines(name)
    header = re.fullmatch(r"p\s+cnf\s+([0-9]+)\s+([0-9]+)\s*", lines[0] if lines else "")
    if not header:
        raise Failure(2, "the formula does not begin with a line: p cnf VARIABLES CLAUSES")
    variables, count = int(header[1]), int(header[2])
    if variables > VARIABLES_MOST:
        raise Failure(2, f"more variables than a literal can name: {variables}")
    clauses = [[]]
    for line in lines[1:]:
        for literal in map(number_of, line.split()):
            if abs(literal) > variables:
                raise Failure(2, f"no such variable: {literal}")
            if literal:
                clauses[-1].append(literal)
            else:
                clauses.append([])
    if clauses.pop():
        raise Failure(2, "the last clause is not closed by 0")
    if len(clauses) != count:
        raise Failure(2, f"the header says {count} clauses, the file has {len(clauses)}")
    return variables, clauses


# ---- the search


def luby():
    """1 1 2 1 1 2 4 1 1 2 ...: short runs mostly, and now and then a long one."""
    u = v = 1
    while True:
        yield v
        u, v = (u + 1, 1) if u & -u == v else (u, 2 * v)


class Solver:
    def __init__(self, variables, clauses):
        # Clause n stands at n, since hints count from 1; steps are added behind the formula's.
        self.clauses = [[], *map(list, clauses)]
        self.formula = len(clauses)
        self.hints = {}
        # A literal is its own index: Python counts -v from the end, so a list of 2 V + 1 has a place for either sign.
        self.value = [0] * (2 * variables + 1)  # 1 true, -1 false, 0 open
        self.watches = [[] for _ in self.value]
        # By variable: the level at which it was set, the clause that set it (0 for a decision), its place on the trail.
        self.level = [0] * (variables + 1)
        self.reason = [0] * (variables + 1)
        self.place = [0] * (variables + 1)
        self.phase = [-1] * (variables + 1)
        self.activity = [0.0] * (variables + 1)
        self.weight = 1.0
        self.trail = []
        self.looked = 0  # so much of the trail was propagated
        self.settled = 0  # so much of it has unit clauses as reasons
        self.decisions = []  # the length of the trail before each decision
        self.order = []
        self.sort_variables()

    def solve(self):
        """Whether the formula is satisfiable. If not, the last step is the empty one."""
        runs = luby()
        left = RUN * next(runs)
        conflict = self.enter_formula()
        while True:
            conflict = conflict or self.propagate()
            if not self.decisions:
                self.settle()
            if conflict and not self.decisions:
                self.add_step([], self.unit_hints(conflict, 0))
                return False
            if conflict:
                self.learn(conflict)
                conflict = 0
                left -= 1
            elif left <= 0:
                left = RUN * next(runs)
                self.back_to(0)
                self.sort_variables()
            elif not self.decide():
                return True

    def enter_formula(self):
        """Watches the clauses and sets the units. Answers a clause that is all false, or 0."""
        for number in range(1, self.formula + 1):
            literals = set(self.clauses[number])
            if any(-literal in literals for literal in literals):
                continue  # true whatever happens: it is never a hint
            if len(literals) < len(self.clauses[number]):
                # A checker may well count a literal that stands twice as two open ones, so a step without the repetition
                # is named in place of this clause.
                number = self.add_step(list(literals), [number])
            if self.enter_clause(number):
                return number
        return 0

    def enter_clause(self, number):
        """Answers whether the clause is all false. Nothing was propagated yet, so longer clauses are watched as they are."""
        clause = self.clauses[number]
        if len(clause) > 1:
            self.watch(number)
        elif not clause or self.value[clause[0]] < 0:
            return True
        elif not self.value[clause[0]]:
            self.set_true(clause[0], number)
        return False

    def watch(self, number):
        for literal in self.clauses[number][:2]:
            self.watches[literal].append(number)

    def add_step(self, literals, hints):
        self.clauses.append(literals)
        number = len(self.clauses) - 1
        self.hints[number] = hints
        return number

    def set_true(self, literal, reason):
        variable = abs(literal)
        self.value[literal] = 1
        self.value[-literal] = -1
        self.level[variable] = len(self.decisions)
        self.reason[variable] = reason
        self.place[variable] = len(self.trail)
        self.trail.append(literal)

    def propagate(self):
        """Sets what follows by unit clauses. Answers a clause that is all false, or 0."""
        while self.looked < len(self.trail):
            conflict = self.visit_watchers(-self.trail[self.looked])
            self.looked += 1
            if conflict:
                return conflict
        return 0

    def visit_watchers(self, falsified):
        """The first two literals of a clause are watched; a false one is exchanged for one that is not, where there is one."""
        value, clauses, watches = self.value, self.clauses, self.watches
        watchers = watches[falsified]
        kept = watches[falsified] = []
        for at, number in enumerate(watchers):
            clause = clauses[number]
            if clause[0] == falsified:
                clause[0], clause[1] = clause[1], falsified
            first = clause[0]
            if value[first] <= 0:
                for k in range(2, len(clause)):
                    other = clause[k]
                    if value[other] >= 0:
                        clause[1], clause[k] = other, falsified
                        watches[other].append(number)
                        break
                else:
                    if value[first] < 0:
                        kept.extend(watchers[at:])
                        return number
                    kept.append(number)
                    self.set_true(first, number)
            else:
                kept.append(number)
        return 0

    def settle(self):
        """What is true without decisions stays so: it gets a unit step, so that hints name that step and not the way to it."""
        for literal in self.trail[self.settled:]:
            variable = abs(literal)
            reason = self.reason[variable]
            if len(self.clauses[reason]) > 1:
                self.reason[variable] = self.add_step([literal], self.unit_hints(reason, variable))
        self.settled = len(self.trail)

    def unit_hints(self, number, but):
        """The hints that make a clause all false, when its literals, but for one variable's, are false by unit clauses."""
        hints = [self.reason[abs(literal)] for literal in self.clauses[number] if abs(literal) != but]
        return [*hints, number]

    # ---- learning

    def learn(self, conflict):
        """Adds the clause that the conflict teaches, and goes back to where it is unit."""
        literals, used = self.resolve(conflict)
        literals, used = self.shorten(literals, used)
        # The order of the trail is one in which each reason is unit when its turn comes.
        used.sort(key=self.place.__getitem__)
        number = self.add_step(literals, [*(self.reason[variable] for variable in used), conflict])
        self.back_to(self.level[abs(literals[1])] if len(literals) > 1 else 0)
        if len(literals) > 1:
            self.watch(number)
        self.set_true(literals[0], number)
        self.weight /= DECAY
        if self.weight > ACTIVITY_MOST:
            self.shrink_activity()

    def resolve(self, conflict):
        """Resolves the conflict with reasons of its level until one literal of that level is left, which comes first.

        Also answers the variables whose reasons were used; those that are fixed for good are among them."""
        here = len(self.decisions)
        seen, used, lower = set(), [], []
        waiting, at, clause = 0, len(self.trail), self.clauses[conflict]
        while True:
            for literal in clause:
                variable = abs(literal)
                if variable in seen:
                    continue
                seen.add(variable)
                self.activity[variable] += self.weight
                if self.level[variable] == here:
                    waiting += 1
                elif self.level[variable]:
                    lower.append(literal)
                else:
                    used.append(variable)
            at -= 1
            while abs(self.trail[at]) not in seen:
                at -= 1
            if waiting == 1:
                return [-self.trail[at], *lower], used
            waiting -= 1
            used.append(abs(self.trail[at]))
            clause = self.clauses[self.reason[used[-1]]]

    def shorten(self, literals, used):
        """Leaves out literals that are false by the others; the one of the highest level comes second, for the watch."""
        inside = {abs(literal) for literal in literals}
        used = set(used)
        kept = []
        for literal in literals[1:]:
            reason = self.reason[abs(literal)]
            others = {abs(other) for other in self.clauses[reason]} - inside
            if reason and not any(self.level[variable] for variable in others):
                used |= others | {abs(literal)}
            else:
                kept.append(literal)
        kept.sort(key=lambda literal: -self.level[abs(literal)])
        return [literals[0], *kept], list(used)

    # ---- decisions

    def decide(self):
        """Sets an open variable, the most active one, as it was last. Answers whether there was one."""
        while self.order:
            _, variable = heapq.heappop(self.order)
            if not self.value[variable]:
                self.decisions.append(len(self.trail))
                self.set_true(self.phase[variable] * variable, 0)
                return True
        return False

    def back_to(self, level):
        if level == len(self.decisions):
            return
        start = self.decisions[level]
        for literal in self.trail[start:]:
            variable = abs(literal)
            self.phase[variable] = self.value[variable]
            self.value[literal] = self.value[-literal] = 0
            heapq.heappush(self.order, (-self.activity[variable], variable))
        del self.trail[start:], self.decisions[level:]
        self.looked = start

    def sort_variables(self):
        """Begins the heap of open variables again, since old entries pile up in it."""
        self.order = [(-self.activity[v], v) for v in range(1, len(self.level)) if not self.value[v]]
        heapq.heapify(self.order)

    def shrink_activity(self):
        self.activity = [activity / self.weight for activity in self.activity]
        self.weight = 1.0
        self.sort_variables()

    # ---- the answer

    def assignment(self):
        return bytes(self.value[variable] > 0 for variable in range(1, len(self.level)))

    def refutation(self):
        """The frames of the steps that the last one rests on, numbered again."""
        new = {}
        for number in self.needed():
            new[number] = self.formula + 1 + len(new)
        return b"".join(frame(self.clauses[n], [new.get(h, h) for h in self.hints[n]]) for n in new)

    def needed(self):
        needed = {len(self.clauses) - 1}
        for number in range(len(self.clauses) - 1, self.formula, -1):
            if number in needed:
                needed.update(hint for hint in self.hints[number] if hint > self.formula)
        return sorted(needed)


def frame(literals, hints):
    size = 2 + 4 * len(literals) + 4 * len(hints)
    if size > PAYLOAD_MOST:
        raise Failure(1, "a step is longer than a frame holds")
    form = f"<HHH{len(literals)}i{len(hints)}I"
    return struct.pack(form, size, KIND, len(literals), *sorted(literals, key=abs), *hints)


def answer(formula, out):
    solver = Solver(*read_formula(formula))
    satisfiable = solver.solve()
    data = solver.assignment() if satisfiable else solver.refutation()
    try:
        with open(out, "wb") as file:
            file.write(data)
    except OSError as error:
        raise Failure(2, str(error)) from None
    print("satisfiable" if satisfiable else "unsatisfiable")


def main(names):
    try:
        if len(names) != 2:
            raise Failure(2, "usage: solve.py FORMULA OUT")
        answer(*names)
    except Failure as failure:
        status, text = failure.args
        print(f"solve.py: {text}", file=sys.stderr)
        return status
    return 0


if __name__ == "__main__":
    sys.exit(main(sys.argv[1:]))
