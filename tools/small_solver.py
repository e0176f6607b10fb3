"""A small solver that is plain to read, for tiny formulas, and refutations of several kinds."""
from .inputs import TooLong, encode_steps


class Solver:
    """A plain DPLL: unit propagation, a decision, its two children.  Each
    leaf gives the clause of the negated decisions that it used, each inner
    node the resolvent of its children, in the form of refutation steps."""

    def __init__(self, variables, clauses, budget=20000):
        self.clauses = clauses
        self.value = [0] * (variables + 1)      # 1 true, -1 false, 0 open
        self.reason = [None] * (variables + 1)  # clause index, None: decided
        self.trail = []
        self.seen = 0
        self.steps = []                         # (literals, hints)
        self.budget = budget
        self.where = {}
        for index, clause in enumerate(clauses):
            for x in clause:
                self.where.setdefault(x, []).append(index)

    def of(self, x):
        return self.value[x] if x > 0 else -self.value[-x]

    def assign(self, x, reason):
        self.value[abs(x)] = 1 if x > 0 else -1
        self.reason[abs(x)] = reason
        self.trail.append(x)

    def undo(self, length):
        while len(self.trail) > length:
            self.value[abs(self.trail.pop())] = 0
        self.seen = length

    def look(self, index):
        """True if the clause is false now; a unit clause is carried out."""
        waiting = None
        for x in self.clauses[index]:
            value = self.of(x)
            if value > 0 or (value == 0 and waiting is not None):
                return False
            if value == 0:
                waiting = x
        if waiting is None:
            return True
        self.assign(waiting, index)
        return False

    def propagate(self):
        """The index of a false clause, or None."""
        while self.seen < len(self.trail):
            x = self.trail[self.seen]
            self.seen += 1
            for index in self.where.get(-x, ()):
                if self.look(index):
                    return index
        return None

    def begin(self):
        """Propagation of the clauses that are short from the start."""
        for index, clause in enumerate(self.clauses):
            if len(clause) < 2 and self.look(index):
                return index
        return self.propagate()

    def leaf(self, false):
        """A step: the negated decisions used; hints in propagation order."""
        needed = {abs(x) for x in self.clauses[false]}
        literals, hints = [], [false + 1]
        for x in reversed(self.trail):
            if abs(x) not in needed:
                continue
            reason = self.reason[abs(x)]
            if reason is None:
                literals.append(-x)
            else:
                hints.append(reason + 1)
                needed.update(abs(y) for y in self.clauses[reason])
        return self.add(literals, hints[::-1])

    def add(self, literals, hints):
        """Keep a step; its answer is its literals and its clause number."""
        self.steps.append((sorted(literals, key=abs), hints))
        return frozenset(literals), len(self.clauses) + len(self.steps)

    def choose(self):
        """The first open literal of the first clause not yet true."""
        for clause in self.clauses:
            if not any(self.of(x) > 0 for x in clause):
                return next(x for x in clause if self.of(x) == 0)
        return None

    def explore(self, false):
        """None if satisfied, else the clause learnt and its number."""
        self.budget -= 1
        if self.budget < 0:
            raise TooLong()
        if false is not None:
            return self.leaf(false)
        x = self.choose()
        if x is None:
            return None
        length, learnt = len(self.trail), []
        for decision in (x, -x):
            self.assign(decision, None)
            answer = self.explore(self.propagate())
            if answer is None:
                return None
            self.undo(length)
            if -decision not in answer[0]:
                return answer
            learnt.append(answer)
        (left, m), (right, n) = learnt
        return self.add((left - {-x}) | (right - {x}), [m, n])

    def solve(self):
        """True if satisfiable."""
        return self.explore(self.begin()) is None


def satisfying_assignment(variable_count, clauses, budget=20000):
    """One byte a variable, or None if there is none."""
    solver = Solver(variable_count, clauses, budget)
    if not solver.solve():
        return None
    return bytes(1 if v > 0 else 0 for v in solver.value[1:])


def refutation_steps(variable_count, clauses, budget=20000):
    """The steps of a refutation, or None if the formula is satisfiable."""
    solver = Solver(variable_count, clauses, budget)
    return None if solver.solve() else solver.steps


def refutation(variable_count, clauses, budget=20000):
    """The refutation's bytes, or None if the formula is satisfiable."""
    steps = refutation_steps(variable_count, clauses, budget)
    return None if steps is None else encode_steps(steps)
