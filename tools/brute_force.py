"""The verdict and the rows of a procedure with few fluents, by trying every case.

A literal is a pair of a fluent and its value, a partial state is a set of literals, and a world
is a partial state that has every fluent. Nothing is worked backward: whether a plan holds from a
partial state is decided by following it from the set of all worlds that extend the state.
"""
from itertools import combinations, product

from checker import AT_GAP, GOAL_UNKNOWN, MOST_ROWS, UNMET_CONDITIONS
from checker import Do, End, Gap, Read, State


def literals(n, true, false=0):
    found = {(fluent, True) for fluent in range(n) if true >> fluent & 1}
    return frozenset(found | {(fluent, False) for fluent in range(n) if false >> fluent & 1})


def two_sets(literals):
    """A partial state as two numbers again."""
    true = sum(1 << fluent for fluent, value in literals if value)
    return State(true, sum(1 << fluent for fluent, value in literals if not value))


def all_states(n):
    for values in product((True, False, None), repeat=n):
        yield frozenset((f, value) for f, value in enumerate(values) if value is not None)


class BruteForce:
    def __init__(self, procedure):
        self.procedure = procedure
        self.n = procedure.n
        self.goal = literals(self.n, *procedure.goal)
        self.states = list(all_states(self.n))
        every_world = [state for state in self.states if len(state) == self.n]
        self.extending = {s: frozenset(w for w in every_world if s <= w) for s in self.states}
        self.answers = {}  # of `holds`, by the node's place and the worlds

    def known(self, wanted, worlds):
        return all(wanted <= world for world in worlds)

    def conditions_known(self, node, worlds):
        return self.known(literals(self.n, *node.action.conditions), worlds)

    def moved(self, action, worlds):
        """The worlds after a doing action."""
        made = literals(self.n, action.add, action.delete)
        gone = literals(self.n, action.delete, action.add)
        return frozenset((world - gone) | made for world in worlds)

    # ---- the verdict

    def paths(self, node, answers=()):
        """For each leaf, in the order of the file, the answers that lead to it."""
        while isinstance(node, Do):
            node = node.rest
        if isinstance(node, Read):
            yield from self.paths(node.if_true, (*answers, True))
            yield from self.paths(node.if_false, (*answers, False))
        else:
            yield answers

    def walk(self, answers, worlds):
        """The failure on the way along these answers, or None; none where no world takes it."""
        node = self.procedure.plan
        answers = list(answers)
        while isinstance(node, (Do, Read)):
            if not self.conditions_known(node, worlds):
                return node.place, UNMET_CONDITIONS
            if isinstance(node, Do):
                worlds = self.moved(node.action, worlds)
                node = node.rest
            else:
                answer = answers.pop(0)
                worlds = frozenset(w for w in worlds if (node.action.fluent, answer) in w)
                if not worlds:
                    return None
                node = node.if_true if answer else node.if_false
        if isinstance(node, Gap):
            return node.place, AT_GAP
        return None if self.known(self.goal, worlds) else (node.place, GOAL_UNKNOWN)

    def verdict(self):
        start = self.procedure.start
        if isinstance(start, State):
            worlds = self.extending[literals(self.n, *start)]
        else:
            full = 2**self.n - 1
            worlds = frozenset(literals(self.n, world, full & ~world) for world in start)
        failures = (self.walk(answers, worlds) for answers in self.paths(self.procedure.plan))
        return next((failure for failure in failures if failure is not None), None)

    # ---- the rows

    def holds(self, node, worlds):
        """Whether the plan from this node on holds from these worlds."""
        key = node.place, worlds
        if key not in self.answers:
            self.answers[key] = self.decide(node, worlds)
        return self.answers[key]

    def decide(self, node, worlds):
        if isinstance(node, End):
            return self.known(self.goal, worlds)
        if isinstance(node, Gap) or not self.conditions_known(node, worlds):
            return False
        if isinstance(node, Do):
            return self.holds(node.rest, self.moved(node.action, worlds))
        yes = frozenset(w for w in worlds if (node.action.fluent, True) in w)
        no = worlds - yes
        if yes and not self.holds(node.if_true, yes):
            return False
        return not no or self.holds(node.if_false, no)

    def good_states(self, node):
        """The partial states from which the plan from this node on holds."""
        return {s for s in self.states if self.holds(node, self.extending[s])}

    def least_good(self, node):
        """Those of which no part is good, as rows, ascending."""
        good = self.good_states(node)

        def parts(state):
            for size in range(len(state)):
                yield from map(frozenset, combinations(state, size))

        return sorted(two_sets(s) for s in good if not any(part in good for part in parts(s)))

    def over_limit(self, node):
        """The place of the first node that has too many rows, children before their parent and
        true before false; or None."""
        below = ()
        if isinstance(node, Do):
            below = (node.rest,)
        elif isinstance(node, Read):
            below = node.if_true, node.if_false
        for child in below:
            place = self.over_limit(child)
            if place is not None:
                return place
        return node.place if len(self.least_good(node)) > MOST_ROWS else None
