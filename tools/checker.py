"""The check of a loaded procedure, written apart from the proved one: its verdict and its rows.

The verdict follows the plan forward, from the worlds of the start. The rows are worked backward,
from the ends of the plan to its root. A set of fluents is a number; bit i is fluent i.
"""
from typing import NamedTuple, Union

MOST_ROWS = 16  # at one node of a plan
FEW_UNKNOWN = 8  # a start with more unknown fluents is not spread into its worlds
UNMET_CONDITIONS, GOAL_UNKNOWN, AT_GAP = 1, 2, 3  # the causes of a failure


class TooManyRows(Exception):
    """A node has more rows than the limit; at which place in the file."""


# ---- what is known


class State(NamedTuple):
    """A partial state, and so a goal, the conditions of an action, or a row: the fluents of the
    first set are true, those of the second are false. It means all worlds that extend it."""

    true: int
    false: int

    def literals(self):
        """How many fluents are known."""
        return bin(self.true).count("1") + bin(self.false).count("1")

    def knows(self, wanted):
        """Whether every literal of `wanted` is one of this state."""
        return wanted.true & ~self.true == 0 and wanted.false & ~self.false == 0

    def after(self, action):
        add, delete = action.add, action.delete
        return State(self.true & ~delete | add, self.false & ~add | delete)

    def where(self, fluent, value):
        """This state with one literal more, or None where it has the other value."""
        bit = 1 << fluent
        if bit & (self.false if value else self.true):
            return None
        return State(self.true | bit, self.false) if value else State(self.true, self.false | bit)


class Worlds(frozenset):
    """A set of worlds, each the set of the fluents that are true in it."""

    def knows(self, wanted):
        """Whether every world has every literal of `wanted`."""
        return all(w & wanted.true == wanted.true and w & wanted.false == 0 for w in self)

    def after(self, action):
        return Worlds(w & ~action.delete | action.add for w in self)

    def where(self, fluent, value):
        """The worlds that have the value."""
        return Worlds(w for w in self if w >> fluent & 1 == value)


def worlds_of(n, state):
    """The worlds over n fluents that extend a partial state."""
    found = [state.true]
    for fluent in range(n):
        if not (state.true | state.false) >> fluent & 1:
            found += [world | 1 << fluent for world in found]
    return Worlds(found)


# ---- rows


def least(rows):
    """The rows that imply no other, each once, ascending."""
    kept = []
    for row in sorted(set(rows), key=State.literals):
        if not any(row.knows(other) for other in kept):
            kept.append(row)
    return sorted(kept)


def joined(one, other):
    return State(one.true | other.true, one.false | other.false)


def under(conditions, rows):
    """The least rows once the conditions are joined to each."""
    rows = [joined(conditions, row) for row in rows]
    return least(row for row in rows if row.true & row.false == 0)


class Doing(NamedTuple):
    conditions: State
    add: int
    delete: int

    def rows(self, after):
        """The rows before this action, from those after it."""
        before = []
        for row in after:
            if row.false & self.add == 0 and row.true & self.delete == 0:
                before.append(State(row.true & ~self.add, row.false & ~self.delete))
        return under(self.conditions, before)


class Reading(NamedTuple):
    conditions: State
    fluent: int

    def rows(self, true_rows, false_rows):
        """The rows before this reading, from those of its two branches."""
        bit = 1 << self.fluent
        # what each branch wants apart from the fluent that was read
        ifs = [State(row.true & ~bit, row.false) for row in true_rows if not row.false & bit]
        elses = [State(row.true, row.false & ~bit) for row in false_rows if not row.true & bit]
        known_true = [State(row.true | bit, row.false) for row in ifs]
        known_false = [State(row.true, row.false | bit) for row in elses]
        unknown = [joined(one, other) for one in ifs for other in elses]
        return under(self.conditions, known_true + known_false + unknown)


# ---- the nodes of a plan

# `follow` gives None where all goes well, or the place and the cause of the first failure; `rows`
# gives the row list of the node.


def limited(place, rows):
    if len(rows) > MOST_ROWS:
        raise TooManyRows(place)
    return rows


class End(NamedTuple):
    place: int

    def follow(self, goal, known):
        return None if known.knows(goal) else (self.place, GOAL_UNKNOWN)

    def rows(self, goal):
        return [goal]


class Gap(NamedTuple):
    place: int

    def follow(self, goal, known):
        return self.place, AT_GAP

    def rows(self, goal):
        return []


class Do(NamedTuple):
    place: int
    action: Doing
    rest: "Node"

    def follow(self, goal, known):
        if not known.knows(self.action.conditions):
            return self.place, UNMET_CONDITIONS
        return self.rest.follow(goal, known.after(self.action))

    def rows(self, goal):
        return limited(self.place, self.action.rows(self.rest.rows(goal)))


class Read(NamedTuple):
    place: int
    action: Reading
    if_true: "Node"
    if_false: "Node"

    def follow(self, goal, known):
        if not known.knows(self.action.conditions):
            return self.place, UNMET_CONDITIONS
        for value, branch in ((1, self.if_true), (0, self.if_false)):
            half = known.where(self.action.fluent, value)
            failure = branch.follow(goal, half) if half else None
            if failure is not None:
                return failure
        return None

    def rows(self, goal):
        true_rows = self.if_true.rows(goal)
        false_rows = self.if_false.rows(goal)
        return limited(self.place, self.action.rows(true_rows, false_rows))


Node = Union[End, Gap, Do, Read]


# ---- a procedure


class Procedure(NamedTuple):
    n: int
    goal: State
    plan: Node
    start: Union[State, Worlds]

    def verdict(self):
        """None where the plan holds from the start, or the place and the cause of the failure."""
        known = self.start
        if isinstance(known, State) and self.n - known.literals() <= FEW_UNKNOWN:
            known = worlds_of(self.n, known)
        return self.plan.follow(self.goal, known)

    def rows(self):
        return self.plan.rows(self.goal)

    def text(self):
        """The verdict and the rows, a line each; no line break after the last."""
        failure = self.verdict()
        rows = self.rows()
        first = "holds" if failure is None else f"fails {failure[0]} {failure[1]}"
        return "\n".join([first, f"rows {len(rows)}", *[f"{row.true} {row.false}" for row in rows]])
