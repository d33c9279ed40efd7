"""What the check of a procedure file must say, written apart from the proved one.

    python3 tools/planfile.py load < FILE   print what plancheck must print of this file

The frames of a file are read by tools/procfile.py; here its actions, its plan and its start are made
into the procedure that tools/checker.py checks.
"""
import sys

sys.dont_write_bytecode = True

from checker import Do, Doing, End, Gap, Procedure, Read, Reading, State, TooManyRows, Worlds
from procfile import *


def action_of(kind, payload):
    conditions = State(*sets(payload[:16]))
    if kind == DOING:
        return Doing(conditions, *sets(payload[16:]))
    return Reading(conditions, payload[16])


def plan_of(text, actions, first):
    """The tree of a plan; `first` is the place of its first byte."""

    def node_at(i, readings):
        """The node at byte i, with so many readings above it, and where the next one begins."""
        if i == len(text):
            raise Refused(6, first + i)
        byte = text[i]
        if byte == END:
            return End(first + i), i + 1
        if byte == GAP:
            return Gap(first + i), i + 1
        if byte not in (DO, READ):
            raise Refused(6, first + i)
        if i + 1 == len(text):
            raise Refused(6, first + i + 1)
        sort = Doing if byte == DO else Reading
        if text[i + 1] >= len(actions) or not isinstance(actions[text[i + 1]], sort):
            raise Refused(6, first + i)
        action = actions[text[i + 1]]
        if byte == DO:
            rest, past = node_at(i + 2, readings)
            return Do(first + i, action, rest), past
        if readings == MOST_READINGS:
            raise Refused(7, first + i)
        if_true, past = node_at(i + 2, readings + 1)
        if_false, past = node_at(past, readings + 1)
        return Read(first + i, action, if_true, if_false), past

    root, past = node_at(0, 0)
    if past < len(text):
        raise Refused(6, first + past)
    return root


def load(data):
    """The procedure in a file."""
    frames = select(data)
    n = frames[0][2][0]
    actions = []
    for place, kind, payload in frames:
        if kind == PLAN:
            tree = plan_of(payload, actions, place + 4)
        elif not fields_are_good(n, kind, payload):
            raise Refused(5, place)
        elif kind == HEADER:
            goal = State(*sets(payload[1:]))
        elif kind == START_PARTIAL:
            start = State(*sets(payload))
        elif kind == START_WORLDS:
            start = Worlds(sets(payload))
        else:
            actions.append(action_of(kind, payload))
    return Procedure(n, goal, tree, start)


def text(data):
    """What plancheck prints of this input, without the last line break."""
    try:
        return load(data[:FILE_LIMIT]).text()
    except Refused as refused:
        return "refused {} {}".format(*refused.args)
    except TooManyRows as refused:
        return "refused 9 {}".format(*refused.args)


def main(words):
    if words == ["load"]:
        print(text(sys.stdin.buffer.read(FILE_LIMIT)))
    else:
        sys.exit(__doc__)


if __name__ == "__main__":
    main(sys.argv[1:])
