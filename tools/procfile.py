"""Procedure files: a writer, and a loader that is written apart from the proved one.

    python3 tools/procfile.py make DIR      write the example files into the folder DIR
    python3 tools/procfile.py load < FILE   print the line that rowcheck prints of this file

A file is a row of frames: one header, up to 64 actions, one plan, one start. A frame is its
payload's length and its kind (two bytes each), the payload, and the sum of all bytes before it
(two bytes). All numbers are little-endian. A set of fluents is 8 bytes; bit i is fluent i.
"""
import sys
from pathlib import Path

FILE_LIMIT = 65536  # more of a file is not looked at
MOST_ACTIONS = 64
MOST_READINGS = 8  # on one path of a plan

HEADER, DOING, READING, PLAN, START_PARTIAL, START_WORLDS = 1, 2, 3, 4, 5, 6
END, DO, READ, GAP = 0, 1, 2, 3  # the first byte of a plan's node


# ---- writing


def number(value, size):
    return value.to_bytes(size, "little")


def fluents(members):
    """A set of fluents as 8 bytes."""
    return number(sum(1 << member for member in set(members)), 8)


def frame(kind, payload, length=None, check=None):
    """One frame. A length or a sum that is given stands in place of the right one."""
    length = len(payload) if length is None else length
    front = number(length, 2) + number(kind, 2) + payload
    check = sum(front) % 65536 if check is None else check
    return front + number(check, 2)


def header(n, goal_true=(), goal_false=()):
    return HEADER, bytes([n]) + fluents(goal_true) + fluents(goal_false)


def doing(when_true=(), when_false=(), add=(), delete=()):
    return DOING, fluents(when_true) + fluents(when_false) + fluents(add) + fluents(delete)


def reading(fluent, when_true=(), when_false=()):
    return READING, fluents(when_true) + fluents(when_false) + bytes([fluent])


def plan(text):
    """A plan from its bytes in hexadecimal."""
    return PLAN, bytes.fromhex(text)


def partial(true=(), false=()):
    return START_PARTIAL, fluents(true) + fluents(false)


def worlds(*numbers):
    return START_WORLDS, b"".join(number(world, 8) for world in numbers)


def write(frames):
    """The file that has these frames, each a pair of kind and payload."""
    return b"".join(frame(kind, payload) for kind, payload in frames)


# ---- loading


class Refused(Exception):
    """A refusal: its number, and the place in the file."""


def at(data, place, size):
    return int.from_bytes(data[place : place + size], "little")


def length_fits(kind, length):
    if kind == PLAN:
        return 1 <= length <= 1024
    if kind == START_WORLDS:
        return 8 <= length <= 512 and length % 8 == 0
    return length == {HEADER: 17, DOING: 32, READING: 17, START_PARTIAL: 16}[kind]


def select(data):
    """The frames of a file, each as (place, kind, payload)."""
    frames = []
    actions = 0
    due = (HEADER,)
    place = 0
    while due:
        if len(data) - place < 6 or len(data) - place < at(data, place, 2) + 6:
            raise Refused(1, place)
        length, kind = at(data, place, 2), at(data, place + 2, 2)
        front = data[place : place + 4 + length]
        if sum(front) % 65536 != at(data, place + 4 + length, 2):
            raise Refused(2, place)
        if kind not in due:
            raise Refused(3, place)
        if kind in (DOING, READING):
            actions += 1
            if actions > MOST_ACTIONS:
                raise Refused(8, place)
        if not length_fits(kind, length):
            raise Refused(4, place)
        frames.append((place, kind, front[4:]))
        place += length + 6
        if kind in (HEADER, DOING, READING):
            due = (DOING, READING, PLAN)
        elif kind == PLAN:
            due = (START_PARTIAL, START_WORLDS)
        else:
            due = ()
    if place < len(data):
        raise Refused(3, place)
    return frames


def sets(payload):
    return [at(payload, i, 8) for i in range(0, len(payload), 8)]


def state_is_good(n, true, false):
    return true < 2**n and false < 2**n and true & false == 0


def fields_are_good(n, kind, payload):
    """Whether the fields of a frame are as they must be, in a procedure of n fluents."""
    if kind == HEADER:
        return 1 <= n <= 64 and state_is_good(n, *sets(payload[1:]))
    if kind == DOING:
        true, false, add, delete = sets(payload)
        return state_is_good(n, true, false) and state_is_good(n, add, delete)
    if kind == READING:
        return state_is_good(n, *sets(payload[:16])) and payload[16] < n
    if kind == START_PARTIAL:
        return state_is_good(n, *sets(payload))
    return all(world < 2**n for world in sets(payload))


def check_plan(text, actions, first):
    """Goes over the nodes in their order; `first` is the place of the plan's first byte."""
    i = 0
    waiting = [0]  # of each plan that has yet to come: the readings above it
    while waiting:
        readings = waiting.pop()
        node = i
        if i == len(text):
            raise Refused(6, first + i)
        byte = text[i]
        i += 1
        if byte in (DO, READ):
            if i == len(text):
                raise Refused(6, first + i)
            action = text[i]
            i += 1
            sort = DOING if byte == DO else READING
            if action >= len(actions) or actions[action] != sort:
                raise Refused(6, first + node)
            if byte == DO:
                waiting.append(readings)
            elif readings == MOST_READINGS:
                raise Refused(7, first + node)
            else:
                waiting += [readings + 1, readings + 1]
        elif byte not in (END, GAP):
            raise Refused(6, first + node)
    if i < len(text):
        raise Refused(6, first + i)


def load(data):
    """('loaded', fluents, actions, plan bytes, kind of start) or ('refused', number, place)."""
    try:
        frames = select(data)
        n = frames[0][2][0]
        actions = [kind for _, kind, _ in frames if kind in (DOING, READING)]
        for place, kind, payload in frames:
            if kind == PLAN:
                check_plan(payload, actions, place + 4)
                plan_bytes = len(payload)
            elif not fields_are_good(n, kind, payload):
                raise Refused(5, place)
        start = "partial" if kind == START_PARTIAL else "worlds"
        return "loaded", n, len(actions), plan_bytes, start
    except Refused as refused:
        return "refused", *refused.args


def line(data):
    """What rowcheck prints of this input."""
    return " ".join(str(field) for field in load(data[:FILE_LIMIT]))


# ---- the examples

# The goal is that fluent 1 is true. Action 0 makes it so where fluent 0 is true, action 1 makes
# fluent 0 true where it is false, action 3 undoes the goal, and actions 2 and 4 read a fluent.
ACTIONS = [
    doing(when_true=[0], add=[1]),
    doing(when_false=[0], add=[0]),
    reading(0),
    doing(delete=[1]),
    reading(2),
]
TWO_BRANCHES = [header(3, goal_true=[1]), *ACTIONS, plan("0204 010000 0101010000")]
EIGHT_READINGS = [header(3, goal_true=[1]), *ACTIONS, plan("0204" * 8 + "00" * 9)]

# One fluent, one action that makes it true, and a plan that does it.
ONE_ACTION = [header(1, goal_true=[0]), doing(add=[0]), plan("01 00 00")]

# A visit to a beam line. Fluents: 0 the vacuum is good, 1 the beam shutter is open, 2 the magnet
# current is on, 3 the sample shutter is open, 4 the hutch is locked.
OPEN_SHUTTERS = "0102 0203 010500 0104010500"
BEAM_VISIT = [
    header(5, goal_true=[0, 1, 2, 3]),
    reading(0),  # the vacuum gauge
    doing(when_false=[0, 1], add=[0]),  # pump down
    doing(when_true=[0, 4], when_false=[3], add=[1]),  # open the beam shutter
    reading(2, when_true=[4]),  # the magnet current
    doing(when_false=[2, 3], add=[2]),  # ramp the magnet up
    doing(when_true=[0, 1, 2], add=[3]),  # open the sample shutter
    plan("0200" + OPEN_SHUTTERS + "0101 0200" + OPEN_SHUTTERS + "03"),
    partial(true=[4], false=[1, 3]),
]

EXAMPLES = {
    "one_action": write([*ONE_ACTION, partial()]),
    "two_branches_partial": write([*TWO_BRANCHES, partial(false=[1])]),
    "two_branches_worlds": write([*TWO_BRANCHES, worlds(0, 5)]),
    "eight_readings": write([*EIGHT_READINGS, partial(false=[1])]),
    "beam_visit": write(BEAM_VISIT),
}


def main(words):
    if len(words) == 2 and words[0] == "make":
        for name, data in EXAMPLES.items():
            (Path(words[1]) / f"{name}.proc").write_bytes(data)
    elif words == ["load"]:
        print(line(sys.stdin.buffer.read(FILE_LIMIT)))
    else:
        sys.exit(__doc__)


if __name__ == "__main__":
    main(sys.argv[1:])
