"""Cut, changed, long, random and damaged procedure files, for the scripts of tests/ that run a
program on them. What is random is drawn from the generator that is given."""
import procfile
from procfile import ACTIONS, EXAMPLES, doing, frame, header, partial, plan, reading, worlds, write

# The smallest file that loads: no action, and a plan that is one end.
SMALLEST = [header(1), plan("00"), partial()]

# ---- small files

ONE = header(1)
MANY = [ONE, *[doing()] * 64]
EIGHT = "0200" * 7 + "00" * 8  # the rest of a path with eight readings, behind its first
TOP = 2**64 - 1

# Files that load, at the limits: by what is special about them.
SMALL_LOADED = {
    "nothing": write(SMALLEST),
    "most actions": write([*MANY, plan("0100" * 511 + "00"), worlds(*[1] * 64)]),
    "most fluents": write([header(64, [63], [62]), reading(63), plan("03"), worlds(TOP)]),
    "a sum that passes 65,536": write([header(64), plan("00"), worlds(*[TOP] * 64)]),
    "eight readings on each of two paths": write(
        [ONE, reading(0), plan("0200" + EIGHT + EIGHT), partial()]
    ),
}


def small_refusals():
    """A small input for each of the first eight refusals, and some more at the edges."""
    yield b"", "refused 1 0"
    yield bytes.fromhex("000004000500"), "refused 2 0"
    yield bytes.fromhex("030009000102031200"), "refused 3 0"
    yield bytes.fromhex("000001000100"), "refused 4 0"
    yield write([header(0), plan("00"), partial()]), "refused 5 0"
    yield write([ONE, plan("0000"), partial()]), "refused 6 28"
    yield write([header(3), *ACTIONS, plan("0204" * 9 + "00" * 10), partial()]), "refused 7 203"
    yield write([*MANY, doing()]), "refused 8 2455"
    yield write([*MANY, plan("0100" * 511 + "0000"), partial()]), "refused 6 3482"
    yield write([ONE, plan("ff" * 1024), partial()]), "refused 6 27"
    # frames that are missing, not due or of an unfit length
    yield write([ONE]), "refused 1 23"
    yield write([ONE, plan("00")]), "refused 1 30"
    yield write([ONE, ONE]), "refused 3 23"
    yield write([plan("00")]), "refused 3 0"
    yield write([ONE, partial()]), "refused 3 23"
    yield write([ONE, plan("00"), doing()]), "refused 3 30"
    yield write([ONE, plan("00"), plan("00")]), "refused 3 30"
    yield write(SMALLEST) + b"\0", "refused 3 52"
    yield write([*SMALLEST, partial()]), "refused 3 52"
    yield write([*MANY, (procfile.READING, b"")]), "refused 8 2455"
    yield write([*MANY, header(1)]), "refused 3 2455"
    yield write([*MANY, plan("00"), doing()]), "refused 3 2462"
    yield write([ONE, plan("")]), "refused 4 23"
    yield write([ONE, plan("00" * 1025)]), "refused 4 23"
    yield write([ONE, plan("00"), worlds()]), "refused 4 30"
    yield write([ONE, plan("00"), worlds(*[0] * 65)]), "refused 4 30"
    yield write([ONE, plan("00"), (procfile.START_WORLDS, bytes(9))]), "refused 4 30"
    # fields
    yield write([header(65), plan("00"), partial()]), "refused 5 0"
    yield write([header(1, [1]), plan("00"), partial()]), "refused 5 0"
    yield write([header(1, [0], [0]), plan("00"), partial()]), "refused 5 0"
    yield write([ONE, doing(add=[0], delete=[0]), plan("00"), partial()]), "refused 5 23"
    yield write([ONE, doing(delete=[1]), plan("00"), partial()]), "refused 5 23"
    yield write([ONE, doing([0], [0]), plan("00"), partial()]), "refused 5 23"
    yield write([ONE, reading(1), plan("00"), partial()]), "refused 5 23"
    yield write([ONE, reading(0, [1]), plan("00"), partial()]), "refused 5 23"
    yield write([ONE, plan("00"), partial([0], [0])]), "refused 5 30"
    yield write([ONE, plan("00"), worlds(0, 1, 2)]), "refused 5 30"
    # a plan is tested before the start that follows it, and a frame before any field
    yield write([ONE, plan("04"), partial([1])]), "refused 6 27"
    yield write([header(0), plan("04")]), "refused 1 30"
    yield write([header(0), plan("04"), partial()]), "refused 5 0"
    # plans
    yield write([ONE, doing(), plan("01"), partial()]), "refused 6 66"
    yield write([ONE, doing(), plan("0100"), partial()]), "refused 6 67"
    yield write([ONE, doing(), plan("0101"), partial()]), "refused 6 65"
    yield write([ONE, doing(), plan("0200"), partial()]), "refused 6 65"
    yield write([ONE, reading(0), plan("0100"), partial()]), "refused 6 50"
    yield write([ONE, reading(0), plan("020000"), partial()]), "refused 6 53"
    # at a ninth reading an absent action or an early end comes first
    yield write([ONE, reading(0), plan("0200" * 8 + "0201"), partial()]), "refused 6 66"
    yield write([ONE, reading(0), plan("0200" * 8 + "02"), partial()]), "refused 6 67"
    yield write([ONE, reading(0), plan("0200" * 8 + "0200"), partial()]), "refused 7 66"


# ---- spoiled files


def cut(data):
    return (data[:length] for length in range(len(data)))


def one_byte_changed(data, values):
    for place, byte in enumerate(data):
        for value in values(byte):
            if value != byte:
                yield data[:place] + bytes([value]) + data[place + 1 :]


def one_byte_changed_and_summed(frames, values):
    """One byte of a kind or of a payload is changed, and the sum of its frame is made to fit."""
    for i, (kind, payload) in enumerate(frames):
        for place in range(1, 2 + len(payload)):
            front = bytearray(procfile.number(kind, 2) + payload)
            for value in values(front[place]):
                front[place] = value
                changed = int.from_bytes(front[:2], "little"), bytes(front[2:])
                yield write([*frames[:i], changed, *frames[i + 1 :]])


def some_values(byte):
    return sorted({0, 1, 2, 4, 255, byte ^ 1, byte ^ 128, (byte + 1) % 256} - {byte})


def long_files(rng):
    """Files about as long as the part that is looked at."""
    limit = procfile.FILE_LIMIT
    good = EXAMPLES["two_branches_partial"]
    for length in (limit - 1, limit, limit + 1, 3 * limit):
        yield rng.randbytes(length)
        yield bytes(length)
        yield b"\xff" * length
        yield good + rng.randbytes(length - len(good))
    # one frame that just fits, and one that is cut by a byte
    for kind in (procfile.HEADER, procfile.PLAN, 9):
        yield frame(kind, rng.randbytes(limit - 6))
        yield frame(kind, rng.randbytes(limit - 6)) + good
        yield frame(kind, rng.randbytes(limit - 5))


def random_plan(rng, actions, readings=0, depth=0):
    """A plan that mostly fits these actions."""
    if depth > 12 or rng.random() < 0.25:
        return bytes([rng.choice((procfile.END, procfile.END, procfile.GAP))])
    action = rng.randrange(len(actions)) if actions else 0
    is_reading = bool(actions) and actions[action][0] == procfile.READING
    if rng.random() < 0.02:
        is_reading = not is_reading
    rest = random_plan(rng, actions, readings + is_reading, depth + 1)
    if not is_reading:
        return bytes([procfile.DO, action]) + rest
    other = bytes([procfile.END])
    if len(rest) < 200:
        other = random_plan(rng, actions, readings + 1, depth + 1)
    pair = [rest, other]
    rng.shuffle(pair)
    return bytes([procfile.READ, action]) + b"".join(pair)


def random_frames(rng):
    """The frames of a file that mostly loads."""
    n = rng.choice((1, 2, 3, 8, 63, 64))

    def sets(count):
        """Sets of fluents of which no two meet."""
        parts = [[] for _ in range(count)]
        for fluent in rng.sample(range(n), rng.randint(0, min(n, 4))):
            rng.choice(parts).append(fluent)
        return parts

    actions = []
    for _ in range(rng.choice((0, 1, 3, 5, 64))):
        if rng.random() < 0.5:
            actions.append(doing(*sets(2), *sets(2)))
        else:
            actions.append(reading(rng.randrange(n), *sets(2)))
    tree = random_plan(rng, actions)[:1024]
    start = partial(*sets(2))
    if rng.random() < 0.5:
        start = worlds(*[rng.randrange(2**n) for _ in range(rng.choice((1, 2, 64)))])
    return [header(n, *sets(2)), *actions, (procfile.PLAN, tree), start]


def damaged(rng, frames):
    """The file of these frames after some damage that leaves most sums right."""
    frames = list(frames)
    for _ in range(rng.choice((0, 1, 1, 1, 2))):
        i = rng.randrange(len(frames))
        kind, payload = frames[i]
        way = rng.randrange(8)
        if way <= 2 and payload:  # a byte of the payload
            place = rng.randrange(len(payload))
            value = rng.choice((0, 1, 2, 3, 4, 8, 64, 255, payload[place] ^ 1 << rng.randrange(8)))
            frames[i] = kind, payload[:place] + bytes([value]) + payload[place + 1 :]
        elif way == 3:  # the kind
            frames[i] = rng.choice((0, 1, 2, 3, 4, 5, 6, 7, 0x0102)), payload
        elif way == 4:  # the length, with its payload
            size = max(0, len(payload) + rng.choice((-8, -1, 1, 8)))
            frames[i] = kind, (payload + bytes(8))[:size]
        elif way == 5:  # a frame goes
            del frames[i]
            if not frames:
                return b""
        elif way == 6:  # a frame comes twice
            frames.insert(rng.randrange(len(frames) + 1), frames[i])
        else:  # two frames change places
            j = rng.randrange(len(frames))
            frames[i], frames[j] = frames[j], frames[i]
    data = write(frames)
    if rng.random() < 0.05:
        data += rng.randbytes(rng.randint(1, 9))
    return data


# ---- the groups


def spoiled_groups(tally, rng):
    """Runs a program on the examples, and on spoiled files; gives the random ones with their texts."""
    tally.group("examples", EXAMPLES.values())
    tally.group("examples, cut at every length", (d for e in EXAMPLES.values() for d in cut(e)))
    tally.group(
        "smallest file, each byte changed to each value",
        one_byte_changed(write(SMALLEST), lambda _: range(256)),
    )
    tally.group(
        "examples, each byte changed to some values",
        (d for e in EXAMPLES.values() for d in one_byte_changed(e, some_values)),
    )
    tally.group(
        "two branches, each byte changed to some values and summed anew",
        one_byte_changed_and_summed([*procfile.TWO_BRANCHES, worlds(0, 5)], some_values),
    )
    tally.group("long files", long_files(rng))
    tally.group("long files through a pipe", long_files(rng), as_pipe=True)
    tally.group("noise", (rng.randbytes(rng.randint(0, 60)) for _ in range(500)))
    return tally.group(
        "random files with right sums, damaged",
        (damaged(rng, random_frames(rng)) for _ in range(5000)),
    )
