"""Runs plancheck on random procedure files, small and large, and measures it on heavy ones.

    python3 tests/random_procedures.py [PROGRAM]     (default: crates/plancheck/out/plancheck)

Each run must give exactly the text that tools/planfile.py gives, which in turn is tied to
tools/brute_force.py on the small files. Prints a line for each group of files, and at the end
'N passed, M failed', which counts the groups.
"""
import random
import sys
import time
from collections import Counter
from pathlib import Path

ROOT = Path(__file__).resolve().parent.parent
sys.dont_write_bytecode = True
sys.path.insert(0, str(ROOT / "tools"))

import harness
import planfile
from brute_force import BruteForce, two_sets
from checker import MOST_ROWS, Reading, State, TooManyRows, worlds_of
from planfile import doing, header, partial, plan, reading, worlds, write

MEASURED_RUNS = 10
MOST_SECONDS = 0.05  # for the whole process on a heavy file


# ---- random procedures


def random_state(rng, n, most):
    """Two lists of fluents, at most so many together, and none in both."""
    chosen = rng.sample(range(n), rng.randint(0, min(n, most)))
    cut = rng.randint(0, len(chosen))
    return chosen[:cut], chosen[cut:]


def random_actions(rng, n, count, most, effects):
    """The frames of so many actions, each with at most so many literals in its conditions, and
    with at most so many effects."""
    frames = []
    for _ in range(count):
        conditions = random_state(rng, n, most if rng.random() < 0.6 else 0)
        if rng.random() < 0.5:
            frames.append(doing(*conditions, *random_state(rng, n, effects)))
        elif rng.random() < 0.8:
            frames.append(reading(rng.randrange(n)))
        else:
            frames.append(reading(rng.randrange(n), *conditions))
    return frames


def grow(rng, goal, actions, size, bushy, readings=planfile.MOST_READINGS):
    """The bytes of a random plan, at most `size`, and its rows. Of some actions mostly one is
    chosen that leaves many rows within the limit. A bushy plan has many readings near its root."""
    reads = [a for a, action in enumerate(actions) if isinstance(action, Reading)]
    does = [a for a, action in enumerate(actions) if not isinstance(action, Reading)]
    share = (0.9 if size > 7 else 0.1) if bushy else 0.4
    if size >= 4 and readings and reads and (not does or rng.random() < share):
        first = rng.randint(*((size // 3, size * 2 // 3 - 1) if bushy else (1, size - 3)))
        true_bytes, true_rows = grow(rng, goal, actions, first, bushy, readings - 1)
        false_bytes, false_rows = grow(rng, goal, actions, size - 2 - first, bushy, readings - 1)
        sort, choice, below = planfile.READ, reads, (true_rows, false_rows)
        rest = true_bytes + false_bytes
    elif size >= 3 and does:
        rest, rows = grow(rng, goal, actions, size - 2, bushy, readings)
        sort, choice, below = planfile.DO, does, (rows,)
    elif rng.random() < 0.1:
        return bytes([planfile.GAP]), []
    else:
        return bytes([planfile.END]), [goal]
    tried = rng.sample(choice, min(len(choice), rng.choice((1, 2, 8))))
    tried = [(actions[action].rows(*below), action) for action in tried]
    over = bushy and rng.random() < 0.3
    rows, action = max(tried, key=lambda pair: (over or len(pair[0]) <= MOST_ROWS, len(pair[0])))
    return bytes([sort, action]) + rest, rows[:MOST_ROWS]


def members(number):
    return [fluent for fluent in range(64) if number >> fluent & 1]


def random_start(rng, n, rows):
    """A start that one of the rows mostly covers, or nearly covers."""

    def near():
        """The literals of a row, often with more and sometimes with one less."""
        true, false = random_state(rng, n, n)
        known = {fluent: fluent in true for fluent in true + false if rng.random() < 0.3}
        if rows and rng.random() < 0.9:
            row = rng.choice(rows)
            known.update({fluent: True for fluent in members(row.true)})
            known.update({fluent: False for fluent in members(row.false)})
        if known and rng.random() < 0.15:
            del known[rng.choice(sorted(known))]
        return known

    known = near()
    if rng.random() < 0.5:
        return partial([f for f in known if known[f]], [f for f in known if not known[f]])
    chosen = []
    for _ in range(rng.choice((1, 2, 3, 8, 64))):
        if rng.random() < 0.1:
            known = near()
        fixed = sum(1 << fluent for fluent in known)
        chosen.append(rng.randrange(2**n) & ~fixed | sum(1 << f for f in known if known[f]))
    return worlds(*chosen)


def random_file(rng, n, count, size, most, bushy):
    """A file with n fluents and so many actions, with a plan of about `size` bytes."""
    goal = random_state(rng, n, 1 if bushy else most)
    frames = random_actions(rng, n, count, most, 1 if bushy else 3)
    actions = [planfile.action_of(*frame) for frame in frames]
    goal_sets = State(*(sum(1 << fluent for fluent in part) for part in goal))
    text, rows = grow(rng, goal_sets, actions, size, bushy)
    return write([header(n, *goal), *frames, (planfile.PLAN, text), random_start(rng, n, rows)])


def small_file(rng):
    n, count, size = rng.randint(1, 5), rng.randint(0, 8), rng.choice((3, 6, 12, 25, 50))
    return random_file(rng, n, count, size, 2, False)


def bushy_file(rng):
    n, count, size = rng.randint(3, 6), rng.choice((30, 64)), rng.choice((30, 60, 150, 250))
    return random_file(rng, n, count, size, rng.randint(2, 3), True)


def large_file(rng):
    n, count, size = rng.choice((9, 16, 32, 63, 64)), rng.choice((8, 32, 64)), rng.randint(50, 1024)
    return random_file(rng, n, count, size, rng.choice((2, 4, 16)), rng.random() < 0.3)


# ---- what is checked of the tool


def rows_or_place(procedure):
    """(rows, None), or (None, the place that is refused)."""
    try:
        return procedure.rows(), None
    except TooManyRows as refused:
        return None, refused.args[0]


def fault_by_force(data):
    """None where trying every case gives the verdict and the rows of the tool."""
    procedure = planfile.load(data)
    force = BruteForce(procedure)
    rows, place = rows_or_place(procedure)
    if force.verdict() != procedure.verdict():
        return f"  {data.hex()}: the verdict is {force.verdict()}"
    if force.over_limit(procedure.plan) != place:
        return f"  {data.hex()}: over the limit is {force.over_limit(procedure.plan)}"
    if place is not None:
        return None
    if force.least_good(procedure.plan) != rows:
        return f"  {data.hex()}: the rows are {force.least_good(procedure.plan)}"
    good = force.good_states(procedure.plan)
    for state in force.states:
        if any(two_sets(state).knows(row) for row in rows) != (state in good):
            return f"  {data.hex()}: covered or good, but not both, is {two_sets(state)}"
    return None


def fault_between_ways(data):
    """None where a partial start and the list of its worlds have the same verdict."""
    procedure = planfile.load(data)
    start = procedure.start
    if isinstance(start, State):
        first = procedure.plan.follow(procedure.goal, start)
        second = procedure.plan.follow(procedure.goal, worlds_of(procedure.n, start))
        if first != second:
            return f"  {data.hex()}: {first} by two sets, {second} by worlds"
    return None


def fault_of_cover(data):
    """None where a covered start holds, and a partial state that is not covered fails."""
    procedure = planfile.load(data)
    rows, place = rows_or_place(procedure)
    if place is not None:
        return None
    covered = any(procedure.start.knows(row) for row in rows)
    holds = procedure.verdict() is None
    if covered and not holds or isinstance(procedure.start, State) and holds and not covered:
        return f"  {data.hex()}: covered is {covered}, holds is {holds}"
    return None


def spread(cases):
    """How often each verdict and each number of rows came, and a line that says so."""
    verdicts, counts = Counter(), Counter()
    for _, text in cases:
        lines = text.split("\n")
        words = lines[0].split()
        if words[0] == "refused":
            verdicts["refused 9"] += 1
            assert words[1] == "9", text
        else:
            verdicts["holds" if words == ["holds"] else f"fails {words[2]}"] += 1
            counts[int(lines[1].split()[1])] += 1
    print(f"  {dict(sorted(verdicts.items()))}")
    print(f"  by number of rows: {dict(sorted(counts.items()))}")
    return verdicts, counts


# ---- heavy files

# Every action has 40 literals in its conditions, of fluents 24 to 63, which nothing changes.
TRUE_ALWAYS, FALSE_ALWAYS = list(range(24, 44)), list(range(44, 64))


def always(true=(), false=()):
    return [*true, *TRUE_ALWAYS], [*false, *FALSE_ALWAYS]


def hexes(*numbers):
    return "".join(f"{number:02x}" for number in numbers)


def sixteen(first):
    """A plan with 16 rows. Four actions from `first` on read, the next four have a condition."""
    h, g, i, j, a, b, c, d = range(first, first + 8)
    branch_true = hexes(2, i, 1, a, 0, 1, b, 0)
    branch_false = hexes(2, j, 1, c, 0, 1, d, 0)
    return hexes(2, h, 2, g) + branch_true + branch_false + "00"


def heavy_actions():
    """Actions 0 to 15 for two plans with 16 rows, over fluents 0 to 7 and 8 to 15. Actions 16 to 20
    read fluents 16 to 20, and 21 to 25 do so where the fluent is known false. The others change
    fluents 21 to 23."""
    for first in (0, 8):
        yield from (reading(fluent, *always()) for fluent in range(first, first + 4))
        yield from (doing(*always([fluent])) for fluent in range(first + 4, first + 8))
    yield from (reading(fluent, *always()) for fluent in range(16, 21))
    yield from (reading(fluent, *always([], [fluent])) for fluent in range(16, 21))
    for i in range(38):
        yield doing(*always(), [21 + i % 3], [21 + (i + 1) % 3])


def same_rows(level):
    """Readings in full, and the same 16 rows in both branches of each."""
    if level == 0:
        return sixteen(0)
    return hexes(2, 15 + level) + same_rows(level - 1) * 2


def paired_rows(level, first, other):
    """Readings in full, and two lists of 16 rows that make 256 pairs at each. All of them go, since
    the fluent must be known false."""
    if level == 0:
        return sixteen(first)
    branches = paired_rows(level - 1, other, first) + paired_rows(level - 1, first, other)
    return hexes(2, 20 + level) + branches


def heavy_files():
    """Files with 64 actions, a plan of 1,023 or 1,024 bytes, and 64 worlds or a partial state."""
    frames = list(heavy_actions())
    conditions = [4, 5, 6, 7, 12, 13, 14, 15]
    base = sum(1 << fluent for fluent in conditions + TRUE_ALWAYS)
    # the readings of fluents 0 and 16 to 20 are open, and each half is followed; or those of 16 to
    # 20 are closed
    open_worlds = worlds(*(base | i << 16 | h for i in range(32) for h in (0, 1)))
    open_state = partial(*always(conditions))
    closed_worlds = worlds(*(base | i | j << 8 for i in range(16) for j in range(4)))
    closed_state = partial(*always(conditions, range(16, 21)))

    def file(text, start):
        changing = [f"01{26 + i % 38:02x}" for i in range(512)]
        front = "".join(changing[: (1024 - len(bytes.fromhex(text))) // 2])
        return write([header(64, TRUE_ALWAYS), *frames, plan(front + text), start])

    yield "a chain of 511 doings, worlds", file("00", open_worlds)
    yield "a chain of 511 doings, partial", file("00", open_state)
    yield "16 rows in both branches, worlds", file(same_rows(5), open_worlds)
    yield "16 rows in both branches, partial", file(same_rows(5), open_state)
    two_lists = hexes(2, 16) + sixteen(0) + sixteen(8)
    yield "288 rows at one reading, worlds", file(two_lists, open_worlds)
    yield "256 pairs at each reading, worlds", file(paired_rows(5, 0, 8), closed_worlds)
    yield "256 pairs at each reading, partial", file(paired_rows(5, 0, 8), closed_state)


def checked(tally, name, fault_of, cases):
    """A group of files that are checked without a run."""
    began = time.monotonic()
    tally.faultless(f"{name}: {len(cases)} files", [fault_of(data) for data, _ in cases], began)


def tests(tally):
    rng = random.Random(20240301)

    small = tally.group("small files", (small_file(rng) for _ in range(4000)))
    bushy = tally.group("small files with many readings", (bushy_file(rng) for _ in range(1000)))
    verdicts, counts = spread(small + bushy)
    enough = all(verdicts[name] >= 100 for name in ("holds", "fails 1", "fails 2", "fails 3"))
    enough = enough and verdicts["refused 9"] >= 10 and all(counts[count] for count in range(17))
    tally.fact("they reach each verdict, each number of rows and the limit", enough)

    over = [case for case in bushy if case[1].startswith("refused")]
    checked(tally, "small files, every case tried", fault_by_force, small[:500])
    checked(tally, "with many readings, every case tried", fault_by_force, bushy[:40] + over[:10])
    checked(tally, "by two sets as by worlds", fault_between_ways, small + bushy)

    large = tally.group("large files", (large_file(rng) for _ in range(400)))
    verdicts, counts = spread(large)
    enough = all(verdicts[name] >= 20 for name in ("holds", "fails 1", "refused 9"))
    tally.fact("they hold, fail and are refused", enough)
    checked(tally, "covered starts hold, others do not", fault_of_cover, small + bushy + large)

    heavy = list(heavy_files())
    tally.group("heavy files", (data for _, data in heavy))
    for name, data in heavy:
        best = min(harness.run(tally.program, data)[3] for _ in range(MEASURED_RUNS))
        tally.fact(f"{name}: {best * 1000:.1f} ms at best, at most 50", best <= MOST_SECONDS)


if __name__ == "__main__":
    sys.exit(harness.main(tests, "plancheck", planfile.text))
