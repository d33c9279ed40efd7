"""Runs plancheck on good, cut, changed and damaged procedure files.

    python3 tests/spoiled_plans.py [PROGRAM]     (default: crates/plancheck/out/plancheck)

Each run must end with status 0 in well under a second, with exactly the text that
tools/planfile.py gives. Prints a line for each group of files, and at the end 'N passed, M failed',
which counts the groups.
"""
import random
import sys
from collections import Counter
from pathlib import Path

ROOT = Path(__file__).resolve().parent.parent
sys.dont_write_bytecode = True
sys.path.insert(0, str(ROOT / "tools"))

import harness
import planfile
from planfile import doing, header, partial, plan, reading, worlds, write
from spoiling import SMALL_LOADED, small_refusals, spoiled_groups

EXAMPLES = planfile.EXAMPLES


def small_cases():
    """Small inputs that are refused, and some that load, with the text written out."""
    yield from small_refusals()
    free = "holds\nrows 1\n0 0"  # without a goal the one row has no literal
    for name, data in SMALL_LOADED.items():
        yield data, "fails 50 3\nrows 0" if name == "most fluents" else free


# Plans with the actions of the examples: the plan, its rows, and starts with the verdict from each.
# The goal is that fluent 1 is true. Plan byte 0 lies at 187.
WORKED_PLANS = [
    ("00", ["2 0"], [(partial([1]), "holds"), (partial(), "fails 187 2")]),
    ("010000", ["1 0"], [(partial([0]), "holds"), (partial([1]), "fails 187 1")]),
    ("0202 010000 0101010000", ["0 0"], [(partial(), "holds"), (worlds(0, 7), "holds")]),
    ("0202 010000 03", ["1 0"], [(partial([0]), "holds"), (partial([1]), "fails 192 3")]),
    ("010300", [], [(partial([1]), "fails 189 2")]),
    ("0202 00 00", ["2 0"], [(partial([1]), "holds"), (worlds(0, 3), "fails 190 2")]),
    (
        "0204 010000 0101010000",
        ["0 5", "5 0"],
        [
            (partial([], [0, 2]), "holds"),
            (partial([], [2]), "fails 192 1"),
            (worlds(0, 5), "holds"),
            (partial([], [1]), "fails 189 1"),
            (worlds(7, 5, 0, 2), "holds"),
            (worlds(7, 5, 0, 1), "fails 192 1"),
            (worlds(0, 5, 4), "fails 189 1"),
        ],
    ),
    ("010100", ["2 1"], [(partial([1], [0]), "holds"), (partial([], [0]), "fails 189 2")]),
]


# Plans that make fluents true and false. The goal is that fluent 1 is false. Plan byte 0 lies at
# 217.
EFFECT_ACTIONS = [
    doing(add=[1]),
    doing(delete=[1]),
    doing(when_false=[1]),
    doing(when_true=[1], add=[0], delete=[1]),
    doing(when_false=[0], add=[0]),
]
EFFECT_PLANS = [
    ("010000", [], [(partial([], [1]), "fails 219 2"), (worlds(0), "fails 219 2")]),
    ("010100", ["0 0"], [(partial([1]), "holds"), (worlds(0, 1, 2, 3), "holds")]),
    ("0100010200", [], [(partial([], [1]), "fails 219 1"), (worlds(0, 2), "fails 219 1")]),
    ("0101010200", ["0 0"], [(partial([1]), "holds"), (worlds(2, 1), "holds")]),
    ("010300", ["2 0"], [(partial(), "fails 217 1"), (worlds(2, 3), "holds")]),
    ("0103010400", [], [(partial([1], [0]), "fails 219 1"), (worlds(2), "fails 219 1")]),
    ("0104010100", ["0 1"], [(worlds(0, 2), "holds"), (worlds(0, 1), "fails 217 1")]),
    ("0100010300", ["0 0"], [(partial([], [0, 1]), "holds"), (worlds(0, 3), "holds")]),
]


def worked_cases():
    yield EXAMPLES["two_branches_partial"], "fails 189 1\nrows 2\n0 5\n5 0"
    examples = [header(3, [1]), *planfile.ACTIONS]
    effects = [header(2, [], [1]), *EFFECT_ACTIONS]
    for frames, table in (examples, WORKED_PLANS), (effects, EFFECT_PLANS):
        for text, rows, starts in table:
            for start, verdict in starts:
                lines = [verdict, f"rows {len(rows)}", *rows]
                yield write([*frames, plan(text), start]), "\n".join(lines)


def wide_cases():
    """Numbers of 64 bits, and rows whose order shows whether they are compared as such."""
    top = 2**64 - 1
    ends = [header(64, [63], [62]), plan("00")]
    row = "rows 1\n9223372036854775808 4611686018427387904"
    yield write([*ends, worlds(2**63, 2**63 + 1)]), "holds\n" + row
    yield write([*ends, worlds(2**63, 2**62)]), "fails 27 2\n" + row
    yield write([*ends, partial([63], range(63))]), "holds\n" + row
    yield write([*ends, partial([63], range(62))]), "fails 27 2\n" + row
    full = [header(64, range(64)), plan("00")]
    yield write([*full, worlds(top)]), "holds\nrows 1\n18446744073709551615 0"
    yield write([*full, partial(range(63))]), "fails 27 2\nrows 1\n18446744073709551615 0"
    # fluent 63 is read; where it is true fluent 0 must be known, where it is false fluent 1
    reads = plan("0200 010100 010200")
    trues = [header(64), reading(63), doing([0]), doing([1]), reads]
    rows = "rows 3\n2 9223372036854775808\n3 0\n9223372036854775809 0"
    yield write([*trues, partial([0, 1])]), "holds\n" + rows
    yield write([*trues, partial([0])]), "fails 131 1\n" + rows
    falses = [header(64), reading(63), doing([], [0]), doing([], [1]), reads]
    rows = "rows 3\n0 3\n0 9223372036854775810\n9223372036854775808 1"
    yield write([*falses, worlds(2**63 + 2, 1, 0)]), "holds\n" + rows
    yield write([*falses, worlds(2**63 + 1, 1, 0)]), "fails 128 1\n" + rows


# Action k concerns fluent k: 0 to 2, 11 and 12 are read, and doing 3 to 10 has the condition that
# the fluent is true. There is no goal. Action 13 reads fluent 12 where it is known false, and 14
# where it is known true, so that only the rows of the one branch are left. Plan byte 0 lies at 492.
LIMIT_ACTIONS = [
    *[reading(fluent) for fluent in (0, 1, 2)],
    *[doing([fluent]) for fluent in range(3, 11)],
    *[reading(11), reading(12), reading(12, [], [12]), reading(12, [12])],
]

# Readings of 0, 1 and 2 in full: 9 rows, 9 rows, and 27 at the root, since each fluent may be known
# true, known false or not known.
TWENTY_SEVEN = (
    "0200 0201 0202 010300 010400 0202 010500 010600"
    "     0201 0202 010700 010800 0202 010900 010a00"
)

# 15 rows: 3 and 3 of the branches, each with the value of fluent 0, and the 9 pairs; then one more,
# that fluent 11 is false. The other candidates, each row with fluent 11 true, are dropped.
SIXTEEN = "020b 0200 0201 010300 010400 0202 010500 010600 00"
SIXTEEN_ROWS = [
    *[(0, 2048), (11, 0), (17, 2), (25, 0), (36, 1), (46, 0), (52, 2), (60, 0)],
    *[(64, 5), (74, 4), (80, 6), (88, 4), (96, 1), (106, 0), (112, 2), (120, 0)],
]

# the same with fluents 7 to 10 in place of 3 to 6
OTHER_SIXTEEN = "020b 0200 0201 010700 010800 0202 010900 010a00 00"
OTHER_ROWS = [
    *[(0, 2048), (131, 0), (257, 2), (385, 0), (516, 1), (646, 0), (772, 2), (900, 0)],
    *[(1024, 5), (1154, 4), (1280, 6), (1408, 4), (1536, 1), (1666, 0), (1792, 2), (1920, 0)],
]


def row_limit_cases():
    """Plans about the limit of 16 rows at a node."""

    def file(text, start=partial()):
        return write([header(13), *LIMIT_ACTIONS, plan(text), start])

    def lines(verdict, rows):
        return "\n".join([verdict, "rows 16", *[f"{true} {false}" for true, false in rows]])

    # over the limit at the root, whatever the verdict would be
    yield file(TWENTY_SEVEN), "refused 9 492"
    yield file(TWENTY_SEVEN, partial(range(3, 11))), "refused 9 492"
    yield file(TWENTY_SEVEN, worlds(0, 2047)), "refused 9 492"
    yield file("020c" + SIXTEEN + "00"), "refused 9 492"
    yield file("020c" + SIXTEEN + OTHER_SIXTEEN), "refused 9 492"
    # at an inner node: behind a doing, in the false branch, in both, in the last of three
    yield file("0103 0104" + TWENTY_SEVEN), "refused 9 496"
    yield file("020c 00" + TWENTY_SEVEN), "refused 9 495"
    yield file("020c 03" + TWENTY_SEVEN), "refused 9 495"
    yield file("020c" + TWENTY_SEVEN + TWENTY_SEVEN), "refused 9 494"
    yield file("020c 00 020b 010300" + TWENTY_SEVEN), "refused 9 500"
    # in a branch of which no row would be left, and which the start does not take
    yield file("020d" + TWENTY_SEVEN + "00", partial([], [12])), "refused 9 494"
    # a branch with too many comes before its parent, and before one that begins later
    yield file("020b 020c" + SIXTEEN + "00" + TWENTY_SEVEN), "refused 9 494"
    yield file("020c" + SIXTEEN + "020c" + SIXTEEN + "00"), "refused 9 515"
    # a fluent that is read twice adds no row
    yield file("020c 020b" + SIXTEEN + "00" + TWENTY_SEVEN), "refused 9 518"
    # exactly 16, of more candidates
    yield file(SIXTEEN), lines("fails 498 1", SIXTEEN_ROWS)
    yield file(SIXTEEN, partial([0, 1, 3])), lines("holds", SIXTEEN_ROWS)
    yield file(SIXTEEN, worlds(2048 + 11, 2048 + 9, 0)), lines("fails 501 1", SIXTEEN_ROWS)
    yield file(SIXTEEN, worlds(11, 2048 + 17, 2048 + 100)), lines("holds", SIXTEEN_ROWS)
    yield file("020c" + SIXTEEN + SIXTEEN), lines("fails 500 1", SIXTEEN_ROWS)
    # a gap adds no row; each row has one literal more
    known_true = [(true + 4096, false) for true, false in SIXTEEN_ROWS]
    yield file("020c" + SIXTEEN + "03", partial([0, 1, 3])), lines("fails 515 3", known_true)
    known_false = [(true, false + 4096) for true, false in SIXTEEN_ROWS]
    yield file("020c 03" + SIXTEEN, partial([], [12, 11])), lines("holds", known_false)
    # the pairs of two lists are dropped, since each implies a row of the branch that is left
    known_false = [(true, false + 4096) for true, false in OTHER_ROWS]
    both = SIXTEEN + OTHER_SIXTEEN
    yield file("020d" + both), lines("fails 492 1", known_false)
    yield file("020d" + both, partial([0, 7, 8], [12])), lines("holds", known_false)
    yield file("020e" + both, partial([0, 3, 4, 12])), lines("holds", known_true)
    yield file("020e" + both, partial([0, 7, 8, 12])), lines("fails 500 1", known_true)


def tests(tally):
    rng = random.Random(20240229)

    stored = {path.stem: path.read_bytes() for path in (ROOT / "examples").glob("*.proc")}
    tally.fact("the example files are those that tools/procfile.py makes", stored == EXAMPLES)
    groups = {
        "small cases": list(small_cases()),
        "worked cases": list(worked_cases()),
        "sets of 64 bits": list(wide_cases()),
        "cases about the limit of 16 rows": list(row_limit_cases()),
    }
    for name, cases in groups.items():
        agrees = all(planfile.text(data) == expected for data, expected in cases)
        tally.fact(f"tools/planfile.py agrees with the {name}", agrees)
        tally.known(name, cases)
    tally.known("small cases through a pipe", groups["small cases"], as_pipe=True)
    cases = spoiled_groups(tally, rng)

    first_words = [text.split("\n")[0].split() for _, text in cases]
    refused = Counter(int(words[1]) for words in first_words if words[0] == "refused")
    loaded = len(cases) - sum(refused.values())
    print(f"  of these {loaded} load, and the refusals are {dict(sorted(refused.items()))}")
    spread = loaded >= 100 and all(refused[number] >= 10 for number in (1, 3, 4, 5, 6, 7, 8))
    tally.fact("the random files load and reach the refusals behind a right sum", spread)


if __name__ == "__main__":
    sys.exit(harness.main(tests, "plancheck", planfile.text))
