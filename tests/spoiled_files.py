"""Runs rowcheck on good, cut, changed and damaged procedure files.

    python3 tests/spoiled_files.py [PROGRAM]     (default: crates/rowcheck/out/rowcheck)

Each run must end with status 0 in well under a second, with exactly the line that the loader of
tools/procfile.py gives. Prints a line for each group of files, and at the end 'N passed, M failed',
which counts the groups.
"""
import random
import sys
from collections import Counter
from pathlib import Path

ROOT = Path(__file__).resolve().parent.parent
sys.dont_write_bytecode = True
sys.path.insert(0, str(ROOT / "tools"))

import harness
import procfile
from spoiling import SMALL_LOADED, small_refusals, spoiled_groups

EXAMPLES = procfile.EXAMPLES


def small_cases():
    """Small inputs that are refused, and some that load, with the line written out."""
    yield from small_refusals()
    loaded = {
        "nothing": "1 0 1 partial",
        "most actions": "1 64 1023 worlds",
        "most fluents": "64 1 1 worlds",
        "a sum that passes 65,536": "64 0 1 worlds",
        "eight readings on each of two paths": "1 1 46 partial",
    }
    for name, data in SMALL_LOADED.items():
        yield data, f"loaded {loaded[name]}"
    yield EXAMPLES["two_branches_partial"], "loaded 3 5 10 partial"


def tests(tally):
    rng = random.Random(20240229)

    stored = {path.stem: path.read_bytes() for path in (ROOT / "examples").glob("*.proc")}
    tally.fact("the example files are those that tools/procfile.py makes", stored == EXAMPLES)
    cases = list(small_cases())
    agrees = all(procfile.line(data) == expected for data, expected in cases)
    tally.fact("the loader of tools/procfile.py agrees with the small cases", agrees)

    tally.known("small cases", cases)
    tally.known("small cases through a pipe", cases, as_pipe=True)
    cases = spoiled_groups(tally, rng)

    reached = Counter(" ".join(line.split()[:2]) for _, line in cases)
    loaded = sum(count for words, count in reached.items() if words.startswith("loaded"))
    refused = {number: reached[f"refused {number}"] for number in range(1, 9)}
    print(f"  of these {loaded} load, and the refusals are {refused}")
    spread = loaded >= 100 and all(refused[number] >= 10 for number in (1, 3, 4, 5, 6, 7, 8))
    tally.fact("the random files load and reach the refusals behind a right sum", spread)


if __name__ == "__main__":
    sys.exit(harness.main(tests, "rowcheck", procfile.line))
