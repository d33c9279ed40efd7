"""What the scripts of tests/ share: running the program on an input, and counting the groups.

    import harness
    def tests(tally): ...
    sys.exit(harness.main(tests, NAME, text))

The function `text` gives the text that is due for an input, but for its last line break. A script
takes the program's path (default: crates/NAME/out/NAME). It prints a line for each group, and at
the end 'N passed, M failed', which counts the groups.
"""
import subprocess
import sys
import tempfile
import time
from concurrent.futures import ThreadPoolExecutor
from pathlib import Path

ROOT = Path(__file__).resolve().parent.parent
TIME_LIMIT = 1.0  # seconds for one run
SHOWN_FAILURES = 3  # of each group
SHOWN_BYTES = 4003  # of an input; no file that loads is longer


def run(program, data, as_pipe=False):
    """(status, standard output, standard error, seconds) of the program on this input."""
    if as_pipe:
        began = time.monotonic()
        done = subprocess.run([program], input=data, capture_output=True, timeout=60)
    else:
        with tempfile.TemporaryFile() as file:
            file.write(data)
            file.seek(0)
            began = time.monotonic()
            done = subprocess.run([program], stdin=file, capture_output=True, timeout=60)
    return done.returncode, done.stdout, done.stderr, time.monotonic() - began


def fault_of(program, data, expected, as_pipe=False):
    """None where the program does as it must, or a text that says what it did."""
    status, out, err, seconds = run(program, data, as_pipe)
    if seconds > TIME_LIMIT:  # once more, since the machine may have been busy
        status, out, err, seconds = run(program, data, as_pipe)
    if status == 0 and out == expected.encode() + b"\n" and err == b"" and seconds <= TIME_LIMIT:
        return None
    shown = data[:SHOWN_BYTES].hex()
    if len(data) > SHOWN_BYTES:
        shown += f".. ({len(data)} bytes)"
    return (
        f"  input    {shown}\n  expected {expected.encode()!r}\n"
        f"  got      {out!r} {err!r}, status {status}, {seconds:.2f} s"
    )


class Tally:
    """Counts the groups. Only those that run the program need its path, and only `group` the
    function that gives the text that is due for an input."""

    def __init__(self, program=None, text=None):
        self.program = program
        self.text = text
        self.passed = self.failed = 0
        self.pool = ThreadPoolExecutor(max_workers=4)

    def count(self, ok):
        self.passed += ok
        self.failed += not ok

    def known(self, name, cases, as_pipe=False):
        """A group of pairs of an input and the text that is due, but for its last line break."""
        began = time.monotonic()
        cases = list(cases)
        faults = self.pool.map(lambda case: fault_of(self.program, *case, as_pipe), cases)
        self.faultless(f"{name}: {len(cases)} runs", faults, began)

    def group(self, name, inputs, as_pipe=False):
        """A group of inputs; the text that is due is worked out. Gives pairs of input and text."""
        cases = [(data, self.text(data)) for data in inputs]
        self.known(name, cases, as_pipe)
        return cases

    def faultless(self, name, faults, began):
        """A group whose faults are texts, or None where there is no fault."""
        faults = [fault for fault in faults if fault is not None]
        for fault in faults[:SHOWN_FAILURES]:
            print(fault)
        self.count(not faults)
        verdict = "ok" if not faults else f"{len(faults)} FAILED"
        print(f"{name}, {verdict} ({time.monotonic() - began:.1f} s)", flush=True)

    def fact(self, name, ok):
        self.count(bool(ok))
        print(f"{name}: {'ok' if ok else 'FAILED'}", flush=True)


def main(tests, name, text):
    """Runs the tests on the program of this name, or at the path on the command line. Gives the
    status."""
    program = sys.argv[1] if len(sys.argv) > 1 else str(ROOT / "crates" / name / "out" / name)
    if not Path(program).is_file():
        print(f"there is no program {program}\n0 passed, 1 failed")
        return 1
    began = time.monotonic()
    tally = Tally(program, text)
    tests(tally)
    print(f"{time.monotonic() - began:.0f} s")
    print(f"{tally.passed} passed, {tally.failed} failed")
    return 1 if tally.failed else 0
