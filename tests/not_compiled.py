"""Checks that the compiler refuses some misuses of the panel.

    python3 tests/not_compiled.py

The crate `client` goes through the panel's public calls, and is proved. Each case changes its
source in a temporary copy of the repository, and the check of the copy must then stop at the named
error and at no other. The crates below the client are proved first in the copy; that takes minutes
where no check on this machine has proved them yet. Prints a line for each case, and at the end
'N passed, M failed'.
"""
import re
import shutil
import subprocess
import sys
import tempfile
import time
from pathlib import Path

ROOT = Path(__file__).resolve().parent.parent
sys.dont_write_bytecode = True
sys.path.insert(0, str(ROOT / "tools"))

import harness

CLIENT = Path("crates", "client", "src", "lib.rt")
SHOWN_LINES = 20  # of a check

ARM = """\
    match Armed::arm(loaded, start, word) {
        Ok(armed) => end(armed.confirm()),
        Err(unarmed) => given_back(unarmed),
    }
"""

# A run that is put together of public parts, with no verdict.
FORGED = """\
    let run = Run::begin(&loaded, start);
    let permit = Permit::raise(word);
    let permitted = Permitted {
        loaded: Kept::put(loaded),
        permit,
    };
    let armed = Armed { permitted, run };
    end(armed.confirm())
"""

# The misuse, the error, and the changes: pairs of an old text, which stands once in the client, and
# a new one.
CASES = [
    (
        "a procedure that was never armed is confirmed",
        "unknown-method",
        [(ARM, "    end(loaded.confirm())\n")],
    ),
    (
        "a reading is let go unsettled",
        "linear-value-let-go",
        [
            (
                "Ok(armed) => number_here(armed),",
                "Ok(armed) => match armed.confirm() {\n"
                "            Confirmed::Did { number, armed } => (Some(number), armed.give_up()),\n"
                "            Confirmed::Reads(reading) => return Some(reading.number()),\n"
                "            Confirmed::Ended(over) => (None, over),\n"
                "        },",
            )
        ],
    ),
    (
        "a run is confirmed twice",
        "borrow-e0382",
        [
            (
                "Ok(armed) => end(armed.confirm()),\n        Err(unarmed)",
                "Ok(armed) => {\n"
                "            let Over { loaded: _, word: _ } = end(armed.confirm());\n"
                "            end(armed.confirm())\n"
                "        }\n        Err(unarmed)",
            )
        ],
    ),
    (
        "a reading is settled twice",
        "borrow-e0382",
        [
            (
                "Confirmed::Reads(reading) => settle(reading),",
                "Confirmed::Reads(reading) => {\n"
                "                let Over { loaded: _, word: _ } = settle(reading);\n"
                "                settle(reading)\n"
                "            }",
            )
        ],
    ),
    (
        "a run is taken apart outside its crate",
        "private-field",
        [
            (
                "Ok(armed) => number_here(armed),",
                "Ok(armed) => {\n"
                "            let Armed { permitted: _, run: _ } = armed;\n"
                "            return None;\n"
                "        }",
            )
        ],
    ),
    (
        "a run is made outside its crate",
        "private-field",
        [
            (ARM, FORGED),
            (
                "use panel::known::Known;\n",
                "use kept::Kept;\nuse panel::known::Known;\nuse panel::permitted::Permitted;\n"
                "use permit::Permit;\nuse runs::run::Run;\n",
            ),
        ],
    ),
]


def copy_to(folder):
    """Copies the crates of the repository, without what the checks there left."""
    shutil.copy(ROOT / "crates.txt", folder)
    shutil.copytree(ROOT / "crates", folder / "crates", ignore=shutil.ignore_patterns("out"))


def checked(folder):
    """(status, names of the errors, text) of a check of the client; '' for a nameless error."""
    done = subprocess.run(
        ["rt", "check"],
        cwd=folder / "crates" / "client",
        stdin=subprocess.DEVNULL,
        stdout=subprocess.PIPE,
        stderr=subprocess.STDOUT,
    )
    text = done.stdout.decode(errors="replace")
    return done.returncode, re.findall(r": error(?:\[([^\]]*)\])?", text), text


def shown(what, text):
    lines = text.splitlines()[-SHOWN_LINES:]
    return "\n".join([f"  {what}", *[f"  | {line}" for line in lines]])


def fault_of_legal(folder):
    """None where the client is proved as it stands, or a text that says what the check said."""
    status, _, text = checked(folder)
    if status == 0 and re.search("^logic=proved ", text, re.MULTILINE):
        return None
    return shown(f"not proved, status {status}", text)


def fault_of_misuse(folder, source, error, changes):
    """None where the changed client is refused as it must be, or a text that says what came."""
    for old, new in changes:
        if source.count(old) != 1:
            return shown(f"stands {source.count(old)} times in the client:", old)
        source = source.replace(old, new)
    (folder / CLIENT).write_text(source, encoding="utf-8")
    status, errors, text = checked(folder)
    if status == 1 and set(errors) == {error}:
        return None
    return shown(f"status {status}, errors {errors}, where {error} alone is due", text)


def tests(tally):
    source = (ROOT / CLIENT).read_text(encoding="utf-8")
    with tempfile.TemporaryDirectory() as name:
        folder = Path(name)
        began = time.monotonic()
        copy_to(folder)
        tally.faultless("the client is proved", [fault_of_legal(folder)], began)
        for misuse, error, changes in CASES:
            began = time.monotonic()
            fault = fault_of_misuse(folder, source, error, changes)
            tally.faultless(f"{misuse}: {error}", [fault], began)


def main():
    began = time.monotonic()
    tally = harness.Tally()
    tests(tally)
    print(f"{time.monotonic() - began:.0f} s")
    print(f"{tally.passed} passed, {tally.failed} failed")
    return 1 if tally.failed else 0


if __name__ == "__main__":
    sys.exit(main())
