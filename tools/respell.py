#!/usr/bin/env python3
"""Respells the definitions and lemmas of crates/ in snake case, as the kit's own library does.

    python3 tools/respell.py            respell the files
    python3 tools/respell.py --list     only print each name with its new spelling

It was run once, right behind the kit's port.py, on files that have the kit's spelling otherwise. It
takes the names that begin with a small letter and have a dash or a capital letter: definitions,
lemmas, constructors and fields of specs/ and proofs/. It leaves types and modules; what a proof file
answers (`pub NAME : goal.NAME`), whose names the check makes; strings; and the code of src/ but for
its clauses. Names in backticks of the pages follow. Where a new name would fall together with
another one, nothing is written, and the two are printed.
"""
import re
import sys
from pathlib import Path

ROOT = Path(__file__).resolve().parent.parent
TOKEN = re.compile(r"[A-Za-z_][A-Za-z0-9_'-]*")
STRING = re.compile(r'"(?:[^"\\]|\\.)*"')
# a line that declares names: `abbrev pub a b : ..`, a constructor, a field
DECLARED = re.compile(
    r"^\s*(?:abbrev |unfoldable |pattern )*(?:pub )?(?:abbrev |unfoldable )*([a-z][\w'-]*(?: [a-z][\w'-]*)*) :(?: (.*))?$"
)
NOT_NAMES = {"in", "let", "where", "use", "module", "open"}

# A dash joins the names of two functions, as the kit has it: `bit` and a word for an operation.
DASHED = re.compile(r"bit-[a-z]+(-[a-z]+)*")
# Lemmas whose plain spelling is that of another name: by crate, the name before and after.
# Most of them are as port.py left them, and the definition of that name is respelled here.
OTHERWISE = {
    "cases": {
        "all-stand": "all_stand_lem",
        "covers_at": "covers_at_lem",
        "moved_at": "moved_at_lem",
        "told_at": "told_at_lem",
        "possible-at": "possible_at_lem",
        "stands_by": "stands_by_lem",
    },
    "procedure": {"plan-at": "plan_lies_at"},
}


def turned(name):
    if DASHED.fullmatch(name):
        return name
    return re.sub(r"(?<=[a-z0-9'])[A-Z]", lambda found: "_" + found.group().lower(), name.replace("-", "_"))


def crate_of(path):
    return path.relative_to(ROOT).parts[1]


def proof_texts():
    for path in sorted((ROOT / "crates").glob("*/*/**/*.antt")):
        if path.relative_to(ROOT).parts[2] in ("specs", "proofs"):
            yield path


def clause_texts():
    yield from sorted((ROOT / "crates").glob("*/src/**/*.rt"))
    yield from sorted((ROOT / "crates").glob("*/must-fail/*.edit"))


def declared(any_case=False):
    """The names that are declared, each with its crates; or only those that are not in snake case."""
    names = {}
    for path in proof_texts():
        for line in path.read_text(encoding="utf-8").splitlines():
            found = DECLARED.match(line)
            if not found or NOT_NAMES & set(found.group(1).split()):
                continue
            for word in found.group(1).split():
                answers = (found.group(2) or "").strip() in (f"goal.{word}", f"given.{word}")
                if not answers and (any_case or re.search("[A-Z-]", word)):
                    names.setdefault(word, set()).add(crate_of(path))
    return names


def together(names, new):
    """Pairs of names that would be spelled alike in one proof file."""
    for path in proof_texts():
        spelled = {}
        own = OTHERWISE.get(crate_of(path), {})
        text = re.sub(r"(?m)^use [^{\n]*", "", path.read_text(encoding="utf-8"))
        for token in sorted(set(TOKEN.findall(text))):
            after = own.get(token) or new.get(token, token)
            if after in spelled and (token in names or spelled[after] in names):
                yield path.relative_to(ROOT), token, spelled[after], after
            spelled[after] = token


def respelled(text, own, new, keep_strings):
    def one(found):
        token = found.group()
        if token.startswith('"'):
            return token
        return own.get(token) or new.get(token, token)

    pattern = re.compile(STRING.pattern + "|" + TOKEN.pattern) if keep_strings else TOKEN
    return pattern.sub(one, text)


def main(words):
    names = declared()
    new = {name: turned(name) for name in names}
    for name in OTHERWISE["procedure"]:
        new.pop(name)
    if words == ["--list"]:
        for name, after in sorted(new.items()):
            print(name, after)
        return 0
    alike = list(together(names, new))
    if alike:
        print("\n".join(f"{path}: {a} and {b} would both be {after}" for path, a, b, after in alike))
        return 1
    for path in [*proof_texts(), *clause_texts()]:
        text = path.read_text(encoding="utf-8")
        after = respelled(text, OTHERWISE.get(crate_of(path), {}), new, True)
        if after != text:
            path.write_text(after, encoding="utf-8")
    pages(declared(any_case=True))
    print(f"{len(new)} names")
    return 0


def pages(names):
    """Brings the names in backticks of the pages to the spelling of what is declared now."""

    def token(found):
        after = turned(found.group())
        return after if found.group() not in names and after in names else found.group()

    for path in [ROOT / "README.md", *sorted((ROOT / "docs").glob("*.md"))]:
        text = path.read_text(encoding="utf-8")
        after = re.sub(r"`[^`\n]+`", lambda span: TOKEN.sub(token, span.group()), text)
        if after != text:
            path.write_text(after, encoding="utf-8")


if __name__ == "__main__":
    sys.exit(main(sys.argv[1:]))
