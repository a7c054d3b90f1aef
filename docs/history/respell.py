#!/usr/bin/env python3
"""Spells the repository's own definitions and lemmas in snake case, as the library does, after port.py has run.

    python3 tools/respell.py          at the top of the repository

Port.py respells only the names that a library had spelled alike. This turns the dashes in every other name that a file of
specs/ or proofs/ declares, and nothing else: names of the code, names that the checker makes of the code (the goals of a
function and what stands in them), names of the library, strings and files keep their spelling. A name whose new spelling
stands already elsewhere is turned too, and told, to be looked at.
"""

import pathlib
import re
import sys

LETTER = r"A-Za-z0-9_'ℕ₀₁₂₃₄₅₆₇₈₉"
NAME = re.compile(rf"(?<![{LETTER}\-◌])[{LETTER}]+(?:-[{LETTER}]+)+(?![{LETTER}\-])")
TOKEN = re.compile(rf"[{LETTER}]+(?:-[{LETTER}]+)*")
DECLARED = re.compile(rf"^\s*(?:abbrev |unfoldable |pub )*((?:[{LETTER}]+(?:-[{LETTER}]+)+)(?: [{LETTER}]+(?:-[{LETTER}]+)*)*) :(?= )")
BOUND = re.compile(rf"(?:\blet |λ |\()([{LETTER}]+(?:-[{LETTER}]+)+)(?= )")
ANSWERS = ("Answers.antt", "Invariants.antt", "Choices.antt", "Proof.antt")


def files(root):
    yield from sorted(p for p in root.glob("crates/*/specs/**/*.antt"))
    yield from sorted(p for p in root.glob("crates/*/proofs/**/*.antt"))


def code_of(line):
    return re.split(r"(?:^|\s)--(?:\s|$)", line, maxsplit=1)[0]


def own_names(root):
    """Every name with a dash that the repository declares, and those that it takes from the library."""
    own, library = set(), set()
    for path in files(root):
        text = path.read_text(encoding="utf-8")
        for line in text.splitlines():
            code = code_of(line)
            if code.startswith(("use ", "pub use ")) and not re.search(r"Rattle\.(\w+)\.(specs|proofs)", code):
                library |= set(NAME.findall(code))
            got = re.match(r"(?:pub )?use Rattle\.(\w+)\.", code)
            if got and not (root / "crates" / got.group(1)).is_dir():
                library |= set(NAME.findall(code))
            for names in DECLARED.findall(code):
                for name in names.split():
                    made = path.name in ANSWERS and re.search(rf": goal\.{re.escape(name)}\b", text)
                    if "-" in name and not made:
                        own.add(name)
            own |= set(BOUND.findall(code))
    return own, library


def spelled(name):
    parts = name.split("-")
    if name[0].isupper():
        return "".join(part[:1].upper() + part[1:] for part in parts)
    return "_".join(parts)


def turned(line, names):
    def one(match):
        name = match.group(0)
        before = line[: match.start()]
        if name not in names or before.endswith("goal."):
            return name
        return names[name]

    return NAME.sub(one, line)


def clause(line):
    return re.match(r"\s*(?:pub )?(?:ghost |requires|ensures|decreases|invariant|\[|//)", line) is not None


def main():
    root = pathlib.Path(".")
    own, library = own_names(root)
    taken = set()
    for path in list(files(root)) + sorted(root.glob("crates/*/src/**/*.rt")):
        for line in path.read_text(encoding="utf-8").splitlines():
            taken |= set(TOKEN.findall(code_of(line) if path.suffix == ".antt" else line))
    names = {}
    for name in sorted(own - library):
        new = spelled(name)
        if new in taken or new in names.values():
            print(f"look: {name} would be spelled {new}, which stands already")
        names[name] = new
    for name in sorted(own & library):
        print(f"left: {name} is also a name of the library")
    places = list(files(root))
    for path in places:
        text = path.read_text(encoding="utf-8")
        new = "".join(turned(line, names) for line in text.splitlines(keepends=True))
        if new != text:
            path.write_text(new, encoding="utf-8")
    for path in sorted(root.glob("crates/*/src/**/*.rt")):
        text = path.read_text(encoding="utf-8")
        new = "".join(turned(line, names) if clause(line) else line for line in text.splitlines(keepends=True))
        if new != text:
            path.write_text(new, encoding="utf-8")
    for path in sorted(root.glob("crates/*/must-fail/*.edit")):
        text = path.read_text(encoding="utf-8")
        if re.search(r"^file: (?:specs|proofs)/", text, re.M):
            new = "".join(turned(line, names) for line in text.splitlines(keepends=True))
            if new != text:
                path.write_text(new, encoding="utf-8")
    print(f"respell: {len(names)} names")


if __name__ == "__main__":
    sys.exit(main())
