#!/usr/bin/env python3
"""Lists the places of each point of docs/DESIGN-PASS.md in crates/*/src, by patterns alone.

    python3 tools/places.py [--counts]

A row is a place to look at: the patterns know no meaning, so a row may be as it has to be, and the page says which.
"""
import collections
import glob
import re
import sys


def code(path):
    """The lines of a file without its comments and its lines for the prover alone."""
    with open(path) as file:
        for number, line in enumerate(file, 1):
            bare = line.split("//")[0].rstrip()
            if bare.strip() and not bare.startswith("ghost use"):
                yield number, bare


FILES = {path: list(code(path)) for path in sorted(glob.glob("crates/*/src/**/*.rt", recursive=True))}


def short(path):
    return path.removeprefix("crates/").replace("/src/", "/")


def lines(pattern):
    """Each line that has the pattern."""
    found = re.compile(pattern)
    return [f"{short(p)}:{n} {line.strip()}" for p, rows in FILES.items() for n, line in rows if found.search(line)]


def pairs(first, second):
    """Each line that has the first pattern, where the next line has the second."""
    a, b = re.compile(first), re.compile(second)
    return [
        f"{short(p)}:{n} {line.strip()} {rows[i + 1][1].strip()}"
        for p, rows in FILES.items()
        for i, (n, line) in enumerate(rows[:-1])
        if a.search(line) and b.search(rows[i + 1][1])
    ]


HEAD = re.compile(
    r"fn (\w+)(?:<[^>(]*>)?\s*\(([^)]*)\)((?:[^{;]|\[[^\]\n]*\]|\{[^\n]*\}[ \n,]*)*?)\n?\s*(?:\{\s*(?:\n|\}|$)|;(?:\n|$))"
)


def functions():
    for path, rows in FILES.items():
        text = "\n".join(line for _, line in rows)
        for head in HEAD.finditer(text):
            name, parameters, clauses = head.groups()
            words = [p.split(":")[0].replace("mut ", "").strip() for p in parameters.split(",") if ":" in p]
            yield f"{short(path)}:{name}", words, re.findall(r"(?:requires|ensures)[^{\n]*\{(.*)\}", clauses)


def shared(table, least):
    return [f"{len(v)} times {k}: {', '.join(sorted(v))}" for k, v in sorted(table.items()) if len(v) >= least]


def clauses():
    """Each clause that three functions or more have."""
    table = collections.defaultdict(set)
    for name, _, facts in functions():
        for fact in facts:
            table[fact.strip()].add(name)
    return shared(table, 3)


def travelling():
    """Each pair of neighbouring parameters that three functions or more have."""
    table = collections.defaultdict(set)
    for name, words, _ in functions():
        for pair in zip(words, words[1:]):
            table[" ".join(pair)].add(name)
    return shared(table, 3)


POINTS = {
    "1 enums": lines(r"^\s*(pub(\([a-z]+\))? )?enum "),
    "1 an absence or an error handed on": lines(
        r"None => (return )?(None|Err)|Err\((_|\w+)\) => (return )?(Err|Answer::Refused|None|\[)|Ok\(\(\)\) => Ok\(\(\)\)"
    )
    + pairs(r"(let .*|\}) else \{$", r"return (None|Err\(|Ok\(\(\)\))"),
    "1 flags in a struct": lines(r"^\s+(pub(\([a-z]+\))? )?\w+: bool,"),
    "1 numbers for refusals": lines(r"Err\([0-9]+\)|\), [0-9]+\)|Some\(1[0-9]\)|, u8\)\]|, u8>|Option<u8>"),
    "3 loops": lines(r"^\s*(for|while|loop)\b"),
    "4 impls": lines(r"^impl.* for "),
    "4 numbers spelled or read": lines(r"% 10|\* 10|b'0'"),
    "5 clauses of three functions": clauses(),
    "5 parameters that travel together": travelling(),
    "6 arrays": lines(r"\[[\w<>]+; [0-9_]+\]"),
    "7 dyn, function pointers, switches on a step": lines(r"\bdyn\b|fn\(|match (due|self\.stage|self)\b"),
}

for name, rows in POINTS.items():
    print(f"{name}: {len(rows)}")
    if "--counts" not in sys.argv:
        for row in rows:
            print("    " + row)
