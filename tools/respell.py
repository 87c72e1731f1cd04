#!/usr/bin/env python3
"""Respells the repository's own definitions and lemmas in snake case. Run once, at the top, after the toolchain's port.py.

A name counts as the repository's own where a file of specs/ or a lemma file of proofs/ declares it: definitions, lemmas,
fields of records. Types and modules keep their camel case, goals (the names in proofs/F/) keep the spelling that the check gives them,
and functions of src/ already have this one. Prints what it respells, and stops where two names would fall together.
"""
import glob
import re
import sys

NAME = r"[A-Za-z_◌][A-Za-z0-9_'\-]*"
DECLARED = re.compile(r"^\s*(?:(?:abbrev|unfoldable|pub)\s+)*(" + NAME + r")\s*:\s")
TOKEN = re.compile(r"[A-Za-z_◌«»][A-Za-z0-9_'◌·«»]*(?:-[A-Za-z0-9_'◌·«»]+)*")
GOALS = re.compile(r"/(Answers|Invariants|Proof|Choices)\.antt$")


# Respelled by port.py itself, but not on the pages
BY_PORT = "addressOf andThen answerIn bodyAt callsOf classOf codeAt codeOf codesOf entryOf halfOf indexOf isNumber leftAt modeOf nodeOf " \
    "numberAt numberOf sideOf spotOf stepOf tallyOf"


def respelled(name):
    name = name.replace("-", "_")
    if name[0].islower():
        name = re.sub(r"([a-z0-9'])([A-Z])", lambda m: m.group(1) + "_" + m.group(2).lower(), name)
    return name


def proof_files():
    for pattern in ("crates/*/specs/**/*.antt", "crates/*/proofs/**/*.antt"):
        yield from sorted(glob.glob(pattern, recursive=True))


def declared():
    names = {}
    for path in proof_files():
        if GOALS.search(path):
            continue
        for line in open(path, encoding="utf-8"):
            found = DECLARED.match(line)
            if found:
                names.setdefault(found.group(1), set()).add(path)
    return names


def imported():
    """Names that stand in imports from anything but this repository."""
    own = set(p.split("/")[1] for p in glob.glob("crates/*"))
    names = set()
    for path in proof_files():
        for line in open(path, encoding="utf-8"):
            found = re.match(r"\s*use\s+([\w.«»]+)\.\{(.*)\}", line)
            if found:
                parts = found.group(1).split(".")
                if not (parts[0] == "Rattle" and len(parts) > 1 and parts[1] in own):
                    names.update(n.split(" as ")[-1].strip() for n in found.group(2).split(","))
    return names


def in_words(text, names):
    """Turns names outside string literals."""
    parts = re.split(r'("(?:[^"\\]|\\.)*")', text)
    return "".join(p if p.startswith('"') else TOKEN.sub(lambda m: names.get(m.group(0), m.group(0)), p) for p in parts)


def turn_line(line, names):
    """Kebab names are names in antt alone: not in a comment, where they are words, and not in a line of plain code."""
    camel = {n: new for n, new in names.items() if "-" not in n}
    found = re.search(r"(^|\s)(--|//)\s", line)
    code, comment = (line[: found.start()], line[found.start() :]) if found else (line, "")
    return in_words(code, names) + in_words(comment, camel)


def change(path, names):
    text = open(path, encoding="utf-8").read()
    antt = path.endswith(".antt")
    camel = {n: new for n, new in names.items() if "-" not in n}
    lines = []
    for line in text.split("\n"):
        clause = antt or (path.endswith(".rt") and re.match(r"\s*(ghost|requires|ensures|law)\b", line))
        lines.append(turn_line(line, names if clause else camel))
    new = "\n".join(lines)
    if new != text:
        open(path, "w", encoding="utf-8").write(new)


def tokens(path):
    """Names in a file, without those behind a dot: a part of a path, or a field."""
    return set(TOKEN.findall(re.sub(r"\.[\w'-]+", "", open(path, encoding="utf-8").read())))


def fall_together(names):
    """Files in which two names would become one."""
    for path in proof_files():
        there = tokens(path)
        for name in sorted(there & set(names)):
            for other in sorted(there - {name}):
                if names.get(other, other) == names[name]:
                    yield path, name, other


def main():
    names = {n: respelled(n) for n in declared() if respelled(n) != n}
    stops = list(fall_together(names)) + [("imported", n, n) for n in sorted(set(names) & imported())]
    for stop in stops:
        print("falls together:", *stop)
    if stops:
        sys.exit(1)
    files = list(proof_files())
    for pattern in ("crates/*/src/**/*.rt", "crates/*/must-fail/*.edit", "docs/*.md", "README.md"):
        files += sorted(glob.glob(pattern, recursive=True))
    names.update((n, respelled(n)) for n in BY_PORT.split())
    for path in files:
        change(path, names)
    for name, new in sorted(names.items()):
        print(name, "->", new)


main()
