#!/usr/bin/env python3
"""Counts, in src/ of a commit, the places of older forms that docs/DESIGN-PASS.md speaks of.

    python3 tools/places.py COMMIT [-v]

COMMIT is any commit of this repository ('HEAD'; '.' is the work tree). -v lists each place.
The counts are of places to look at: some are right as they stand, and the page says why.
"""
import difflib
import itertools
import os
import re
import subprocess
import sys


def sources(commit):
    """(path, text) of each source file, and (path, text) of each proof file."""
    if commit == ".":
        names = subprocess.run(["git", "ls-files", "crates"], capture_output=True, text=True, check=True).stdout.split()
        names = [n for n in names if os.path.exists(n)]
        read = lambda n: open(n, encoding="utf-8").read()
    else:
        names = subprocess.run(["git", "ls-tree", "-r", "--name-only", commit, "crates"], capture_output=True, text=True, check=True).stdout.split()
        read = lambda n: subprocess.run(["git", "show", f"{commit}:{n}"], capture_output=True, text=True, check=True).stdout
    src = [(n, read(n)) for n in names if "/src/" in n and n.endswith(".rt")]
    proofs = [(n, read(n)) for n in names if "/proofs/" in n and n.endswith(".antt")]
    return src, proofs


def lines(src, pattern, skip=()):
    found = []
    for name, text in src:
        if any(s in name for s in skip):
            continue
        for number, line in enumerate(text.split("\n"), 1):
            code = line.split("//")[0]
            if re.search(pattern, code):
                found.append(f"{name}:{number}: {code.strip()}")
    return found


def blocks(src, head):
    """(where, text) of each item that begins with `head`, to its closing brace."""
    found = []
    for name, text in src:
        for m in re.finditer(head, text, re.M):
            at = text.find("{\n", m.start())
            body = at
            # a contract stands before the body: the body's brace is alone on its line or ends the head's line
            alone = re.compile(r"^\s*\{$", re.M).search(text, m.start())
            semi = text.find(";", m.start())
            if alone and "\n\n" not in text[m.start():alone.start()]:
                body = alone.end() - 1
            if body < 0 or (0 <= semi < body and "\n\n" in text[semi:body]):
                continue
            depth, i = 0, body
            while i < len(text):
                if text[i] == "{":
                    depth += 1
                elif text[i] == "}":
                    depth -= 1
                    if depth == 0:
                        break
                i += 1
            line = text[:m.start()].count("\n") + 1
            found.append((f"{name}:{line}", text[m.start():i + 1]))
    return found


def point_1(src):
    found = []
    for where, text in blocks(src, r"^ *(pub(\(crate\))? )?enum \w+"):
        cases = re.findall(r"^    (\w+)(\([^)]*\))?( \{[^}]*\})?,?$", text, re.M)
        bare = sum(1 for c in cases if not c[1] and not c[2])
        if len(cases) == 2 and bare <= 1:
            found.append(f"{where}: an enum of two cases, {', '.join(c[0] + c[1] for c in cases)}")
        elif len(cases) > 2 and bare and any(c[0] in ("Nothing", "None", "NotUnderstood", "Invalid", "Unknown") for c in cases):
            found.append(f"{where}: an enum with a case for nothing or for a failure")
    found += [f + "   (a flag in a struct)" for f in lines(src, r"^    (pub |pub\(crate\) )?\w+: bool,$")]
    found += [f + "   (a place or the number of places)" for f in lines(src, r"fn \w+\(.*-> usize", ("wire_tests", "octets"))]
    found += [f + "   (a flag in a Result)" for f in lines(src, r"-> Result<bool")]
    found += [f + "   (a number for a kind)" for f in lines(src, r"(==|!=) 0x[0-9A-F]{2}\b|\b(outer|tag): u8\b|\(0xA[123], ", ("wire_tests",))]
    return found


def point_2(src):
    items = blocks([s for s in src if "wire_tests" not in s[0]], r"^ *(pub(\(crate\))? )?fn \w+[<(]")
    items += blocks([s for s in src if "wire_tests" not in s[0]], r"^ *(pub(\(crate\))? )?struct \w+")
    tokens = [(w, re.findall(r"\w+|[^\w\s]", t)) for w, t in items]
    found = []
    for (wa, a), (wb, b) in itertools.combinations(tokens, 2):
        if min(len(a), len(b)) < 12 or a[:2].count("struct") != b[:2].count("struct"):
            continue
        matcher = difflib.SequenceMatcher(None, a, b, autojunk=False)
        if matcher.real_quick_ratio() > 0.8 and matcher.quick_ratio() > 0.8 and matcher.ratio() > 0.8:
            found.append(f"{wa} and {wb}: alike in {round(100 * matcher.ratio())} of 100")
    return found


def point_3(src):
    return lines(src, r"for \w+ in [\w().]+\.\.[\w(]|\w \+= 1;|^\s*while |\bloop \{")


def point_4(src):
    found = lines(src, r"^impl(<.*>)? (PartialEq|Eq|PartialOrd|Ord|Clone|Copy|Hash|Default)\b.* for ")
    found += lines(src, r"fn (number|from_number|operation|error|mode_from_number)\(")
    found += [f + "   (text made by hand)" for f in lines(src, r"fn \w+\(.*-> Result<String, AllocError>")]
    found += [f + "   (decoding)" for f in lines(src, r"pub fn (read|unpack)\(\w+: &\[u8\]\)")]
    return found


def point_5(src):
    clauses, pairs = {}, {}
    for name, text in src:
        if "wire_tests" in name:
            continue
        for number, line in enumerate(text.split("\n"), 1):
            m = re.match(r"\s*(requires|ensures)( \w+)? \{ (.*) \}[,;]?$", line)
            if m:
                clauses.setdefault(f"{m[1]} {m[3]}", []).append(f"{name}:{number}")
            m = re.search(r"fn \w+(?:<.*?>)?\((.*)\)", line)
            if m:
                given = re.findall(r"(\w+): ([^,]+)", m[1])
                for a, b in itertools.combinations(given, 2):
                    pairs.setdefault(f"{a[0]}: {a[1]} with {b[0]}: {b[1]}", []).append(f"{name}:{number}")
    found = [f"{len(w)} clauses `{c}`: {', '.join(w)}" for c, w in clauses.items() if len(w) >= 3]
    found += [f"{len(w)} functions take {c}: {', '.join(w)}" for c, w in pairs.items() if len(w) >= 3]
    return found


def point_6(src):
    found = []
    for where, text in blocks(src, r"^ *(pub(\(crate\))? )?struct \w+"):
        if re.search(r"^    (pub |pub\(crate\) )?(len|at|end|size|start): (u8|usize),$", text, re.M) and re.search(r"\[\w+; |&'a (mut )?\[", text):
            found.append(f"{where}: {text.split(chr(10))[0]}")
    return found


def point_7(src):
    return lines(src, r"\bfn\(|\bdyn\b|\bwanted: Wanted|^\s*(pub(\(crate\))? )?enum Wanted")


def point_8(proofs):
    answers = [n for n, _ in proofs if re.search(r"/(Answers|Invariants|Proof)\.antt$", n)]
    size = sum(t.count("\n") for _, t in proofs if "/runs/" not in _)
    return [f"{len(answers)} proof files of functions", f"{size} lines of proofs (without runs)"]


def main():
    commit = sys.argv[1] if len(sys.argv) > 1 else "HEAD"
    src, proofs = sources(commit)
    for point, found in [(1, point_1(src)), (2, point_2(src)), (3, point_3(src)), (4, point_4(src)), (5, point_5(src)), (6, point_6(src)), (7, point_7(src)), (8, point_8(proofs))]:
        count = "; ".join(found) if point == 8 else len(found)
        print(f"point {point}: {count}")
        if "-v" in sys.argv and point != 8:
            for place in found:
                print("   ", place)


main()
