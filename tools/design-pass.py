#!/usr/bin/env python3
"""Counts the places of docs/DESIGN-PASS.md in crates/*/src: tools/design-pass.py [FOLDER [POINT]]

1 enums of the shape of Option or Result, numbers that stand for a kind or for none; 2 functions whose code is alike but for names, types and
numbers; 3 loops that are no `for`; 4 conversions and choices written by hand; 5 facts that stand in the contracts of three or more functions;
6 buffers with a length beside, or beside one another; 7 matches on a step or a command; 8 proofs in the older form, and their lines.
"""
import os
import re
import sys
from collections import defaultdict

root = sys.argv[1] if len(sys.argv) > 1 else "."
only = sys.argv[2] if len(sys.argv) > 2 else None


def sources():
    for folder, _, names in sorted(os.walk(os.path.join(root, "crates"))):
        if "/src" in folder and "/out" not in folder:
            for name in sorted(names):
                if name.endswith(".rt"):
                    path = os.path.join(folder, name)
                    yield os.path.relpath(path, os.path.join(root, "crates")), open(path).read()


def functions(text):
    """(name, parameters, clauses, body) of each function that has a body"""
    plain = re.sub(r"//[^\n]*", "", text)
    for m in re.finditer(r"\bfn (\w+)", plain):
        depth, i = 0, plain.find("(", m.end())
        start = i
        while True:
            depth += {"(": 1, ")": -1}.get(plain[i], 0)
            i += 1
            if depth == 0:
                break
        parameters = plain[start + 1 : i - 1]
        # clauses hold braces; the body is the first brace at the start of a line, or the last on the line of the signature
        j = i
        while j < len(plain) and plain[j] not in ";{":
            if plain.startswith(("requires", "ensures"), j):
                k = plain.find("{", j)
                depth = 0
                while True:
                    depth += {"{": 1, "}": -1}.get(plain[k], 0)
                    k += 1
                    if depth == 0:
                        break
                j = k
            else:
                j += 1
        if j >= len(plain) or plain[j] == ";":
            continue
        clauses = plain[i:j]
        depth, k = 0, j
        while True:
            depth += {"{": 1, "}": -1}.get(plain[k], 0)
            k += 1
            if depth == 0:
                break
        yield m.group(1), parameters, clauses, plain[j:k]


def show(point, title, places):
    if only in (None, str(point)):
        print(f"{point}. {title}: {len(places)}")
        for place in places:
            print("     " + place)


def enums():
    found = []
    for path, text in sources():
        for m in re.finditer(r"enum (\w+)(?:<[^>]*>)? \{([^}]*)\}", re.sub(r"//[^\n]*", "", text)):
            variants = [v.strip() for v in re.split(r",\s*(?![^(]*\))", m.group(2)) if v.strip()]
            full = [v for v in variants if "(" in v]
            if len(full) <= 1 < len(variants) and not all("(" not in v for v in variants):
                found.append(f"{path} enum {m.group(1)}: {', '.join(variants)}")
            elif any(v in ("Nothing", "Malformed", "None", "Missing", "End", "Not") for v in variants) and m.group(1) != "Option":
                found.append(f"{path} enum {m.group(1)}: {', '.join(variants)}")
        for m in re.finditer(r"\b(stage): u64", text):
            found.append(f"{path} a number for kinds: {m.group(0)}")
        for m in re.finditer(r"\bfn (first_taken|lowest_one|lowest_zero|first_out|reaches|fault_of|slot_number|alt)\b[^{]*-> (u64|usize)\b", text):
            found.append(f"{path} a number for none or for a kind: fn {m.group(1)} -> {m.group(2)}")
    return found


WORDS = r"\b(?:if|else|for|in|while|loop|match|return|let|mut|as|true|false|Some|None|Ok|Err|self|fn)\b"


def twins():
    shapes = defaultdict(list)
    for path, text in sources():
        for name, parameters, _, body in functions(text):
            names = {}
            tokens = []
            for t in re.findall(r"[A-Za-z_]\w*|\d[\d_xa-f]*|b?'[^']*'|b?\"[^\"]*\"|\S", parameters + " | " + body):
                if re.fullmatch(WORDS, t) or not re.match(r"[\w'\"]|b['\"]", t):
                    tokens.append(t)
                else:
                    tokens.append("_")
            if body.strip() not in ("{}", "{ }"):
                shapes[" ".join(tokens)].append(f"{path} {name}")
    return [", ".join(v) for k, v in shapes.items() if len(v) > 1]


def loops():
    found = []
    for path, text in sources():
        for i, line in enumerate(text.split("\n"), 1):
            if re.match(r"\s*(?:while|loop)\b", line) and not re.match(r"\s*while let\b", line):
                found.append(f"{path}:{i} {line.strip()}")
    return found


def conversions():
    by_hand = r"fn (ran_as|told\w*|tell_\w+|slot_number|wide|step_of|first_word|second_word|as_\w+|one_if|or_zero|pick|and|smaller|larger|shorter|word0|word1)\("
    return [f"{path} {m.group(1)}" for path, text in sources() for m in re.finditer(by_hand, text)]


def facts():
    where = defaultdict(list)
    for path, text in sources():
        for name, _, clauses, _ in functions(text):
            seen = set()
            for m in re.finditer(r"requires (?:\w+ )?\{", clauses):
                depth, k = 0, m.end() - 1
                while True:
                    depth += {"{": 1, "}": -1}.get(clauses[k], 0)
                    k += 1
                    if depth == 0:
                        break
                clause = " ".join(clauses[m.end() : k - 1].split())
                for part in clause.split("×"):
                    part = part.strip()
                    while part.startswith("(") and part.endswith(")") and part.count("(") == part.count(")"):
                        part = part[1:-1].strip()
                    seen.add(re.sub(r"\.(now|old|entry)\b", "", part))
            for part in seen:
                where[part].append(f"{path} {name}")
    return [f"{len(v)} times: {k}" for k, v in sorted(where.items(), key=lambda e: -len(e[1])) if len(v) >= 3]


def beside():
    found = []
    for path, text in sources():
        for name, parameters, clauses, _ in functions(text):
            slices = re.findall(r"(\w+): &(?:mut )?\[\w+\]", parameters)
            lengths = re.findall(r"\b(n|count|room|used|last|steps|done): (?:usize|u64)", parameters)
            if slices and lengths or re.search(r"length (\w+)\.\w+ ≡ length (\w+)\.\w+", clauses.split("ensures")[0]):
                found.append(f"{path} {name}({', '.join(slices + lengths)})")
    return found


def switches():
    return [f"{path}:{i} {line.strip()}" for path, text in sources() for i, line in enumerate(text.split("\n"), 1)
            if re.search(r"\bmatch (step|command)\b|\bdyn\b|: fn\(", line)]


def proofs():
    found = []
    for folder, _, names in os.walk(os.path.join(root, "crates")):
        if "/proofs/" in folder and "/out" not in folder and "Proof.antt" in names:
            found.append(os.path.relpath(folder, os.path.join(root, "crates")))
    return sorted(found)


show(1, "enums of the shape of Option or Result, numbers for kinds or for none", enums())
show(2, "groups of functions of one shape", twins())
show(3, "loops that are no `for`", loops())
show(4, "conversions and choices by hand", conversions())
show(5, "facts that three or more functions require", facts())
show(6, "buffers with a length beside, or beside one another", beside())
show(7, "matches on a step or a command, `dyn`, function pointers", switches())
show(8, "proofs in the older form", proofs())
