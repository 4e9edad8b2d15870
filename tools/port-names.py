#!/usr/bin/env python3
"""Brings the repository's own definitions and lemmas to today's spelling: words in snake case, types and modules in camel case.

usage: tools/port-names.py          at the top of the repository, once, after the kit's port.py

It takes the names that crates/*/specs and crates/*/proofs declare, and turns them in every file of the crates (clauses, definitions,
proofs and must-fail edits) and, between backticks, in README.md and docs/*.md. A name that a file imports from the library stays in
that file. It stops where two names of one file would fall together.
"""

import os
import re
import sys

TOKEN = re.compile(r"[A-Za-zμ◌][A-Za-z0-9_'◌μ]*(?:-[A-Za-z0-9_'◌μ]+)*|\+[a-z][A-Za-z0-9_-]*")
DECLARED = re.compile(r"^\s*(?:(?:abbrev|unfoldable|pub) )*([^\s:(){}.,;«»]+) :(?: |$)")
USE = re.compile(r"^(?:(?:pub|unfoldable|ghost) )*use ([A-Za-z·.+_0-9'-]+?)\.\{([^}]*)\}", re.M)
ALIAS = re.compile(r"(\S+) as (\S+)")


def snake(name):
    name = name.replace("-", "_")
    name = re.sub(r"([a-z0-9])([A-Z])", lambda m: m.group(1) + "_" + m.group(2).lower(), name)
    return name


def files(*ends):
    for folder, dirs, names in os.walk("crates"):
        dirs[:] = sorted(d for d in dirs if d != "out")
        for n in sorted(names):
            if n.endswith(ends):
                yield os.path.join(folder, n)


def read(p):
    with open(p, encoding="utf-8") as f:
        return f.read()


def own(module):
    return module.startswith("Rattle.") and module.split(".")[1] in CRATES


def declared():
    names = {}
    for p in files(".antt"):
        hand = p.endswith("Proof.antt")
        for line in read(p).split("\n"):
            m = DECLARED.match(line)
            if m and not line.lstrip().startswith("--"):
                n = m.group(1)
                if n[0].isupper() or n.startswith(("◌", "(", "λ")):
                    continue
                if hand and not n.endswith("-spec"):
                    continue
                marked = "abbrev " in line or "unfoldable " in line
                names[n] = min(names.get(n, 9), "-" in n and 4 or (0 if marked else 1) + (0 if re.search("[A-Z]", n) else 2))
    return names


def mapping():
    """Each name's new spelling. Of names that fall together a definition keeps the plain word, and a lemma gets _lem."""
    groups = {}
    for n, rank in declared().items():
        groups.setdefault(snake(n), []).append((rank, n))
    new = {}
    for word, names in groups.items():
        for i, (_, n) in enumerate(sorted(names)):
            new[n] = word if i == 0 else word + "_lem"
            if i > 1:
                print(f"three names: {names}", file=sys.stderr)
            if i:
                print(f"{n} -> {new[n]}, beside {sorted(names)[0][1]}", file=sys.stderr)
    return {n: m for n, m in new.items() if n != m}


def library(text):
    names = set()
    for m in USE.finditer(text):
        if not own(m.group(1)):
            names.update(w.strip() for w in m.group(2).replace("\n", " ").split(","))
    return names


CRATES = {d for d in os.listdir("crates")}
MAP = mapping()


def words(text, kept=frozenset()):
    return TOKEN.sub(lambda m: MAP.get(m.group(0), m.group(0)) if m.group(0) not in kept else m.group(0), text)


def quoted(text):
    return re.sub(r"`[^`\n]+`", lambda m: words(m.group(0)), text)


def comment(text):
    """In a comment a word with a dash may be plain English: it is turned between backticks only."""
    return quoted(TOKEN.sub(lambda m: MAP.get(m.group(0), m.group(0)) if re.search("[a-z][A-Z]", m.group(0)) else m.group(0), text))


def line(text, mark, kept):
    at = re.search(r"(^|\s)" + re.escape(mark) + r"(\s|$)", text)
    if not at:
        return words(text, kept)
    return words(text[: at.start()], kept) + comment(text[at.start() :])


def turned(p, text):
    if p.endswith(".antt"):
        kept = library(text)
        return "\n".join(line(t, "--", kept) for t in text.split("\n"))
    # The functions of src/ keep their names: there only a name with a capital or a dash is one of ours.
    kept = {n for n in MAP if "-" not in n and not re.search("[A-Z]", n)} | library(text) if p.endswith(".rt") else frozenset()
    return "\n".join(line(t, "//", kept) for t in text.split("\n"))


def main():
    clashes = 0
    for p in files(".antt", ".rt", ".edit"):
        text = read(p)
        kept = library(text)
        if p.endswith(".antt"):
            came = {}
            for w in set(TOKEN.findall(text)):
                n = MAP.get(w, w) if w not in kept else w
                came.setdefault(n, set()).add(w)
            for n, ws in came.items():
                if len(ws) > 1:
                    clashes += 1
                    print(f"together in {p}: {' and '.join(sorted(ws))}", file=sys.stderr)
        new = turned(p, text)
        if new != text:
            with open(p, "w", encoding="utf-8") as f:
                f.write(new)
    pages = ["README.md"] + ["docs/" + n for n in sorted(os.listdir("docs")) if n.endswith(".md")]
    for p in pages:
        if os.path.exists(p):
            text = read(p)
            new = quoted(text)
            if new != text:
                with open(p, "w", encoding="utf-8") as f:
                    f.write(new)
    print(f"{len(MAP)} names turned, {clashes} places where two fall together")


main()
