#!/usr/bin/env python3
"""Brings this repository's own definitions and lemmas to today's spelling: words in snake case, facts and types in camel case.

usage: python3 tools/respell.py [--list]     at the top of the repository, once, right after the kit's port.py

A name is the repository's own if a file of specs/ or proofs/ declares it: a definition, a lemma, a record's field or a constructor.
Names that the prover makes, names of libraries, and everything in src/ outside clauses keep their spelling.
--list prints old and new names and what falls together, and writes nothing.
"""

import os
import re
import sys

TOKEN = re.compile(r"[^\s(){}\[\],;.`«»\"]+")
DECLARED = re.compile(
    r"^(?P<indent>\s*)(?:(?P<marks>(?:(?:abbrev|unfoldable|pub|data|record|axiom|package)\s+)+)(?P<marked>[^\s(){}\[\],;.:=]+)"
    r"|(?P<plain>[^\s(){}\[\],;.:=]+)\s*(?:[({][^)}]*[)}]\s*)*(?::(?!\S)|:$|=))"
)
# Lemmas that keep a dash: it joins two names, and without it they would fall together with words of the library.
KEPT = {"bit-and", "bit-or"}

# Names that no declaration shows: what an import is called here, and variables.
OTHER = (
    "nothing-more Made-board now-settled both-none not-smaller in-part not-nine kind-read book-read board-read words-read replies-are capacity-is "
    "text-is line-is some-node some-role can-be can-be' over-old"
).split()


def antt_files(root):
    for folder, dirs, files in os.walk(os.path.join(root, "crates")):
        dirs[:] = sorted(d for d in dirs if d not in ("out", "src", "data"))
        for f in sorted(files):
            if f.endswith(".antt"):
                yield os.path.join(folder, f)


def new_name(old):
    if old[0].isupper():
        return "".join(p[:1].upper() + p[1:] for p in old.split("-"))
    return old.replace("-", "_")


def declared(path):
    """The hyphenated names that a file declares."""
    answers = os.path.basename(path) in ("Answers.antt", "Invariants.antt")
    found = set()
    with open(path, encoding="utf-8") as f:
        for line in f:
            m = DECLARED.match(line)
            if not m:
                continue
            name = m.group("marked") or m.group("plain")
            if "-" not in name or not re.match(r"[A-Za-z]", name) or name.startswith("--"):
                continue
            if answers and not m.group("indent") and re.search(r"\bgoal\.", line):
                continue
            found.add(name)
    return found


def libraries(path):
    """The names that a file takes from libraries."""
    with open(path, encoding="utf-8") as f:
        text = f.read()
    got = set()
    for m in re.finditer(r"use (?:Rattle\.std|native|borrow|denote|lib|mathlib|Prim)\.?[^{;\n]*\{([^}]*)\}", text):
        for it in m.group(1).split(","):
            got.add(it.strip().split(" as ")[0])
    return got


def respelled(text, names, skip=()):
    return TOKEN.sub(lambda m: names.get(m.group(0), m.group(0)) if m.group(0) not in skip else m.group(0), text)


def in_antt(line, names, skip):
    at = line.find("--")
    if at >= 0 and (at == 0 or line[at - 1] in " \t"):
        return respelled(line[:at], names, skip) + in_prose(line[at:], names)
    return respelled(line, names, skip)


def in_prose(text, names):
    """Text for readers: only what stands in backquotes."""
    return re.sub(r"`[^`\n]*`", lambda m: respelled(m.group(0), names), text)


def in_rt(line, names):
    at = line.find("//")
    code, rest = (line, "") if at < 0 else (line[:at], line[at:])
    parts = re.split(r'("(?:[^"\\]|\\.)*")', code)
    return "".join(p if p.startswith('"') else respelled(p, names) for p in parts) + in_prose(rest, names)


def rewrite(path, turn):
    with open(path, encoding="utf-8") as f:
        old = f.read()
    new = "".join(turn(l) for l in old.splitlines(keepends=True))
    if new != old:
        with open(path, "w", encoding="utf-8") as f:
            f.write(new)
        return 1
    return 0


def main(argv):
    root = "."
    files = list(antt_files(root))
    own = set()
    for p in files:
        own |= declared(p)
    names = {n: new_name(n) for n in sorted((own | set(OTHER)) - KEPT)}
    if "--list" in argv:
        by_new = {}
        for old, new in names.items():
            by_new.setdefault(new, []).append(old)
            print(f"{old} -> {new}")
        for new, olds in by_new.items():
            if len(olds) > 1:
                print(f"FALL TOGETHER {new}: {olds}")
        for p in files:
            both = libraries(p) & set(names)
            if both:
                print(f"LIBRARY {p}: {sorted(both)}")
        return
    changed = 0
    for p in files:
        skip = libraries(p)
        if os.path.basename(p) in ("Answers.antt", "Invariants.antt"):
            skip |= set(OTHER)
        changed += rewrite(p, lambda l: in_antt(l, names, skip))
    for folder, dirs, them in os.walk(os.path.join(root, "crates")):
        dirs[:] = [d for d in dirs if d not in ("out", "data")]
        for f in them:
            p = os.path.join(folder, f)
            if f.endswith(".rt"):
                changed += rewrite(p, lambda l: in_rt(l, names))
            elif f.endswith(".edit"):
                changed += rewrite(p, lambda l: respelled(l, names) if re.match(r"(old|new):", l) else l)
    for p in ["README.md"] + [os.path.join("docs", f) for f in sorted(os.listdir("docs")) if f.endswith(".md")]:
        changed += rewrite(p, lambda l: in_prose(l, names))
    print(f"{len(names)} names, {changed} files changed")


main(sys.argv[1:])
