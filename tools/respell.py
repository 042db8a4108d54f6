#!/usr/bin/env python3
"""Brings the repository's own definitions and lemmas to today's spelling, after /opt/rattle/port/port.py: words in snake case.

usage: python3 tools/respell.py          at the top of the repository: rewrites specs/, proofs/, clauses and edits in place
       python3 tools/respell.py --list   prints old and new names, and changes nothing

A definition is what a file of specs/ or proofs/ declares: definitions, lemmas, fields, constructors, also local ones. A dash stays
where it joins two names that a list operation has (`gather-append`); every other dash, and each hump, becomes an underscore.
Functions of src/, strings and prose keep their words. Names that would fall together end the run. A second run changes nothing.
"""

import glob
import os
import re
import sys

NAME = r"[^\s(){}.;,@\"«»\[\]\\]+"
TOKEN = re.compile(r"--[^\n]*|//[^\n]*|\"(?:[^\"\\]|\\.)*\"|" + NAME)
OUTER = ("Prim.", "native.", "mathlib.", "lib.", "borrow.", "Rattle.std", "logic.", "prog.", "contract.", "denote.", "seplogic.")
# operations of lists, which a lemma's name joins by a dash to what they are applied to
OPERATIONS = {"append", "map", "length", "reverse", "drop", "take", "nth", "gather", "total", "all", "get_or", "cons", "nil"}
WORDS = {"abbrev", "unfoldable", "pub", "data", "record", "use", "let", "in", "where", "module", "mod", "infixl", "infixr", "infix", "_", "elim", "λ", "open", "ruleset"}
# where the rule above gives a name that is taken, or no good one
BY_HAND = {
    "To-amp": "ToAmp",
    "To-gt": "ToGt",
    "To-lt": "ToLt",
    "To-quot": "ToQuot",
    "noSequence": "no_sequence_answer",
    "noFeature": "no_feature_answer",
    "noQualifier": "no_qualifier_answer",
}
DECLARES = re.compile(r"^\s*(?:(?:abbrev|unfoldable|pub|data|record)\s+)*(" + NAME + r")\s*(?:[({][^=]*)?:(?:\s|$)")


def read(path):
    with open(path, encoding="utf-8") as f:
        return f.read()


def files(pattern):
    return sorted(p for p in glob.glob(os.path.join("crates", "*", pattern), recursive=True) if "/out/" not in p)


def antt():
    return files("specs/**/*.antt") + files("proofs/**/*.antt")


def is_made(path):
    """A proof of one function: what it declares is named after Rattle's goals."""
    return "/proofs/" in path and os.path.basename(path) in ("Proof.antt", "Answers.antt", "Invariants.antt")


def snake(name):
    if name in BY_HAND:
        return BY_HAND[name]
    name = re.sub(r"(?<=[a-z0-9])(?=[A-Z])", "_", name.replace("′", "'"))
    if not name[0].isupper():
        name = name.lower()
    parts = name.split("-")
    if len(parts) > 1 and all(p in OPERATIONS for p in parts):
        return name
    return name.replace("-", "_")


def declared():
    out = set()
    for path in antt():
        if is_made(path):
            continue
        for line in read(path).split("\n"):
            m = DECLARES.match(line.split("--")[0])
            if m and m.group(1) not in WORDS and not m.group(1).startswith("◌"):
                out.add(m.group(1))
    return out


def needs_it(name):
    return bool(re.match(r"[a-z][^\s]*$", name) and (re.search(r"[A-Z]", name) or "-" in name)) or "′" in name or name in BY_HAND


def from_outside(text):
    """The names that a file takes from the kit's libraries."""
    out = set()
    for module, names in re.findall(r"^(?:ghost )?use (\S+)\.\{([^}]*)\}", text, re.M):
        if module.startswith(OUTER):
            out |= {w.strip() for n in names.split(",") for w in n.split(" as ")}
    return out


def turned(text, names, only=None):
    keep = from_outside(text)

    def one(m):
        t = m.group(0)
        if t.startswith(("--", "//")):
            return re.sub(r"`([^`]*)`", lambda q: "`" + TOKEN.sub(lambda k: names.get(k.group(0), k.group(0)), q.group(1)) + "`", t)
        return names[t] if t in names and t not in keep else t

    return TOKEN.sub(one, text)


def clauses(text, names):
    """A source file: its `ghost use` lines, and what stands in the braces of a clause."""
    keep = from_outside(text)
    out, depth = [], 0
    for line in text.split("\n"):
        starts = re.match(r"\s*(ghost use|requires|ensures|ghost \w+:|measure)\b", line)
        if starts or depth > 0:
            out.append(TOKEN.sub(lambda m: names[m.group(0)] if m.group(0) in names and m.group(0) not in keep else m.group(0), line))
            depth += line.count("{") - line.count("}")
        else:
            out.append(line)
    return "\n".join(out)


def main():
    old = sorted(n for n in declared() if needs_it(n))
    names = {n: snake(n) for n in old if snake(n) != n}
    # a lemma that would have its function's name
    taken = {b for a, b in names.items() if "-" not in a}
    names = {a: b + "_lem" if "-" in a and b in taken else b for a, b in names.items()}
    if "--list" in sys.argv:
        for a, b in names.items():
            print(a, b)
        return 0
    known = declared()
    bad = 0
    for a, b in names.items():
        if b in known or sum(1 for x in names.values() if x == b) > 1:
            print("falls together:", a, b)
            bad += 1
    if bad:
        return 1
    for path in antt():
        text = read(path)
        new = turned(text, names)
        if new != text:
            with open(path, "w", encoding="utf-8") as f:
                f.write(new)
    for path in files("src/**/*.rt"):
        text = read(path)
        new = clauses(text, names)
        if new != text:
            with open(path, "w", encoding="utf-8") as f:
                f.write(new)
    for path in files("must-fail/*.edit"):
        text = read(path)
        is_source = re.search(r"^file: src/", text, re.M)
        new = text if is_source else turned(text, names)
        if new != text:
            with open(path, "w", encoding="utf-8") as f:
                f.write(new)
    print(f"respell: {len(names)} names")
    return 0


if __name__ == "__main__":
    raise SystemExit(main())
