#!/usr/bin/env python3
"""Spells this repository's own definitions and lemmas in snake case, after the kit's port.py: addOf becomes add_of, chain-length chain_length.

usage: python3 tools/respell.py [--check]      at the top, once

It turns whole words: in specs/ and proofs/ all of the text, in src/ the clauses, the ghost items and the spans of comments, in must-fail/ the lines of an edit of
specs/. Names of the source, names that Rattle makes, strings and outputs stay. A name that would meet another one in some file is reported and stays.
"""
import collections
import os
import re
import sys

NAME = r'[^\s(){}.;,@"«»]+'
WORD = re.compile(NAME)
DECLARED = re.compile(r"^ *(?:(?:pub|abbrev|unfoldable|data|record) +)*(" + NAME + r")(?: \{[^{}\n]*\})*(?: \([^()\n]*\))* : ")
CLAUSE = re.compile(r"\b(?:requires|ensures)\s*\*?\s*(?:\w+\s*)?\{|\bghost\s*(?:\w+\s*(?::\s*(?:(?:owns|lends)\s*)?|=\s*))?\{|\bghost\s+use\b")
# The proof of a function, its walk and the goals in it are named by Rattle.
# Two lemmas that would fall together.
SPECIAL = {"last-in": "last_in_lem"}
MADE = re.compile(r"^(?:Inv|μ|ghost)-|^(?:invariant|decreases|loop|returns|overflow|nonzero)-")


def snake(name):
    return re.sub(r"(?<=[a-z0-9])[A-Z]", lambda m: "_" + m[0].lower(), name).replace("-", "_")


def files(ending):
    for folder, dirs, names in os.walk("crates"):
        dirs[:] = sorted(d for d in dirs if d != "out")
        for n in sorted(names):
            if n.endswith(ending):
                yield os.path.join(folder, n)


def read(path):
    with open(path, encoding="utf-8") as f:
        return f.read()


def is_walk(path):
    """Whether the file is of the proof of a function: its names are Rattle's."""
    return "/proofs/" in path and path.split("/proofs/", 1)[1].count("/") > 0


def bare(text):
    return re.sub(r'--[^\n]*|"(?:[^"\\\n]|\\.)*"', " ", text)


def declared():
    """Each name that is declared, with whether a definition of specs/ is called so; and the fields of records."""
    names, fields = {}, set()
    for path in files(".antt"):
        if is_walk(path):
            continue
        inside = False
        for line in bare(read(path)).split("\n"):
            if re.match(r"\S", line):
                inside = bool(re.match(r"(pub )?record ", line))
            m = DECLARED.match(line)
            if m and m[1][0].islower() and not MADE.match(m[1]):
                names[m[1]] = names.get(m[1], False) or "/specs/" in path
                if inside and line[:1] == " ":
                    fields.add(m[1])
    return names, fields


def table():
    """Each name that changes. A lemma that would have a definition's name gets _lem behind it."""
    names, _ = declared()
    defined = {snake(it) for it in names if names[it]}
    new = lambda it: snake(it) + ("_lem" if not names[it] and snake(it) in defined else "")
    return {it: new(it) for it in names if new(it) != it} | SPECIAL


def turned(text, names, fields):
    def one(m):
        if m.start() and text[m.start() - 1] == "." and m[0] not in fields and not own_path(text, m.start()):
            return m[0]
        return names.get(m[0], m[0])

    return WORD.sub(one, text)


def own_path(text, at):
    """Whether the dotted path that ends before `at` is one of modules, whose items are ours: each of its words begins with a capital."""
    head = re.search(r"([^\s(){};,]*)\.$", text[:at])
    return bool(head) and all(w[:1].isupper() for w in head[1].split("."))


def clause_spans(text):
    """Where src/ speaks of definitions: what stands in a clause, and ghost use items."""
    for m in CLAUSE.finditer(text):
        if m[0].endswith("use"):
            yield m.end(), text.index(";", m.end())
            continue
        depth, at = 1, m.end()
        while depth:
            depth += {"{": 1, "}": -1}.get(text[at], 0)
            at += 1
        yield m.end(), at - 1


def source(text, names, fields):
    out, last = [], 0
    for start, end in clause_spans(text):
        if start < last:
            continue
        out += [text[last:start], turned(text[start:end], names, fields)]
        last = end
    return "".join(out) + text[last:]


def edit(text, names, fields):
    return turned(text, names, fields) if re.search(r"^file: specs/", text, re.M) else text


def clashes(names):
    """Each new name that stands already in some file that has the old one."""
    for path in files(".antt"):
        words = set(WORD.findall(re.sub(r"\bRattle[^\s{}]*\.", " ", bare(read(path)))))
        for old in words & set(names):
            if names[old] in words:
                yield old, path
    for path in files(".rt"):
        text = read(path)
        words = set(WORD.findall(" ".join(text[a:b] for a, b in clause_spans(text)))) | set(re.findall(r"\b(\w+): ", text))
        for old in words & set(names):
            if names[old] in words:
                yield old, path


def main():
    names, (_, fields) = table(), declared()
    counted = collections.Counter(names.values())
    for old in [o for o in names if counted[names[o]] > 1]:
        print("twice:", old, names[old])
    for old, path in clashes(names):
        print("clash:", old, path)
    if "--check" in sys.argv:
        print(len(names), "names")
        return
    for ending, how in ((".antt", turned), (".rt", source), (".edit", edit)):
        for path in files(ending):
            old = read(path)
            new = how(old, names, fields)
            if new != old:
                with open(path, "w", encoding="utf-8") as f:
                    f.write(new)


if __name__ == "__main__":
    main()
