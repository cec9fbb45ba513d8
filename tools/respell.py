#!/usr/bin/env python3
"""Respells the repository's own definitions and lemmas in snake case, as names.tsv lists them.

usage: tools/respell.py [FOLDER]    FOLDER is the top of a checkout; this one if it is left out

It was run once, after the kit's script, when the repository was brought to a newer Rattle. It goes by
words: in .antt files everywhere but in the names that the checker makes, and in .rt files in clauses
and imports. Strings and the code of functions stay as they are.
"""
import os
import re
import sys

HERE = os.path.dirname(os.path.abspath(__file__))
WORD = r"[\w'\-]"


def table():
    """Old name to new name, for each crate ('' for all)."""
    names = {"": {}}
    with open(os.path.join(HERE, "names.tsv"), encoding="utf-8") as f:
        for line in f:
            if line.startswith("#"):
                continue
            old, new, *crate = line.rstrip("\n").split("\t")
            names.setdefault(crate[0] if crate else "", {})[old] = new
    return names


def turn(text, names, dotted):
    """The text with the names turned; `dotted` says whether a name that follows this dotted path is one of ours."""
    def one(m):
        path, word = m.group(1) or "", m.group(2)
        if word not in names:
            return m.group(0)
        if path and "-" in word and not dotted(path):
            return m.group(0)
        return path + names[word]

    return re.sub(r"((?:(?<!" + WORD + r")[\w'\-]+)?(?:\.[\w'\-«»]+)*\.)?(?<!" + WORD + r")([^\W\d][\w'\-]*)", one, text)


def antt(text, names):
    """A file of definitions or proofs."""
    aliases = set(re.findall(r" as ([\w'\-]+)", text))

    def dotted(path):
        head = path.rstrip(".")
        return head in aliases or head.startswith("Rattle.")

    return turn(text, names, dotted)


def source(text, names):
    """A source file: its imports of definitions, clauses and ghost members, and nothing in quotes."""
    def plain(t):
        return turn(t, names, lambda path: False)

    out, depth, at = [], 0, 0
    opening = re.compile(r'"(?:\\.|[^"\\])*"|//[^\n]*|ghost use [^;]*;|\b(?:requires|ensures|ghost)\b[^{};\n"]*\{')
    while True:
        m = opening.search(text, at)
        if not m:
            out.append(text[at:])
            return "".join(out)
        out.append(text[at:m.start()])
        word = m.group(0)
        if word.startswith(('"',)):
            out.append(word)
            at = m.end()
        elif word.startswith("//") or word.endswith(";"):
            out.append(plain(word))
            at = m.end()
        else:
            depth, end = 1, m.end()
            while depth:
                depth += {"{": 1, "}": -1}.get(text[end], 0)
                end += 1
            out.append(plain(text[m.start():end]))
            at = end


def main():
    top = sys.argv[1] if len(sys.argv) > 1 else os.path.dirname(HERE)
    names = table()
    for folder, folders, files in os.walk(os.path.join(top, "crates")):
        folders[:] = sorted(f for f in folders if f != "out")
        crate = os.path.relpath(folder, os.path.join(top, "crates")).split(os.sep)[0]
        for file in sorted(files):
            kind = {".antt": antt, ".rt": source}.get(os.path.splitext(file)[1])
            if not kind:
                continue
            path = os.path.join(folder, file)
            with open(path, encoding="utf-8") as f:
                old = f.read()
            new = kind(old, names.get(crate, {}))
            new = kind(new, names[""])
            if new != old:
                with open(path, "w", encoding="utf-8") as f:
                    f.write(new)
                print(os.path.relpath(path, top))


if __name__ == "__main__":
    main()
