#!/usr/bin/env python3
"""Brings the definitions and lemmas of this repository to the spelling of today's Rattle, once, after port.py.

A word in camel case goes to snake case. In a lemma's name a dash stays between two names, and becomes an underscore before a plain
word. Functions of src/, exported names, types and modules keep their names. With --list it prints old and new, and changes nothing."""
import glob
import re
import sys

DEFINED = re.compile(r"\s*(?:abbrev |unfoldable |pub )*(?:record |data )?([^\s:(){}.,;]+)\s*(?:[({].*?)?:(?:\s|$)")
LIBRARY = {"length", "get_or", "take", "drop", "set", "sets", "map", "slice"}
# the older library's word, and the name of the same lemma of today's
WORDS = {"getD": "get_or"}


def snake(word):
    for old, new in WORDS.items():
        word = word.replace(old, new)
    return re.sub(r"(?<=[a-z0-9])([A-Z])", lambda m: "_" + m[1].lower(), word)


def defined():
    for path in sorted(glob.glob("crates/*/specs/*.antt") + glob.glob("crates/*/proofs/*.antt")):
        with open(path) as f:
            for line in f:
                m = DEFINED.match(line)
                if m and not line.lstrip().startswith(("--", "use ", "pub mod", "mod ")):
                    yield path, m[1]


def renaming():
    names = list(defined())
    words = LIBRARY | {snake(n) for p, n in names if "/specs/" in p}
    table = {}
    for _, old in names:
        if old[0].isupper() or not re.fullmatch(r"[\w'-]+", old):
            continue
        parts = [snake(p) for p in old.split("-")]
        new = parts[0]
        for i in range(1, len(parts)):
            joins = "_".join(parts[:i]) in words and "_".join(parts[i:]) in words
            new += ("-" if joins else "_") + parts[i]
        if new in words and "-" in old:
            new += "_lem"
        if new != old:
            table[old] = new
    return table


def turn(text, table):
    dashed = {o: n for o, n in table.items() if "-" in o}
    plain = {o: n for o, n in table.items() if "-" not in o}
    for part, before in ((dashed, r"(?<![\w'.-])"), (plain, r"(?<![\w'-])")):
        if part:
            words = "|".join(sorted(map(re.escape, part), key=len, reverse=True))
            text = re.sub(before + "(" + words + r")(?![\w'-])", lambda m: part[m[1]], text)
    return text


def turn_source(text, table):
    """Of a source only what is of the logic: its ghost imports and its clauses."""
    plain = {o: n for o, n in table.items() if "-" not in o}
    lines = text.split("\n")
    for i, line in enumerate(lines):
        if re.match(r"\s*(ghost use|requires|ensures)\b", line):
            lines[i] = turn(line, plain)
    return "\n".join(lines)


def main():
    table = renaming()
    if "--list" in sys.argv:
        for old, new in table.items():
            print(old, new)
        return
    for path in glob.glob("crates/**/*.antt", recursive=True) + glob.glob("crates/**/*.rt", recursive=True):
        with open(path) as f:
            text = f.read()
        new = turn(text, table) if path.endswith(".antt") else turn_source(text, table)
        if new != text:
            with open(path, "w") as f:
                f.write(new)


main()
