#!/usr/bin/env python3
"""Brings the repository's own names in antt to today's spelling: words in snake case.

usage: python3 tools/spell.py [--list]      at the top of the repository, once, right after port.py

A definition, a lemma or a field that was spelled as `segmentsOf` becomes `segments_of`, in specs/, proofs/ and the ghost
parts of src/, and in the must-fail edits and planted edits of them. Types and modules keep their capital; functions of src/,
exported names, strings and comments that quote code keep theirs too: none of them is spelled so. --list prints each name
with its new one, and each new name that stood before (names that fall together), and writes nothing.
"""
import glob
import re
import sys

WORD = re.compile(r"[^\s(){}.;,@\"«»\[\]\\:`|]+")
CAMEL = re.compile(r"(?:^|(?<=[-_]))[a-z][a-z0-9]*(?:[A-Z][a-z0-9]*)+")
# The older library's name of `get_or`, in names of our own lemmas.
OLDER = {"getD": "get_or"}


def files():
    for part in ("specs/**/*.antt", "proofs/**/*.antt", "src/**/*.rt"):
        yield from glob.glob("crates/*/" + part, recursive=True)


def edits():
    yield from glob.glob("crates/*/must-fail/*.edit")
    yield from glob.glob("tests/planted/*.edit")


def code(path, text):
    """The text without comments and strings, for finding names."""
    mark = "--" if path.endswith(".antt") else "//"
    return "\n".join(re.sub(r'"[^"]*"', '""', line).split(mark)[0] for line in text.split("\n"))


def snake(found):
    word = found[0]
    return OLDER.get(word) or re.sub(r"(?<=[a-z0-9])([A-Z])", lambda it: "_" + it[1].lower(), word)


def spelled(word):
    return CAMEL.sub(snake, word).replace("′", "'")


def read(path):
    with open(path, encoding="utf-8", newline="") as it:
        return it.read()


def main():
    texts = {path: read(path) for path in files()}
    words = {word for path, text in texts.items() for word in WORD.findall(code(path, text))}
    turned = {word: spelled(word) for word in words if spelled(word) != word}
    if "--list" in sys.argv:
        for word, new in sorted(turned.items()):
            print(word, new, "(stood before)" if new in words else "")
        return
    texts.update({path: read(path) for path in edits()})
    for path, text in texts.items():
        new = WORD.sub(lambda it: turned.get(it[0], it[0]), text)
        if new != text:
            with open(path, "w", encoding="utf-8", newline="") as it:
                it.write(new)


main()
