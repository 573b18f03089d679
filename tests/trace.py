"""Sees that every name, file and must-fail edit that docs/TRACE.md cites is in the tree, that it cites every edit of the tree, and that
each of these can be made.

    python3 tests/trace.py [FILE]

How a citation is read. In quotes: a crate; a path, from the root or from crates/; `crate::module` with the names that follow it;
`File.name`; a name. Not in quotes: a capital word just before a quoted name is a file of specs/ or proofs/ that must define the name and
those listed after it, and a word with underscores is an edit. A file or an edit is one of the crate quoted before it in the same cell
or sentence; else of the crates quoted in its row or at the head of its column; else of any crate. A name after no file may stand anywhere.
"""
import difflib
import os
import re
import sys

import tree

KNOWN = {"requires", "ensures", "break", "Proof.antt", "Answers.antt", "Invariants.antt"}          # words of the language, and of its files
TOKEN = re.compile(r"`([^`]+)`|\b([A-Z]\w*)(?= `)|\b([A-Z][a-z]+[A-Z0-9]\w*)\b|\b([a-z][a-z0-9]*(?:_[a-z0-9]+)+)\b")
NAME = re.compile(r"[^\s`()&.,;:/]+$")
BETWEEN = re.compile(r"\s*(?:,|and|to|, and|\(with|, with)?\s*$")
QUOTED = re.compile(r"`([^`]+)`")


class Piece:
    """A cell or a paragraph: its text, the line it begins in, whether it cites strictly, and the crates it may speak of."""

    def __init__(self, text, line, strict=False, crates=()):
        self.text, self.line, self.strict, self.crates = text, line, strict, list(crates)

    def line_at(self, place):
        return self.line + self.text.count("\n", 0, place)


def cells_of(line):
    return [cell.strip() for cell in line.strip().strip("|").split("|")]


def is_rule(line):
    return bool(re.match(r"^\|[\s|:-]+\|?\s*$", line))


class Reader:
    """Reads one page against the tree."""

    def __init__(self, page, path):
        self.tree, self.path = tree.Tree(), path
        self.lines = page
        self.checked, self.problems, self.cited = 0, [], set()

    # ---- Pieces --------------------------------------------------------------------------------------------------------------------

    def crates_in(self, text):
        """The crates that a text quotes."""
        heads = [re.split(r"::|/", re.sub("^crates/", "", quoted))[0] for quoted in QUOTED.findall(text)]
        return [head for head in heads if head in self.tree.crates]

    def row(self, line, number, heads):
        """The cells of a row; a cell's crates are those of the row, or else of the column's head."""
        cells = cells_of(line)
        mine = [crate for cell in cells for crate in self.crates_in(cell)]
        return [Piece(cell, number, n > 0, (mine if n else []) or self.crates_in(heads[n]) if n < len(heads) else mine)
                for n, cell in enumerate(cells)]

    def pieces(self):
        text, begun, heads = [], 0, []
        for number, line in enumerate(self.lines + [""], 1):
            table = line.startswith("|")
            if text and (table or not line.strip()):
                yield Piece("\n".join(text), begun)
                text = []
            if table and number < len(self.lines) and is_rule(self.lines[number]):
                heads = cells_of(line)
            if table and not is_rule(line):
                yield from self.row(line, number, heads)
            elif line.strip() and not table:
                begun = begun if text else number
                text.append(line)

    # ---- Citations -----------------------------------------------------------------------------------------------------------------

    def read(self):
        for piece in self.pieces():
            self.read_piece(piece)
        for label, crates in sorted(self.tree.edits.items()):
            for crate in crates:
                edit = "crates/%s/must-fail/%s.edit" % (crate, label)
                self.check((crate, label) in self.cited, edit, "is not cited")
                why = self.tree.unfit(crate, label)
                self.check(not why, edit, why)
        return self

    def read_piece(self, piece):
        """One citation after another: `crate` is the one quoted last, `files` those that the next names must stand in."""
        self.piece, self.crate, self.files = piece, None, None
        last = 0
        for token in TOKEN.finditer(piece.text):
            quoted, before_name, alone, edit = token.groups()
            self.at = "%s:%d" % (self.path, piece.line_at(token.start()))
            if self.files and not BETWEEN.match(piece.text[last:token.start()]):
                self.files = None
            if edit:
                self.cite(edit)
            elif quoted:
                self.quoted(quoted)
            elif before_name or piece.strict:
                self.stem(before_name or alone, bool(before_name) and not piece.strict)
            last = token.end()

    def check(self, holds, what, problem):
        self.checked += 1
        if not holds:
            self.problems.append("%s %s" % (what, problem))

    def among(self, crates_of):
        """Of things with crates, those of the crate quoted before; else of the piece's crates; else all."""
        if self.crate:
            return [thing for thing, crate in crates_of if crate == self.crate]
        mine = [thing for thing, crate in crates_of if crate in self.piece.crates]
        return mine or ([] if self.piece.strict and self.piece.crates else [thing for thing, _ in crates_of])

    def asked(self):
        """The crates that a file or an edit is looked for in."""
        return self.crate or ", ".join(dict.fromkeys(self.piece.crates))

    def cite(self, label):
        """An edit; the row may name no crate of it, if its label is the only one."""
        crates = self.tree.edits.get(label, [])
        if not crates:
            return self.check(False, self.at, "no must-fail edit %s%s" % (label, self.alike(label, self.tree.edits)))
        mine = self.among([(crate, crate) for crate in crates])
        if not mine and not self.crate and len(crates) == 1:
            mine = crates
        self.check(mine, self.at, "the edit %s is of %s, not of %s" % (label, ", ".join(crates), self.asked()))
        self.cited |= {(crate, label) for crate in mine}

    def stem(self, word, may_be_prose):
        """A file of specs/ or proofs/."""
        every = self.tree.stems.get(word, [])
        self.files = self.among([(path, tree.crate_of(path)) for path in every]) or None
        if self.files is None and not may_be_prose:
            of = self.asked() or "any crate"
            self.check(False, self.at, "no file %s.antt of %s%s" % (word, of, self.elsewhere(every) or self.alike(word, self.tree.stems)))

    def quoted(self, text):
        if text in self.tree.crates:
            self.crate, self.files = text, None
        elif "CRATE" in text or text in KNOWN:
            self.files = None
        elif "::" in text:
            self.module(text.split("::"))
        elif "/" in text:
            self.file(text)
        elif "." in text and re.match(r"[A-Z]\w*\.\S+$", text):
            self.dotted(*text.split(".", 1))
        elif NAME.match(text):
            self.name(text)

    def module(self, parts):
        """crate::module, or crate::module::name; the names after it stand there too. The crate may be quoted before."""
        if parts[0] not in self.tree.crates and self.crate:
            parts = [self.crate] + parts
        path = os.path.join("crates", parts[0], "src", *parts[1:])
        if path + ".rt" in self.tree.files:
            self.files = [path + ".rt"]
            return self.check(True, self.at, "")
        self.files = [os.path.dirname(path) + (".rt" if len(parts) > 2 else "/lib.rt")]
        if self.files[0] in self.tree.files:
            return self.name(parts[-1])
        self.check(False, self.at, "no file %s%s" % (self.files[0], self.elsewhere(self.tree.where(parts[-1]))))
        self.files = None

    def file(self, text):
        """A path; the names after it stand there."""
        places = [text] + [os.path.join("crates", part, text) for part in ["."] + self.tree.crates]
        found = [os.path.normpath(path) for path in places if os.path.exists(os.path.join(self.tree.root, path))]
        same = self.tree.stems.get(os.path.basename(text).replace(".antt", ""), [])
        self.check(found, self.at, "no file `%s`%s" % (text, self.elsewhere(same)))
        self.files = [path for path in found if path in self.tree.files] or None

    def dotted(self, file, name):
        """File.name; or a file with its ending."""
        if name == "antt":
            return self.check(file in self.tree.stems, self.at, "no file %s.antt%s" % (file, self.alike(file, self.tree.stems)))
        crate, self.crate = self.crate, None
        self.stem(file, False)
        self.crate = crate
        if self.files:
            self.name(name)

    def name(self, name):
        where = self.tree.where(name)
        holds = any(path in where for path in self.files) if self.files else where
        of = "in " + " or ".join(self.files) if self.files else "in the tree"
        self.check(holds, self.at, "`%s` is not %s%s" % (name, of, self.elsewhere(where) or self.alike(name, self.tree.every_name())))

    def elsewhere(self, paths):
        return "; it is in " + ", ".join(paths[:4]) if paths else ""

    def alike(self, name, names):
        near = difflib.get_close_matches(name, names, 2, 0.75)
        return "; like it: " + ", ".join(near) if near else ""


def main(args):
    path = args[0] if args else os.path.join("docs", "TRACE.md")
    reader = Reader(tree.lines(path if args else os.path.join(tree.ROOT, path)), path).read()
    for problem in reader.problems:
        print(problem)
    print("%d passed, %d failed" % (reader.checked - len(reader.problems), len(reader.problems)))
    return 1 if reader.problems else 0


if __name__ == "__main__":
    sys.exit(main(sys.argv[1:]))
