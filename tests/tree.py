"""What the tree has: crates, files of definitions and theorems, the names that each defines, functions and types, must-fail edits."""
import os
import re

ROOT = os.path.join(os.path.dirname(os.path.abspath(__file__)), "..")
BLOCKS = {"record", "data", "module"}           # what they hold is defined too; what stands in any other definition is its own affair
WORDS = {"pub", "abbrev", "unfoldable"} | BLOCKS
LIST = re.compile(r"^\s*(?:unfoldable )?pub use [^{]*\{(.*)\}")
CODE = re.compile(r"^\s*(?:pub )?(?:extern \"C\" )?(?:fn|struct|enum|const|static|trait) (\w+)")
OF_A_FUNCTION = re.compile(r"/proofs/.+/(?:Proof|Answers|Invariants)\.antt$")     # what is written of one function's proof
VARIANT = re.compile(r"^\s{4}([A-Z]\w*)(?:\(.*\))?,$")


def lines(path):
    with open(path, encoding="utf-8") as f:
        return f.read().splitlines()


def handed_on(line):
    """The names of a `pub use`."""
    listed = LIST.match(line)
    return [part.split(" as ")[-1].strip() for part in listed.group(1).split(",")] if listed else []


def said(line):
    """The names that a line of a definitions file gives a type to."""
    words = line.split("--")[0].split()
    while words and words[0] in WORDS:
        words = words[1:]
    if ":" not in words or words[0] in ("use", "let"):
        return []
    head = words[:words.index(":")]
    plain = [word for word in head if not word.startswith(("(", "{", "["))]
    return plain[:1] if len(plain) < len(head) else plain


def defining(path):
    """The lines of a definitions file that define something."""
    block = False
    for line in lines(path):
        if line[:1].strip():
            block = bool(BLOCKS & set(line.split()[:3]))
            yield line
        elif block:
            yield line


def names_of(path):
    """Every name that a file defines or hands on."""
    if path.endswith(".rt"):
        return {m.group(1) for line in lines(path) for m in (CODE.match(line), VARIANT.match(line)) if m}
    return {name for line in defining(path) for name in said(line) + handed_on(line)}


def below(folder, ending):
    return sorted(os.path.join(at, name) for at, _, names in os.walk(folder) for name in names if name.endswith(ending))


def unfit(folder, path):
    """Why an edit cannot be made in its crate; or None."""
    texts, file, old = {}, None, None
    for line in lines(path):
        word, _, value = line.partition(":")
        value = value[1:]
        if word == "file":
            file = value
            if not os.path.exists(os.path.join(folder, file)):
                return "edits %s, which is not there" % file
            texts.setdefault(file, "\n".join(lines(os.path.join(folder, file))))
        elif word == "old":
            old = value
        elif word == "new":
            if texts[file].count(old) != 1:
                return "edits '%s', which stands %d times in %s" % (old, texts[file].count(old), file)
            texts[file] = texts[file].replace(old, value)
    return None


class Tree:
    """files: path (from the root) to names; stems: file name without ending to paths; edits: label to crates."""

    def __init__(self, root=ROOT):
        self.root = root
        self.crates = sorted(os.listdir(os.path.join(root, "crates")))
        self.files, self.stems, self.edits = {}, {}, {}
        for path in below(os.path.join(root, "crates"), (".antt", ".rt")):
            short = os.path.relpath(path, root)
            self.files[short] = names_of(path)
            if path.endswith(".antt") and not OF_A_FUNCTION.search(short):
                self.stems.setdefault(os.path.basename(path)[:-len(".antt")], []).append(short)
        for path in below(os.path.join(root, "crates"), ".edit"):
            self.edits.setdefault(os.path.basename(path)[:-len(".edit")], []).append(crate_of(os.path.relpath(path, root)))

    def where(self, name):
        """The files that define a name."""
        return [path for path, names in self.files.items() if name in names]

    def every_name(self):
        return {name for names in self.files.values() for name in names}

    def unfit(self, crate, label):
        folder = os.path.join(self.root, "crates", crate)
        return unfit(folder, os.path.join(folder, "must-fail", label + ".edit"))


def crate_of(path):
    return path.split("/")[1]
