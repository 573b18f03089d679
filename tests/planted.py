"""Plants each mistake of tests/planted/ in a copy of the tests, and sees that the comparison finds it.

    python3 tests/planted.py [SEED]

A file there says what the slip is, the file to edit, the groups of calls to try (or `by`, another of the tests that finds it), and pairs
of old and new text, \\n for a line's end.
"""
import concurrent.futures
import os
import shutil
import subprocess
import sys
import tempfile

HERE = os.path.dirname(os.path.abspath(__file__))
FOLDER = os.path.join(HERE, "planted")
MOST = 3000         # calls to find a mistake in


def read(path):
    """Its lines as pairs of name and text."""
    with open(path) as f:
        return [tuple(line.rstrip("\n").split(": ", 1)) for line in f if line.strip()]


def edited(text, lines):
    """The text with each old piece, which stands in it once, made new."""
    pieces = [value.replace("\\n", "\n") for name, value in lines if name in ("old", "new")]
    for old, new in zip(pieces[0::2], pieces[1::2]):
        if text.count(old) != 1:
            raise ValueError("'%s' stands %d times" % (old, text.count(old)))
        text = text.replace(old, new)
    return text


def copied(folder):
    """The tests and the header, to be edited."""
    shutil.copytree(os.path.join(HERE, "..", "include"), os.path.join(folder, "include"))
    shutil.copytree(HERE, os.path.join(folder, "tests"), ignore=shutil.ignore_patterns("__pycache__", "planted"))
    return os.path.join(folder, "tests")


def first_difference(words, edit=None):
    """The first difference that a test in a copy of the tests tells of, or None; and all that it writes. words: its file and arguments."""
    with tempfile.TemporaryDirectory() as folder:
        tests = copied(folder)
        if edit:
            edit(tests)
        command = [sys.executable, os.path.join(tests, words[0])] + words[1:]
        told = subprocess.run(command, stdout=subprocess.PIPE, stderr=subprocess.STDOUT, text=True).stdout
    return next((line for line in told.splitlines() if line.startswith(("DIFFERS", "FAILED"))), None), told


def compared(groups, count, seed):
    return ["compare.py", "--first", "--groups", groups, str(count), seed]


def found(name, seed):
    """What a mistake is, and what comes of it."""
    lines = read(os.path.join(FOLDER, name))
    asked = dict(lines)

    def edit(tests):
        path = os.path.join(tests, asked["file"])
        with open(path) as f:
            text = edited(f.read(), lines)
        with open(path, "w") as f:
            f.write(text)

    words = [asked["by"], str(MOST // 10), seed] if "by" in asked else compared(asked["groups"], MOST, seed)
    return asked["why"], *first_difference(words, edit)


def main(args):
    seed = args[0] if args else "1"
    names = sorted(os.listdir(FOLDER))
    _, told = first_difference(compared("anywhere,sizes", 200, seed))
    failed = "200 calls, 0 differences" not in told
    print("nothing planted: " + ("FOUND SOMETHING\n" + told if failed else "nothing found"))
    with concurrent.futures.ThreadPoolExecutor(2) as pool:
        for name, (why, line, told) in zip(names, pool.map(lambda name: found(name, seed), names)):
            print("%s: %s" % (name[:-len(".edit")], why))
            print("    " + (line or "NOT FOUND\n" + told))
            failed += line is None
    print("%d passed, %d failed" % (len(names) + 1 - failed, failed))
    return 1 if failed else 0


if __name__ == "__main__":
    sys.exit(main(sys.argv[1:]))
