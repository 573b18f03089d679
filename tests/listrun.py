"""Runs `listrun` on inputs of many lengths, by file and by a slow pipe: it writes what the model does, and leaves the rest unread. The
records are of both sizes, with cards and without.

FF_LISTRUN names the program, FF_TOOLS the folder with its loader, FF_EMULATOR the emulator if there is one (tests/run sets them).
"""
import itertools
import os
import random
import subprocess
import sys
import tempfile
import threading
import time

import model
import sums

MOST = 65536


def changes(n):
    """n records, inserts of both kinds and deletes, most of them worked."""
    rng = random.Random(n)
    live, data = [], []
    for _ in range(n):
        kind = model.DELETE if live and rng.random() < len(live) / 140 else rng.choice((model.INSERT, model.CARDED))
        key = rng.choice(live) if kind == model.DELETE or live and rng.random() < 0.05 else rng.randint(1, 2 ** 64 - 1)
        if kind == model.DELETE:
            live.remove(key)
        elif key not in live and len(live) < model.most_keys(1, 2):
            live.append(key)
        data.append(model.record(kind, key, rng.randint(0, model.MOST_CARD)))
    return data


RECORDS = changes(7000)
LONG = b"".join(RECORDS)
WHOLE = max(end for end in itertools.accumulate(map(len, RECORDS)) if end <= MOST)      # the last end of a record in what is read
SHORT = b"".join(changes(3))
INPUTS = {
    "nothing": b"",
    "one byte": LONG[:1],
    "a short record": SHORT + model.record(model.INSERT, 5)[:-1],
    "a short record with a card": SHORT + model.record(model.CARDED, 5, 7)[:-1],
    "a record without its card": SHORT + model.record(model.CARDED, 5, 7)[:-4],
    "a wrong kind": SHORT + model.record(3, 5) + SHORT,
    "a wrong mark": SHORT + b"\x5a\xa5" + model.record(model.CARDED, 5, 7)[2:] + SHORT,
    "sum 1": b"".join(model.record(model.INSERT, key) for key in range(1, 66)),
    "sum 1 with cards": b"".join(model.record(model.CARDED, key, 100 + key) for key in range(1, 66)),
    "the last whole record": LONG[:WHOLE],
    "65,535 bytes": LONG[:MOST - 1],
    "65,536 bytes": LONG[:MOST],
    "65,537 bytes": LONG[:MOST + 1],
    "7,000 records": LONG,
}


def program(stdin):
    """What it writes, when it ends with 0."""
    library = os.path.join(os.environ["FF_TOOLS"], "lib")
    words = [os.environ["FF_EMULATOR"], os.path.join(library, "ld-linux-x86-64.so.2"), "--library-path", library, os.environ["FF_LISTRUN"]]
    ran = subprocess.run([word for word in words if word], stdin=stdin, stdout=subprocess.PIPE, timeout=120)
    return ran.stdout.decode() if ran.returncode == 0 else "ended with %d" % ran.returncode


def by_file(data):
    """What it writes, and what it leaves unread."""
    with tempfile.TemporaryFile(buffering=0) as f:
        f.write(data)
        f.seek(0)
        return program(f), f.read()


def written_slowly(end, data):
    """In parts of any size, with pauses."""
    rng = random.Random(len(data))
    with open(end, "wb", buffering=0) as f:
        while data:
            part = rng.choice((1, 10, 11, 15, 1000, 4096, 9999))
            f.write(data[:part])
            data = data[part:]
            time.sleep(rng.choice((0, 0.001, 0.01)))


def by_slow_pipe(data):
    """The same; the rest is read when the program has ended."""
    out, into = os.pipe()
    writer = threading.Thread(target=written_slowly, args=(into, data))
    writer.start()
    with open(out, "rb") as f:
        told = program(f)
        rest = f.read()
    writer.join()
    return told, rest


def by_directory():
    """What it writes when nothing can be read."""
    end = os.open("/", os.O_RDONLY)
    try:
        return program(end)
    finally:
        os.close(end)


def main():
    tally = sums.Tally()
    for name, data in INPUTS.items():
        wanted = model.listrun_text(data[:MOST])
        for way in (by_file, by_slow_pipe):
            told, rest = way(data)
            tally.same("%s, %s" % (name, way.__name__), told, wanted)
            tally.same("unread of %s, %s" % (name, way.__name__), (len(rest), rest == data[MOST:]), (len(data[MOST:]), True))
    tally.same("a failed read is the end", by_directory(), model.listrun_text(b""))
    return tally.close()


if __name__ == "__main__":
    sys.exit(main())
