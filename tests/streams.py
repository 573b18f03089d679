"""Makes the request streams of the program `streams`, and what it must write, by the model beside this file.

    python3 tests/streams.py            writes crates/streams/data and crates/streams/stdout
    python3 tests/streams.py --check    compares them with what the model says

Each stream is worked on a list of 256 slots with its cards and its table of 7 entries, made empty; those of ONE_LIST one after the
other on one list. Then `moving` on that list with a table of 6 entries, all 0; with 255 cards, all 0; with its cards and table on 255
slots, all 0; and on the list with card 7 in its last slot, a gap. A line tells the stream's name, the reply, the totals, what was
added to them, the number of a check of what the run left, the entries of the table, and a digest of the cards.
"""
import os
import sys

import model
from trials import digest

HERE = os.path.dirname(os.path.abspath(__file__))
FOLDER = os.path.join(HERE, "..", "crates", "streams")


def inserts(keys):
    return b"".join(model.record(1, key) for key in keys)


def deletes(keys):
    return b"".join(model.record(2, key) for key in keys)


def carded(pairs):
    """Inserts with these cards."""
    return b"".join(model.record(4, key, card) for key, card in pairs)


STREAMS = {
    "empty": b"",
    "short": inserts([3, 1]) + model.record(1, 2)[:10],
    "mark": inserts([3, 1]) + b"\xa5\x5b" + model.record(1, 2)[2:],
    "kind": inserts([3, 1]) + model.record(3, 2),
    "refused": inserts([0, 5, 5]) + deletes([9, 0]) + inserts(range(100, 227)) + inserts([7]) + deletes([5]) + inserts([7]),
    "moving": inserts(range(100, 90, -1)),
    "again": inserts(range(200, 270)) + deletes(range(91, 101)),
    # a present key with another card is refused and keeps its own; a key that comes again by kind 1 has card 0
    "cards": (carded([(30, 7), (10, model.MOST_CARD), (20, 0x01020304), (20, 8)]) + deletes([10]) + inserts([10, 5])
              + carded([(40, 0)])),
    "cut": carded([(3, 1), (1, 3)]) + model.record(4, 2, 9)[:14],
    "swept": carded([(key, 1000 + key) for key in range(1, 66)]) + deletes([1, 65]) + carded([(65, model.MOST_CARD)]),
}

# profile, stream, allowance: each on a list made empty; then all on one list
FRESH = [(1, "empty", 1000), (1, "short", 1000), (1, "mark", 1000), (1, "kind", 1000), (1, "refused", 1000000), (1, "moving", 55),
         (1, "moving", 54), (2, "moving", 1000), (1, "cards", 1000), (1, "cut", 1000), (1, "swept", 1000)]
ONE_LIST = [(1, "moving", 1000), (1, "again", 1000), (1, "cards", 1000), (1, "empty", 0), (3, "empty", 0)]

BEFORE = [2 ** 32 - 1, 0, 2 ** 32 - 6, 0]


def listed(numbers):
    return " ".join(map(str, numbers))


def line(profile, name, slots, cards, table, forecast, allowance):
    ran = model.run(profile, slots, cards, table, forecast, STREAMS[name], allowance, BEFORE)
    worked, refused, moves, stop, place, *left, totals = ran
    added = [(after - before) % 2 ** 32 for after, before in zip(totals, BEFORE)]
    told = "%s worked %d refused %d moves %d stop %d place %d totals %s added %s check %d table %s cards %d\n" % (
        name, worked, refused, moves, stop, place, listed(totals), listed(added), model.check(profile, *left), listed(left[2]),
        digest(left[1]))
    return told, left


def output():
    out = ""
    for profile, name, allowance in FRESH:
        out += line(profile, name, *model.made_empty(profile, 2), allowance)[0]
    left = model.made_empty(1, 2)
    for profile, name, allowance in ONE_LIST:
        told, left = line(profile, name, *left, allowance)
        out += told
    slots, cards, table, forecast = left
    stray = cards[:-1] + [7]
    for lent in ((slots, cards, [0] * 6), (slots, [0] * 255, table), ([0] * 255, cards, table), (slots, stray, table)):
        out += line(1, "moving", *lent, forecast, 1000)[0]
    return out


def files():
    made = {os.path.join("data", name): stream for name, stream in STREAMS.items()}
    made["stdout"] = output().encode()
    return made


def main():
    for name, wanted in files().items():
        path = os.path.join(FOLDER, name)
        if "--check" not in sys.argv:
            with open(path, "wb") as f:
                f.write(wanted)
        elif open(path, "rb").read() != wanted:
            sys.exit(name + " differs")


if __name__ == "__main__":
    main()
