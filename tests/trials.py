"""Makes the commands of the program `trials`, and what it must write, by the model beside this file.

    python3 tests/trials.py            writes crates/trials/stdin and crates/trials/stdout
    python3 tests/trials.py --check    compares them with what the model says

The program keeps 8,192 slots, as many cards and a table of 256 entries, all 0 at first, a forecast, empty at first, a profile, 1 at first,
and how many slots, cards and entries it lends, 0 at first. A command is 25 bytes: what is asked, then three numbers x, y, z, high byte
first. What each does to what is lent, and the line that it writes (with 0 where there is nothing to tell; cards are below 2^32):

     1 make     the first x slots, the first y entries and the first z cards are lent from now on, and made empty: "make NUMBER 0"; the
                forecast is the one that make gives. Ignored, with no line, where x or z is over 8,192 or y over 256.
     2 insert   of x with card y: "insert NUMBER MOVES 0 0"
     3 delete   of x: "delete NUMBER MOVES SPARSE 0"
     4 lookup   of x: "lookup NUMBER PRESENT SEGMENT CARD"
     5 scan     from x into the first y of 64 words that are 7 and the first z of 64 cards that are 9: "scan NUMBER WRITTEN MORE 0", and
                "output DIGEST DIGEST" of all 64 words and of all 64 cards. Ignored where y or z is over 64.
     6 check    "check NUMBER 0"
     7 poke     slot x becomes y. Ignored where there is none.
     8 cell     cell x becomes marker y, segment z / 2^32, count z modulo 2^32. Ignored where there is none.
     9 used     x cells are used.
    10 show     "counts" and the keys of each segment; "cells", the number used, then marker, segment and count of all 12; "slots DIGEST
                DIGEST" of the slots and of the cards; "table" and each entry.
    11 profile  x is the profile from now on.
    12 entry    entry x of the table becomes y. Ignored where there is none.
    13 lent     x entries of the table and y cards are lent from now on. Ignored where x is over 256 or y over 8,192.
    14 card     card x becomes y. Ignored where there is none.

Any other number is ignored.
"""
import os
import random
import struct
import sys

import model
from sums import list_with, some_card

HERE = os.path.dirname(os.path.abspath(__file__))
FOLDER = os.path.join(HERE, "..", "crates", "trials")
MOST = 65536 // 25

SLOTS, ENTRIES = 8192, 256

MAKE, INSERT, DELETE, LOOKUP, SCAN, CHECK, POKE, CELL, USED, SHOW, PROFILE, ENTRY, LENT, CARD = range(1, 15)


def command(ask, x=0, y=0, z=0):
    return struct.pack(">BQQQ", ask, x, y, z)


def made(slots):
    """A make of so many slots, with as many entries and cards as they ask for."""
    return command(MAKE, slots, max(0, 2 * (slots // 64) - 1), slots)


def inserted(key):
    """With a card of its own: 0 and the greatest among them."""
    return command(INSERT, key, some_card(key))


def counted(*sizes):
    """The table of a list whose segments hold so many keys."""
    return [command(ENTRY, n, count) for n, count in enumerate(model.table_of(list_with(*sizes)))]


def cell(place, marker, segment, count):
    return command(CELL, place, marker, segment * 2 ** 32 + count)


def shown():
    return [command(SHOW)]


def up(n, step=10, start=10):
    return [inserted(start + step * i) for i in range(n)]


def down(n, step=10, start=10):
    return [inserted(start + step * i) for i in reversed(range(n))]


def hammer(n, base):
    """Each key goes just behind the first one of the series."""
    return [inserted(base + n - i) for i in range(n)]


def sequences():
    """Inserts and deletes at several heights, in several orders."""
    out = []
    for h in (1, 3, 6):
        out += [made(64 << h)] + up(70) + shown()
        out += [command(DELETE, 10 + 10 * i) for i in range(0, 60)] + shown()
    out += [made(256)] + down(70) + hammer(40, 100000) + shown()
    out += [made(512)] + up(100, 1000) + [inserted(50010 + i) for i in range(30)] + shown()
    return out


def pinned():
    """Own cases of the rules, worked by the code."""
    # P = 8 at height 2: an insert with 7 cells used leaves 8, and the next one 7
    out = [made(256)] + up(7) + shown() + up(1, start=80) + shown() + up(1, start=90) + shown()
    # the denominators of formula 6: a delete sweeps 43 keys, the second of weight 1 and the fifteenth of weight 5
    out += [made(128)] + [command(POKE, i, 10 + 10 * i) for i in range(6)] + [command(POKE, 6, 65)]
    out += [command(POKE, 64 + i, 70 + 10 * i) for i in range(37)] + counted(7, 37)
    out += [cell(0, 20, 0, 1), cell(1, 150, 1, 5), command(USED, 2), command(DELETE, 65)] + shown()
    return out


def mixed(rng, profile, h, n):
    """Random requests, biased to a few places, with lookups and scans between."""
    out = [command(PROFILE, profile), made(64 << h)]
    keys = []
    for i in range(n):
        kind = rng.random()
        if kind < 0.62 or not keys:
            key = rng.choice(keys) + rng.randint(0, 3) if keys and rng.random() < 0.5 else rng.randint(1, 2 ** 64 - 1)
            out.append(command(INSERT, key, rng.choice((0, model.MOST_CARD, rng.randrange(2 ** 32)))))
            if key not in keys:
                keys.append(key)
        elif kind < 0.82:
            key = rng.choice(keys) if rng.random() < 0.9 else rng.randint(0, 2 ** 64 - 1)
            out.append(command(DELETE, key))
            if key in keys:
                keys.remove(key)
        elif kind < 0.91:
            out.append(command(LOOKUP, rng.choice(keys) if rng.random() < 0.6 else rng.randint(0, 2 ** 64 - 1)))
        else:
            out.append(command(SCAN, rng.choice([0] + keys), rng.randint(0, 20), rng.randint(0, 20)))
    return out + shown() + [command(CHECK)]


EVERY = [command(CHECK), command(INSERT, 5, 9), command(DELETE, 5), command(LOOKUP, 5), command(SCAN, 0, 5, 6)]


def poked(*sizes):
    """A list whose segments hold so many keys, 10 apart; some have a card."""
    keys = [(slot, key) for slot, key in enumerate(list_with(*sizes, step=10)) if key]
    slots, cards = [command(POKE, slot, key) for slot, key in keys], [command(CARD, slot, key) for slot, key in keys[::16]]
    return [made(64 * len(sizes))] + slots + cards + counted(*sizes)


def second():
    """Profile 2: as many changes as the first's at two heights, its own sums, its limits, and its lists lent by the first."""
    out = [command(PROFILE, 2)]
    for h in (1, 6):
        out += [made(64 << h)] + up(70) + shown()
        out += [command(DELETE, 10 + 10 * i) for i in range(0, 60)] + shown()
    for sizes in ((6, 34), (6, 35)):
        out += poked(*sizes) + [command(DELETE, 20)] + shown()
    out += poked(60, 10) + [command(DELETE, 450), inserted(450)] + shown()
    out += poked(64, 24) + [inserted(15), command(PROFILE, 1)] + EVERY + [command(PROFILE, 2), command(DELETE, 700)]
    out += [inserted(15)] + shown() + [command(PROFILE, 1)]
    return out


def unknown():
    """15, before any other number, on a good list and on a damaged one of a length that is refused."""
    out = [made(128)] + up(5, 10)
    for profile in model.UNKNOWN:
        out += [command(PROFILE, profile)] + EVERY
    out += [made(128), made(100), command(POKE, 3, 5), command(USED, 99)] + EVERY
    return out + [command(PROFILE, 1)] + EVERY + [made(128)]


def refusals():
    """Each number, first to last, and damaged arrays and forecasts."""
    out = []
    for length in (0, 64, 192, 8192):
        out += [made(length)] + EVERY
    out += [made(128)] + [command(ask, 0) for ask in (INSERT, DELETE, LOOKUP)]
    out += [command(DELETE, 9)] + up(64, 10) + [inserted(10), inserted(11), command(SCAN, 0, 0, 1), command(SCAN, 640, 1, 0)] + shown()
    # a key after a gap; an equal key; a smaller one; a smaller one in the next segment
    for slot, key in ((100, 5000), (30, 300), (30, 5), (64, 200)):
        out += [made(128)] + up(31, 10) + [command(POKE, slot, key)] + EVERY + shown()
    out += [made(128)] + up(20, 10) + [command(POKE, 64, 5000), command(POKE, 66, 5001)] + EVERY
    # over half as many keys as slots; then a card in a gap too
    out += [made(128)] + [command(POKE, i, 1 + i) for i in range(65)] + EVERY + [command(CARD, 127, 7)] + EVERY
    # forecasts: too many cells, counts, a marker twice, not live, wrong segment, an unused cell that is not zero
    base = [made(128)] + up(5, 10)
    good = [made(128), inserted(10), inserted(20)]
    for damage in (
        [command(USED, 8)], [command(USED, 2 ** 64 - 1)], [cell(0, 40, 0, 0)], [cell(0, 40, 0, 8)], [cell(1, 40, 0, 1)], [cell(0, 45, 0, 1)],
        [cell(0, 40, 1, 1)], [cell(0, 0, 1, 1)], [cell(7, 1, 0, 0)], [cell(11, 0, 0, 1)], [command(USED, 1)], [cell(11, 0, 7, 0)],
    ):
        out += base + damage + EVERY + shown()
    return out + good + shown()


def wrong_entries(place, right):
    """This entry is wrong: one more by every call, then in other ways; then it is right again."""
    out = [command(ENTRY, place, right + 1)] + EVERY
    for wrong in ((right - 1) % 2 ** 64, right + 2 ** 32, 2 ** 64 - 1):
        out += [command(ENTRY, place, wrong), command(CHECK)]
    return out + [command(ENTRY, place, right)]


def all_levels():
    """At height 6: the first and the last entry of each level in turn, wrong and right again."""
    firsts = (0, 64, 96, 112, 120, 124, 126)        # round segment 0, which has all the keys
    out = [made(4096)] + up(5)
    for place in (0, 63, 64, 95, 96, 111, 112, 119, 120, 123, 124, 125, 126):
        right = 5 if place in firsts else 0
        out += [command(ENTRY, place, right + 1), command(CHECK), command(ENTRY, place, right)]
    return out + shown() + EVERY


def tables():
    """14: wrong entries in each place, wrong lengths, after the other numbers of a check; and tables to be filled."""
    base = [made(128)] + up(5)
    out = base + wrong_entries(0, 5) + wrong_entries(1, 0) + wrong_entries(2, 5)
    for length in (0, 2, 4):
        out += [command(LENT, length, 128)] + EVERY
    for length in (1, 7, 256, 3):
        out += [command(LENT, length, 128), command(CHECK)]
    out += shown() + EVERY
    wrong = base + [command(ENTRY, 2, 4)]
    out += wrong + [command(USED, 9)] + EVERY + wrong + [command(POKE, 1, 10)] + EVERY + wrong + [command(INSERT, 0), command(LOOKUP, 0)]
    for length in (0, 2, 4, 7):
        out += base + [command(MAKE, 128, length, 128)] + shown()
    out += base + [command(ENTRY, 0, 9), command(ENTRY, 2, 2 ** 64 - 1), made(128)] + shown() + EVERY
    return out + all_levels()


def kept():
    """A key keeps its card: when it comes twice, when others come and go; and scans into outputs of two lengths."""
    out = [made(128)] + up(5) + [command(INSERT, 30, 999), command(INSERT, 31, model.MOST_CARD), command(INSERT, 32, 0)]
    out += [command(LOOKUP, key) for key in (10, 20, 30, 31, 32, 33, 40)] + [command(DELETE, 10), command(LOOKUP, 20), command(LOOKUP, 10)]
    out += [command(INSERT, 10, 4), command(LOOKUP, 10)] + shown()
    out += [command(SCAN, 0, *rooms) for rooms in ((0, 0), (0, 64), (64, 0), (7, 7), (6, 7), (7, 6), (8, 3), (3, 8), (64, 64))]
    return out + [command(SCAN, 31, 2, 9), command(SCAN, 50, 9, 2)]


def cards():
    """12 and 13: cards in gaps, wrong lengths, before and after the other numbers of a check; and cards to be filled."""
    base, out = [made(128)] + up(5), []
    for slot in (5, 6, 63, 64, 127):
        out += base + [command(CARD, slot, 1)] + EVERY
        out += [command(CARD, slot, model.MOST_CARD), command(CHECK), command(CARD, slot, 0), command(CHECK)]
    out += [command(CARD, 3, 0), command(CHECK)]
    for length in (0, 127, 129):
        out += base + [command(LENT, 3, length)] + EVERY
    out += sum([[command(LENT, 3, length), command(CHECK)] for length in (1, 64, 256, 8192, 128)], []) + shown()
    stray = base + [command(CARD, 127, 7)]
    out += stray + [command(POKE, 1, 10)] + EVERY + stray + [command(USED, 9), command(ENTRY, 2, 4)] + EVERY
    out += base + [command(POKE, 1, 10), command(LENT, 3, 64)] + EVERY
    for slots, entries, lent in ((128, 3, 127), (128, 3, 0), (128, 4, 256), (127, 3, 128), (128, 4, 128)):
        out += stray + [command(MAKE, slots, entries, lent)] + shown()
    return out + stray + [made(128)] + shown() + EVERY


def ignored():
    """Commands that ask for what there is not; then all there is, by a make that is refused."""
    out = [made(128)] + up(5)
    out += [command(MAKE, 8193, 3, 128), command(MAKE, 128, 257, 128), command(MAKE, 128, 3, 8193), command(LENT, 257, 128)]
    out += [command(LENT, 3, 8193), command(SCAN, 0, 65, 1), command(SCAN, 0, 1, 65), command(CELL, 12, 1, 1)]
    out += [command(ask, place, 7) for ask, place in ((POKE, 128), (CARD, 128), (ENTRY, 3), (POKE, 8192), (CARD, 8192), (ENTRY, 256))]
    out += [command(ask, 128, 3, 128) for ask in (0, 15, 255)]
    return out + shown() + [command(MAKE, SLOTS, ENTRIES, SLOTS)] + shown()


def commands():
    rng = random.Random(20)
    out = sequences() + pinned() + second() + unknown() + refusals() + tables() + kept() + cards() + ignored()
    while len(out) + 130 < MOST:
        out += mixed(rng, rng.choice(model.PROFILES), rng.randint(1, 6), 100)
    return out


def digest(numbers):
    total = 0
    for number in numbers:
        total = (total * 31 + number % 1000003) % 1000003
    return total


class Player:
    """What the program does with each command, by the model."""

    def __init__(self):
        self.array, self.cards, self.table = [0] * SLOTS, [0] * SLOTS, [0] * ENTRIES
        self.profile, self.length, self.beside, self.lent = 1, 0, 0, 0
        self.forecast = (0, [[0, 0, 0] for _ in range(12)])
        self.lines = []

    def say(self, word, *numbers):
        self.lines.append(" ".join([word] + [str(int(n)) for n in numbers]))

    def slots(self):
        return self.array[:self.length]

    def lends(self):
        """What every call takes first."""
        return self.profile, self.slots(), self.cards[:self.beside], self.table[:self.lent]

    def keep(self, slots, cards, table, forecast):
        self.array[:self.length] = slots
        self.cards[:self.beside] = cards
        self.table[:self.lent] = table
        self.forecast = forecast

    def make(self, x, y, z):
        if x <= SLOTS and y <= ENTRIES and z <= SLOTS:
            self.length, self.lent, self.beside = x, y, z
            number, *left = model.make(*self.lends())
            self.keep(*left)
            self.say("make", number, 0)

    def insert(self, x, y, z):
        number, moves, *left = model.insert(*self.lends(), self.forecast, x, y)
        self.keep(*left)
        self.say("insert", number, moves, 0, 0)

    def delete(self, x, y, z):
        number, moves, sparse, *left = model.delete(*self.lends(), self.forecast, x)
        self.keep(*left)
        self.say("delete", number, moves, sparse, 0)

    def lookup(self, x, y, z):
        self.say("lookup", *model.lookup(*self.lends(), x))

    def scan(self, x, y, z):
        if y <= 64 and z <= 64:
            number, written, more, output, cards = model.scan(*self.lends(), x, [7] * y, [9] * z)
            self.say("scan", number, written, more, 0)
            self.say("output", digest(output + [7] * (64 - y)), digest(cards + [9] * (64 - z)))

    def check(self, x, y, z):
        self.say("check", model.check(*self.lends(), self.forecast), 0)

    def poke(self, x, y, z):
        if x < self.length:
            self.array[x] = y

    def cell(self, x, y, z):
        if x < model.ROOM:
            used, cells = model.copy_forecast(self.forecast)
            cells[x] = [y, z // 2 ** 32, z % 2 ** 32]
            self.forecast = (used, cells)

    def used(self, x, y, z):
        self.forecast = (x, self.forecast[1])

    def named(self, x, y, z):
        self.profile = x

    def entry(self, x, y, z):
        if x < self.lent:
            self.table[x] = y

    def lend(self, x, y, z):
        if x <= ENTRIES and y <= SLOTS:
            self.lent, self.beside = x, y

    def card(self, x, y, z):
        if x < self.beside:
            self.cards[x] = y

    def show(self, x, y, z):
        # keys by halving, as a segment of any content is counted
        self.say("counts", *[halved(self.slots()[s:s + 64]) for s in range(0, self.length // 64 * 64, 64)])
        self.say("cells", self.forecast[0], *[n for c in self.forecast[1] for n in c])
        self.say("slots", digest(self.slots()), digest(self.cards[:self.beside]))
        self.say("table", *self.table[:self.lent])

    ASKED = {MAKE: make, INSERT: insert, DELETE: delete, LOOKUP: lookup, SCAN: scan, CHECK: check, POKE: poke, CELL: cell, USED: used,
             SHOW: show, PROFILE: named, ENTRY: entry, LENT: lend, CARD: card}

    def play(self, data):
        ask, *numbers = struct.unpack(">BQQQ", data)
        if ask in self.ASKED:
            self.ASKED[ask](self, *numbers)


def halved(segment):
    lo, hi = 0, len(segment)
    while lo < hi:
        mid = lo + (hi - lo) // 2
        if segment[mid] == 0:
            hi = mid
        else:
            lo = mid + 1
    return lo


def main(args):
    asked = commands()
    player = Player()
    for data in asked:
        player.play(data)
    files = {"stdin": b"".join(asked), "stdout": ("\n".join(player.lines) + "\n").encode()}
    wrong = 0
    for name, content in files.items():
        path = os.path.join(FOLDER, name)
        if "--check" in args:
            with open(path, "rb") as f:
                same = f.read() == content
            wrong += not same
            print(name, "as the model says" if same else "DIFFERS")
        else:
            with open(path, "wb") as f:
                f.write(content)
    print(len(asked), "commands,", len(player.lines), "lines")
    return wrong


if __name__ == "__main__":
    sys.exit(main(sys.argv[1:]))
