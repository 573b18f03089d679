"""The model beside this file held to sums worked by hand: the paper's, profile
2's, unknown profiles and tables.

    python3 tests/sums.py
"""
import sys
from fractions import Fraction

from model import (MOST_CARD, PROFILES, ROOM, SEGMENT, UNKNOWN, as_forecast,
                   check, counts, delete, high, insert, laid, left_share,
                   listrun_text, live_keys, lookup, low, made_empty, make,
                   record, run, scan, table_of, table_size, to_slots)


class Tally:
    def __init__(self):
        self.passed = self.failed = 0

    def same(self, name, got, wanted):
        if got == wanted:
            self.passed += 1
        else:
            self.failed += 1
            print('FAILED %s: got %r, wanted %r' % (name, got, wanted))

    def close(self):
        print('%d passed, %d failed' % (self.passed, self.failed))
        return 0 if self.failed == 0 else 1


def list_with(*sizes, step=1):
    """An array whose segments hold these many keys, `step` apart from it on."""
    segments, key = [], step
    for size in sizes:
        segments.append(list(range(key, key + step * size, step)))
        key += step * size
    return to_slots(segments)


def insert_all(h, keys):
    """Insert into an empty list, in profile 1; gives the last moves, slots,
    forecast."""
    lent = made_empty(1, h)
    for key in keys:
        number, moves, *lent = insert(1, *lent, key, some_card(key))
        assert number == 0 and lent[1] == with_cards(lent[0])[1]
    return moves, lent[0], lent[3]


def some_card(key):
    """A card for each key: 0 and the greatest among them."""
    return {1: 0, 2: MOST_CARD}.get(key % 5, key * 2654435761 % 2 ** 32)


def with_cards(slots):
    """A good list, a card beside each of its keys, and its table."""
    return laid(slots, {key: some_card(key) for key in live_keys(slots)})


# Rows by hand, against the formulas: the paper's, and profile 2's.
SHARES = {
    1: {1: ([64, 32], [7, 13]),
        2: ([64, 48, 32], [7, 10, 13]),
        3: ([64, 53, 42, 32], [7, 9, 11, 13]),
        4: ([64, 56, 48, 40, 32], [7, 8, 10, 12, 13]),
        5: ([64, 57, 51, 44, 38, 32], [7, 8, 9, 11, 12, 13]),
        6: ([64, 58, 53, 48, 42, 37, 32], [7, 8, 9, 10, 11, 12, 13])},
    2: {1: ([58, 44], [6, 20]),
        2: ([58, 51, 44], [6, 13, 20]),
        3: ([58, 54, 49, 44], [6, 10, 15, 20]),
        4: ([58, 55, 51, 48, 44], [6, 9, 13, 16, 20]),
        5: ([58, 56, 53, 50, 47, 44], [6, 8, 11, 14, 17, 20]),
        6: ([58, 56, 54, 51, 49, 47, 44], [6, 8, 10, 13, 15, 17, 20])},
}

# Profile 2 worked by hand, h = 1, no cells. Keys stand 10 apart: the counts,
# the request (an insert's card follows its key); its number, moves and sparse,
# and the counts after it.
SECOND = [
    ((57, 1), (insert, 571, 0), (0, 1, False, [58, 1])),
    ((58, 1), (insert, 581, 7), (0, 60, False, [40, 20])),
    ((58, 1), (insert, 5, 9), (0, 60, False, [20, 40])),
    ((64, 23), (insert, 15, MOST_CARD), (0, 88, False, [44, 44])),
    ((64, 24), (insert, 15, 3), (8, 0, False, [64, 24])),
    ((6, 34), (delete, 20), (0, 4, True, [5, 34])),
    ((6, 35), (delete, 20), (0, 40, False, [20, 20])),
    ((7, 35), (delete, 20), (0, 5, False, [6, 35])),
    ((60, 10), (delete, 450), (0, 15, False, [59, 10])),
    ((60, 10), (insert, 455, 2 ** 31), (0, 71, False, [44, 27])),
]

def second_profile(t):
    """Profile 2's own sums, and what the profiles make of each other's lists."""
    empty = as_forecast([])
    for sizes, (call, *asked), wanted in SECOND:
        lent = with_cards(list_with(*sizes, step=10))
        number, moves, *sparse, slots, cards, table, _ = call(
            2, *lent, empty, *asked)
        t.same('profile 2, %r, %s %d' % (sizes, call.__name__, asked[0]),
               (number, moves, any(sparse), table), wanted[:3]
               + (wanted[3] + [sum(wanted[3])],))
        t.same('its slots', counts(slots), wanted[3])
        travelled(t, lent, slots, cards, zip(asked[:1], asked[1:]))
    for sizes, first, second in (((64, 0), 0, 0), ((64, 1), 3, 0),
                                 ((24, 64), 3, 0), ((25, 64), 3, 3)):
        lent = with_cards(list_with(*sizes))
        t.same('%r in both' % (sizes,), (check(1, *lent, empty),
                                         check(2, *lent, empty)),
               (first, second))


def travelled(t, before, slots, cards, new=()):
    """Every key has the card it had before; a new one has its own."""
    had = {key: card for key, card in zip(*before[:2]) if key}
    had.update(new)
    for key, card in zip(slots, cards):
        t.same('card of %d' % key, card, had[key] if key else 0)
    t.same('as many cards', len(cards), len(slots))


def every_refusal(t, number, profile, lent, forecast, key=0):
    """Every call but make gives the number, and leaves all that is lent:
    slots, cards and table."""
    left, name = (*lent, forecast), '%d, ' % number
    t.same(name + 'check', check(profile, *left), number)
    t.same(name + 'lookup', lookup(profile, *lent, key), (number, False, 0, 0))
    t.same(name + 'scan', scan(profile, *lent, 0, [9], [8, 7]),
           (number, 0, False, [9], [8, 7]))
    t.same(name + 'insert', insert(profile, *left, key, 6),
           (number, 0) + left)
    t.same(name + 'delete', delete(profile, *left, key),
           (number, 0, False) + left)
    t.same(name + 'run', run(profile, *left, b'?', 9, [1, 2, 3, 4]),
           (0, 0, 0, number, 0) + left + ([1, 2, 3, 4],))


def refused_make(t, number, profile, *lent):
    t.same('%d, make' % number, make(profile, *lent),
           (number, *lent, as_forecast([])))


def unknown_profiles(t):
    """15 comes first of all, and leaves all that is lent."""
    bad = (13, [[9, 9, 9]] * ROOM)
    for profile in UNKNOWN:
        for slots in (list_with(5, 3), [5, 4, 0], list_with(64, 64)):
            for cards in ([], [7] * len(slots)):
                for table in ([], [5, 3, 8], [5, 3, 9]):
                    lent = slots, cards, table
                    every_refusal(t, 15, profile, lent, bad)
                    refused_make(t, 15, profile, *lent)


# Tables written by hand: the counts of the segments, and the levels above.
TABLES = [
    ((7, 30), [37]),
    ((64, 0), [64]),
    ((1, 2, 3, 4), [3, 7, 10]),
    ((0, 0, 0, 5), [0, 5, 5]),
    ((1, 2, 3, 4, 5, 6, 7, 8), [3, 7, 11, 15, 10, 26, 36]),
]


def wrong_ones(table):
    """Tables that are not this one: each entry changed in turn, entries and
    levels in other places, other lengths."""
    for n, entry in enumerate(table):
        for other in {entry + 1, abs(entry - 1), entry + 2 ** 32, 2 ** 64 - 1}:
            yield table[:n] + [other] + table[n + 1:]
    yield table[::-1]
    yield [0] * len(table)
    for length in (0, len(table) - 1, len(table) // 2):
        yield table[:length]
    yield table + [0]
    yield table + table[-1:]


def right_tables(t):
    for sizes, above in TABLES:
        slots, cards, table = with_cards(list_with(*sizes))
        t.same('table of %r' % (sizes,), table, list(sizes) + above)
        t.same('right', check(1, slots, cards, list(sizes) + above,
                              as_forecast([])), 0)
    for h in range(1, 7):
        slots, cards, table, _ = made_empty(2, h)
        t.same('sizes', (len(cards), len(table), len(table_of(slots))),
               (64 * 2 ** h, 2 * 2 ** h - 1, 2 * 2 ** h - 1))


def wrong_tables(t):
    """14: after 15, 1 to 4, before 5, and it leaves all that is lent."""
    empty, bad = as_forecast([]), (1, [[9, 9, 9]] * ROOM)
    for sizes, _ in TABLES:
        slots, cards, right = with_cards(list_with(*sizes))
        falling = [0 if key == 0 else 99 - key for key in slots]
        stray = cards[:-1] + [1]
        for table in wrong_ones(right):
            if table == right:
                continue
            for key in (0, 1, 99):
                every_refusal(t, 14, 1, (slots, cards, table), empty, key)
            t.same('4 first', check(1, slots, cards, table, bad), 4)
            t.same('no forecast', lookup(1, slots, cards, table, 1)[0], 14)
            t.same('15 first', check(3, slots, cards, table, empty), 15)
            t.same('1 first', check(1, slots[1:], cards, table, empty), 1)
            t.same('12 first', check(1, slots, cards[1:], table, empty), 12)
            t.same('2 first', check(1, falling, cards, table, empty), 2)
            t.same('13 first', check(1, slots, stray, table, empty), 13)
    over, cards, _ = with_cards(list_with(64, 1))
    t.same('3 first', check(1, over, cards, [64, 1, 64], empty), 3)
    t.same('then 14', check(2, over, cards, [64, 1, 64], empty), 14)


def other_lengths(n):
    """Lengths that cards beside n slots must not have."""
    return 0, 1, n - 1, n + 1, n // 2, 2 * n, n + 64


def tables_to_fill(t):
    """Make tests the lengths of cards and table alone, after 1."""
    for h in range(1, 7):
        size = table_size(h)
        slots = [9] * (SEGMENT * 2 ** h)
        cards = [8] * len(slots)
        for length in (0, 1, size - 1, size + 1, 2 * size + 1, size // 2):
            refused_make(t, 14, 1, slots, cards, [7] * length)
            refused_make(t, 12, 1, slots, cards[1:], [7] * length)
            refused_make(t, 1, 1, slots[1:], cards, [7] * length)
        for other in other_lengths(len(slots)):
            refused_make(t, 12, 1, slots, [8] * other, [7] * size)
        t.same('made', make(1, slots, cards, [2 ** 64 - 1] * size),
               (0,) + made_empty(1, h))


def main():
    t = Tally()
    empty = as_forecast([])

    for profile in PROFILES:
        for h in SHARES[profile]:
            t.same('shares of profile %d, h=%d' % (profile, h),
                   ([high(profile, h, l) for l in range(h + 1)],
                    [low(profile, h, l) for l in range(h + 1)]),
                   SHARES[profile][h])
    second_profile(t)
    unknown_profiles(t)
    right_tables(t)
    wrong_tables(t)
    tables_to_fill(t)

    moves, slots, forecast = insert_all(2, range(1, 66))
    t.same('sum 1', (moves, counts(slots), forecast[0]),
           (65, [48, 17, 0, 0], 7))

    moves, slots, forecast = insert_all(2, range(65, 0, -1))
    t.same('sum 2', (moves, counts(slots), forecast),
           (65, [17, 48, 0, 0], as_forecast([[0, 0, 7]])))

    for key in range(1, 8):
        for name, sizes, wanted in (
                ('sum 3', (7, 30), (0, 36, False, [18, 18, 36])),
                ('sum 4', (7, 19), (0, 7 - key, True, [6, 19, 25])),
                ('sum 5', (7, 20), (0, 26, False, [13, 13, 26]))):
            *told, slots, _, table, _ = delete(
                1, *with_cards(list_with(*sizes)), empty, key)
            t.same('%s, key %d' % (name, key), (*told, table), wanted)
            t.same('its slots', counts(slots), table[:2])

    weights = [1 if n in (10, 30) else 0 for n in range(1, 38)]
    t.same('sum 6', left_share(1, 1, 1, weights, 0), 18)
    t.same('sum 6, tie', abs(Fraction(1, 64 - 18) - Fraction(1, 64 - 37 + 18)),
           abs(Fraction(1, 64 - 19) - Fraction(1, 64 - 37 + 19)))
    t.same('sum 7', left_share(1, 1, 1, [0] * 37, 0), 19)

    full = with_cards(list_with(64, 0)) + (empty,)
    t.same('sum 8, new', insert(1, *full, 65, 9), (8, 0) + full)
    t.same('sum 8, present', insert(1, *full, 5, 9), (6, 0) + full)

    one = as_forecast([[7, 0, 3]])
    number, *_, forecast = delete(1, *with_cards(list_with(10, 20)), one, 7)
    t.same('sum 9', (number, forecast), (0, empty))

    for n in (0, 64, 192, 8192):
        for table in ([], [0] * (2 * n // 64 - 1)):
            for cards in ([0] * n, [0] * (n + 1), []):
                refused_make(t, 1, 1, [0] * n, cards, table)
                every_refusal(t, 1, 1, ([0] * n, cards, table), empty, 1)

    some = with_cards(list_with(5, 3))
    for a, more in ((0, True), (7, True), (8, False), (2 ** 64 - 1, False)):
        t.same('sum 11, above %d' % a, scan(1, *some, a, [], []),
               (0, 0, more, [], []))

    t.same('listrun sample',
           listrun_text(b''.join(record(1, k) for k in range(1, 66))),
           'keys 65 moved 129 swept 1 stop 0\n0 48\n1 17\n2 0\n3 0\n')
    return t.close()


if __name__ == '__main__':
    sys.exit(main())
