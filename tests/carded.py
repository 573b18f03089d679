"""The model beside this file held to cards worked by hand: refusals 12 and 13,
cards that go with their keys, and records of both sizes.

    python3 tests/carded.py
"""
import sys

from model import (MOST_CARD, ROOM, as_forecast, check, delete, insert,
                   live_keys, lookup, made_empty, run, scan)
from sums import (Tally, every_refusal, insert_all, list_with, other_lengths,
                  travelled, with_cards)


def wrong_cards(t):
    """12, after 1 and before 2; 13, after 2 and before 3, for any card in any
    gap. Both leave all that is lent."""
    empty, bad = as_forecast([]), (1, [[9, 9, 9]] * ROOM)
    for sizes in ((5, 3), (2, 0), (1, 2, 3, 4)):
        slots, cards, table = with_cards(list_with(*sizes))
        t.same('good cards', check(1, slots, cards, table, empty), 0)
        falling = [0 if key == 0 else 99 - key for key in slots]
        for n in other_lengths(len(slots)):
            other = (3 * cards)[:n]
            every_refusal(t, 12, 1, (slots, other, table), bad, 1)
            t.same('15 first', check(0, slots, other, table, empty), 15)
            t.same('1 first', check(1, slots[1:], other, table, empty), 1)
            t.same('before 2', check(1, falling, other, table, empty), 12)
        for gap in [n for n, key in enumerate(slots) if key == 0]:
            for card in (1, 256, 2 ** 16, 2 ** 31, MOST_CARD):
                stray = cards[:gap] + [card] + cards[gap + 1:]
                t.same('13', check(1, slots, stray, table, bad), 13)
            every_refusal(t, 13, 1, (slots, stray, table[1:]), bad, 1)
            t.same('15 first', check(4, slots, stray, table, empty), 15)
            t.same('after 2', check(1, falling, stray, table, empty), 2)
    over, cards, table = with_cards(list_with(64, 1))
    stray = cards[:-1] + [1]
    t.same('before 3', (check(1, over, cards, table, empty),
                        check(1, over, stray, table, empty)), (3, 13))


def padded(*front):
    """128 numbers that begin with these; 0 follows."""
    return list(front) + [0] * (128 - len(front))


# By hand, h = 1, from an empty list: a request, its number, and the slots and
# cards it leaves. A present key keeps its card; a card goes with its key.
CARDED_CALLS = [
    ((insert, 20, 7), 0, [20], [7]),
    ((insert, 10, MOST_CARD), 0, [10, 20], [MOST_CARD, 7]),
    ((insert, 30, 0), 0, [10, 20, 30], [MOST_CARD, 7, 0]),
    ((insert, 20, 8), 6, [10, 20, 30], [MOST_CARD, 7, 0]),
    ((insert, 30, 8), 6, [10, 20, 30], [MOST_CARD, 7, 0]),
    ((insert, 15, 5), 0, [10, 15, 20, 30], [MOST_CARD, 5, 7, 0]),
    ((delete, 40), 7, [10, 15, 20, 30], [MOST_CARD, 5, 7, 0]),
    ((delete, 10), 0, [15, 20, 30], [5, 7, 0]),
    ((insert, 10, 4), 0, [10, 15, 20, 30], [4, 5, 7, 0]),
    ((delete, 30), 0, [10, 15, 20], [4, 5, 7]),
    ((delete, 20), 0, [10, 15], [4, 5]),
    ((insert, 0, 9), 5, [10, 15], [4, 5]),
]

# Scans from a into outputs of 9s of so many keys and cards, on the last list
# above: written, more, and the two outputs.
CARDED_SCANS = [
    (0, (3, 3), (2, False, [10, 15, 9], [4, 5, 9])),
    (0, (2, 3), (2, False, [10, 15], [4, 5, 9])),
    (0, (3, 2), (2, False, [10, 15, 9], [4, 5])),
    (0, (1, 3), (1, True, [10], [4, 9, 9])),
    (0, (3, 1), (1, True, [10, 9, 9], [4])),
    (0, (0, 3), (0, True, [], [9, 9, 9])),
    (0, (3, 0), (0, True, [9, 9, 9], [])),
    (10, (1, 1), (1, False, [15], [5])),
    (15, (2, 2), (0, False, [9, 9], [9, 9])),
]


def cards_by_hand(t):
    *lent, forecast = made_empty(1, 1)
    for (call, *asked), number, keys, cards in CARDED_CALLS:
        told = call(1, *lent, forecast, *asked)
        *lent, forecast = told[-4:]
        t.same('%s %r' % (call.__name__, asked), (told[0], lent),
               (number, [padded(*keys), padded(*cards),
                         [len(keys), 0, len(keys)]]))
    for key, wanted in ((10, (0, True, 0, 4)), (15, (0, True, 0, 5)),
                        (20, (0, False, 0, 0)), (0, (5, False, 0, 0))):
        t.same('lookup of %d' % key, lookup(1, *lent, key), wanted)
    for a, rooms, wanted in CARDED_SCANS:
        t.same('scan from %d into %r' % (a, rooms),
               scan(1, *lent, a, *[[9] * room for room in rooms]),
               (0,) + wanted)


def swept_cards(t):
    """The sums with a sweep: every card has gone with its key."""
    for keys in (range(1, 66), range(65, 0, -1)):
        moves, slots, _ = insert_all(2, keys)   # which holds the cards too
        t.same('swept', (moves, len(live_keys(slots))), (65, 65))
    for sizes in ((7, 30), (7, 20)):
        lent = with_cards(list_with(*sizes))
        for key in range(1, 8):
            _, _, _, slots, cards, _, _ = delete(1, *lent, as_forecast([]),
                                                 key)
            travelled(t, lent, slots, cards)


def hex_run(text, allowance=99):
    """A run of these bytes on an empty list of height 1: stop, place, records
    worked and refused, and the keys with their cards."""
    data = bytes.fromhex(text)
    worked, refused, _, stop, place, slots, cards, *_ = run(
        1, *made_empty(1, 1), data, allowance, [0, 0, 0, 0])
    return (stop, place, worked, refused,
            [pair for pair in zip(slots, cards) if pair[0]])


# Records by hand: kind 4 of key 7 and card 0x01020304, kind 1 of key 7, kind 2
# of key 7, kind 4 of key 8 and card 2^32 - 1.
FOUR = 'a55a04 0000000000000007 01020304 '
ONE, TWO = 'a55a01 0000000000000007 ', 'a55a02 0000000000000007 '
EIGHT = 'a55a04 0000000000000008 ffffffff '
HELD = [(7, 16909060)]
CARDED_RUNS = [
    ('', (0, 0, 0, 0, [])),
    (FOUR, (0, 15, 1, 0, HELD)),
    (ONE, (0, 11, 1, 0, [(7, 0)])),
    (FOUR + ONE, (0, 26, 2, 1, HELD)),
    (ONE + FOUR, (0, 26, 2, 1, [(7, 0)])),
    (FOUR + TWO, (0, 26, 2, 0, [])),
    (FOUR + TWO + ONE, (0, 37, 3, 0, [(7, 0)])),
    (ONE + TWO + FOUR, (0, 37, 3, 0, HELD)),
    (FOUR + EIGHT, (0, 30, 2, 0, HELD + [(8, MOST_CARD)])),
    (EIGHT + FOUR, (0, 30, 2, 0, HELD + [(8, MOST_CARD)])),
    (ONE[:-1] + FOUR, (0, 26, 2, 1, [(7, 0)])),
    (FOUR + 'a5', (9, 15, 1, 0, HELD)),
    (FOUR + '00', (9, 15, 1, 0, HELD)),
    (FOUR + 'a55a03 0000000000000009 00000000', (9, 15, 1, 0, HELD)),
    (FOUR + 'a55a05 0000000000000009 00000000', (9, 15, 1, 0, HELD)),
    (FOUR + 'a55b04 0000000000000009 00000000', (9, 15, 1, 0, HELD)),
    ('a55a04 0000000000000000 01020304' + FOUR, (0, 30, 2, 1, HELD)),
]


def carded_runs(t):
    """Records of both sizes, by hand; cut at each byte; and the allowance, 1
    move for each of EIGHT and FOUR but the second's shift of one more."""
    for text, wanted in CARDED_RUNS:
        t.same('run of ' + text, hex_run(text), wanted)
    whole = FOUR + TWO + ONE + EIGHT
    ends = (0, 15, 26, 37, 52)
    held = ([], HELD, [], [(7, 0)], [(7, 0), (8, MOST_CARD)])
    for n in range(53):
        done = sum(end <= n for end in ends) - 1
        cut = bytes.fromhex(whole)[:n].hex()
        t.same('cut at %d' % n, hex_run(cut),
               (0 if n in ends else 9, ends[done], done, 0, held[done]))
    for allowance, wanted in ((0, (10, 0, 0, 0, [])),
                              (2, (10, 15, 1, 0, [(8, MOST_CARD)])),
                              (3, (0, 30, 2, 0, HELD + [(8, MOST_CARD)]))):
        t.same('allowance %d' % allowance, hex_run(EIGHT + FOUR, allowance),
               wanted)


def main():
    t = Tally()
    for part in (wrong_cards, cards_by_hand, swept_cards, carded_runs):
        part(t)
    return t.close()


if __name__ == '__main__':
    sys.exit(main())
