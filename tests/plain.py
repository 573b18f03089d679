"""The demands of the model beside this file, tried on random requests: each is held to a plain sorted set of keys with their cards.

    python3 tests/plain.py [COUNT [SEED]]   COUNT requests, 500 if not said, by each profile at each height
"""
import random
import sys
from fractions import Fraction

import model
from model import high, low
from sums import Tally

TOP = 2 ** 64 - 1
INSERT, DELETE, CARDED = 1, 2, 4


def left_share_by_fractions(profile, h, l, weights, front):
    """The sharing rule again, one line, with exact fractions."""
    m, C = len(weights), 32 * 2 ** l
    if front + sum(weights) == 0:
        return -(-m // 2)
    lo, hi = 2 ** (l - 1) * low(profile, h, l), 2 ** (l - 1) * high(profile, h, l)
    return min((i for i in range(m + 1) if lo <= i <= hi and lo <= m - i <= hi),
               key=lambda i: (abs(Fraction(front + sum(weights[:i]), C - i) - Fraction(sum(weights[i:]), C - m + i)), i))


def window_counts(slots):
    """The table again: slots that are not gaps, level by level."""
    size, counted = model.SEGMENT, []
    while size <= len(slots):
        counted += [sum(key != 0 for key in slots[n:n + size]) for n in range(0, len(slots), size)]
        size *= 2
    return counted


def random_request(rng, keys, mood):
    """A kind and key, by a mood that lasts a while."""
    name, base = mood
    if name == 'empty out' and keys:
        near = [k for k in keys if k >= base] or keys
        return DELETE, rng.choice(near[:40])
    if name == 'thin' and keys:
        return DELETE, rng.choice(keys)
    if name == 'rising':
        higher = [k for k in keys if k >= base]
        return INSERT, min(TOP, (max(higher) if higher else base) + rng.randint(1, 3))
    if name == 'falling':
        return INSERT, max(1, (min(keys) if keys else base) - rng.randint(1, 3))
    if name == 'behind one':
        return INSERT, min(TOP, base + rng.randint(1, 10 ** 6))
    if name == 'before one':
        lower = [k for k in keys if k > base]
        return INSERT, max(0, (min(lower) if lower else min(TOP, base + 10 ** 9)) - 1)
    if name == 'odd':
        return rng.choice((INSERT, DELETE)), rng.choice([0, 1, TOP] + rng.sample(keys, min(3, len(keys))))
    return INSERT, rng.randint(1, TOP)


MOODS = ('empty out', 'thin', 'rising', 'falling', 'behind one', 'before one', 'odd', 'anywhere')


class Trial:
    """One profile and height. plain: the keys with their cards; since: for each swept window, by level and first segment, inserts less
    deletes in its left half and in its right half."""

    def __init__(self, tally, rng, profile, h):
        self.same, self.rng, self.profile, self.h = tally.same, rng, profile, h
        self.lent = model.made_empty(profile, h)         # slots, cards, table, forecast
        self.totals = [rng.randrange(2 ** 32) for _ in range(4)]
        self.plain, self.since, self.left, self.mood = {}, {}, 0, None

    def request(self):
        """The next one: kind, key and card."""
        keys = sorted(self.plain)
        if self.left == 0:
            self.left = self.rng.randint(1, 40 * 2 ** self.h)
            self.mood = self.rng.choice(MOODS), self.rng.choice(keys) if keys else 2 ** 63
        self.left -= 1
        card = self.rng.choice((0, model.MOST_CARD, self.rng.randrange(2 ** 32)))
        return (*random_request(self.rng, keys, self.mood), card)

    def number(self, kind, key):
        """The expected number, from the plain sorted set (demand 2)."""
        if key == 0:
            return 5
        if kind == DELETE:
            return 0 if key in self.plain else 7
        return 6 if key in self.plain else 8 if len(self.plain) == model.most_keys(self.profile, self.h) else 0

    def work(self, kind, key, card):
        """One request, by a single call and by a run."""
        slots, cards, table, forecast = self.lent
        kept = list(slots), model.copy_forecast(forecast)
        wanted = self.number(kind, key)
        rules = model.work_insert if kind == INSERT else model.work_delete
        number, moves, sparse, window, after, fc = rules(self.profile, slots, forecast, key)
        self.same('number', number, wanted)
        self.same('lent things stay', (slots, forecast), kept)
        if number != 0:
            self.same('refused', (moves, sparse, window, after, fc), (0, False, None) + kept)
        elif kind == INSERT:
            self.plain[key] = card
        else:
            del self.plain[key]
        left = after, [self.plain.get(k, 0) for k in after], window_counts(after), fc
        if number != 0:
            self.same('refused cards and table', left, self.lent)
        if kind == INSERT:
            self.same('insert', model.insert(self.profile, *self.lent, key, card), (number, moves) + left)
        else:
            self.same('delete', model.delete(self.profile, *self.lent, key), (number, moves, sparse) + left)
            self.same('sparse', sparse, number == 0 and len(self.plain) < model.few_keys(self.profile, self.h))
        self.run(kind, key, card, number, moves, window, left)
        if number == 0:
            self.taken(kind, key, window)
        if window is not None:
            self.swept(window, moves, left)
        self.lent = left

    def run(self, kind, key, card, number, moves, window, left):
        """A run of the one record gives the same; one move less stops it."""
        kind = CARDED if kind == INSERT and (card != 0 or self.rng.random() < 0.5) else kind
        one = model.record(kind, key, card)
        more = [1, int(number != 0), moves, int(window is not None)]
        sums = [(a + b) % 2 ** 32 for a, b in zip(self.totals, more)]
        self.same('run', model.run(self.profile, *self.lent, one, moves, self.totals),
                  (1, more[1], moves, 0, 15 if kind == CARDED else 11, *left, sums))
        if moves > 0:
            self.same('run stopped', model.run(self.profile, *self.lent, one, moves - 1, self.totals),
                      (0, 0, 0, 10, 0, *self.lent, self.totals))
        self.totals = sums

    def taken(self, kind, key, window):
        """Demand 3, second part, for every swept window round the segment that the request falls in."""
        slots = self.lent[0]
        x = key if kind == DELETE else max([k for k in slots if k and k < key], default=0)
        at = 0 if x == 0 else model.segment_of(slots, x)
        for l in range(1, self.h + 1):
            round_it = (l, model.window_start(at, l))
            if round_it not in self.since:
                continue
            side = (at >> (l - 1)) & 1
            self.since[round_it][side] += 1 if kind == INSERT else -1
            if window is not None and l <= window[0]:
                above = high(self.profile, self.h, l - 1) - high(self.profile, self.h, l)
                below = low(self.profile, self.h, l) - low(self.profile, self.h, l - 1)
                net = self.since[round_it][side]
                self.same('demand 3, taken', net > above * 2 ** (l - 1) or -net > below * 2 ** (l - 1), True)

    def swept(self, window, moves, left):
        """Demand 3, first part; and the split of the chosen window, by fractions."""
        level, start = window
        after, fc = left[0], left[3]
        for l in range(1, level + 1):
            for s in range(start, start + 2 ** level, 2 ** l):
                self.since[(l, s)] = [0, 0]
        sizes = model.counts(after)
        for l in range(0, level):
            for s in range(start, start + 2 ** level, 2 ** l):
                held = sum(sizes[s:s + 2 ** l])
                self.same('demand 3, held',
                          2 ** l * low(self.profile, self.h, l + 1) <= held <= 2 ** l * high(self.profile, self.h, l + 1), True)
        self.same('sweep moves', moves, sum(sizes[start:start + 2 ** level]))
        if self.h < 3 or self.rng.random() < 0.02:
            inside = sum(model.to_segments(after)[start:start + 2 ** level], [])
            weights = model.weights_of(fc)
            front = weights.get(0, 0) if start == 0 else 0
            self.same('split', sum(sizes[start:start + 2 ** (level - 1)]),
                      left_share_by_fractions(self.profile, self.h, level, [weights.get(k, 0) for k in inside], front))

    def look(self, key):
        """The check, a lookup and a scan of what the request has left."""
        slots, cards, table, forecast = self.lent
        keys = sorted(self.plain)
        self.same('keys', model.live_keys(slots), keys)
        self.same('check', model.check(self.profile, *self.lent), 0)
        number, present, _, card = model.lookup(self.profile, slots, cards, table, key)
        self.same('lookup', (number, present, card), (5, False, 0) if key == 0 else (0, key in self.plain, self.plain.get(key, 0)))
        rooms = [self.rng.choice((0, 1, 5, 5000)) for _ in range(2)]
        a = self.rng.choice((0, key, self.rng.randrange(2 ** 64)))
        above = [k for k in keys if k > a]
        fit = above[:min(rooms)]
        outs = [77] * rooms[0], [66] * rooms[1]
        self.same('scan', model.scan(self.profile, slots, cards, table, a, *outs),
                  (0, len(fit), len(above) > len(fit), fit + outs[0][len(fit):], [self.plain[k] for k in fit] + outs[1][len(fit):]))


def in_two(tally, rng, trial, n):
    """A run of n records, and the same cut in two at each of their ends, with the allowance that is left: all is the same."""
    requests = [trial.request() for _ in range(n)]
    records = [model.record(CARDED if kind == INSERT and rng.random() < 0.6 else kind, key, card) for kind, key, card in requests]
    allowance = rng.choice((TOP, rng.randint(0, 200)))
    whole = model.run(trial.profile, *trial.lent, b''.join(records), allowance, trial.totals)
    for cut in range(n + 1):
        first = model.run(trial.profile, *trial.lent, b''.join(records[:cut]), allowance, trial.totals)
        second = model.run(trial.profile, *first[5:9], b''.join(records[cut:]), allowance - first[2], first[9])
        counted = [a + b for a, b in zip(first[:3], second[:3])]
        if first[3] == 0:
            tally.same('in two', (*counted, second[3], first[4] + second[4], *second[5:]), whole)
        else:
            tally.same('stopped before the cut', first, whole)


def main(args):
    count = int(args[0]) if args else 500
    rng = random.Random(int(args[1]) if len(args) > 1 else 1)
    tally = Tally()
    for profile in model.PROFILES:
        for h in range(1, 7):
            trial = Trial(tally, rng, profile, h)
            for n in range(count):
                kind, key, card = trial.request()
                trial.work(kind, key, card)
                trial.look(key)
                if n % 50 == 49:
                    in_two(tally, rng, trial, 6)
            print('profile %d, height %d: %d keys at the end' % (profile, h, len(trial.plain)))
    return tally.close()


if __name__ == '__main__':
    sys.exit(main(sys.argv[1:]))
