"""Demand 3 of the model, tried on random histories by a recorder that keeps every request and counts anew at each sweep, and after each
change of profile.

    python3 tests/demand3.py [COUNT [SEED]]     COUNT requests at each height from lists of each profile; the forecast changes hands, and
                                                at times so does the profile
"""
import collections
import random
import sys

import model
import oracle
import sequences
import sums
from hand import Hand
from starts import TOP, any_counts, overfull, some_forecast, thin, underfull

STARTS = (overfull, underfull, any_counts, thin)
WORK = dict(insert=model.work_insert, delete=model.work_delete)


def near(hand, kind, keys):
    """A request by one of the keys: that it go, or that one a little greater come."""
    key = hand.rng.choice(keys or [hand.a_key()])
    return kind, key if kind == "delete" else min(TOP, key + hand.rng.randint(1, 1000))


def tide(here, elsewhere):
    """A segment runs full, or dry, and the window round it with it, while as much goes or comes outside that."""
    def mood(hand):
        while True:
            at, level = hand.rng.randrange(2 ** hand.h), hand.rng.randrange(hand.h)
            start, size = at >> level << level, 2 ** level
            for _ in range(60 * size):
                segments = model.to_segments(hand.list)
                yield near(hand, here, segments[at] or sum(segments[start:start + size], []))
                yield near(hand, elsewhere, sum(segments[:start] + segments[start + size:], []))
    return mood


TIDES = (tide("insert", "delete"), tide("delete", "insert"))
MOODS = TIDES + (sequences.rising, sequences.falling, sequences.behind, sequences.before, sequences.storm, sequences.marks)


def segment_of_request(kind, slots, key):
    """Where a request falls: the segment of the key, or of the largest live key below it."""
    places = [place for place, live in enumerate(slots) if live and (live < key or kind == "delete" and live == key)]
    return places[-1] // model.SEGMENT if places else 0


def inside(window, level, start):
    """Whether the window of this level that begins at this segment is the swept one, or lies in it."""
    return window is not None and window[0] >= level and window[1] <= start < window[1] + 2 ** window[0]


class Recorder:
    """Every request that was worked by one profile, since another was: its segment, 1 or -1, and the chosen window if there is one."""

    def __init__(self, h, tally):
        self.h, self.tally = h, tally
        self.profile, self.past = None, []
        self.again = collections.Counter()      # windows swept again, by profile, level and kind

    def high(self, level):
        return sums.SHARES[self.profile][self.h][0][level]

    def low(self, level):
        return sums.SHARES[self.profile][self.h][1][level]

    def afresh(self, profile=None):
        """Nothing from before counts from here on."""
        self.profile, self.past = profile, []

    def worked(self, profile, kind, segment, window, moves, before, after):
        if profile != self.profile:
            self.afresh(profile)
        self.past.append((segment, 1 if kind == "insert" else -1, window))
        if window:
            self.held(window, moves, before, after)
            for level in range(1, window[0] + 1):
                self.swept(level, segment, kind)

    def held(self, window, moves, before, after):
        """After a sweep every window strictly inside is within its parent's shares; nothing outside has changed."""
        level, start = window
        first, end = start * model.SEGMENT, (start + 2 ** level) * model.SEGMENT
        counts = [sum(key > 0 for key in after[n:n + model.SEGMENT]) for n in range(0, len(after), model.SEGMENT)]
        for l in range(level):
            for s in range(start, start + 2 ** level, 2 ** l):
                keys = sum(counts[s:s + 2 ** l])
                self.tally.same("held by window %d of level %d" % (s, l), self.low(l + 1) <= keys / 2 ** l <= self.high(l + 1), True)
        self.tally.same("outside", before[:first] + before[end:], after[:first] + after[end:])
        self.tally.same("moves of a sweep", moves, sum(counts[start:start + 2 ** level]))

    def swept(self, level, segment, kind):
        """A window that is swept again: the half has taken more than the gap since the latest earlier sweep, the present request too."""
        start = segment >> level << level
        sweeps = [n for n, past in enumerate(self.past[:-1]) if inside(past[2], level, start)]
        if not sweeps:
            return
        since = self.past[sweeps[-1] + 1:]
        size = 2 ** (level - 1)
        taken = sum(net for place, net, _ in since if place // size == segment // size)
        over_high = taken > (self.high(level - 1) - self.high(level)) * size
        over_low = -taken > (self.low(level) - self.low(level - 1)) * size
        self.tally.same("taken at level %d: %d" % (level, taken), over_high or over_low, True)
        self.again[self.profile, level, kind] += 1


def work(recorder, hand, kind, key):
    """One request; the model tells whether it is worked, and the window."""
    before = hand.list
    number, moves, _, window, after, forecast = WORK[kind](hand.profile, before, oracle.cells(hand.forecast), key)
    if number == 0:
        recorder.worked(hand.profile, kind, segment_of_request(kind, before, key), window, moves, before, after)
    hand.list, hand.forecast = after, oracle.words(forecast)


def turn(hand):
    """The other profile from here on, if the list is not too crowded for it."""
    if len(hand.live()) <= model.most_keys(hand.other(), hand.h):
        hand.profile = hand.other()


def history(rng, recorder, profile, length):
    """Moods by turns; now and then another forecast is lent, or an empty one; in some histories another profile."""
    hand = Hand(rng, recorder.h, rng.choice(STARTS), profile)
    recorder.afresh()
    turns = rng.choice((0, 0, 0, 0.02))
    moods, left = rng.choice((TIDES, MOODS)), 0
    for _ in range(length):
        if left == 0:
            left, mood = rng.randint(20, 100 * 2 ** (recorder.h // 2)), rng.choice(moods)(hand)
        left -= 1
        way = rng.random()
        if way < 0.1:
            hand.forecast = some_forecast(rng, recorder.h, hand.list, 0 if way < 0.03 else None)
        if rng.random() < turns:
            turn(hand)
        work(recorder, hand, *next(mood))
        if rng.random() < 0.05:
            hand.focus = hand.one_live()


def played(tally, segments, requests, profile=1):
    """A history by hand, on a list of these segments: requests; the cells of forecasts, and the profiles, that are lent from there on."""
    hand = Hand(random.Random(0), len(segments).bit_length() - 1, profile=profile)
    recorder = Recorder(hand.h, tally)
    hand.list, hand.forecast = model.to_slots(segments), oracle.words(model.as_forecast([]))
    for request in requests:
        if isinstance(request, list):
            hand.forecast = oracle.words(model.as_forecast(request))
        elif isinstance(request, int):
            hand.profile = request
        else:
            work(recorder, hand, *request)
    return dict(recorder.again)


def each(kind, *keys):
    return [(kind, key) for key in keys]


ENOUGH = 1000       # requests at each height that sweep windows again in every way


def by_hand(tally):
    """Windows swept again: the forecast changed hands before; by a delete; and the request of the earlier sweep would make it too few.
    Then in profile 2; and by profile 1 after a sweep by 2, which would be too few requests, but the counting starts afresh."""
    rising = each("insert", *range(1, 66)) + [[]] + each("insert", *range(66, 114))
    tally.same("another forecast", played(tally, [[], [], [], []], rising), {(1, 1, "insert"): 1})
    ebb = each("delete", 1) + each("insert", *range(200, 208)) + each("delete", *range(2, 8), *range(101, 107))
    tally.same("by a delete", played(tally, [list(range(1, 8)), list(range(101, 131))], ebb), {(1, 1, "delete"): 1})
    turned = [[[590, 1, 8]]] + each("delete", 70) + each("insert", *range(1, 10), *range(11, 19))
    tally.same("by an insert after a delete", played(tally, [list(range(10, 80, 10)), list(range(80, 600, 10)), [], []], turned),
               {(1, 1, "insert"): 1})
    crowded = [list(range(1000, 1058)), list(range(2000, 2030)), [], []]
    first, more = [[[2029, 1, 8]]] + each("insert", 1500), each("insert", *range(1, 9))
    tally.same("in profile 2", played(tally, crowded, first + more, 2), {(2, 1, "insert"): 1})
    tally.same("by another profile", played(tally, crowded, first + [1] + each("insert", *range(1, 15)), 2), {})


def at_height(rng, h, count, tally):
    """So many requests. Gives how many windows of each level were swept again, by inserts and by deletes, for each profile."""
    recorder = Recorder(h, tally)
    most = 150 * h + 100
    for profile in model.PROFILES:
        for done in range(0, count, most):
            history(rng, recorder, profile, min(most, count - done))
    return [[recorder.again[profile, level, kind] for level in range(1, h + 1)] for profile in model.PROFILES for kind in WORK]


def main(args):
    count = int(args[0]) if args else 2000
    rng = random.Random(int(args[1]) if len(args) > 1 else 1)
    tally = sums.Tally()
    by_hand(tally)
    print("windows swept again, level 1 first: by inserts, by deletes; then the same of profile 2")
    again = []
    for h in range(1, 7):
        again.append(at_height(rng, h, count, tally))
        print("  height %d:" % h, *again[-1])
    if count >= ENOUGH:
        tally.same("swept again in every way", [sum(sum(told[way]) for told in again) > 0 for way in range(4)], [True] * 4)
    return tally.close()


if __name__ == "__main__":
    sys.exit(main(sys.argv[1:]))
