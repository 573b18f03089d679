"""Good lists and forecasts to begin with: counts of the segments, by profile, rising keys for them, and cells."""
import model
import oracle

TOP = 2 ** 64 - 1


# ---- Counts: each gives them with a segment to look at, or None ----------------------------------------------------------------

def spread(rng, m, segments):
    """m keys in all: halves take any share that fits, often all that they can."""
    if segments == 1:
        return [m]
    room = model.SEGMENT * segments // 2
    least, most = max(0, m - room), min(m, room)
    i = rng.choice((least, most, (m + 1) // 2, rng.randint(least, most), rng.randint(least, most)))
    return spread(rng, i, segments // 2) + spread(rng, m - i, segments // 2)


def any_counts(rng, profile, h):
    """Few keys, about as many as make a list sparse, as many as there may be, or any number."""
    few, most = model.few_keys(profile, h), model.most_keys(profile, h)
    m = rng.choice((rng.randint(0, 9), few + rng.randint(-3, 3), most - rng.randint(0, 4), rng.randint(0, most)))
    return spread(rng, m, 2 ** h), None


def nearly_full(rng, profile, h):
    return spread(rng, model.most_keys(profile, h) - rng.randint(0, 3), 2 ** h), None


def nearly_empty(rng, profile, h):
    counts = [0] * 2 ** h
    for _ in range(rng.randint(0, 25)):
        counts[rng.randrange(2 ** h)] += 1
    return counts, None


def thin(rng, profile, h):
    """Round the least that a segment should hold."""
    most = rng.randint(8, 24)
    return [rng.randint(rng.choice((0, 6)), most) for _ in range(2 ** h)], None


def window_counts(rng, profile, h, level, first, change):
    """Counts of the windows round a segment of `first` keys, such that one key more or less makes a sweep of this level; or None."""
    counts = [first]
    for l in range(1, h + 1):
        most = min(counts[-1] + 32 * 2 ** l, model.most_keys(profile, h) - max(0, change))
        fit = [n for n in range(counts[-1], most + 1) if l > level or model.within_limits(profile, h, l, n + change) == (l == level)]
        if not fit:
            return None
        counts.append(rng.choice(fit) if l > level else rng.choice((fit[0], fit[0], fit[-1], rng.choice(fit))))
    return counts


def poised(rng, profile, h, first, change, level=None):
    """A segment of so many keys, somewhere in the list or at its front, and windows round it as above."""
    windows, front = None, rng.random() < 0.25
    while windows is None:
        windows = window_counts(rng, profile, h, level or rng.randint(1, h), first, change)
    counts, at = windows[:1], 0
    for l in range(1, h + 1):
        beside = spread(rng, windows[l] - windows[l - 1], 2 ** (l - 1))
        left = front or rng.random() < 0.5
        counts, at = (counts + beside, at) if left else (beside + counts, at + len(beside))
    return counts, at


def overfull(rng, profile, h, level=None):
    """One key more in a segment, of its high share or more, makes a sweep. (Profile 1, height 1: the list is full then; so nearly full.)"""
    high = model.high(profile, h, 0)
    if high >= model.most_keys(profile, h):
        return [60, 0], 0
    return poised(rng, profile, h, rng.choice((high, high, 64, rng.randint(high, 64))), 1, level)


def underfull(rng, profile, h, level=None):
    """One key less in a segment makes a sweep."""
    return poised(rng, profile, h, model.low(profile, h, 0), -1, level)


# ---- Keys and cells ------------------------------------------------------------------------------------------------------------

def some_keys(rng, n, wide):
    """n rising keys, wide or close apart, anywhere or at either end."""
    step = TOP // (n + 1) if wide else rng.choice((1, 3, 1000))
    steps = [rng.randint(1, step) for _ in range(n)]
    key = rng.choice((0, rng.randint(0, TOP - sum(steps)), TOP - sum(steps)))
    keys = []
    for more in steps:
        key += more
        keys.append(key)
    return keys


def some_list(rng, counts):
    keys = some_keys(rng, sum(counts), rng.random() < 0.8)
    segments = []
    for count in counts:
        segments.append(keys[:count])
        keys = keys[count:]
    return model.to_slots(segments)


def cell(rng, h, slots, marker):
    """A good cell with this marker."""
    P = model.most_cells(h)
    return [marker, 0 if marker == 0 else model.segment_of(slots, marker), rng.choice((1, P, rng.randint(1, P)))]


def some_forecast(rng, h, slots, used=None, near=None):
    """A good forecast: markers from all over the list, or close together, the front among them or not."""
    P = model.most_cells(h)
    live = [0] + model.live_keys(slots)
    if rng.random() < 0.7:
        start = rng.randrange(len(live)) if near is None else live.index(near)
        live = live[max(0, start - 2 * P):start + 2 * P]
    used = rng.choice((0, P, P, rng.randint(0, P))) if used is None else used
    markers = rng.sample(live, min(used, len(live)))
    return oracle.words(model.as_forecast([cell(rng, h, slots, marker) for marker in markers]))
