"""Sequences of changes, with lookups, scans, checks and runs between. A mood gives one change after another, as kind and key.

Nearly all calls of a sequence name one profile; in the group `turns` the hand's profile changes now and then.
"""
import model
import oracle
import sums
from hand import Hand
from starts import TOP, any_counts, nearly_empty, nearly_full, overfull, thin, underfull

CHANGES = ("insert", "delete")
LENGTH = 40


def stepping(way):
    """Each key comes a little after the last one, or before it; the first beside the focus."""
    def mood(hand):
        key = hand.focus
        while True:
            key = min(TOP, max(0, key + way * hand.rng.randint(1, 3)))
            yield "insert", key
    return mood


def around(hand):
    """A gap between live keys with room in it: beside the focus, or one of the two at the ends of the list."""
    live = [0] + hand.live() + [TOP]
    place = min(max(0, live.index(hand.focus) + hand.rng.randint(-1, 0)), len(live) - 2) if hand.focus in live else 0
    gaps = [(live[n], live[n + 1]) for n in (place, 0, len(live) - 2)]
    return next((gap for gap in gaps if gap[1] - gap[0] > 40), gaps[0])


def hammering(way):
    """The keys fill one gap from its low end, each just before one and the same key; or from its high end, each just behind one."""
    def mood(hand):
        while True:
            low, high = around(hand)
            for i in range(1, 41):
                yield "insert", min(high, low + i) if way > 0 else max(low, high - i)
    return mood


def anywhere(hand):
    while True:
        if hand.rng.random() < 0.6:
            yield "insert", hand.rng.choice((hand.a_key(), hand.near_key()))
        else:
            yield "delete", hand.rng.choice((hand.one_live(), hand.one_live(), hand.near_key()))


def marks(hand):
    """Keys go just behind markers of the forecast; at times a marker goes."""
    while True:
        used = hand.forecast[0]
        marker = hand.forecast[1 + 3 * hand.rng.randrange(used)] if used else hand.focus
        above = min((key for key in hand.live() if key > marker), default=TOP)
        if hand.rng.random() < 0.2:
            yield "delete", marker
        yield "insert", hand.rng.choice((min(TOP, marker + 1), above - 1))


def storm(hand):
    """Live keys beside each other go, one after another; the focus first."""
    start = hand.focus
    while True:
        doomed = [key for key in hand.live() if key >= start][:hand.rng.randint(1, 30)]
        start = hand.one_live()
        if hand.rng.random() < 0.5:
            hand.rng.shuffle(doomed)
        for key in doomed:
            yield "delete", key
        yield "delete", hand.near_key()


def full(hand):
    """To the last place and over it; then one goes and one comes."""
    while True:
        for _ in range(hand.rng.randint(4, 9)):
            yield "insert", hand.rng.choice((hand.a_key(), hand.a_key(), hand.near_key()))
        yield "insert", hand.one_live()
        yield "delete", hand.one_live()


def drain(hand):
    """To the last key and beyond."""
    while True:
        for key in hand.live():
            yield "delete", key
        yield "delete", hand.a_key()
        yield "insert", hand.rng.choice((1, TOP, hand.a_key()))


def ends(hand):
    """The least keys and the greatest."""
    while True:
        yield hand.rng.choice(CHANGES), hand.rng.choice((0, 1, 1, 2, TOP - 1, TOP, TOP, hand.one_live()))


rising, falling, before, behind = stepping(1), stepping(-1), hammering(1), hammering(-1)


def take(hand, requests, n):
    """The next n changes of a mood, as records."""
    return b"".join(hand.packed(*next(requests)) for _ in range(n))


def mixed(hand, requests, length=LENGTH):
    """Changes one by one, and now and then a look or a run."""
    for _ in range(length):
        way = hand.rng.random()
        if way < 0.2:
            yield from hand.look()
        elif way < 0.25:
            yield from hand.call("run", TOP, requests=take(hand, requests, hand.rng.randint(1, 9)))
        else:
            kind, key = next(requests)
            yield from hand.call(kind, key)


def sequence(mood, *starts):
    """Episodes of one mood, on lists that begin in these ways in turn."""
    def episode(rng, h, n):
        hand = Hand(rng, h, starts[n % len(starts)])
        yield from mixed(hand, mood(hand))
    return episode


def made(rng, h, n):
    """From a made list, through a first segment that fills."""
    hand = Hand(rng, h)
    yield from hand.call("make")
    mood = rng.choice((rising, falling, behind, before, anywhere))(hand)
    yield from hand.call("run", TOP, requests=take(hand, mood, rng.randint(52, 64)))
    yield from mixed(hand, mood)


def bulk(rng, h, n):
    """Stretches of inserts, then of deletes, each in one run."""
    hand = Hand(rng, h, (overfull, any_counts)[n % 2])
    for mood in (rising, behind, storm, before, falling, storm):
        yield from hand.call("run", TOP, requests=take(hand, mood(hand), rng.randint(10, 40) * (4 - h // 2)))
        yield from hand.look()
        hand.focus = hand.one_live()


def sweeps(start, *moods):
    """A sweep of each level in turn, and a change or two after it."""
    def episode(rng, h, n):
        for level in range(1, h + 1):
            hand = Hand(rng, h, lambda *of: start(*of, level))
            requests = rng.choice(moods)(hand)
            for _ in range(3):
                yield from hand.call(*next(requests))
    return episode


def turns(rng, h, n):
    """Lists of each profile's numbers go from one profile to the other and back; too crowded for the first, they are refused there."""
    hand = Hand(rng, h, (any_counts, overfull, underfull, nearly_full)[n % 4])
    requests = rng.choice((rising, behind, before, anywhere, storm))(hand)
    for _ in range(LENGTH // 5):
        yield from mixed(hand, requests, rng.randint(1, 9))
        hand.profile = hand.other()


def computed(rng, h, n):
    """The sums of profile 2, which are of height 1, then on from there."""
    hand = Hand(rng, 1, profile=2)
    sizes, (call, key, *card), _ = sums.SECOND[n % len(sums.SECOND)]
    hand.lay(sums.list_with(*sizes, step=10))
    hand.forecast = oracle.words(model.as_forecast([]))
    yield from hand.call(call.__name__, key, profile=2, card=sum(card))
    yield from mixed(hand, rng.choice((rising, behind, storm, anywhere))(hand), 8)


GROUPS = dict(
    rising=sequence(rising, overfull, any_counts), falling=sequence(falling, overfull, any_counts),
    behind=sequence(behind, overfull, any_counts), before=sequence(before, overfull, any_counts),
    marks=sequence(marks, overfull, any_counts), anywhere=sequence(anywhere, any_counts), storm=sequence(storm, underfull, thin),
    full=sequence(full, nearly_full), drain=sequence(drain, nearly_empty), ends=sequence(ends, any_counts), made=made, bulk=bulk,
    turns=turns, computed=computed,
    spill=sweeps(overfull, rising, falling, behind, before), sink=sweeps(underfull, storm))
