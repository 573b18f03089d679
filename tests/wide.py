"""Calls that are lent a forecast with one word far too great for its place, a table with one wrong count, or a card in one gap: every
place, by every call that reads it. (Of gaps: every place of a segment, and every segment.)

A word that is cut to fewer bits, or kept at their greatest number, may look right: so the numbers are those that a byte or a word of 32
bits would take for the right one, and the ends of these.
"""
from dataclasses import replace

import damage
import model
import oracle
from hand import Hand
from refusals import EVERY, keyed
from starts import TOP, some_forecast, spread

READING = ("check", "insert", "delete", "run")      # a forecast
STATES = 2          # all cells used that may be, or fewer


def values(right):
    """What else stands in the place of the right number."""
    alike = {(right + step) % (TOP + 1) for step in (256, 2 ** 32, 2 ** 63)}
    return sorted({255, 256, 2 ** 32, TOP} | alike - {right})


def asked(hand, call):
    """A call that would be done, but for the one word."""
    number = dict(insert=hand.a_key(), delete=hand.one_live(), run=TOP, lookup=hand.one_live()).get(call, 0)
    records = hand.packed("insert", hand.a_key()) + hand.packed("delete", hand.one_live())
    return hand.lend(call, number, requests=records, room=3, profile=hand.profile)


def with_word(lent, place, value, name="forecast"):
    words = getattr(lent, name)
    return replace(lent, **{name: words[:place] + [value] + words[place + 1:]})


def one_place(rng, h, n):
    """Every number in one place, by every call; then on a list that is refused before its forecast, and to a call that overwrites it."""
    state, place = divmod(n % PLACES, oracle.FORECAST)
    hand = Hand(rng, h, keyed)
    hand.forecast = some_forecast(rng, h, hand.list, 6 + h if state == 0 else rng.randrange(6 + h))
    others = values(hand.forecast[place])
    for value in others:
        for call in READING:
            yield with_word(asked(hand, call), place, value)
    yield with_word(hand.lend("make"), place, rng.choice(others))
    lent = asked(hand, rng.choice(READING))
    rng.choice(damage.LISTS)(hand)
    yield with_word(replace(lent, list=hand.list, cards=hand.cards), place, rng.choice(others))


def one_entry(rng, h, n):
    """Every wrong count in one place, by half of the calls, and the place exchanged with the next by all; then with a bad forecast too, and
    to a call that fills the table."""
    hand = Hand(rng, h, keyed)
    table = hand.table
    place = n % len(table)
    for value in damage.others(table[place]):
        for call in rng.sample(EVERY, len(EVERY) // 2):
            yield with_word(asked(hand, call), place, value, "table")
    after = (place + 1) % len(table)
    damage.entry(hand, place, table[after])
    damage.entry(hand, after, table[place])
    for call in EVERY:
        yield asked(hand, call)
    rng.choice(damage.FORECASTS)(hand)
    yield asked(hand, rng.choice(READING))
    yield asked(hand, "make")


def with_few(segment, most):
    """Counts with at most so many keys in this segment, often just so many."""
    def counts(rng, profile, h):
        few = rng.choice((most, rng.randint(0, most)))
        counts = spread(rng, rng.randint(0, model.most_keys(profile, h) - few), 2 ** h)
        return counts[:segment] + [few] + counts[segment + 1:], None
    return counts


def gap_at(rng, h, n):
    """A place and a segment: first each place of some segment, then some place of each segment, then the ends of the list."""
    last, segments = model.SEGMENT - 1, 2 ** h
    if n <= last:
        return n, rng.randrange(segments)
    if n <= last + segments:
        return rng.randint(0, last), n - model.SEGMENT
    return ((0, 0), (last, segments - 1))[n % 2]


def one_gap(rng, h, n):
    """A card in one gap; the keys before it often end there."""
    place, segment = gap_at(rng, h, n)
    hand = Hand(rng, h, with_few(segment, place))
    for value, call in zip(rng.sample(damage.STRAYS, len(EVERY)), EVERY):
        yield with_word(asked(hand, call), model.SEGMENT * segment + place, value, "cards")


PLACES = STATES * oracle.FORECAST
EPISODES = dict(wide=lambda h: PLACES, entries=model.table_size, gaps=lambda h: model.SEGMENT + 2 ** h + 2)
GROUPS = dict(wide=one_place, entries=one_entry, gaps=one_gap)
