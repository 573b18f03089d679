"""Runs of other groups, made by the function over lent totals, whose forecast has no room for a segment or count over 255."""
from dataclasses import replace

import records
import refusals

EPISODES = (records.totals, records.streams, records.allowances, records.stretches, refusals.lists, refusals.cards, refusals.forecasts,
            refusals.tables, refusals.order, refusals.unknown)


def has_room(forecast):
    return all(word <= 255 or n % 3 == 1 for n, word in enumerate(forecast) if n)


def over(rng, h, n):
    which = (n + 2 * h) % len(EPISODES)     # not all heights begin alike, so that few calls reach all episodes
    steps = EPISODES[which](rng, h, n // len(EPISODES))
    outcome = None
    while True:
        try:
            lent = steps.send(outcome)
        except StopIteration:
            return
        outcome = yield replace(lent, call="over") if lent.call == "run" and has_room(lent.forecast) else lent


GROUPS = dict(over=over)
