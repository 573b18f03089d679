"""Groups of calls that are refused: damaged lists, cards, tables and forecasts, several faults at once, unknown profiles, and slices of
wrong sizes."""
from dataclasses import replace

import damage
import model
import oracle
import wire
from hand import Hand
from starts import TOP, spread

EVERY = ("check", "lookup", "insert", "delete", "scan", "run")


def keyed(rng, profile, h):
    """Keys in more than one segment, and neighbours in one of them."""
    most = model.most_keys(profile, h)
    counts = spread(rng, rng.choice((most - 4, rng.randint(most // 2, most - 4))), 2 ** h)
    counts[0] = min(62, counts[0] + 2)
    counts[-1] = min(62, counts[-1] + 2)
    return counts, None


def brimful(rng, profile, h):
    """As many keys as there may be."""
    return spread(rng, model.most_keys(profile, h), 2 ** h), None


def some_number(hand, call):
    """A key that a call may take or refuse, where a scan may begin, or an allowance."""
    if call == "run":
        return hand.rng.choice((0, 5, TOP))
    return hand.rng.choice((0, hand.one_live(), hand.near_key(), hand.a_key()))


def every_call(hand, calls=EVERY, profiles=(None,)):
    """Each of the calls once, on the same list, cards, table and forecast while they are refused; by any of these profiles."""
    for call in hand.rng.sample(calls, len(calls)):
        records = b"".join(hand.packed(hand.rng.choice(("insert", "delete")), hand.near_key()) for _ in range(3))
        yield from hand.call(call, some_number(hand, call), requests=records, room=hand.rng.choice((0, 1, 5)),
                             profile=hand.rng.choice(profiles))


def lists(rng, h, n):
    hand = Hand(rng, h, keyed)
    damage.LISTS[(n + h) % len(damage.LISTS)](hand)
    yield from every_call(hand)
    yield from hand.call("make")
    yield from every_call(hand, ("check", "insert"))


def forecasts(rng, h, n):
    hand = Hand(rng, h, keyed)
    damage.FORECASTS[(2 * n + h) % len(damage.FORECASTS)](hand)
    yield from every_call(hand, ("check", "insert", "delete", "run", "lookup"))
    damage.FORECASTS[(2 * n + 1 + h) % len(damage.FORECASTS)](hand)
    yield from every_call(hand, ("check", "insert", "delete", "run", "scan"))


def cards(rng, h, n):
    """Wrong cards, by every call; then a fault in the order too, which comes before a card in a gap and after a wrong length; then cards
    to be filled."""
    hand = Hand(rng, h, keyed)
    damage.CARDS[(n + h) % len(damage.CARDS)](hand)
    yield from every_call(hand)
    rng.choice(damage.ORDER)(hand)
    yield from every_call(hand, ("check", "insert", "run", "lookup", "scan"))
    yield from hand.call("make", profile=hand.profile)
    yield from every_call(hand, ("check", "insert", "scan"))


def tables(rng, h, n):
    """A wrong table, by every call; then a fault in the order or the forecast too, which comes first; then a table to be filled."""
    hand = Hand(rng, h, keyed)
    damage.TABLES[(n + h) % len(damage.TABLES)](hand)
    yield from every_call(hand)
    more = damage.FORECASTS + damage.ORDER
    more[(n + h) % len(more)](hand)
    yield from every_call(hand, ("check", "insert", "run", "lookup"))
    yield from hand.call("make", profile=hand.profile)
    yield from every_call(hand, ("check", "insert", "scan"))


def fills(rng, h, n):
    """Makes with cards and tables of any content, of the right length or not, on lists of the right length or not; then on from there."""
    hand = Hand(rng, h, keyed)
    hand.table = hand.junk(len(hand.table))
    if rng.random() < 0.5:
        damage.everywhere(hand)
    if n % 4 == 1 or rng.random() < 0.3:
        damage.table_length(hand)
    if n % 4 == 2:
        damage.card_length(hand)
    if n % 4 == 3:
        damage.length(hand)
    yield from hand.call("make")
    yield from every_call(hand, ("check", "run", "lookup"))
    hand.cards, hand.table = hand.junk_cards(len(hand.list)), hand.junk(model.table_size(h))
    yield from hand.call("make", profile=hand.profile)
    yield from every_call(hand, ("insert", "check", "scan"))


def order(rng, h, n):
    """Any faults together: the first in the order of testing is the one told."""
    hand = Hand(rng, h, keyed)
    if rng.random() < 0.5:
        rng.choice(damage.FORECASTS)(hand)
    crowd = rng.random()
    if crowd < 0.5:
        damage.too_many(hand)
    elif crowd < 0.75:
        hand.lay(Hand(rng, h, brimful, hand.profile).list)
    if rng.random() < 0.5:
        rng.choice(damage.TABLES)(hand)
    if rng.random() < 0.4:
        rng.choice(damage.CARDS)(hand)
    if rng.random() < 0.4:
        rng.choice(damage.ORDER)(hand)
    if rng.random() < 0.15:
        damage.length(hand)
    yield from every_call(hand)


def unknown(rng, h, n):
    """Profiles that there are not, on good lists and on any faults; then the list as it was, by both that there are."""
    hand = Hand(rng, h, keyed)
    if n % 2:
        rng.choice(damage.FORECASTS)(hand)
        rng.choice(damage.TABLES)(hand)
        rng.choice(damage.CARDS)(hand)
        rng.choice(damage.LISTS)(hand)
    yield from every_call(hand, EVERY, model.UNKNOWN)
    yield from every_call(hand, ("check", "lookup", "scan"), model.PROFILES)
    yield from hand.call("make", profile=rng.choice(model.UNKNOWN))
    yield from hand.call("make", profile=hand.profile)


def wrong_sizes(call):
    """Each slice of this call with the sizes that it must not have."""
    listed = oracle.LISTED[call]
    sizes = [("reply", n) for n in sorted({0, listed - 1}) if 0 <= n < listed]
    if call in oracle.WITH_FORECAST:
        sizes += [("forecast", n) for n in (36, 38, 0, 1, 36, 38)]
    if call == "run":
        sizes += [("totals", n) for n in (3, 5, 0)]
    return sizes


def resized(hand, lent, name, n):
    """The call with one slice cut or lengthened."""
    most = 2 ** (8 * (4 if name == "totals" else 8)) - 1
    longer = list(getattr(lent, name)) + [hand.rng.randint(0, most) for _ in range(n)]
    return replace(lent, **{name: longer[:n]})


def sizes(rng, h, n):
    """Wrong sizes come before all else, on good lists and on bad ones, by any profile; longer replies are taken."""
    hand = Hand(rng, h, keyed)
    if n % 2:
        rng.choice(damage.LISTS + damage.CARDS + damage.TABLES + damage.FORECASTS)(hand)
    for call in rng.sample(wire.CALLS, len(wire.CALLS)):
        lent = hand.lend(call, some_number(hand, call), requests=hand.packed("insert", hand.a_key()), room=3,
                         profile=rng.choice((hand.profile, hand.profile, rng.choice(model.UNKNOWN))))
        for name, size in rng.sample(wrong_sizes(call), 2):
            yield resized(hand, lent, name, size)
        yield resized(hand, lent, "reply", oracle.LISTED[call] + rng.randint(1, 9))


GROUPS = dict(lists=lists, cards=cards, forecasts=forecasts, tables=tables, fills=fills, order=order, unknown=unknown, sizes=sizes)
