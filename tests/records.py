"""Groups of runs: streams of any bytes, records cut or changed at each byte, allowances, totals near their wrap, and runs in stretches
with single calls between."""
import itertools

import model
import oracle
import sequences
from hand import Hand
from starts import TOP, any_counts, nearly_empty, overfull, underfull

WRAP = 2 ** 32
STARTS = (any_counts, overfull, underfull)


def some_records(hand, n):
    """n good records of all kinds: changes of one mood, and refused ones among them."""
    rng = hand.rng
    mood = rng.choice((sequences.rising, sequences.falling, sequences.behind, sequences.before, sequences.anywhere, sequences.storm))(hand)
    records = [hand.packed(*next(mood)) for _ in range(n)]
    for i in range(n):
        if rng.random() < 0.2:
            records[i] = hand.packed(rng.choice(sequences.CHANGES), rng.choice((0, hand.one_live(), hand.near_key(), hand.a_key())))
    return records


def starts_of(records):
    """Where each of them begins, and where the last one ends."""
    return list(itertools.accumulate(map(len, records), initial=0))


def changed(rng, data, place):
    """One byte is another one."""
    byte = rng.choice((0, 1, 2, 3, 4, 4, 5, 0x5A, 0xA5, 255, data[place] ^ 1 << rng.randrange(8)))
    return data[:place] + bytes([byte]) + data[place + 1:]


def spoilt(hand, records):
    """One fault in good records: a changed byte of mark, kind, key or card, or an end too soon."""
    rng, data = hand.rng, b"".join(records)
    if not data:
        return data
    start = rng.choice(starts_of(records)[:-1])
    way = rng.random()
    if way < 0.25:
        return data[:rng.randrange(len(data))]
    if way < 0.4:
        return data[:start] + data[start + rng.randint(1, 14):]
    return changed(rng, data, start + rng.choice((0, 1, 2, 2, rng.randint(0, 10))))


def some_bytes(hand):
    """Random bytes, at times behind a good beginning."""
    rng = hand.rng
    start = rng.choice((b"", b"\xa5", b"\xa5\x5a", b"\xa5\x5a\x01", b"\xa5\x5a\x04", b"".join(some_records(hand, 2))))
    return start + rng.randbytes(rng.choice((0, 1, rng.randint(0, 9), rng.randint(5, 40))))


def streams(rng, h, n):
    hand = Hand(rng, h, STARTS[n % len(STARTS)])
    for _ in range(6):
        records = some_records(hand, rng.randint(0, 6))
        data = rng.choice((some_bytes(hand), spoilt(hand, records), spoilt(hand, records), b"".join(records)))
        yield from hand.call("run", rng.choice((TOP, TOP, rng.randint(0, 200))), requests=data)


def moves_of(hand, data):
    """The moves that these records take in all, by the model."""
    return model.run(hand.profile, hand.list, hand.cards, hand.table, oracle.cells(hand.forecast), data, TOP, hand.totals)[2]


def allowances(rng, h, n):
    """Round the moves of the first few of the records."""
    hand = Hand(rng, h, STARTS[n % len(STARTS)])
    for _ in range(5):
        records = some_records(hand, rng.randint(1, 8))
        moves = moves_of(hand, b"".join(records[:rng.randint(1, len(records))]))
        allowance = rng.choice((0, 1, moves, moves, max(0, moves - 1), max(0, moves - 1), moves + 1, 10 ** 6, 2 ** 32, TOP))
        data = b"".join(records) + rng.choice((b"", b"", b"\xa5", b"\xa5\x5a\x04\0\0\0\0\0\0\0\1\0"))
        yield from hand.call("run", allowance, requests=data)


def totals(rng, h, n):
    """Totals that pass their wrap, or come just to it."""
    hand = Hand(rng, h, STARTS[n % len(STARTS)])
    for _ in range(5):
        hand.totals = [WRAP - rng.choice((1, 1, 2, rng.randint(1, 9), rng.randint(1, 200))) for _ in range(4)]
        data = b"".join(some_records(hand, rng.randint(1, 6)))
        yield from hand.call("run", TOP, requests=data)
        yield from hand.call("run", rng.choice((0, TOP)), requests=data)


def stretches(rng, h, n):
    """A run goes on from the place where the last one stopped, to the end of a record or not; then single calls take the list, its cards
    and the forecast."""
    hand = Hand(rng, h, STARTS[n % len(STARTS)])
    records = some_records(hand, rng.randint(4, 9))
    data, ends = b"".join(records), starts_of(records)
    place = 0
    for _ in range(6):
        end = rng.choice((place + 5, place + 11, place + 15, rng.choice(ends), rng.choice(ends), place + rng.randint(12, 60), len(data)))
        _, after = yield from hand.call("run", rng.choice((5, 70, 1000, TOP)), requests=data[place:max(place, end)])
        place += after.reply[3]
    mood = sequences.anywhere(hand)
    for _ in range(4):
        yield from hand.call(*next(mood))
        yield from hand.look()
    yield from hand.call("check")


KINDS = (model.CARDED, model.INSERT, model.DELETE, model.INSERT, model.CARDED, model.CARDED)
CUTS = 1 + sum(model.SIZES[kind] for kind in KINDS)


def cuts(rng, h, n):
    """Records of both sizes, cut at each byte; the rest of them from the place of the stop on; and all of them with that byte changed. The
    third takes out what the first or the second has put in, the fourth puts it in again with no card, the fifth mostly is of a key that is
    present, with another card."""
    hand = Hand(rng, h, (nearly_empty, any_counts)[n % 2])
    keys = [hand.a_key(), hand.a_key()]
    keys += 2 * [rng.choice(keys)] + [rng.choice((hand.one_live(), keys[0])), hand.a_key()]
    data = b"".join(model.record(kind, key, hand.a_card()) for kind, key in zip(KINDS, keys))
    before = hand.list, hand.cards, hand.table, hand.forecast
    _, after = yield from hand.call("run", TOP, requests=data[:n], profile=hand.profile)
    yield from hand.call("run", TOP, requests=data[after.reply[3]:], profile=hand.profile)
    hand.list, hand.cards, hand.table, hand.forecast = before
    if n < len(data):
        yield from hand.call("run", TOP, requests=changed(rng, data, n), profile=hand.profile)


EPISODES = dict(cuts=lambda h: CUTS)
GROUPS = dict(streams=streams, allowances=allowances, totals=totals, stretches=stretches, cuts=cuts)
