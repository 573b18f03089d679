"""Damaged lists, cards, tables and forecasts: each damage takes a hand with a good list, cards, table and forecast, and harms one of
them."""
import model
from starts import TOP, cell, some_forecast, some_list, spread

LENGTHS = (0, 64, 192, 8192, 127, 1, 63, 65, 129, 255, 257, 320, 4095, 4097, 6144, 16384)


def length(hand):
    """A length that no height has; the content is the list's as far as it goes, then gaps or anything."""
    n = hand.rng.choice(LENGTHS)
    rest = max(0, n - len(hand.list))
    hand.list = hand.list[:n] + hand.rng.choice(([0] * rest, hand.junk(rest)))
    hand.cards = hand.rng.choice((hand.cards, (hand.cards + [0] * rest)[:n]))


def neighbours(hand, apart):
    """Two slots of neighbouring keys, in one segment or in two; any two where there are no such."""
    slots = [slot for slot, key in enumerate(hand.list) if key]
    every = list(zip(slots, slots[1:]))
    pairs = [pair for pair in every if (pair[0] // model.SEGMENT != pair[1] // model.SEGMENT) == apart] or every
    return hand.rng.choice((pairs[0], pairs[-1], hand.rng.choice(pairs)))


def put(hand, slot, key):
    hand.list = hand.list[:slot] + [key] + hand.list[slot + 1:]


def equal(hand, apart=False):
    first, second = neighbours(hand, apart)
    put(hand, *hand.rng.choice(((first, hand.list[second]), (second, hand.list[first]))))


def falling(hand, apart=False):
    first, second = neighbours(hand, apart)
    keys = hand.list[first], hand.list[second]
    put(hand, first, keys[1])
    put(hand, second, keys[0])


def equal_apart(hand):
    equal(hand, True)


def falling_apart(hand):
    falling(hand, True)


def gap_within(hand):
    """A key goes from the middle, and leaves its slot empty."""
    put(hand, neighbours(hand, False)[0], 0)


def after_gap(hand):
    """The last key of a segment stands later than it should."""
    _, slot = neighbours(hand, False)
    end = slot - slot % model.SEGMENT + model.SEGMENT
    while slot + 1 < end and hand.list[slot + 1]:
        slot += 1
    if slot + 1 < end:
        key = hand.list[slot]
        put(hand, slot, 0)
        put(hand, hand.rng.choice((end - 1, hand.rng.randint(slot + 1, end - 1))), key)


def too_many(hand):
    """More keys than the profile allows, in good order."""
    over, slots = model.most_keys(hand.profile, hand.h) + 1, model.SEGMENT * 2 ** hand.h
    m = hand.rng.choice((over, over, hand.rng.randint(over, slots), slots))
    hand.lay(some_list(hand.rng, spread(hand.rng, m, 2 ** hand.h)))


ORDER = (equal, falling, equal_apart, falling_apart, gap_within, after_gap)
LISTS = (length, too_many, length) + ORDER


# ---- Cards: beside a key any, beside a gap 0 ----------------------------------------------------------------------------------

STRAYS = (1, 255, 256, 2 ** 16, 2 ** 24, 2 ** 31, model.MOST_CARD)


def card(hand, slot, value):
    hand.cards = hand.cards[:slot] + [value] + hand.cards[slot + 1:]


def gaps(hand):
    """Slots that are gaps: the first of the list, the last, and any, the first of a segment's among them."""
    every = [slot for slot, key in enumerate(hand.list) if key == 0]
    behind = [slot for slot in every if slot % model.SEGMENT == 0 or hand.list[slot - 1]]
    return [every[0], every[-1], hand.rng.choice(every), hand.rng.choice(behind)] if every else []


def stray(hand):
    """A card in a gap."""
    for slot in gaps(hand)[hand.rng.randrange(4):][:1]:
        card(hand, slot, hand.rng.choice(STRAYS + (hand.a_card(),)))


def strays(hand):
    """Two, that are the same or come to 0."""
    value = hand.rng.choice(STRAYS)
    for slot, one in zip(gaps(hand)[::2], (value, hand.rng.choice((value, -value % 2 ** 32)))):
        card(hand, slot, one)


def late(hand):
    """The cards of a segment stand one slot late."""
    start = model.SEGMENT * hand.rng.randrange(2 ** hand.h)
    end = start + model.SEGMENT
    hand.cards = hand.cards[:start] + [0] + hand.cards[start:end - 1] + hand.cards[end:]


def left_behind(hand):
    """A last key of its segment goes from list and table, and leaves its card."""
    segments, cards = model.to_segments(hand.list), hand.cards
    hand.rng.choice([keys for keys in segments if keys]).pop()
    hand.lay(model.to_slots(segments))
    hand.cards = cards


def everywhere(hand):
    hand.cards = hand.junk_cards(len(hand.cards))


def card_length(hand):
    """A length that is not the list's: nothing, one less or more, a segment's more, or that of another height; right as far as it goes."""
    size = len(hand.cards)
    n = hand.rng.choice([0, size - 1, size + 1, size + 64] + [64 * 2 ** h for h in range(7) if h != hand.h])
    longer = hand.cards + hand.rng.choice(([0], hand.junk_cards(1))) * max(0, n - size)
    hand.cards = hand.rng.choice((longer[:n], longer[len(longer) - n:]))


CARDS = (stray, card_length, strays, late, left_behind, everywhere)


# ---- Tables: segments first, then the levels above them, each left to right ----------------------------------------------------

def entry(hand, place, value):
    hand.table = hand.table[:place] + [value] + hand.table[place + 1:]


def others(right):
    """What else stands in the place of the right count: one more or less, what fewer bits would take for it, and the ends."""
    return sorted({(right + step) % (TOP + 1) for step in (1, -1, 256, 2 ** 16, 2 ** 32, 2 ** 63)} | {0, TOP} - {right})


def wrong_entry(hand):
    """One count is wrong: of the first or the last window, or of any."""
    place = hand.rng.choice((0, -1, hand.rng.randrange(len(hand.table)))) % len(hand.table)
    entry(hand, place, hand.rng.choice(others(hand.table[place])))


def exchanged(hand):
    """Two neighbouring counts change places."""
    place = hand.rng.randrange(len(hand.table) - 1)
    first, second = hand.table[place:place + 2]
    entry(hand, place, second)
    entry(hand, place + 1, first)


def round_segment(hand, level):
    """The place of the window of this level round any segment."""
    segments = 2 ** hand.h
    return 2 * segments - (2 * segments >> level) + (hand.rng.randrange(segments) >> level)


def summed_wrongly(hand):
    """A window counts one key too many, and so do all windows round it, each the sum of its halves."""
    place = round_segment(hand, hand.rng.choice((0, 0, hand.rng.randint(0, hand.h))))
    while place < len(hand.table):
        entry(hand, place, hand.table[place] + 1)
        place = 2 ** hand.h + place // 2


def counted_beside(hand):
    """A key counts in the other half of a window: the windows round both are right."""
    place = round_segment(hand, hand.rng.randrange(hand.h)) & -2
    step = hand.rng.choice((1, -1))
    entry(hand, place, (hand.table[place] + step) % (TOP + 1))
    entry(hand, place + 1, (hand.table[place + 1] - step) % (TOP + 1))


def whole_first(hand):
    """The levels are in the other order, the whole list first."""
    levels = [hand.table[2 * 2 ** hand.h - 2 * n:2 * 2 ** hand.h - n] for n in (2 ** l for l in range(hand.h + 1))]
    hand.table = sum(levels, [])


def not_summed(hand):
    """From a window on, of level 1 or above, all counts are 0."""
    place = round_segment(hand, hand.rng.randint(1, hand.h))
    hand.table = hand.table[:place] + [0] * (len(hand.table) - place)


def another_list(hand):
    """The table of the list without one of its keys."""
    segments = model.to_segments(hand.list)
    hand.rng.choice([keys for keys in segments if keys]).pop()
    hand.table = model.table_of(model.to_slots(segments))


def table_length(hand):
    """A length that is not the height's: nothing, one entry less or more, or that of another height; right as far as it goes."""
    size = len(hand.table)
    n = hand.rng.choice([0, size - 1, size + 1] + [model.table_size(h) for h in range(7) if h != hand.h])
    longer = hand.table + hand.rng.choice(([0], hand.junk(1))) * max(0, n - size)
    hand.table = hand.rng.choice((longer[:n], longer[len(longer) - n:]))


TABLES = (wrong_entry, table_length, exchanged, summed_wrongly, counted_beside, whole_first, not_summed, another_list)


# ---- Forecasts: word 0 is the number used, cell i begins at word 1 + 3i --------------------------------------------------------

def word(hand, place, value):
    hand.forecast = hand.forecast[:place] + [value] + hand.forecast[place + 1:]


def used_cell(hand):
    """The first word of a used cell: the head, the tail or any."""
    hand.forecast = some_forecast(hand.rng, hand.h, hand.list, hand.rng.choice((1, 2, model.most_cells(hand.h))))
    return 1 + 3 * hand.rng.choice((0, hand.forecast[0] - 1, hand.rng.randrange(hand.forecast[0])))


def many_used(hand):
    word(hand, 0, hand.rng.choice((model.most_cells(hand.h) + 1, 12, 13, 2 ** 32, 2 ** 63, TOP)))


def many_good(hand):
    """One cell more than is allowed, each good by itself (height 6 has no room for it)."""
    P = model.most_cells(hand.h)
    live = hand.rng.sample(hand.live(), P + 1)
    good = [cell(hand.rng, hand.h, hand.list, marker) for marker in live][:model.ROOM]
    hand.forecast = [P + 1] + sum(good, []) + [0] * (3 * (model.ROOM - len(good)))


def one_less(hand):
    """The tail counts as unused, but is not all zeros."""
    used_cell(hand)
    word(hand, 0, hand.forecast[0] - 1)


def one_more(hand):
    """An unused cell counts as used; the head, if there is none."""
    word(hand, 0, hand.forecast[0] + 1)


def count(hand):
    P = model.most_cells(hand.h)
    word(hand, used_cell(hand) + 2, hand.rng.choice((0, P + 1, P + 1, 255, 2 ** 32 + 1, TOP)))


def repeated(hand):
    """Two cells, both right but for their one marker."""
    hand.forecast = some_forecast(hand.rng, hand.h, hand.list, model.most_cells(hand.h))
    used = hand.forecast[0]
    if used > 1:
        first, second = hand.rng.sample(range(used), 2)
        word(hand, 1 + 3 * first, hand.forecast[1 + 3 * second])
        word(hand, 2 + 3 * first, hand.forecast[2 + 3 * second])


def not_live(hand):
    place = used_cell(hand)
    word(hand, place, hand.rng.choice((min(TOP, hand.forecast[place] + 1), hand.near_key(), hand.a_key())))


def segment(hand):
    place = used_cell(hand) + 1
    right = hand.forecast[place]
    word(hand, place, hand.rng.choice((right + 1, max(right, 1) - 1, right + 2 ** 32, TOP, hand.rng.randrange(2 ** hand.h))))


def front_elsewhere(hand):
    hand.forecast = [1, 0, hand.rng.choice((1, 2, TOP)), 1] + [0] * 33


def unused(hand, which):
    """One word of an unused cell: the first, the last or any."""
    hand.forecast = some_forecast(hand.rng, hand.h, hand.list, hand.rng.randint(0, model.most_cells(hand.h) - 1))
    used = hand.forecast[0]
    word(hand, 1 + 3 * hand.rng.choice((used, 11, hand.rng.randint(used, 11))) + which, hand.rng.choice((1, TOP, hand.one_live())))


def unused_marker(hand):
    unused(hand, 0)


def unused_segment(hand):
    unused(hand, 1)


def unused_count(hand):
    unused(hand, 2)


def none(hand):
    """No damage: as many cells and as high counts as there may be."""
    hand.forecast = some_forecast(hand.rng, hand.h, hand.list, model.most_cells(hand.h))


FORECASTS = (many_used, many_good, one_less, one_more, count, repeated, not_live, segment, front_elsewhere, unused_marker, unused_segment,
             unused_count, none)
