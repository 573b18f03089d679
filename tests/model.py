#!/usr/bin/env python3
"""Reference model of the paper "Requirements and rules for the build", with
the tighter profile, the counts beside the windows and the cards beside the
keys of "Further requests from customers", (v), (iv) and (ii).

Section names in the comments are that paper's. Every rule is written as it is
read there, plainly and slowly. No call changes what it is lent: each hands
back new lists.

  profile   1 or 2; any other number is refused by 15
  slots     a list of whole numbers, 0 for a gap
  cards     a list of whole numbers below 2^32, one beside each slot, 0 beside
            a gap
  table     a list of counts, one for every window of every level
  forecast  a pair (used, cells), cells a list of 12 [marker, segment, count],
            head (newest) first
  totals    [records worked, refused, keys moved, sweeps]

  make(profile, slots, cards, table)
        -> (number, slots', cards', table', forecast')
  check(profile, slots, cards, table, forecast)
        -> number
  lookup(profile, slots, cards, table, key)
        -> (number, present, segment, card)
  insert(profile, slots, cards, table, forecast, key, card)
        -> (number, moves, slots', cards', table', forecast')
  delete(profile, slots, cards, table, forecast, key)
        -> (number, moves, sparse, slots', cards', table', forecast')
  scan(profile, slots, cards, table, a, output, output_cards)
        -> (number, written, more, output', output_cards')
  run(profile, slots, cards, table, forecast, data, allowance, totals)
        -> (worked, refused, moves, stop, place, slots', cards', table',
            forecast', totals')
  first_fault(slots)             -> None or (slot, 'order' or 'gap')
  first_bad_cell(profile, slots, cards, forecast)
        -> None or (cell, reason)

  python3 model.py < file        the program `listrun`

It is held to sums worked by hand (sums.py, carded.py) and, on random requests,
to a plain sorted set (plain.py).
"""

import itertools
import os
import sys

PROFILES = (1, 2)
UNKNOWN = (0, 3, 2 ** 32 + 1, 2 ** 32 + 2, 2 ** 63, 2 ** 64 - 1)    # some
SEGMENT = 64        # slots in a segment
ROOM = 12           # cells kept in a forecast


# ---- The list a classroom lends ------------------------------------------

def height(slots):
    """h when the length is 64 * 2^h with h from 1 to 6, else None."""
    for h in range(1, 7):
        if len(slots) == SEGMENT * 2 ** h:
            return h
    return None


def live_keys(slots):
    """The keys, in array order."""
    return [key for key in slots if key != 0]


def segment_of(slots, key):
    """The segment where a live key stands."""
    return slots.index(key) // SEGMENT


def to_segments(slots):
    """The keys of each segment."""
    return [live_keys(slots[start:start + SEGMENT])
            for start in range(0, len(slots), SEGMENT)]


def to_slots(segments):
    """In a segment the keys stand first; gaps follow."""
    slots = []
    for keys in segments:
        assert len(keys) <= SEGMENT
        slots += keys + [0] * (SEGMENT - len(keys))
    return slots


def window_start(segment, level):
    """First segment of the window of this level round the segment."""
    return segment - segment % 2 ** level


# ---- Counts beside the windows -------------------------------------------

def counts(slots):
    """The keys in each segment."""
    return [len(keys) for keys in to_segments(slots)]


def table_size(h):
    """Entries of a table: 2^h segments, half as many windows of level 1, ..
    and the one of level h."""
    return 2 ** (h + 1) - 1


def table_of(slots):
    """The keys in every window of every level: segments first, each level
    left to right."""
    sizes = counts(slots)
    return [sum(sizes[start:start + 2 ** l])
            for l in range(height(slots) + 1)
            for start in range(0, len(sizes), 2 ** l)]


# ---- A card beside each key ----------------------------------------------

MOST_CARD = 2 ** 32 - 1


def cards_of(slots, cards):
    """Key to card. A live key may have card 0. (Of cards that are not tested for their number, those that lack count as 0.)"""
    return {key: card for key, card in itertools.zip_longest(slots, cards, fillvalue=0) if key != 0}


def beside(slots, card_of):
    """Every card in its key's slot, wherever that is; a gap's card is 0."""
    return [0 if key == 0 else card_of[key] for key in slots]


def laid(slots, card_of):
    """Slots, with the cards of their keys and the counts of their windows."""
    return slots, beside(slots, card_of), table_of(slots)


# ---- High and low shares -------------------------------------------------

def high(profile, h, l):
    """Rounded down: 32(2h - l)/h; in profile 2, 64(92h - 22l)/(100h)."""
    if profile == 1:
        return 32 * (2 * h - l) // h
    return 64 * (92 * h - 22 * l) // (100 * h)


def low(profile, h, l):
    """Rounded up: 32(h + l)/(5h); in profile 2, 64(8h + 22l)/(100h)."""
    if profile == 1:
        return (32 * (h + l) + 5 * h - 1) // (5 * h)
    return (64 * (8 * h + 22 * l) + 100 * h - 1) // (100 * h)


def within_limits(profile, h, l, count):
    """A window of level l with this count is within limits."""
    return 2 ** l * low(profile, h, l) <= count <= 2 ** l * high(profile, h, l)


def most_keys(profile, h):
    """A list never holds more: 32 * 2^h; in profile 2, 44 * 2^h."""
    return 2 ** h * high(profile, h, h)


def few_keys(profile, h):
    """A list of fewer is sparse: 13 * 2^h; in profile 2, 20 * 2^h."""
    return 2 ** h * low(profile, h, h)


def overflows(profile, h, keys):
    """One key more in a segment of these makes a sweep: it holds 64; in
    profile 2, 58 or more."""
    return len(keys) >= high(profile, h, 0)


def too_few(profile, h, keys):
    """A delete that leaves a segment these makes a sweep: under 7; in
    profile 2, under 6."""
    return len(keys) < low(profile, h, 0)


# ---- The forecast --------------------------------------------------------

def most_cells(h):
    """P, the most cells and the highest count."""
    return 6 + h


def used_cells(forecast):
    """The used cells alone, as new lists. For a checked forecast."""
    used, cells = forecast
    return [list(cell) for cell in cells[:used]]


def as_forecast(cells):
    """Used cells back in their room of 12; unused cells are all zeros."""
    return (len(cells),
            [list(cell) for cell in cells]
            + [[0, 0, 0] for _ in range(ROOM - len(cells))])


def copy_forecast(forecast):
    """A copy, with nothing put right in it."""
    used, cells = forecast
    assert len(cells) == ROOM, 'a forecast has room for 12 cells'
    return (used, [list(cell) for cell in cells])


def drop_tail_by_one(cells):
    """The tail's count drops by one; at 0 its cell is removed."""
    cells[-1][2] -= 1
    if cells[-1][2] == 0:
        del cells[-1]


def note_insert(h, forecast, x, x_segment):
    """Note the predecessor x (0 for the front) of a key being inserted."""
    P = most_cells(h)
    cells = used_cells(forecast)
    places = [n for n, cell in enumerate(cells) if cell[0] == x]
    if places:
        n = places[0]
        if cells[n][2] < P:
            cells[n][2] += 1
            if n > 0:
                cells[n - 1], cells[n] = cells[n], cells[n - 1]
        else:
            drop_tail_by_one(cells)
    elif len(cells) < P:
        cells.insert(0, [x, x_segment, 1])
    else:
        drop_tail_by_one(cells)
    return as_forecast(cells)


def drop_marker(forecast, key):
    """Deleting a marker removes its cell and the others close up."""
    return as_forecast([cell for cell in used_cells(forecast)
                        if cell[0] != key])


def retarget(forecast, slots):
    """Every cell names its marker's actual segment, 0 for the front."""
    cells = used_cells(forecast)
    for cell in cells:
        cell[1] = 0 if cell[0] == 0 else segment_of(slots, cell[0])
    return as_forecast(cells)


def weights_of(forecast):
    """Marker to count. A key that is not here has weight 0."""
    return {marker: count for marker, _, count in used_cells(forecast)}


# ---- Sharing out a swept window ------------------------------------------

def left_share(profile, h, l, weights, front):
    """Keys the left half takes.

    weights: one for each key of the window, in order. front: the front's
    weight when the window begins at slot 0, else 0.
    """
    m = len(weights)
    if front == 0 and all(w == 0 for w in weights):
        return (m + 1) // 2                     # m/2 rounded up
    C = 32 * 2 ** l                             # slots of each half
    least = 2 ** (l - 1) * low(profile, h, l)
    most = 2 ** (l - 1) * high(profile, h, l)
    total = front + sum(weights)
    left = front                                # weight of the first i keys
    best = None
    for i in range(0, m + 1):
        if i > 0:
            left += weights[i - 1]
        if not (least <= i <= most and least <= m - i <= most):
            continue
        right = total - left
        # | left/(C - i) - right/(C - m + i) | as one fraction up/down
        up = abs(left * (C - m + i) - right * (C - i))
        down = (C - i) * (C - m + i)
        assert C - i > 0 and C - m + i > 0
        if best is None or up * best[1] < best[0] * down:
            best = (up, down, i)                # ties keep the least i
    assert best is not None, 'a window within limits has a permitted split'
    return best[2]


def share_out(profile, h, l, start, keys, weights):
    """Key lists for the segments of the window of level l at segment start."""
    if l == 0:
        return [keys]
    front = weights.get(0, 0) if start == 0 else 0
    i = left_share(profile, h, l, [weights.get(key, 0) for key in keys], front)
    return (share_out(profile, h, l - 1, start, keys[:i], weights)
            + share_out(profile, h, l - 1, start + 2 ** (l - 1), keys[i:],
                        weights))


# ---- Refusals 15, 1 to 4 and 12 to 14 ------------------------------------

def first_fault(slots):
    """First slot that breaks refusal 2's rule, order tested first.

    None when none does, and when the length is refused by 1.
    """
    if height(slots) is None:
        return None
    latest = 0                                  # the key before this slot
    gap = False                                 # a gap earlier in the segment
    for slot, key in enumerate(slots):
        if slot % SEGMENT == 0:
            gap = False
        if key == 0:
            gap = True
            continue
        if key <= latest:
            return (slot, 'order')
        if gap:
            return (slot, 'gap')
        latest = key
    return None


def card_in_gap(slots, cards):
    """Some slot is a gap, and its card is not 0."""
    return any(key == 0 and card != 0 for key, card in zip(slots, cards))


def list_refusal(profile, slots, cards):
    """Refusals 15 and 1 to 3, with 12 after 1 and 13 after 2, or 0."""
    if profile not in PROFILES:
        return 15
    h = height(slots)
    if h is None:
        return 1
    if len(cards) != len(slots):
        return 12
    if first_fault(slots) is not None:
        return 2
    if card_in_gap(slots, cards):
        return 13
    if len(live_keys(slots)) > most_keys(profile, h):
        return 3
    return 0


def first_bad_cell(profile, slots, cards, forecast, earlier_only=False):
    """First cell, from the head, that refusal 4 speaks of, with the reason.

    None when refusal 4 does not apply, and when one before it does.
    (None, 'used') when over P cells are used: no single cell is at fault.
    A cell whose marker is another's is bad whichever of the two comes first;
    with earlier_only, only the later of the two is.
    """
    used, cells = copy_forecast(forecast)
    if list_refusal(profile, slots, cards) != 0:
        return None
    P = most_cells(height(slots))
    if used > P:
        return (None, 'used')
    for n in range(ROOM):
        marker, segment, count = cells[n]
        if n >= used:
            if [marker, segment, count] != [0, 0, 0]:
                return (n, 'unused')
            continue
        if not 1 <= count <= P:
            return (n, 'count')
        others = [cells[o][0] for o in range(n if earlier_only else used)
                  if o != n]
        if marker in others:
            return (n, 'another')
        if marker != 0 and marker not in slots:
            return (n, 'not live')
        if segment != (0 if marker == 0 else segment_of(slots, marker)):
            return (n, 'segment')
    return None


def wrong_table(slots, table):
    """The table has the wrong length or a wrong entry. For a good list."""
    return list(table) != table_of(slots)


def read_refusal(profile, slots, cards, table):
    """Where no forecast is lent: list and cards, then 14, or 0."""
    number = list_refusal(profile, slots, cards)
    if number == 0 and wrong_table(slots, table):
        number = 14
    return number


def check(profile, slots, cards, table, forecast):
    """Tests 15, 1, 12, 2, 13, 3, 4 and 14, gives 0 when none applies."""
    number = list_refusal(profile, slots, cards)
    if number == 0 and first_bad_cell(profile, slots, cards,
                                      forecast) is not None:
        number = 4
    if number == 0 and wrong_table(slots, table):
        number = 14
    return number


# ---- Making, lookup, scan ------------------------------------------------

def make_refusal(profile, slots, cards, table):
    """Cards and a table to be filled are tested for their lengths only."""
    if profile not in PROFILES:
        return 15
    if height(slots) is None:
        return 1
    if len(cards) != len(slots):
        return 12
    if len(table) != table_size(height(slots)):
        return 14
    return 0


def make(profile, slots, cards, table):
    number = make_refusal(profile, slots, cards, table)
    if number != 0:
        return (number, list(slots), list(cards), list(table), as_forecast([]))
    return (0, [0] * len(slots), [0] * len(cards), [0] * len(table),
            as_forecast([]))


def made_empty(profile, h):
    """An empty list of this height with its cards, table and forecast."""
    n = SEGMENT * 2 ** h
    return make(profile, [0] * n, [0] * n, [0] * table_size(h))[1:]


def lookup(profile, slots, cards, table, key):
    number = read_refusal(profile, slots, cards, table)
    if number == 0 and key == 0:
        number = 5
    if number != 0:
        return (number, False, 0, 0)
    if key in slots:
        return (0, True, segment_of(slots, key), cards_of(slots, cards)[key])
    return (0, False, 0, 0)


def scan(profile, slots, cards, table, a, output, output_cards):
    output, output_cards = list(output), list(output_cards)
    number = read_refusal(profile, slots, cards, table)
    if number != 0:
        return (number, 0, False, output, output_cards)
    above = [key for key in live_keys(slots) if key > a]
    room = min(len(output), len(output_cards))  # the shorter sets it
    written = min(len(above), room)
    card_of = cards_of(slots, cards)
    output[:written] = above[:written]
    output_cards[:written] = [card_of[key] for key in above[:written]]
    last = a if written == 0 else output[written - 1]
    more = any(key > last for key in live_keys(slots))
    return (0, written, more, output, output_cards)


# ---- Placing and removing ------------------------------------------------
#
# The two below take a checked list and forecast, and test 5 to 8. They give
# (number, moves, sparse, window, slots', forecast'), window being None or the
# chosen one as (level, first segment). Cards and table are for those who call
# them: a card always stands beside its key, the table always is the list's
# own.

def sweep(profile, h, segments, at, l, extra, forecast):
    """Sweep the window of level l round segment at. Gives its moves."""
    start = window_start(at, l)
    keys = window_keys(segments, at, l, extra)
    segments[start:start + 2 ** l] = share_out(profile, h, l, start, keys,
                                               weights_of(forecast))
    return len(keys)


def window_keys(segments, at, l, extra):
    """Keys of the window of level l round segment at, with any new key."""
    start = window_start(at, l)
    return sorted(sum(segments[start:start + 2 ** l], []) + extra)


def smallest_within_limits(profile, h, segments, at, extra):
    """Level of the smallest enclosing window within limits, or None."""
    for l in range(1, h + 1):
        count = len(window_keys(segments, at, l, extra))
        if within_limits(profile, h, l, count):
            return l
    return None


def work_insert(profile, slots, forecast, y):
    h = height(slots)
    number = 0
    if y == 0:
        number = 5
    elif y in slots:
        number = 6
    elif len(live_keys(slots)) == most_keys(profile, h):
        number = 8
    if number != 0:
        return (number, 0, False, None, list(slots), copy_forecast(forecast))

    # Note the predecessor first: the largest live key below y, or the front.
    x = max([key for key in live_keys(slots) if key < y], default=0)
    at = 0 if x == 0 else segment_of(slots, x)
    forecast = note_insert(h, forecast, x, at)

    segments = to_segments(slots)
    window = None
    if not overflows(profile, h, segments[at]):
        shifted = [key for key in segments[at] if key > y]
        moves = len(shifted) + 1
        segments[at] = sorted(segments[at] + [y])
    else:
        l = smallest_within_limits(profile, h, segments, at, [y])
        assert l is not None, 'the whole array is within limits if no smaller'
        moves = sweep(profile, h, segments, at, l, [y], forecast)
        window = (l, window_start(at, l))
    slots = to_slots(segments)
    return (0, moves, False, window, slots, retarget(forecast, slots))


def work_delete(profile, slots, forecast, y):
    h = height(slots)
    number = 0
    if y == 0:
        number = 5
    elif y not in slots:
        number = 7
    if number != 0:
        return (number, 0, False, None, list(slots), copy_forecast(forecast))

    forecast = drop_marker(forecast, y)
    at = segment_of(slots, y)
    segments = to_segments(slots)
    moves = len([key for key in segments[at] if key > y])
    segments[at].remove(y)
    window = None
    if too_few(profile, h, segments[at]):
        l = smallest_within_limits(profile, h, segments, at, [])
        if l is not None:
            moves = sweep(profile, h, segments, at, l, [], forecast)
            window = (l, window_start(at, l))
    slots = to_slots(segments)
    sparse = len(live_keys(slots)) < few_keys(profile, h)
    return (0, moves, sparse, window, slots, retarget(forecast, slots))


def insert(profile, slots, cards, table, forecast, key, card):
    number = check(profile, slots, cards, table, forecast)
    if number != 0:
        return (number, 0, list(slots), list(cards), list(table),
                copy_forecast(forecast))
    card_of = cards_of(slots, cards)
    number, moves, _, _, slots, forecast = work_insert(profile, slots,
                                                       forecast, key)
    if number == 0:
        card_of[key] = card
    return (number, moves, *laid(slots, card_of), forecast)


def delete(profile, slots, cards, table, forecast, key):
    number = check(profile, slots, cards, table, forecast)
    if number != 0:
        return (number, 0, False, list(slots), list(cards), list(table),
                copy_forecast(forecast))
    card_of = cards_of(slots, cards)
    number, moves, sparse, _, slots, forecast = work_delete(profile, slots,
                                                            forecast, key)
    return (number, moves, sparse, *laid(slots, card_of), forecast)


# ---- Request records and runs --------------------------------------------

INSERT, DELETE, CARDED = 1, 2, 4                # kinds; 4 has a card too
SIZES = {INSERT: 11, DELETE: 11, CARDED: 15}


def record(kind, key, card=0):
    """One record: mark, kind, key high byte first; of kind 4 then the card,
    high byte first."""
    one = bytes([0xA5, 0x5A, kind]) + key.to_bytes(8, 'big')
    return one + card.to_bytes(4, 'big') if kind == CARDED else one


def first_record(data):
    """The record that the bytes begin with, as (kind, key, card, size); None
    for a short record, a wrong mark or a wrong kind."""
    if len(data) < 3 or data[0:2] != b'\xa5\x5a' or data[2] not in SIZES:
        return None
    kind = data[2]
    size = SIZES[kind]
    if len(data) < size:
        return None
    key = int.from_bytes(data[3:11], 'big')
    card = int.from_bytes(data[11:size], 'big')  # kind 1 means card 0
    return kind, key, card, size


def run(profile, slots, cards, table, forecast, data, allowance, totals):
    slots = list(slots)
    forecast = copy_forecast(forecast)
    totals = list(totals)
    number = check(profile, slots, cards, table, forecast)
    if number != 0:
        return (0, 0, 0, number, 0, slots, list(cards), list(table), forecast,
                totals)

    card_of = cards_of(slots, cards)
    worked = refused = moved = sweeps = 0
    stop = 0
    place = 0
    while place < len(data):
        one = first_record(bytes(data[place:place + 15]))
        if one is None:
            stop = 9
            break
        kind, key, card, size = one
        work = work_delete if kind == DELETE else work_insert
        number, moves, _, window, slots_after, forecast_after = work(
            profile, slots, forecast, key)
        if moved + moves > allowance:
            stop = 10
            break
        worked += 1
        if number != 0:                         # 5 to 8: the run goes on
            refused += 1
        elif kind != DELETE:
            card_of[key] = card
        moved += moves
        if window is not None:
            sweeps += 1
        slots, forecast = slots_after, forecast_after
        place += size

    totals = [(total + more) % 2 ** 32
              for total, more in zip(totals, [worked, refused, moved, sweeps])]
    return (worked, refused, moved, stop, place, *laid(slots, card_of),
            forecast, totals)


# ---- The program listrun -------------------------------------------------

def listrun_text(data):
    """What `listrun` prints for these (at most 65,536) bytes; profile 1."""
    _, _, moves, stop, _, slots, _, _, _, totals = run(
        1, *made_empty(1, 2), data, 1000000, [0, 0, 0, 0])
    lines = ['keys %d moved %d swept %d stop %d'
             % (len(live_keys(slots)), moves, totals[3], stop)]
    for n, keys in enumerate(to_segments(slots)):
        lines.append('%d %d' % (n, len(keys)))
    return '\n'.join(lines) + '\n'


def listrun():
    """Read straight from descriptor 0, so that further input stays unread."""
    data = b''
    while len(data) < 65536:
        part = os.read(0, 65536 - len(data))
        if part == b'':
            break
        data += part
    sys.stdout.write(listrun_text(data))
    sys.stdout.flush()


if __name__ == '__main__':
    listrun()
