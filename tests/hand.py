"""The hand that lends: a list, its cards and table, a forecast and totals that go from call to call, mostly by the profile that they were
made for."""
import model
import oracle
from starts import TOP, any_counts, some_forecast, some_list
from wire import Lent


class Hand:
    """focus: the live key round which the calls go on."""

    def __init__(self, rng, h, counts=any_counts, profile=None):
        self.rng, self.h = rng, h
        self.profile = profile or rng.choice(model.PROFILES)
        counts, segment = counts(rng, self.profile, h)
        self.lay(some_list(rng, counts))
        self.focus = self.one_live()
        if segment is not None:
            keys = model.to_segments(self.list)[segment]
            self.focus = rng.choice((keys[0], keys[-1], rng.choice(keys)))
        self.forecast = some_forecast(rng, h, self.list, near=self.focus if self.focus in self.list else 0)
        self.totals = [rng.choice((0, 2 ** 32 - 1, rng.randrange(2 ** 32))) for _ in range(oracle.TOTALS)]

    def lay(self, slots):
        """Another good list, a card beside each of its keys, and its table."""
        self.list, self.cards, self.table = model.laid(slots, {key: self.a_card() for key in model.live_keys(slots)})

    def live(self):
        return model.live_keys(self.list)

    def one_live(self):
        """A live key, or any key of an empty list."""
        live = self.live()
        return self.rng.choice(live) if live else self.a_key()

    def a_key(self):
        return self.rng.randint(1, TOP)

    def a_card(self):
        """Any; 0 and the greatest are seldom and often enough."""
        way = self.rng.random()
        return 0 if way < 0.1 else model.MOST_CARD if way < 0.2 else self.rng.randint(1, model.MOST_CARD)

    def near_key(self):
        """A key beside a live one, or the live one."""
        return min(TOP, max(0, self.one_live() + self.rng.randint(-2, 2)))

    def other(self):
        """The other profile."""
        return 3 - self.profile

    def named(self):
        """The profile that a call names: the hand's; seldom the other, or a number that names none."""
        way = self.rng.random()
        return self.profile if way < 0.95 else self.other() if way < 0.985 else self.rng.choice(model.UNKNOWN)

    def junk(self, n):
        """Words to find again, or to see overwritten."""
        return [self.rng.randint(1, TOP) for _ in range(n)]

    def junk_cards(self, n):
        return [self.rng.randint(1, model.MOST_CARD) for _ in range(n)]

    def packed(self, kind, key):
        """A request as a record: an insert with a card, or of kind 1."""
        if kind == "insert" and self.rng.random() < 0.65:
            return model.record(model.CARDED, key, self.a_card())
        return model.record(dict(insert=model.INSERT, delete=model.DELETE)[kind], key)

    def room_beside(self, room):
        """For cards, beside room for so many keys: mostly as much, else less or more."""
        rng = self.rng
        return rng.choice((room, room, room, 0, max(0, room - 1), room + 1, rng.randint(0, room), rng.randint(room, 2 * room)))

    def lend(self, call, number=0, requests=b"", room=0, profile=None, card=None):
        """A call with all that it takes; its reply is at times longer than listed."""
        reply = self.junk(oracle.LISTED[call] + self.rng.choice((0, 0, 1, 3)))
        profile = self.named() if profile is None else profile
        lent = Lent(call, profile, number, 0, self.list, self.cards, self.table, reply=reply)
        if call == "insert":
            lent.card = self.a_card() if card is None else card
        if call in oracle.WITH_FORECAST:
            lent.forecast = self.forecast
        if call == "run":
            lent.requests, lent.totals = requests, self.totals
        if call == "scan":
            lent.output, lent.output_cards = self.junk(room), self.junk_cards(self.room_beside(room))
        return lent

    def call(self, call, number=0, **more):
        """Makes a call, and goes on with what it left."""
        lent = self.lend(call, number, **more)
        returned, after = yield lent
        self.list, self.cards, self.table = after.list, after.cards, after.table
        if lent.forecast:
            self.forecast = after.forecast
        if lent.totals:
            self.totals = after.totals
        return returned, after

    def look(self):
        """A lookup, a scan or a check."""
        rng = self.rng
        call = rng.choice(("lookup", "scan", "scan", "check"))
        number = rng.choice((0, 1, TOP, self.one_live(), self.near_key(), max(self.live(), default=0), self.a_key()))
        if call == "lookup":
            number = rng.choice((number, self.one_live()))
        return self.call(call, number, room=rng.choice((0, 1, rng.randint(2, 9), len(self.live()), len(self.list) // 2 + 1)))
