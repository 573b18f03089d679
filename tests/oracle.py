"""What each call of the archive must return and leave, by the model beside this file and the words of the header."""
from dataclasses import replace

import model

WRONG_SIZE = 100
LISTED = dict(make=0, check=0, lookup=3, insert=1, delete=2, scan=2, run=4, over=4)     # the words of each call's reply
FORECAST = 1 + 3 * model.ROOM
TOTALS = 4
WITH_FORECAST = ("make", "check", "insert", "delete", "run", "over")


def cells(words):
    """A forecast's words as the model has them."""
    return (words[0], [words[1 + 3 * i:4 + 3 * i] for i in range(model.ROOM)])


def words(forecast):
    """And back."""
    return [forecast[0]] + [word for cell in forecast[1] for word in cell]


def wrong_size(lent):
    return (lent.call in WITH_FORECAST and len(lent.forecast) != FORECAST
            or lent.call == "run" and len(lent.totals) != TOTALS
            or len(lent.reply) < LISTED[lent.call])


def worked(lent, reply, **changed):
    """What is left: changed slices, and a reply whose listed words are these."""
    reply = [int(word) for word in reply]
    return replace(lent, reply=reply + lent.reply[len(reply):], **changed)


def read(lent):
    """What every call takes first."""
    return lent.profile, lent.list, lent.cards, lent.table


def left(slots, cards, table, forecast):
    """The slices that a call may have changed."""
    return dict(list=slots, cards=cards, table=table, forecast=words(forecast))


def make(lent):
    number, *after = model.make(*read(lent))
    return number, worked(lent, [], **left(*after))


def check(lent):
    return model.check(*read(lent), cells(lent.forecast)), lent


def lookup(lent):
    number, *reply = model.lookup(*read(lent), lent.number)
    return number, worked(lent, reply)


def insert(lent):
    number, moves, *after = model.insert(*read(lent), cells(lent.forecast), lent.number, lent.card)
    return number, worked(lent, [moves], **left(*after))


def delete(lent):
    number, moves, sparse, *after = model.delete(*read(lent), cells(lent.forecast), lent.number)
    return number, worked(lent, [moves, sparse], **left(*after))


def scan(lent):
    number, written, more, output, output_cards = model.scan(*read(lent), lent.number, lent.output, lent.output_cards)
    return number, worked(lent, [written, more], output=output, output_cards=output_cards)


def run(lent):
    ran = model.run(*read(lent), cells(lent.forecast), lent.requests, lent.number, lent.totals)
    done, refused, moves, stop, place, *after, totals = ran
    return stop, worked(lent, [done, refused, moves, place], totals=totals, **left(*after))


WORK = dict(make=make, check=check, lookup=lookup, insert=insert, delete=delete, scan=scan, run=run, over=run)


def outcome(lent):
    """The number returned, and all lent memory after the call."""
    if wrong_size(lent):
        return WRONG_SIZE, lent
    return WORK[lent.call](lent)
