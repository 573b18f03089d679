"""All groups of calls, and the numbers that each call must be seen to return, by both profiles.

A group is a function of a random source, a height and the number of the episode. It yields what each call is lent, and is sent what the
call must return and leave.
"""
import over
import records
import refusals
import sequences
import wide

GROUPS = {**sequences.GROUPS, **refusals.GROUPS, **records.GROUPS, **over.GROUPS, **wide.GROUPS}
WHOLE = {**records.EPISODES, **wide.EPISODES}   # groups that are worked whole, at every height: so many episodes, by the height

LIST = (0, 15, 1, 12, 2, 13, 3, 14)
BOTH = LIST + (4,)
REACHED = dict(make=(0, 15, 1, 12, 14, 100), check=BOTH + (100,), lookup=LIST + (5, 100), insert=BOTH + (5, 6, 8, 100),
               delete=BOTH + (5, 7, 100), scan=LIST + (100,), run=BOTH + (9, 10, 100), over=BOTH + (9, 10))
SELDOM = ("over",)  # by either profile
ENOUGH = 10000      # calls of all groups that reach all these
