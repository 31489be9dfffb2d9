"""Random histories from a seed, and their answers by the reference (reading.py).

    python3 reference/histories.py --out DIR --histories N --seed S

writes DIR/data/h000, h001, .. (a text file for each history) and DIR/stdout (the answers to all of them, in order), and prints how often each
answer, each refusal and each corner was met. A file is decimal numbers: `START FIRST COUNT`, then a line for each of COUNT calls, its kind first:

    0 P ROLE                     admit                  5 P           annual run
    1 P PLACE AMOUNT             lodge cash             6 DAY BUDGET  advance
    2 P PLACE AMOUNT FIRST LAST  lodge a letter         7 P           statement
    3 P PLACE AMOUNT             release                8 K B1 .. BK  a batch of K bytes
    4 P MONTH K F1 .. FK         settle                 9 P           delete
    10                           the sum of the counts of calls made

The first FIRST calls are the history's first stretch, made under the old admission rule, and the others are made under the new one (paper 02, ask
3); FIRST may be 0, or above COUNT. Every history ends with a statement of each participant admitted by then and the question for the count. The
answers are those to the text as written: `history START`, then seven numbers for each call; to a statement `7 FIRM COVER SHORTFALL DAYS MILLS
CALLS`, CALLS being how many calls were made to the participant (paper 02, ask 6); to a batch `9 N 0 0 0 0 0`, or `10 NUMBER INDEX 0 0 0 0`; to a
deletion `11 AMOUNT CALLED 0 0 0 0`, CALLED being 1 or 0. Corners are counted by what a call met, not by what it was aimed at.
"""
import argparse
import collections
import itertools
import os
import random
import struct
import sys
import time

sys.dont_write_bytecode = True

from reading import LAST_DAY, MINIMUM, MOST, RETIRED, History, date, day_number, firm_on, in_annual_days, in_deletion_days, is_september, month

ANSWERS = {0: 'refused', 1: 'done', 2: 'called', 3: 'covered', 4: 'recorded only', 5: 'annual amount', 6: 'days opened', 7: 'statement',
           8: 'count of calls', 9: 'batch', 10: 'batch refused', 11: 'deletion'}
NAMES = {0: 'admit', 1: 'lodge', 2: 'lodge', 3: 'release', 4: 'settle', 5: 'annual', 6: 'advance', 7: 'statement', 8: 'batch', 9: 'delete'}
ORDER = {'admit': (1, 3, 4, 23), 'lodge': (1, 2, 5, 6, 8, 9), 'release': (1, 2, 5, 7, 8, 15, 16), 'settle': (1, 2, 12, 10, 11, 13),
         'annual': (1, 2, 14, 25), 'advance': (17,), 'statement': (1, 2), 'delete': (1, 2, 24, 13)}
# Causes of one call that never hold at once, or of which the second can't be judged where the first holds.
APART = {'admit': ((1, 3), (4, 23)), 'lodge': ((1, 2), (1, 6), (2, 6), (5, 6)),
         'release': ((1, 2), (1, 7), (1, 15), (1, 16), (2, 7), (2, 15), (2, 16), (5, 7), (5, 15), (5, 16), (7, 15), (7, 16)),
         'settle': ((1, 2), (1, 13), (2, 13), (12, 13)), 'annual': ((1, 2), (1, 25), (2, 25)), 'statement': ((1, 2),),
         'delete': ((1, 2), (1, 13), (2, 13))}
MOST_CALLS = 400     # a history stays below each of these three
MOST_BYTES = 60000
MOST_FIGURES = 4000
MOST_BATCH = 8192    # bytes of all batches of a history
MOST_DAYS = 1500     # opened in a history of few participants
WORD, HALF = 2 ** 64 - 1, 2 ** 32 - 1
ALL = float('inf')   # calls of a first stretch that is the whole history

CORNERS = '''
start: around 1 August
start: around 1 September
start: around 20 September
start: around 1 October
start: around a month's end
start: day 0
start: days 1 to 70
start: days 29,200 to 29,219
stretch: none
stretch: one call
stretch: its last call opens days
stretch: the first call behind it opens days
stretch: ends between two calls of one day
stretch: the whole history, as many calls as there are
stretch: the whole history, more calls than there are
advance: a single day
advance: 100 days and more
advance: B = 0
advance: T = t
advance: T = t on 29,219
advance: T before t (17)
advance: T before t and B = 0 (17)
advance: T above 29,219 (17)
advance: T above 29,219, B would stop earlier (17)
advance: stopped by the budget
advance: B = T - t exactly
advance: B above T - t
advance: B of 2^32 and more
advance: reaches 29,219
advance: ends on 30 September
advance: ends on 1 October
advance: crosses 1 October
advance: crosses two Octobers
advance: a month's end is crossed by one day
opening: one call ends
opening: several calls end at once
opening: a call of 20 September ends on 1 October
opening: next amount takes effect, firm amount higher
opening: next amount takes effect, firm amount lower
opening: next amount takes effect, firm amount the same
opening: next amount 0 takes effect
opening: next amount takes effect, a second one for the participant
opening: no next amount on 1 October, firm amount above 0
opening: next amount of one under deletion takes effect
opening: no next amount on 1 October, under deletion since August
opening: a second 1 October under deletion
opening: 1 October beside a deletion's open call, the next amount is higher
opening: 1 October beside a deletion's open call, the next amount is the same
opening: 1 October beside a deletion's open call, the next amount is lower
opening: 1 October beside a deletion's open call, no next amount
opening: a deletion's call of 20 September is above the next amount, and gone with it
opening: a deletion's call ends before 1 October
opening: a deletion's call ends on 2 October, with a next amount in effect
opening: a deletion's call ends on 11 October, with a next amount in effect
opening: a deletion's call ends on 2 to 11 October, the firm amount is higher
opening: a deletion's call ends on 2 to 11 October, the firm amount is the same
opening: a deletion's call ends on 2 to 11 October, the firm amount is lower
opening: a deletion's call ends, covered by what was lodged since
opening: a deletion's call and 1 October in one advance
opening: a letter lapses
opening: a letter lapses and a shortfall arises
opening: a letter begins
opening: a letter begins and a shortfall ends
charge: shortfall below 100,000,000
charge: shortfall of 100,000,000
charge: shortfall above 100,000,000
charge: both kinds for one participant
charge: shortfall of 1
charge: covered to the cent
charge: accrued above 2^53
charge: a day for a deletion's call alone
admit: minimum above 0
admit: minimum 0
admit: admitted twice (3)
admit: role 6 and above (4)
admit: on 20 or 21 September
admit: on 1 October
admit: last free day above 29,219
admit: role 1 in the first stretch
admit: role 1 as the first call of the first stretch
admit: role 1 as the last call of the first stretch
admit: role 1 as the first call behind the first stretch (23)
admit: role 1 behind the first stretch (23)
admit: role 1 behind the first stretch, on a day on which it was admitted (23)
admit: role 1 with no first stretch (23)
admit: role 1 of one admitted already, in the first stretch (3)
admit: role 1 of one admitted already (3)
admit: role 1 of one that has it (3)
admit: role 1, participant above 63, in the first stretch (1)
admit: role 1, participant above 63 (1)
admit: a role of 1 modulo 256 or 2^32 (4)
admit: role 1 refused (23), then a statement (2)
admit: role 1 refused (23), then another role
admit: another role behind the first stretch
lodge: amount 1
lodge: amount 10^12
lodge: amount 0 (8)
lodge: amount 10^12 + 1 (8)
lodge: position 7
lodge: position 8 and above (5)
lodge: at a position emptied by a release
lodge: at a position emptied by a lapse
lodge: at a letter on its last day (6)
lodge: at a letter that has not begun (6)
lodge: a letter's last day today
lodge: a letter's last day tomorrow
lodge: a letter's last day 29,219
lodge: a letter of one day
lodge: a letter that begins tomorrow
lodge: a letter that begins later
lodge: a letter's first day after its last (9)
lodge: a letter's last day yesterday (9)
lodge: a letter's last day above 29,219 (9)
lodge: ends a shortfall exactly
lodge: leaves a shortfall of one cent
lodge: covers a deletion's open call exactly
release: leaves the limit exactly, set by the firm amount
release: leaves the limit exactly, set by an open call
release: leaves the limit exactly, set by the next amount
release: leaves the limit exactly, set by a deletion's open call
release: one cent below the limit, set by the firm amount (16)
release: one cent below the limit, set by an open call (16)
release: one cent below the limit, set by the next amount (16)
release: one cent below the limit, set by a deletion's open call (16)
release: refused for a deletion's open call (16)
release: refused for the firm amount, a deletion's open call is below it (16)
release: limit 0
release: the sum of the open calls would have refused it
release: cash whole
release: cash in part
release: a letter whole
release: a letter on its last day
release: a letter that has not begun
release: accepted, and D is below the floor
release: a letter that has not begun, cover too small (16)
release: a letter in part (15)
release: more than held (15)
release: one cent more than held (15)
release: at a lapsed letter (7)
release: at an empty position (7)
release: amount 0 (8)
settle: M = P - 14
settle: M = P - 15 (12)
settle: M = P - 2
settle: M = P - 1 (12)
settle: P below 2 (12)
settle: M above 959 (12)
settle: September, M = P - 2, recorded only
settle: September, M = P - 2, would have called
settle: under deletion, September, M = P - 2, would have called
settle: a total replaced
settle: a called total replaced by a lower one, its call open
settle: before the admission's month
settle: 5 figures
settle: 16 figures
settle: 4 figures (10)
settle: 17 figures (10)
settle: no figures (10)
settle: a figure of 10^12 or -10^12
settle: a figure just beyond (11)
settle: a figure beyond 2^62 (11)
settle: figures out of range whose sum is in it (11)
settle: total above 10^12
check: E = D
check: E = D + 1
check: 20% exactly, called
check: 20% exactly, not called
check: one cent below 20%, above D
check: E = 0
check: E below 0
check: D = 0, E = 0 or below
check: D = 0, E = 1 called
check: E equal to the firm amount
check: E one above the firm amount
check: E equal to an open call
check: E one above the largest open call, called
check: only the tolerance keeps from calling
check: only the firm amount keeps from calling
check: only an open call keeps from calling
check: under deletion, called
check: under deletion, called on the day of the deletion's call
check: under deletion, called in a later year
check: under deletion, only the tolerance keeps from calling
check: under deletion, fifth open call refused (13)
check: in October, only a deletion's open call keeps from calling
check: in October, only the firm amount keeps from calling, a deletion's open call is below it
check: in October, called above the firm amount and a deletion's open call, of which that is higher
check: in October, called above the firm amount and a deletion's open call, of which that is not higher
check: a letter that has not begun would have covered it
check: a letter until t + 11 counts, and one day less would call
check: a letter until t + 10 doesn't count, and one day more would cover
check: a letter until t + 2 beside E, called
check: called, and the cover today is above E
check: called, and less than what is asked was missing in the cover today
check: called, and the covers of today and of t + 11 are both enough
check: covered, and D is below the cover today
check: a released letter was deposited, called
check: a released letter was not deposited, covered
check: on 29,208 a letter until 29,219 counts
check: from 29,209 on a letter until 29,219 doesn't count
check: from 29,209 on cash covers
check: fifth open call refused (13), and the cover today is above E
check: fourth open call made
check: fifth open call refused (13)
check: four open, covered
check: four open, recorded only
check: called again in one day
check: last free day above 29,219
check: last free day 29,219
annual: 1 September
annual: 10 September
annual: 31 August (14)
annual: 11 September (14)
annual: elsewhere (14)
annual: 0 months recorded
annual: 1 month recorded
annual: 2 to 5 months recorded
annual: 6 to 11 months recorded
annual: 12 months recorded
annual: largest total in P - 14
annual: largest total in P - 3
annual: a larger total in P - 2 left out
annual: a larger total in P - 15 left out
annual: raised to the minimum
annual: all totals below 0
annual: next amount 0
annual: below the firm amount
annual: a second run, amount higher
annual: a second run, amount lower
annual: under deletion (25)
annual: under deletion, a next amount is set (25)
annual: under deletion in a later year (25)
annual: under deletion, outside 1 to 10 September (14)
annual: accepted, another is under deletion
annual: accepted, its deletion was refused with 13
annual: a larger total was refused with 13
annual: a larger total was in a refused batch
annual: the amount is the total of a batch
annual: September 2020
delete: called
delete: not called
delete: 31 July (24)
delete: 1 August
delete: 31 August
delete: 1 September
delete: 30 September
delete: 1 October (24)
delete: elsewhere (24)
delete: under deletion, in August or September (24)
delete: under deletion, on the day of the deletion (24)
delete: under deletion, outside August and September (24)
delete: under deletion, in a later year (24)
delete: participant above 63 (1)
delete: participant not admitted (2)
delete: under deletion, it would be a fifth open call (24)
delete: outside August and September, it would be a fifth open call (24)
delete: no month recorded
delete: one month recorded
delete: two months recorded
delete: three months recorded
delete: more than three months recorded
delete: 13 months recorded
delete: an older total is larger than those of the three latest months
delete: a gap between the three latest months
delete: P - 14 is among the three latest months
delete: the amount is that of P - 14
delete: the amount is that of P - 2
delete: P - 14 counts, and a larger total in P - 15 doesn't
delete: fewer than three months, and a larger total in P - 15
delete: the three months that were settled last would give another amount
delete: a larger total of one of the three latest months was replaced
delete: a larger total was refused with 13
delete: a larger total was in a refused batch
delete: the amount is the total of a batch
delete: months before the admission's
delete: the totals of three months are below 0
delete: the totals of one or two months are below 0
delete: the totals of the three latest months are below 0, an older one above
delete: amount 0 of a recorded month
delete: amount 1, called
delete: below the minimum
delete: amount above 10^12
delete: August or September 2020
delete: September 2099
delete: equal to the firm amount
delete: one above the firm amount, called
delete: equal to the largest open call
delete: one above the largest open call, called
delete: only the firm amount keeps from calling
delete: only an open call keeps from calling
delete: called, the cover is above it
delete: called, the cover is that amount
delete: called, less than 20% above the cover
delete: called, the next amount is above it
delete: called, the next amount is below it
delete: not called, the cover is below it
delete: called behind a call of the same day
delete: the fourth open call
delete: four calls open, not called
delete: fifth open call refused (13)
delete: fifth open call refused (13), in September
delete: fifth open call refused (13), the cover is above it
delete: accepted behind a refusal (13), called
delete: accepted behind a refusal (13), not called
delete: accepted behind a refusal (13) of the same day
delete: in August, called
delete: 20 September, called, a next amount is set
delete: 21 September, called, a next amount is set
delete: 30 September, called, a next amount is set
delete: 30 September, called, no next amount is set
delete: on the day of the annual run
delete: in the first stretch
delete: behind the first stretch, admitted in it
batch: accepted, one part
batch: accepted, 2 to 5 parts
batch: accepted, 6 to 63 parts
batch: accepted, 64 parts
batch: accepted, a part of 16 rows
batch: accepted, participants not in their order
batch: accepted, participant 63
batch: accepted, M = P - 2
batch: accepted, M = P - 14
batch: accepted, a call is made
batch: accepted, several calls are made
batch: accepted, one under deletion is called
batch: accepted, a fourth open call
batch: accepted, called and covered
batch: accepted, covered
batch: accepted, a call is made, and the cover today is above its total
batch: accepted, recorded only
batch: accepted, September, would have called
batch: accepted, a total replaced
batch: accepted, a total below 0
batch: accepted, a figure of 10^12 or -10^12
batch: accepted, the same file was refused before
batch: accepted, the same file again
batch: no bytes (20)
batch: 1 to 3 bytes (20)
batch: n = 0 (20)
batch: n = 65 (20)
batch: n = 65, and nothing else wrong with the file (20)
batch: n of 66 and more (20)
batch: 4 bytes (20)
batch: shorter than its pairs (20)
batch: one byte shorter than its pairs (20)
batch: nothing behind its pairs
batch: the first offset of several (21)
batch: a middle offset (21)
batch: the last offset (21)
batch: an offset of one pair alone (21)
batch: an offset one too small (21)
batch: an offset one too large (21)
batch: several offsets, the first counts (21)
batch: an offset and the end, the offset counts (21)
batch: only the end, the file is longer (21)
batch: only the end, the file is one byte longer (21)
batch: only the end, the file is shorter (21)
batch: only the end, the file is one byte shorter (21)
batch: only the end, a part before the last ends past the file (21)
batch: only the end, right modulo 2^32 (21)
batch: an offset right modulo 2^32 (21)
batch: a length of 0 (22)
batch: a length of 1 (22)
batch: a length below 2 + 8 r (22)
batch: a length above 2 + 8 r (22)
batch: a participant twice, neighbours (22)
batch: a participant twice, apart (22)
batch: a participant above 63 twice (22)
batch: the first pair of several (22)
batch: a middle pair (22)
batch: the last pair (22)
batch: several pairs, the first counts (22)
batch: 20 where 21 holds
batch: 20 where 22 holds
batch: 21 where 22 holds of an earlier pair
batch: 21 where a settlement would be refused
batch: 22 where a settlement of an earlier pair would be refused
batch: refused at the first pair of several
batch: refused at the last of several pairs
batch: refused at the 64th pair
batch: refused with 1 at a later pair
batch: refused with 2 at a later pair
batch: refused with 12 at the first pair of several
batch: refused with 10 at a later pair
batch: refused with 11 at a later pair
batch: refused with 13 at a later pair
batch: 4 rows (10)
batch: 17 rows (10)
batch: no rows (10)
batch: 255 rows (10)
batch: a figure just beyond (11)
batch: a figure of -2^63 (11)
batch: M = P - 1 (12)
batch: M = P - 15 (12)
batch: M above 959 (12)
batch: several settlements would be refused, the first counts
batch: refused, an earlier part would have called
batch: refused, an earlier part would have replaced a total
batch: refused, then a statement of an earlier part's participant
opening: a batch's call ends
role 1 behind the first stretch: its minimum becomes firm
role 1 behind the first stretch: a day is charged
role 1 behind the first stretch: a call is made
role 1 behind the first stretch: a call is made by a batch
role 1 behind the first stretch: only its minimum keeps from calling
role 1 behind the first stretch: a release refused for its minimum (16)
role 1 behind the first stretch: an annual run of no months
role 1 behind the first stretch: an annual run raised to the minimum
role 1 behind the first stretch: an annual run above the minimum
role 1 behind the first stretch: a next amount of before takes effect
role 1 behind the first stretch: a next amount takes effect
role 1 behind the first stretch: a deletion, below the minimum
role 1 behind the first stretch: a deletion, above the minimum
count: 0, a role without a minimum
count: 0, and a month was covered
count: 1, that of the minimum
count: 1, a role without a minimum
count: 2 to 4
count: 5 and more
count: 20 and more
count: as many as are open
count: some are open, some no longer
count: none is open any more
count: more than four since, four open
count: behind a settlement that called
count: behind a batch that called
count: behind a covered settlement
count: behind a settlement that was recorded only
count: behind a called total replaced by a lower one
count: behind a refused fifth call (13)
count: behind a refused batch that would have called
count: behind a deletion that called
count: behind a deletion that didn't call
count: behind a deletion that would have been a fifth call (13)
count: behind an annual run
count: behind a 1 October on which a next amount took effect
count: behind a call's end
count: behind its admission
count: behind a refused second admission (3)
count: a statement of one not admitted (2)
count: with a deletion's call, its call open no longer
count: of one with a called month in the first stretch
count: of one with role 1, behind the first stretch
count: two statements of a day differ in it alone
count: two statements of a day differ in it alone, a firm amount above 0
count: two statements of a day differ in it alone, days charged
count: the same statement of two participants
count: the sum is 0, and somebody is admitted
count: the sum is that of one participant alone, another has 0
count: the sum of several, each above 0
count: the sum is not that of the open calls
people: above 63 (1)
people: not admitted (2)
people: participant 63
people: more than 5 admitted
people: all 64 admitted
causes: more than one at once
'''.strip().split('\n')


def apply(book, kind, args):
    """The reference's answer to a call."""
    if kind == 0:
        return book.admit(*args)
    if kind == 1:
        p, place, amount = args
        return book.lodge(p, place, 'cash', amount)
    if kind == 2:
        p, place, amount, first, last = args
        return book.lodge(p, place, 'letter', amount, first, last)
    if kind == 3:
        return book.release(*args)
    if kind == 4:
        p, m, _, *figures = args
        return book.settle(p, m, figures)
    if kind == 5:
        return book.annual(*args)
    if kind == 6:
        return book.advance(*args)
    if kind == 7:
        return book.statement(*args)
    if kind == 8:
        return book.batch(bytes(args[1:]))
    if kind == 9:
        return book.delete(*args)
    return book.calls_made()


def read(text):
    """The answers to a history's text, as DIR/stdout has them."""
    lines = [[int(word) for word in line.split(' ')] for line in text.splitlines()]
    (start, first, count), calls = lines[0], lines[1:]
    assert count == len(calls)
    book, answers = History(start, first_stretch=True), [f'history {start}\n']
    for place, (kind, *args) in enumerate(calls):
        if place == first:
            book.end_stretch()
        answers.append(' '.join(map(str, apply(book, kind, args))) + '\n')
    return ''.join(answers)


def causes(book, kind, args):
    """Every cause of refusal that holds of a call, as far as it can be judged beside the others; the reference gives the first in order."""
    if kind == 8:
        return [number for number, _ in batch_causes(book, bytes(args[1:]))]
    if kind == 10:
        return []
    if kind == 6:
        return [17] if args[0] > LAST_DAY or args[0] < book.today else []
    t, p = book.today, args[0]
    who = book.people.get(p)
    holds = {1: p > 63, 2: p <= 63 and who is None, 3: who is not None}
    if kind == 0:
        holds[4] = args[1] > 5
        holds[23] = args[1] == 1 and not book.first_stretch
    if kind in (1, 2, 3):
        place, amount = args[1], args[2]
        held = who.position(place, t) if who and place <= 7 else None
        holds[5], holds[6], holds[7] = place > 7, held is not None, who is not None and place <= 7 and held is None
        holds[8] = not 1 <= amount <= MOST
        if kind == 2:
            holds[9] = not (args[3] <= args[4] and t <= args[4] <= LAST_DAY)
        if kind == 3 and held:
            what, most, first, last = held
            holds[15] = amount > most or (what == 'letter' and amount < most)
            counts = what == 'cash' or first <= t <= last
            holds[16] = who.cover(t) - (amount if counts else 0) < who.release_floor(t)
    if kind == 4:
        m, k, figures = args[1], args[2], args[3:]
        holds[12] = not month(t) - 14 <= m <= month(t) - 2
        holds[10] = k < 5 or k > 16
        holds[11] = any(x < -MOST or x > MOST for x in figures)
        holds[13] = who is not None and len(who.open_calls(t)) > 3 and who.would_call(t, m, figures)
    if kind == 5:
        holds[14] = not (date(t).month == 9 and date(t).day <= 10)
        holds[25] = who is not None and who.deletion() is not None
    if kind == 9:
        holds[24] = not 8 <= date(t).month <= 9 or (who is not None and who.deletion() is not None)
        holds[13] = who is not None and len(who.open_calls(t)) > 3 and largest_latest(who, t) > max(who.open_calls(t) + [who.firm(t)])
    return [n for n in ORDER[NAMES[kind]] if holds.get(n)]


def recorded(who, here):
    """The recorded months among P - 15 and P - 2, with their totals; P - 15 is one too old."""
    totals = {m: who.total(m) for m in range(max(here - 15, 0), max(here - 1, 0))}
    return {m: e for m, e in totals.items() if e is not None}


def latest_months(who, t):
    """The three latest recorded months that a deletion looks at, or fewer."""
    return sorted(m for m in recorded(who, month(t)) if m >= month(t) - 14)[-3:]


def largest_latest(who, t):
    """What a deletion would amount to on a day."""
    return max(max((who.total(m) for m in latest_months(who, t)), default=0), 0)


class File:
    """The parts of a batch's file, to be put together or damaged: the month, the count, the pairs and the parts' bytes."""

    def __init__(self, m, parts):
        self.month, self.count, self.more, self.cut = m, len(parts), b'', None
        self.parts = [struct.pack(f'<BB{len(figures)}q', p, len(figures), *figures) for p, figures in parts]
        self.place()

    def place(self):
        """Pairs by which the parts follow on as they must."""
        self.pairs, at = [], 4 + 8 * len(self.parts)
        for part in self.parts:
            self.pairs.append([at, len(part)])
            at += len(part)

    def bytes(self):
        """The file; a number that is too large for its bytes loses what is above them."""
        head = struct.pack('<HH', self.month, self.count % 2 ** 16)
        pairs = b''.join(struct.pack('<II', offset % 2 ** 32, length % 2 ** 32) for offset, length in self.pairs)
        return (head + pairs + b''.join(self.parts) + self.more)[:self.cut]


def taken_apart(data):
    """A batch's month and count, those of its pairs that the file has, and for each of these its part's bytes as far as the file has them."""
    m, n = struct.unpack('<HH', data[:4]) if len(data) >= 4 else (0, 0)
    pairs = [struct.unpack_from('<II', data, at) for at in range(4, min(4 + 8 * n, len(data) - 7), 8)]
    return m, n, pairs, [data[offset:offset + length] for offset, length in pairs]


def read_part(part):
    """A part's participant and figures, where it is one."""
    return part[0], [figure for figure, in struct.iter_unpack('<q', part[2:])]


def batch_causes(book, data):
    """Every cause of refusal that holds of a batch, (number, index), as far as it can be judged beside the others, in the order that decides."""
    m, n, pairs, parts = taken_apart(data)
    held = [(20, 0)] * (n == 0 or n > 64 or len(data) < 4 + 8 * n)
    ends = [4 + 8 * n] + [offset + length for offset, length in pairs]
    wrong = [(21, i) for i, (offset, _) in enumerate(pairs) if offset != ends[i]]
    held += wrong or [(21, n - 1)] * (len(pairs) == n > 0 and ends[-1] != len(data))
    whole, seen = [], set()
    for i, ((_, length), part) in enumerate(zip(pairs, parts)):
        fits = len(part) == length >= 2 and length == 2 + 8 * part[1]
        if not fits or part[0] in seen:
            held.append((22, i))
        seen |= set(part[:1])
        if fits:
            whole.append((i, *read_part(part)))
    for i, p, figures in whole:
        held += [(number, i) for number in causes(book, 4, (p, m, len(figures), *figures))]
    return held


class Full(Exception):
    """The history has as many calls, bytes or figures as it may."""


class Recorder:
    """A history in the making: makes calls on the reference, keeps their text, and counts what they met. Its first stretch has so many calls."""

    def __init__(self, start, calls, first):
        self.start, self.calls, self.first = start, calls, first
        self.book = History(start, first_stretch=True)
        self.lines, self.bytes, self.figures, self.batches = [], 0, 0, 0
        self.fifths = []                         # what was refused with 13: (participant, month, total)
        self.undone = []                         # the same of the parts before the one that a batch was refused for
        self.spared = []                         # the participants of these parts, until another change is tried
        self.batched = {}                        # totals that came by a batch: (participant, month) to total
        self.batch_calls = []                    # last free days of calls that a batch made
        self.files = {}                          # files entered before, and whether the last time accepted
        self.opened = False                      # whether the last call opened days
        self.retired = set()                     # participants whose admission was refused with 23
        self.retired_days = set()                # the days on which role 1 was admitted
        self.early_runs = set()                  # participants whose last annual run was made in the first stretch
        self.tried = {}                          # participants whose deletion was refused with 13, and the day of the last time
        self.admitted_early = set()              # participants that were admitted in the first stretch
        self.called_early = set()                # participants of which a month or a deletion called in the first stretch
        self.behind = {}                         # what has happened to a participant since its last statement
        self.stated = {}                         # what was stated on this day, without the count: participants to counts
        self.stated_day = start                  # that day
        self.kinds, self.refusals, self.pairs, self.corners = (collections.Counter() for _ in range(4))
        self.met_start()

    @property
    def t(self):
        return self.book.today

    def met(self, corner, when=True):
        if when:
            self.corners[corner] += 1

    def call(self, kind, *args):
        """Makes a call that adds nothing to watch for; the methods below watch."""
        line = ' '.join(map(str, (kind,) + args))
        if len(self.lines) >= self.calls or self.bytes + len(line) + 1 > MOST_BYTES - 2000 \
                or (kind == 4 and self.figures + args[2] >= MOST_FIGURES) or (kind == 8 and self.batches + args[0] > MOST_BATCH):
            raise Full()
        place = len(self.lines)
        if place == self.first:
            self.book.end_stretch()
        held = causes(self.book, kind, args)
        answer = apply(self.book, kind, args)
        assert (answer[0] in (0, 10)) == (held != []) and (held == [] or answer[1] == held[0]), (line, answer, held)
        self.lines.append(line)
        self.bytes += len(line) + 1
        self.figures += args[2] if kind == 4 else 0
        self.batches += args[0] if kind == 8 else 0
        self.spared = self.spared if kind in (7, 10) else []
        opened = answer[0] == 6 and answer[1] > 0
        self.met('stretch: its last call opens days', opened and place == self.first - 1)
        self.met('stretch: the first call behind it opens days', opened and place == self.first > 0)
        self.met('stretch: ends between two calls of one day', place == self.first > 0 and not (opened or self.opened))
        self.opened = opened
        self.kinds[answer[0]] += 1
        if held:
            self.refusals[held[0]] += 1
            self.met('people: above 63 (1)', held[0] == 1)
            self.met('people: not admitted (2)', held[0] == 2)
            self.met('causes: more than one at once', len(held) > 1)
            for other in set(held) - {held[0]}:
                self.pairs[NAMES[kind], held[0], other] += 1
        return answer

    def kept_role(self, who):
        """Whether the last call was made behind the first stretch, and the participant has the role that only the first stretch admits."""
        return who.role == RETIRED and not self.book.first_stretch

    def text(self):
        return f'{self.start} {self.first} {len(self.lines)}\n' + ''.join(line + '\n' for line in self.lines)

    def finish(self):
        """The closing statements and count."""
        self.met('people: more than 5 admitted', len(self.book.people) > 5)
        self.met('people: all 64 admitted', len(self.book.people) == 64)
        self.calls = MOST_CALLS - 1
        for p in sorted(self.book.people):
            self.met_statement(p, self.call(7, p))
        self.met_sum(self.call(10))

    def met_stretch(self):
        """What the number of the first stretch's calls met, when all calls are made."""
        self.met('stretch: none', self.first == 0)
        self.met('stretch: one call', self.first == 1)
        self.met('stretch: the whole history, as many calls as there are', self.first == len(self.lines))
        self.met('stretch: the whole history, more calls than there are', self.first > len(self.lines))

    # -- the calls, with what they met -----------------------------------------------------------------------------------------------------

    def met_start(self):
        t = self.start
        d = date(t)
        self.met('start: around 1 August', (d.month, d.day) in ((7, 30), (7, 31), (8, 1), (8, 2)))
        self.met('start: around 1 September', (d.month, d.day) in ((8, 30), (8, 31), (9, 1), (9, 2)))
        self.met('start: around 20 September', d.month == 9 and 18 <= d.day <= 22)
        self.met('start: around 1 October', (d.month, d.day) in ((9, 29), (9, 30), (10, 1), (10, 2)))
        self.met("start: around a month's end", month(max(t - 1, 0)) != month(min(t + 2, LAST_DAY)))
        self.met('start: day 0', t == 0)
        self.met('start: days 1 to 70', 1 <= t <= 70)
        self.met('start: days 29,200 to 29,219', t >= 29200)

    def admit(self, p, role):
        ok = self.call(0, p, role)
        if role == RETIRED:
            self.met_retired(p, ok)
        self.happened(p, {(1, 0): 'its admission', (0, 3): 'a refused second admission (3)'}.get(ok[:2]))
        if ok[0] == 0:
            self.met('admit: admitted twice (3)', ok[1] == 3)
            self.met('admit: role 6 and above (4)', ok[1] == 4)
            self.met('admit: a role of 1 modulo 256 or 2^32 (4)', ok[1] == 4 and RETIRED in (role % 256, role % 2 ** 32))
            return ok
        d = date(self.t)
        self.met('admit: role 1 refused (23), then another role', p in self.retired)
        self.met('admit: another role behind the first stretch', self.first > 0 and not self.book.first_stretch)
        self.met('admit: minimum above 0' if MINIMUM[role] else 'admit: minimum 0')
        self.met('admit: on 20 or 21 September', d.month == 9 and d.day in (20, 21) and MINIMUM[role] > 0)
        self.met('admit: on 1 October', d.month == 10 and d.day == 1)
        self.met('admit: last free day above 29,219', MINIMUM[role] > 0 and self.t + 10 > LAST_DAY)
        self.met('people: participant 63', p == 63)
        if self.book.first_stretch:
            self.admitted_early.add(p)
        return ok

    def met_retired(self, p, ok):
        """What an admission with role 1 met."""
        t, place, early, number = self.t, len(self.lines) - 1, self.book.first_stretch, ok[1] if ok[0] == 0 else 0
        if ok[0] == 1:
            self.met('admit: role 1 in the first stretch')
            self.met('admit: role 1 as the first call of the first stretch', place == 0)
            self.met('admit: role 1 as the last call of the first stretch', place == self.first - 1)
            self.retired_days.add(t)
        elif number == 23:
            self.met('admit: role 1 behind the first stretch (23)', self.first > 0)
            self.met('admit: role 1 as the first call behind the first stretch (23)', place == self.first > 0)
            self.met('admit: role 1 behind the first stretch, on a day on which it was admitted (23)', t in self.retired_days)
            self.met('admit: role 1 with no first stretch (23)', self.first == 0)
            self.retired.add(p)
        self.met('admit: role 1 of one admitted already, in the first stretch (3)', number == 3 and early)
        self.met('admit: role 1 of one admitted already (3)', number == 3 and not early)
        self.met('admit: role 1 of one that has it (3)', number == 3 and self.kept_role(self.book.people[p]))
        self.met('admit: role 1, participant above 63, in the first stretch (1)', number == 1 and early)
        self.met('admit: role 1, participant above 63 (1)', number == 1 and not early)

    def lodge(self, p, place, amount, first=None, last=None):
        t, who, letter = self.t, self.book.people.get(p), first is not None
        before = who and [args for _, kind, args in who.acts if kind == 'lodge' and args[0] == place]
        held = who and place <= 7 and who.position(place, t)
        short = who and who.firm(t) - who.cover(t)
        ok = self.call(2, p, place, amount, first, last) if letter else self.call(1, p, place, amount)
        if ok[0] == 0:
            self.met('lodge: amount 0 (8)', ok[1] == 8 and amount == 0)
            self.met('lodge: amount 10^12 + 1 (8)', ok[1] == 8 and amount == MOST + 1)
            self.met('lodge: position 8 and above (5)', ok[1] == 5)
            if ok[1] == 6:
                self.met('lodge: at a letter on its last day (6)', held[0] == 'letter' and held[3] == t)
                self.met('lodge: at a letter that has not begun (6)', held[0] == 'letter' and held[2] > t)
            if ok[1] == 9:
                self.met("lodge: a letter's first day after its last (9)", first > last and t <= last <= LAST_DAY)
                self.met("lodge: a letter's last day yesterday (9)", first <= last == t - 1)
                self.met("lodge: a letter's last day above 29,219 (9)", first <= last and last > LAST_DAY)
            return ok
        self.met('lodge: amount 1', amount == 1)
        self.met('lodge: amount 10^12', amount == MOST)
        self.met('lodge: position 7', place == 7)
        if before:
            lapsed = before[-1][1] == 'letter' and before[-1][4] < t
            self.met('lodge: at a position emptied by a lapse' if lapsed else 'lodge: at a position emptied by a release')
        left = who.firm(t) - who.cover(t)
        self.met('lodge: ends a shortfall exactly', short > 0 and left == 0)
        self.met('lodge: leaves a shortfall of one cent', short > 1 and left == 1)
        gone = self.deletion_call(who)
        self.met("lodge: covers a deletion's open call exactly", gone and gone[1] >= t and who.firm(t) < gone[0] == who.cover(t))
        if letter:
            self.met("lodge: a letter's last day today", last == t)
            self.met("lodge: a letter's last day tomorrow", last == t + 1)
            self.met("lodge: a letter's last day 29,219", last == LAST_DAY)
            self.met('lodge: a letter of one day', first == last)
            self.met('lodge: a letter that begins tomorrow', first == t + 1)
            self.met('lodge: a letter that begins later', first > t + 1)
        return ok

    def release(self, p, place, amount):
        t, who = self.t, self.book.people.get(p)
        if not who or place > 7:
            return self.call(3, p, place, amount)
        lodged = [args for _, kind, args in who.acts if kind == 'lodge' and args[0] == place]
        held, cover, floor = who.position(place, t), who.cover(t), who.release_floor(t)
        firm, coming, calls = who.firm(t), who.next_amount(t), who.open_calls(t)
        gone = self.deletion_call(who)
        gone = gone[0] if gone and gone[1] >= t else None
        ok = self.call(3, p, place, amount)
        ahead = held and held[0] == 'letter' and held[2] > t
        left = cover - (0 if ahead else amount)
        by = ('the firm amount' if firm == floor else 'an open call' if floor in calls else 'the next amount')
        alone = (firm, coming or 0, max(calls, default=0)).count(floor) == 1 and floor > 0
        by_deletion = alone and floor == gone
        if ok[0] == 0:
            self.met("release: one cent below the limit, set by a deletion's open call (16)", ok[1] == 16 and left == floor - 1 and by_deletion)
            self.met("release: refused for a deletion's open call (16)", ok[1] == 16 and by_deletion and left >= max(firm, coming or 0))
            self.met("release: refused for the firm amount, a deletion's open call is below it (16)",
                     ok[1] == 16 and gone is not None and gone <= left < firm == floor and alone)
            self.met(f'release: one cent below the limit, set by {by} (16)', ok[1] == 16 and left == floor - 1 and alone)
            self.met('release: a letter that has not begun, cover too small (16)', ok[1] == 16 and ahead)
            self.met('role 1 behind the first stretch: a release refused for its minimum (16)',
                     ok[1] == 16 and self.kept_role(who) and floor == MINIMUM[RETIRED])
            self.met('release: a letter in part (15)', ok[1] == 15 and held[0] == 'letter' and amount < held[1])
            self.met('release: more than held (15)', ok[1] == 15 and amount > held[1])
            self.met('release: one cent more than held (15)', ok[1] == 15 and amount == held[1] + 1)
            if ok[1] == 7:
                lapsed = lodged and lodged[-1][1] == 'letter' and lodged[-1][4] < t
                self.met('release: at a lapsed letter (7)' if lapsed else 'release: at an empty position (7)')
            self.met('release: amount 0 (8)', ok[1] == 8 and amount == 0)
            return ok
        self.met(f'release: leaves the limit exactly, set by {by}', left == floor and alone)
        self.met("release: leaves the limit exactly, set by a deletion's open call", left == floor and by_deletion)
        self.met('release: limit 0', floor == 0)
        self.met('release: accepted, and D is below the floor', who.deposited(t) < floor)
        self.met('release: the sum of the open calls would have refused it', sum(calls) > left)
        if held[0] == 'cash':
            self.met('release: cash whole' if amount == held[1] else 'release: cash in part')
        else:
            self.met('release: a letter whole')
            self.met('release: a letter on its last day', held[3] == t)
            self.met('release: a letter that has not begun', ahead)
        return ok

    def settle(self, p, m, figures):
        t, who, k, e, month_now = self.t, self.book.people.get(p), len(figures), sum(figures), month(self.t)
        if not who:
            return self.call(4, p, m, k, *figures)
        d, firm, calls, old = who.deposited(t), who.firm(t), who.open_calls(t), who.total(m)
        cover, later = who.cover(t), who.cover(t + 11)
        letters = [held[1:] for held in (who.position(place, t) for place in range(8)) if held and held[0] == 'letter']
        ahead = sum(amount for amount, first, _ in letters if first > t)
        ok = self.call(4, p, m, k, *figures)
        if ok[0] == 0:
            self.met('settle: M = P - 15 (12)', ok[1] == 12 and m == month_now - 15)
            self.met('settle: M = P - 1 (12)', ok[1] == 12 and m == month_now - 1)
            self.met('settle: P below 2 (12)', ok[1] == 12 and month_now < 2)
            self.met('settle: M above 959 (12)', ok[1] == 12 and m > 959)
            self.met('settle: 4 figures (10)', ok[1] == 10 and k == 4)
            self.met('settle: 17 figures (10)', ok[1] == 10 and k == 17)
            self.met('settle: no figures (10)', ok[1] == 10 and k == 0)
            self.met('settle: a figure just beyond (11)', ok[1] == 11 and max(abs(x) for x in figures) == MOST + 1)
            self.met('settle: a figure beyond 2^62 (11)', ok[1] == 11 and max(abs(x) for x in figures) > 2 ** 62)
            self.met('settle: figures out of range whose sum is in it (11)', ok[1] == 11 and abs(e) <= MOST)
            self.met('check: fifth open call refused (13)', ok[1] == 13)
            self.met('check: fifth open call refused (13), and the cover today is above E', ok[1] == 13 and cover > e)
            self.met('check: under deletion, fifth open call refused (13)', ok[1] == 13 and who.deletion())
            if ok[1] == 13:
                self.fifths.append((p, m, e))
                self.happened(p, 'a refused fifth call (13)')
            return ok
        self.happened(p, {2: 'a settlement that called', 3: 'a covered settlement', 4: 'a settlement that was recorded only'}[ok[0]])
        self.happened(p, 'a called total replaced by a lower one' if old is not None and old in calls and e < old else None)
        if ok[0] == 2 and self.book.first_stretch:
            self.called_early.add(p)
        self.met('settle: M = P - 14', m == month_now - 14)
        self.met('settle: M = P - 2', m == month_now - 2)
        self.met('settle: a total replaced', old is not None)
        self.met('settle: a called total replaced by a lower one, its call open', old is not None and old in calls and e < old)
        self.met("settle: before the admission's month", m < month(who.day))
        self.met('settle: 5 figures', k == 5)
        self.met('settle: 16 figures', k == 16)
        self.met('settle: a figure of 10^12 or -10^12', MOST in figures or -MOST in figures)
        self.met('settle: total above 10^12', abs(e) > MOST)
        rules = (5 * e >= 6 * d, e > firm, all(e > amount for amount in calls))
        if m == month_now - 2 and is_september(month_now):
            self.met('settle: September, M = P - 2, recorded only')
            self.met('settle: September, M = P - 2, would have called', e > d and all(rules))
            self.met('settle: under deletion, September, M = P - 2, would have called', e > d and all(rules) and who.deletion())
        if ok[0] == 4:
            self.met('check: four open, recorded only', len(calls) == 4)
            return ok
        made = ok[0] == 2
        self.met('check: E = D', e == d)
        self.met('check: E = D + 1', e == d + 1)
        if 5 * e == 6 * d and d > 0:
            self.met('check: 20% exactly, called' if made else 'check: 20% exactly, not called')
        self.met('check: one cent below 20%, above D', d < e and 5 * e < 6 * d <= 5 * (e + 1))
        self.met('check: E = 0', e == 0)
        self.met('check: E below 0', e < 0)
        self.met('check: D = 0, E = 0 or below', d == 0 and e <= 0)
        self.met('check: D = 0, E = 1 called', d == 0 and e == 1 and made)
        self.met('check: E equal to the firm amount', e == firm)
        self.met('check: E one above the firm amount', e == firm + 1)
        self.met('check: E equal to an open call', e in calls)
        self.met('check: E one above the largest open call, called', calls != [] and e == max(calls) + 1 and made)
        self.met('check: only the tolerance keeps from calling', rules == (False, True, True))
        self.met('check: only the firm amount keeps from calling', rules == (True, False, True))
        self.met('check: only an open call keeps from calling', rules == (True, True, False))
        self.met('check: a letter that has not begun would have covered it', made and d + ahead >= e)
        self.met('role 1 behind the first stretch: a call is made', made and self.kept_role(who))
        self.met('role 1 behind the first stretch: only its minimum keeps from calling',
                 self.kept_role(who) and not made and e > d and rules[0] and max(calls + [firm]) == MINIMUM[RETIRED])
        self.met_deposits(who, made, e, d, cover, later, letters)
        if who.deletion():
            self.met_under_deletion(who, made, e, d, firm, calls, rules)
        self.met('check: fourth open call made', made and len(calls) == 3)
        self.met('check: four open, covered', not made and len(calls) == 4)
        again = [day for day, kind, args in who.acts[:-1] if kind == 'settle' and args[2]]
        self.met('check: called again in one day', made and again != [] and again[-1] == t)
        self.met('check: last free day above 29,219', made and t + 10 > LAST_DAY)
        self.met('check: last free day 29,219', made and t + 10 == LAST_DAY)
        return ok

    def met_deposits(self, who, made, e, d, cover, later, letters):
        """What a check met of letters about to lapse: D beside the covers of today and of day t + 11."""
        t = self.t
        until = {n: sum(amount for amount, first, last in letters if first <= t and last == t + n) for n in (2, 10, 11)}
        others = max([who.firm(t)] + who.open_calls(t)[:-1 if made else None])

        def would_call(amount):
            return e > amount and 5 * e >= 6 * amount and e > others
        self.met('check: a letter until t + 11 counts, and one day less would call', not made and until[11] and would_call(d - until[11]))
        self.met("check: a letter until t + 10 doesn't count, and one day more would cover", made and not would_call(d + until[10]))
        self.met('check: a letter until t + 2 beside E, called', made and until[2] >= e)
        self.met('check: called, and the cover today is above E', made and cover > e)
        self.met('check: called, and less than what is asked was missing in the cover today', made and d < cover < e)
        self.met('check: called, and the covers of today and of t + 11 are both enough', made and min(cover, later) >= e)
        self.met('check: covered, and D is below the cover today', not made and e > d and d < cover)
        released = self.released_letters(who)
        self.met('check: a released letter was deposited, called', made and not would_call(d + sum(released[True])))
        self.met('check: a released letter was not deposited, covered', not made and d > 0 and would_call(d - sum(released[False])))
        last = sum(amount for amount, first, last in letters if first <= t and last == LAST_DAY)
        self.met('check: on 29,208 a letter until 29,219 counts', t == 29208 and not made and last > 0 and would_call(d - last))
        self.met("check: from 29,209 on a letter until 29,219 doesn't count", t >= 29209 and made and not would_call(d + last))
        self.met('check: from 29,209 on cash covers', t >= 29209 and not made and 0 < e <= d)

    def deletion_call(self, who):
        """The call that a participant's deletion made, (amount, last free day), or None."""
        gone = who.deletion()
        return (gone[1], gone[0] + 10) if gone and gone[2] else None

    def met_under_deletion(self, who, made, e, d, firm, calls, rules):
        """What a check met of a participant under deletion; the firm amount and the open calls are those before it."""
        t, gone = self.t, self.deletion_call(who)
        self.met('check: under deletion, called', made)
        self.met("check: under deletion, called on the day of the deletion's call", made and gone and gone[1] == t + 10)
        self.met('check: under deletion, called in a later year', made and date(t).year > date(who.deletion()[0]).year)
        self.met('check: under deletion, only the tolerance keeps from calling', e > d and rules == (False, True, True))
        if date(t).month == 10 and gone and gone[1] >= t:
            self.met("check: in October, only a deletion's open call keeps from calling",
                     e > d and rules == (True, True, False) and [amount for amount in calls if amount >= e] == [gone[0]])
            self.met("check: in October, only the firm amount keeps from calling, a deletion's open call is below it",
                     e > d and rules == (True, False, True) and gone[0] < e)
            self.met("check: in October, called above the firm amount and a deletion's open call, of which that is " +
                     ('higher' if gone[0] > firm else 'not higher'), made)

    def released_letters(self, who):
        """The amounts of letters that were released while they were in force today, by whether they would have been deposited."""
        t, dates, found = self.t, {}, {True: [], False: []}
        for _, kind, args in who.acts:
            if kind == 'lodge':
                dates[args[0]] = args[3:] if args[1] == 'letter' else None
            elif kind == 'release' and dates[args[0]] and dates[args[0]][0] <= t <= dates[args[0]][1]:
                found[t + 11 <= dates[args[0]][1]].append(args[1])
        return found

    def batch(self, data):
        t, people = self.t, self.book.people
        m, n, pairs, parts = taken_apart(data)
        held = batch_causes(self.book, data)
        entered = [] if held and held[0][0] > 19 else [(*read_part(part), people.get(part[0])) for part in parts]
        calls = [who is not None and who.would_call(t, m, figures) for _, figures, who in entered]
        open_calls = [len(who.open_calls(t)) if who else 0 for _, _, who in entered]
        replaced = [who is not None and who.total(m) is not None for _, _, who in entered]
        ok = self.call(8, len(data), *data)
        assert ok == ((10, *held[0], 0, 0, 0, 0) if held else (9, n, 0, 0, 0, 0, 0)), (data, ok, held)
        if ok[0] == 9:
            self.met_batch(m, entered, calls, open_calls, replaced)
            for p in [p for made, (p, _, _) in zip(calls, entered) if made]:
                self.happened(p, 'a batch that called')
                if self.book.first_stretch:
                    self.called_early.add(p)
            self.met('batch: accepted, the same file was refused before', self.files.get(data) is False)
            self.met('batch: accepted, the same file again', self.files.get(data) is True)
        elif ok[1] == 20:
            self.met_short_batch(data, n, held)
        elif ok[1] == 21:
            self.met_offsets(len(data), pairs, held)
        elif ok[1] == 22:
            self.met_parts(pairs, parts, held)
        else:
            self.met_refused_batch(m, entered, calls, replaced, held)
        self.files[data] = ok[0] == 9
        return ok

    def met_batch(self, m, parts, calls, open_calls, replaced):
        """What an accepted batch met."""
        t, here, n = self.t, month(self.t), len(parts)
        names, totals, checked = [p for p, _, _ in parts], [sum(figures) for _, figures, _ in parts], parts[0][2].check_due(t, m)
        self.met('batch: accepted, ' + ('one part' if n == 1 else '2 to 5 parts' if n < 6 else '6 to 63 parts' if n < 64 else '64 parts'))
        self.met('batch: accepted, a part of 16 rows', any(len(figures) == 16 for _, figures, _ in parts))
        self.met('batch: accepted, participants not in their order', names != sorted(names))
        self.met('batch: accepted, participant 63', 63 in names)
        self.met('batch: accepted, M = P - 2', m == here - 2)
        self.met('batch: accepted, M = P - 14', m == here - 14)
        self.met('batch: accepted, a call is made', any(calls))
        self.met('batch: accepted, several calls are made', sum(calls) > 1)
        self.met('batch: accepted, one under deletion is called', any(made and who.deletion() for made, (_, _, who) in zip(calls, parts)))
        self.met('batch: accepted, a fourth open call', any(made and count == 3 for made, count in zip(calls, open_calls)))
        self.met('batch: accepted, called and covered', any(calls) and not all(calls))
        self.met('batch: accepted, covered', checked and not all(calls))
        self.met('batch: accepted, recorded only', not checked)
        self.met('batch: accepted, September, would have called', is_september(here) and m == here - 2 and any(
            e > who.deposited(t) and 5 * e >= 6 * who.deposited(t) and e > max([who.firm(t)] + who.open_calls(t))
            for e, (_, _, who) in zip(totals, parts)))
        self.met('batch: accepted, a call is made, and the cover today is above its total', any(
            made and who.cover(t) > e for made, e, (_, _, who) in zip(calls, totals, parts)))
        self.met('role 1 behind the first stretch: a call is made by a batch', any(
            made and self.kept_role(who) for made, (_, _, who) in zip(calls, parts)))
        self.met('batch: accepted, a total replaced', any(replaced))
        self.met('batch: accepted, a total below 0', min(totals) < 0)
        self.met('batch: accepted, a figure of 10^12 or -10^12', any(abs(x) == MOST for _, figures, _ in parts for x in figures))
        self.batched.update({(p, m): e for p, e in zip(names, totals)})
        self.batch_calls += [t + 10] * any(calls)

    def met_short_batch(self, data, n, held):
        """What a batch met that was refused with 20."""
        size = len(data)
        if size < 4:
            self.met('batch: 1 to 3 bytes (20)' if size else 'batch: no bytes (20)')
            return
        self.met('batch: n = 0 (20)', n == 0)
        self.met('batch: n = 65 (20)', n == 65)
        self.met('batch: n = 65, and nothing else wrong with the file (20)', n == 65 and not {21, 22} & {number for number, _ in held})
        self.met('batch: n of 66 and more (20)', n > 65)
        if 1 <= n <= 64:
            self.met('batch: 4 bytes (20)', size == 4)
            self.met('batch: shorter than its pairs (20)')
            self.met('batch: one byte shorter than its pairs (20)', size == 4 + 8 * n - 1)
        self.met('batch: 20 where 21 holds', 21 in [number for number, _ in held])
        self.met('batch: 20 where 22 holds', 22 in [number for number, _ in held])

    def met_offsets(self, size, pairs, held):
        """What a batch met that was refused with 21."""
        n, at = len(pairs), held[0][1]
        begins = [4 + 8 * n] + [offset + length for offset, length in pairs]
        wrong = [i for i in range(n) if pairs[i][0] != begins[i]]
        self.met('batch: nothing behind its pairs', size == 4 + 8 * n)
        if wrong:
            self.met('batch: ' + ('an offset of one pair alone' if n == 1 else 'the first offset of several' if at == 0 else
                                  'the last offset' if at == n - 1 else 'a middle offset') + ' (21)')
            self.met('batch: an offset one too small (21)', pairs[at][0] == begins[at] - 1)
            self.met('batch: an offset one too large (21)', pairs[at][0] == begins[at] + 1)
            self.met('batch: several offsets, the first counts (21)', len(wrong) > 1)
            self.met('batch: an offset and the end, the offset counts (21)', at < n - 1 and begins[-1] != size)
            self.met('batch: an offset right modulo 2^32 (21)', (pairs[at][0] - begins[at]) % 2 ** 32 == 0)
        else:
            rest = size - begins[-1]
            self.met('batch: only the end, the file is ' + ('longer' if rest > 0 else 'shorter') + ' (21)')
            self.met('batch: only the end, the file is one byte longer (21)', rest == 1)
            self.met('batch: only the end, the file is one byte shorter (21)', rest == -1)
            self.met('batch: only the end, a part before the last ends past the file (21)', any(end > size for end in begins[1:-1]))
            self.met('batch: only the end, right modulo 2^32 (21)', rest % 2 ** 32 == 0)
        self.met('batch: 21 where 22 holds of an earlier pair', any(number == 22 and i < at for number, i in held))
        self.met('batch: 21 where a settlement would be refused', any(number < 20 for number, _ in held))

    def met_parts(self, pairs, parts, held):
        """What a batch met that was refused with 22."""
        n, at = len(pairs), held[0][1]
        length, part = pairs[at][1], parts[at]
        self.met('batch: a length of 0 (22)', length == 0)
        self.met('batch: a length of 1 (22)', length == 1)
        if length >= 2 and length != 2 + 8 * part[1]:
            self.met('batch: a length ' + ('below' if length < 2 + 8 * part[1] else 'above') + ' 2 + 8 r (22)')
        elif length >= 2:
            first = [other[:1] for other in parts].index(part[:1])
            self.met('batch: a participant twice, ' + ('neighbours' if first == at - 1 else 'apart') + ' (22)')
            self.met('batch: a participant above 63 twice (22)', part[0] > 63)
        if n > 1:
            self.met('batch: ' + ('the first pair of several' if at == 0 else 'the last pair' if at == n - 1 else 'a middle pair') + ' (22)')
        self.met('batch: several pairs, the first counts (22)', [number for number, _ in held].count(22) > 1)
        self.met('batch: 22 where a settlement of an earlier pair would be refused', any(number < 20 and i < at for number, i in held))

    def met_refused_batch(self, m, parts, calls, replaced, held):
        """What a batch met of which a settlement was refused."""
        number, at = held[0]
        n, here, figures = len(parts), month(self.t), parts[at][1]
        self.met('batch: refused at the first pair of several', at == 0 and n > 1)
        self.met('batch: refused at the last of several pairs', at == n - 1 > 0)
        self.met('batch: refused at the 64th pair', at == 63)
        if number == 12:
            self.met('batch: refused with 12 at the first pair of several', at == 0 and n > 1)
            self.met('batch: M = P - 1 (12)', m == here - 1)
            self.met('batch: M = P - 15 (12)', m == here - 15)
            self.met('batch: M above 959 (12)', m > 959)
        elif at > 0:
            self.met(f'batch: refused with {number} at a later pair')
        for rows, said in ((4, '4'), (17, '17'), (0, 'no'), (255, '255')):
            self.met(f'batch: {said} rows (10)', number == 10 and len(figures) == rows)
        self.met('batch: a figure just beyond (11)', number == 11 and max(abs(x) for x in figures) == MOST + 1)
        self.met('batch: a figure of -2^63 (11)', number == 11 and -2 ** 63 in figures)
        self.met('batch: several settlements would be refused, the first counts', len({i for _, i in held}) > 1)
        self.met('batch: refused, an earlier part would have called', any(calls[:at]))
        self.met('batch: refused, an earlier part would have replaced a total', any(replaced[:at]))
        for p in [p for made, (p, _, _) in zip(calls[:at], parts) if made]:
            self.happened(p, 'a refused batch that would have called')
        self.undone += [(p, m, sum(figures)) for p, figures, _ in parts[:at]]
        self.spared = [p for p, _, _ in parts[:at]]

    def annual(self, p):
        t, who, d = self.t, self.book.people.get(p), date(self.t)
        before = who and who.next_amount(t)
        ok = self.call(5, p)
        if ok[0] == 0:
            if ok[1] == 14:
                near = {(8, 31): '31 August', (9, 11): '11 September'}.get((d.month, d.day), 'elsewhere')
                self.met(f'annual: {near} (14)')
                self.met('annual: under deletion, outside 1 to 10 September (14)', who.deletion())
            elif ok[1] == 25:
                self.met('annual: under deletion (25)')
                self.met('annual: under deletion, a next amount is set (25)', before is not None)
                self.met('annual: under deletion in a later year (25)', date(who.deletion()[0]).year < d.year)
            return ok
        self.happened(p, 'an annual run')
        self.met('annual: accepted, another is under deletion', any(other.deletion() for other in self.book.people.values()))
        self.met('annual: accepted, its deletion was refused with 13', p in self.tried and date(self.tried[p]).year == d.year)
        amount, months, here = ok[1], ok[2], month(t)
        totals = {m: who.total(m) for m in range(max(here - 15, 0), here - 1)}
        totals = {m: e for m, e in totals.items() if e is not None}
        window = {m: e for m, e in totals.items() if here - 14 <= m <= here - 3}
        self.met('annual: 1 September', d.day == 1)
        self.met('annual: 10 September', d.day == 10)
        self.met('annual: ' + ('0 months' if months == 0 else '1 month' if months == 1 else '2 to 5 months' if months < 6 else
                               '6 to 11 months' if months < 12 else '12 months') + ' recorded')
        for back in (14, 3):
            others = [e for m, e in window.items() if m != here - back]
            self.met(f'annual: largest total in P - {back}', window.get(here - back) == amount and amount > max(others + [MINIMUM[who.role]]))
        for back in (2, 15):
            self.met(f'annual: a larger total in P - {back} left out', here - back in totals and totals[here - back] > amount)
        self.met('annual: raised to the minimum', months > 0 and max(window.values()) < amount)
        self.met('annual: all totals below 0', months > 0 and max(window.values()) < 0)
        self.met('annual: next amount 0', amount == 0)
        self.met('annual: below the firm amount', amount < who.firm(t))
        self.met('annual: a second run, amount higher', before is not None and amount > before)
        self.met('annual: a second run, amount lower', before is not None and amount < before)
        self.met('annual: a larger total was refused with 13', any(q == p and m in window and e > amount for q, m, e in self.fifths))
        undone = [e for q, m, e in self.undone if q == p and here - 14 <= m <= here - 3]
        self.met('annual: a larger total was in a refused batch', any(e > amount for e in undone))
        self.met('annual: the amount is the total of a batch', any(e == amount == self.batched.get((p, m)) for m, e in window.items()))
        self.met('annual: September 2020', here == 8)
        if self.kept_role(who):
            self.met('role 1 behind the first stretch: an annual run ' + ('above the minimum' if amount > MINIMUM[RETIRED] else
                                                                          'raised to the minimum' if months else 'of no months'))
        (self.early_runs.add if self.book.first_stretch else self.early_runs.discard)(who)
        return ok

    def delete(self, p):
        t, who, d = self.t, self.book.people.get(p), date(self.t)
        if not who:
            ok = self.call(9, p)
            self.met('delete: participant above 63 (1)', ok[1] == 1)
            self.met('delete: participant not admitted (2)', ok[1] == 2)
            return ok
        before, firm, calls, cover, coming = who.deletion(), who.firm(t), who.open_calls(t), who.cover(t), who.next_amount(t)
        amount, full, inside = largest_latest(who, t), len(calls) == 4, d.month in (8, 9)
        rises = amount > max(calls + [firm])
        ok = self.call(9, p)
        if ok[:2] == (0, 24):
            if before:
                self.met('delete: under deletion, ' + ('in August or September' if inside else 'outside August and September') + ' (24)')
                self.met('delete: under deletion, on the day of the deletion (24)', before[0] == t)
                self.met('delete: under deletion, in a later year (24)', inside and date(before[0]).year < d.year)
                self.met('delete: under deletion, it would be a fifth open call (24)', inside and full and rises)
            else:
                near = {(7, 31): '31 July', (10, 1): '1 October'}.get((d.month, d.day), 'elsewhere')
                self.met(f'delete: {near} (24)')
                self.met('delete: outside August and September, it would be a fifth open call (24)', full and rises)
        elif ok[0] == 0:
            self.met('delete: fifth open call refused (13)')
            self.met('delete: fifth open call refused (13), in September', d.month == 9)
            self.met('delete: fifth open call refused (13), the cover is above it', cover > amount)
            self.tried[p] = t
            self.happened(p, 'a deletion that would have been a fifth call (13)')
        else:
            assert ok[1:3] == (amount, int(rises))
            self.happened(p, 'a deletion that called' if rises else "a deletion that didn't call")
            if rises and self.book.first_stretch:
                self.called_early.add(p)
            self.met_deletion(p, who, amount, rises, firm, calls, cover, coming)
            self.met_latest(p, who, amount)
        return ok

    def met_deletion(self, p, who, amount, called, firm, calls, cover, coming):
        """What an accepted deletion met: its day, whether it called, and what it was compared with or not."""
        t, d = self.t, date(self.t)
        day, top, least = (d.month, d.day), max(calls, default=0), MINIMUM[who.role]
        self.met('delete: called' if called else 'delete: not called')
        for at, said in (((8, 1), '1 August'), ((8, 31), '31 August'), ((9, 1), '1 September'), ((9, 30), '30 September')):
            self.met(f'delete: {said}', day == at)
        for dom in (20, 21, 30):
            self.met(f'delete: {dom} September, called, a next amount is set', day == (9, dom) and called and coming is not None)
        self.met('delete: 30 September, called, no next amount is set', day == (9, 30) and called and coming is None)
        self.met('delete: in August, called', d.month == 8 and called)
        self.met('delete: on the day of the annual run', t in [run for run, _ in who.runs()])
        self.met('delete: August or September 2020', d.year == 2020)
        self.met('delete: September 2099', (d.year, d.month) == (2099, 9))
        self.met('delete: in the first stretch', self.book.first_stretch)
        self.met('delete: behind the first stretch, admitted in it', p in self.admitted_early and not self.book.first_stretch)
        self.met('role 1 behind the first stretch: a deletion, ' + ('below' if amount < least else 'above') + ' the minimum',
                 self.kept_role(who) and amount != least)
        self.met('delete: amount 1, called', amount == 1 and called)
        self.met('delete: below the minimum', 0 < amount < least)
        self.met('delete: amount above 10^12', amount > MOST)
        self.met('delete: equal to the firm amount', amount == firm > 0)
        self.met('delete: one above the firm amount, called', called and amount == firm + 1)
        self.met('delete: equal to the largest open call', amount == top > 0)
        self.met('delete: one above the largest open call, called', called and calls != [] and amount == top + 1)
        self.met('delete: only the firm amount keeps from calling', top < amount <= firm)
        self.met('delete: only an open call keeps from calling', firm < amount <= top)
        self.met('delete: called, the cover is above it', called and cover > amount)
        self.met('delete: called, the cover is that amount', called and cover == amount)
        self.met('delete: called, less than 20% above the cover', called and cover < amount and 5 * amount < 6 * cover)
        self.met('delete: called, the next amount is above it', called and (coming or 0) > amount)
        self.met('delete: called, the next amount is below it', called and coming is not None and coming < amount)
        self.met('delete: not called, the cover is below it', not called and cover < amount)
        self.met('delete: called behind a call of the same day', called and t + 10 in [last for _, last in who.calls()[:-1]])
        self.met('delete: the fourth open call', called and len(calls) == 3)
        self.met('delete: four calls open, not called', not called and len(calls) == 4)
        if p in self.tried:
            self.met('delete: accepted behind a refusal (13), ' + ('called' if called else 'not called'))
            self.met('delete: accepted behind a refusal (13) of the same day', self.tried[p] == t)

    def met_latest(self, p, who, amount):
        """What the months met that an accepted deletion looked at."""
        here, latest = month(self.t), latest_months(who, self.t)
        totals = recorded(who, here)
        window = {m: e for m, e in totals.items() if m >= here - 14}
        n, top = len(window), max((window[m] for m in latest), default=0)
        self.met('delete: ' + ('no month' if n == 0 else 'one month' if n == 1 else 'two months' if n == 2 else 'three months' if n == 3 else
                               'more than three months') + ' recorded')
        self.met('delete: 13 months recorded', n == 13)
        self.met('delete: an older total is larger than those of the three latest months', n > 3 and max(window.values()) > amount)
        self.met('delete: a gap between the three latest months', len(latest) == 3 and latest[2] - latest[0] > 2)
        self.met('delete: P - 14 is among the three latest months', here - 14 in latest)
        for back in (14, 2):
            self.met(f'delete: the amount is that of P - {back}',
                     here - back in latest and [m for m in latest if totals[m] == amount] == [here - back] and amount > 0)
        older = totals.get(here - 15, 0) > amount
        self.met("delete: P - 14 counts, and a larger total in P - 15 doesn't", older and here - 14 in latest)
        self.met('delete: fewer than three months, and a larger total in P - 15', older and n < 3)
        settled = [args[0] for _, kind, args in who.acts if kind == 'settle' and args[0] in window][::-1]
        last = sorted(window, key=lambda m: settled.index(m))[:3]
        self.met('delete: the three months that were settled last would give another amount', n and max(0, *(window[m] for m in last)) != amount)
        self.met('delete: a larger total of one of the three latest months was replaced',
                 any(kind == 'settle' and args[0] in latest and sum(args[1]) > amount for _, kind, args in who.acts))
        for said, refused in (('was refused with 13', self.fifths), ('was in a refused batch', self.undone)):
            self.met(f'delete: a larger total {said}', any(
                q == p and e > amount and here - 14 <= m <= here - 2 and m in sorted({*window, m})[-3:] for q, m, e in refused))
        self.met('delete: the amount is the total of a batch', any(totals[m] == amount == self.batched.get((p, m)) for m in latest))
        self.met("delete: months before the admission's", latest != [] and latest[0] < month(who.day))
        self.met('delete: the totals of three months are below 0', len(latest) == 3 and top < 0)
        self.met('delete: the totals of one or two months are below 0', n in (1, 2) and top < 0)
        self.met('delete: the totals of the three latest months are below 0, an older one above', n > 3 and top < 0 < max(window.values()))
        self.met('delete: amount 0 of a recorded month', n > 0 and top == 0)

    def advance(self, day, budget):
        t, people = self.t, self.book.people
        known = {p: (who.firm(t), who.next_amount(t), [held for held in (who.position(place, t) for place in range(8)) if held])
                 for p, who in people.items()}
        ok = self.call(6, day, budget)
        if ok[0] == 0:
            self.met('advance: T before t (17)', day < t)
            self.met('advance: T before t and B = 0 (17)', day < t and budget == 0)
            self.met('advance: T above 29,219 (17)', day > LAST_DAY)
            self.met('advance: T above 29,219, B would stop earlier (17)', day > LAST_DAY and t + budget <= LAST_DAY)
            return ok
        now, n = self.t, ok[1]
        self.met('advance: a single day', n == 1)
        self.met('advance: 100 days and more', n >= 100)
        self.met('advance: B = 0', budget == 0 and day > t)
        self.met('advance: T = t', day == t)
        self.met('advance: T = t on 29,219', day == t == LAST_DAY)
        self.met('advance: stopped by the budget', 0 < budget < day - t)
        self.met('advance: B = T - t exactly', 0 < budget == day - t)
        self.met('advance: B above T - t', budget > day - t > 0)
        self.met('advance: B of 2^32 and more', budget > HALF)
        if n == 0:
            return ok
        d = date(now)
        octobers = [o for o in (day_number(y, 10, 1) for y in range(date(t).year, d.year + 1)) if t < o <= now]
        self.met('advance: reaches 29,219', now == LAST_DAY)
        self.met('advance: ends on 30 September', (d.month, d.day) == (9, 30))
        self.met('advance: ends on 1 October', (d.month, d.day) == (10, 1))
        self.met('advance: crosses 1 October', len(octobers) > 0)
        self.met('advance: crosses two Octobers', len(octobers) > 1)
        self.met("advance: a month's end is crossed by one day", n == 1 and month(t) != month(now))
        self.met("opening: a batch's call ends", any(t <= last < now for last in self.batch_calls))
        for p, who in people.items():
            self.met_openings(who, t, *known[p], octobers)
            self.happened(p, 'a 1 October on which a next amount took effect' if octobers and known[p][1] is not None else None)
            self.happened(p, "a call's end" if any(t <= last < now for _, last in who.calls()) else None)
        return ok

    def met_openings(self, who, t, firm, coming, held, octobers):
        """What the opened days after t met, for one participant."""
        now = self.t
        short = dict(who.shortfalls()[-(now - t):])
        ended = collections.Counter(last + 1 for _, last in who.calls() if t <= last < now)
        self.met('opening: one call ends', 1 in ended.values())
        self.met('opening: several calls end at once', max(ended.values(), default=0) > 1)
        self.met('opening: a call of 20 September ends on 1 October', any(o in ended for o in octobers))
        if octobers:
            o = octobers[0]
            if coming is not None:
                was = max(who.firm(o - 1), max((amount for amount, last in who.calls() if last == o - 1), default=0))
                self.met('opening: next amount takes effect, firm amount ' +
                         ('higher' if coming > was else 'lower' if coming < was else 'the same'))
                self.met('opening: next amount 0 takes effect', coming == 0)
                self.met('opening: next amount takes effect, a second one for the participant', len(set(r for r, _ in who.periods())) > 2)
                self.met('role 1 behind the first stretch: a next amount ' + ('of before ' if who in self.early_runs else '') + 'takes effect',
                         self.kept_role(who))
            else:
                self.met('opening: no next amount on 1 October, firm amount above 0', firm > 0)
        for what, amount, first, last in held:
            if what == 'letter':
                self.met('opening: a letter lapses', last < now)
                self.met('opening: a letter lapses and a shortfall arises', t < last < now and short[last] == 0 and short[last + 1] > 0)
                self.met('opening: a letter begins', t < first <= now)
                self.met('opening: a letter begins and a shortfall ends', t + 1 < first <= now and short[first] == 0 and short[first - 1] > 0)
        if who.deletion():
            self.met_left(who, t, coming, short, octobers)
        values = set(short.values())
        self.met('role 1 behind the first stretch: its minimum becomes firm', self.kept_role(who) and t <= who.day + 10 < now)
        self.met('role 1 behind the first stretch: a day is charged', self.kept_role(who) and max(values) > 0)
        self.met('charge: shortfall below 100,000,000', any(0 < s < 10 ** 8 for s in values))
        self.met('charge: shortfall of 100,000,000', 10 ** 8 in values)
        self.met('charge: shortfall above 100,000,000', any(s > 10 ** 8 for s in values))
        every = set(s for _, s in who.shortfalls())
        self.met('charge: both kinds for one participant', any(0 < s < 10 ** 8 for s in every) and any(s > 10 ** 8 for s in every))
        self.met('charge: shortfall of 1', 1 in values)
        self.met('charge: covered to the cent', who.firm(now) > 0 and who.cover(now) == who.firm(now))
        self.met('charge: accrued above 2^53', who.accrued() > 2 ** 53)

    def met_left(self, who, t, coming, short, octobers):
        """What the opened days after t met, for a participant under deletion."""
        now, (made, amount, _), gone = self.t, who.deletion(), self.deletion_call(who)
        if octobers:
            o = octobers[0]
            self.met('opening: next amount of one under deletion takes effect', coming is not None)
            self.met('opening: no next amount on 1 October, under deletion since August',
                     coming is None and date(made).month == 8 and date(made).year == date(o).year and who.firm(o) > 0)
            self.met('opening: a second 1 October under deletion', date(octobers[-1]).year > date(made).year)
            if gone and gone[1] >= o:
                self.met("opening: 1 October beside a deletion's open call, " +
                         ('no next amount' if coming is None else 'the next amount is ' +
                          ('higher' if coming > amount else 'the same' if coming == amount else 'lower')))
            self.met("opening: a deletion's call of 20 September is above the next amount, and gone with it",
                     gone and gone[1] == o - 1 and coming is not None and coming < amount)
        if not gone or now <= gone[1]:
            return
        ends = gone[1] + 1
        day = date(ends)
        others = [call for call in who.calls() if call != gone]
        # Of a day that was charged the cover is the firm amount less the shortfall.
        self.met("charge: a day for a deletion's call alone", any(
            0 < short.get(at, 0) and firm_on(at, who.periods(), others) <= who.firm(at) - short[at] for at in (max(t + 1, ends), now)))
        if t >= ends:
            return
        self.met("opening: a deletion's call ends before 1 October", day.month < 10)
        self.met("opening: a deletion's call and 1 October in one advance", octobers and octobers[0] < ends)
        index = next(i for i, (_, kind, _) in enumerate(who.acts) if kind == 'delete')
        self.met("opening: a deletion's call ends, covered by what was lodged since",
                 who.firm(ends) == amount and short[ends] == 0 and who.cover(ends, who.acts[:index]) < amount)
        if day.month == 10 and day.day > 1:
            took = day_number(day.year, 10, 1) in [r for r, _ in who.periods()]
            self.met("opening: a deletion's call ends on 2 October, with a next amount in effect", took and day.day == 2)
            self.met("opening: a deletion's call ends on 11 October, with a next amount in effect", took and day.day == 11)
            was = who.firm(gone[1])
            self.met("opening: a deletion's call ends on 2 to 11 October, the firm amount is " +
                     ('higher' if was > amount else 'the same' if was == amount else 'lower'))

    def statement(self, p):
        self.met("batch: refused, then a statement of an earlier part's participant", p in self.spared)
        ok = self.call(7, p)
        self.met('admit: role 1 refused (23), then a statement (2)', p in self.retired and ok[:2] == (0, 2))
        self.met_statement(p, ok)
        return ok

    def happened(self, p, what):
        """Notes what has happened to a participant since its last statement, if it is to be noted."""
        if what:
            self.behind.setdefault(p, set()).add(what)

    def met_statement(self, p, ok):
        """What a statement met by the count in it."""
        if ok[0] == 0:
            self.met('count: a statement of one not admitted (2)', ok[1] == 2)
            return
        t, who, made = self.t, self.book.people[p], ok[6]
        still, least, gone = len(who.open_calls(t)), MINIMUM[who.role], self.deletion_call(who)
        self.met('count: 0, a role without a minimum', made == 0)
        self.met('count: 0, and a month was covered', made == 0 and 'a covered settlement' in self.behind.get(p, ()))
        self.met('count: 1, that of the minimum', made == 1 and least > 0)
        self.met('count: 1, a role without a minimum', made == 1 and least == 0)
        self.met('count: 2 to 4' if made < 5 else 'count: 5 and more', made > 1)
        self.met('count: 20 and more', made > 19)
        self.met('count: as many as are open', made == still > 0)
        self.met('count: some are open, some no longer', 0 < still < made)
        self.met('count: none is open any more', still == 0 < made)
        self.met('count: more than four since, four open', still == 4 < made)
        for what in self.behind.pop(p, ()):
            self.met(f'count: behind {what}')
        self.met("count: with a deletion's call, its call open no longer", gone and gone[1] < t)
        self.met('count: of one with a called month in the first stretch', p in self.called_early and not self.book.first_stretch)
        self.met('count: of one with role 1, behind the first stretch', self.kept_role(who))
        if self.stated_day != t:
            self.stated, self.stated_day = {}, t
        others = self.stated.setdefault(ok[1:6], {})
        differs = any(q != p and count != made for q, count in others.items())
        self.met('count: two statements of a day differ in it alone', differs)
        self.met('count: two statements of a day differ in it alone, a firm amount above 0', differs and ok[1] > 0)
        self.met('count: two statements of a day differ in it alone, days charged', differs and ok[4] > 0)
        self.met('count: the same statement of two participants', any(q != p and count == made for q, count in others.items()))
        others[p] = made

    def met_sum(self, ok):
        """What the question for one count met."""
        people = self.book.people.values()
        made = [len(who.calls()) for who in people]
        assert ok[1] == sum(made)
        self.met('count: the sum is 0, and somebody is admitted', ok[1] == 0 and made != [])
        self.met('count: the sum is that of one participant alone, another has 0', 0 < ok[1] == max(made) and len(made) > 1)
        self.met('count: the sum of several, each above 0', len(made) > 1 and min(made) > 0)
        self.met('count: the sum is not that of the open calls', ok[1] != sum(len(who.open_calls(self.t)) for who in people))

    def count(self):
        ok = self.call(10)
        self.met_sum(ok)
        return ok


class Maker(Recorder):
    """Makes a history by scenes of a few calls each, aimed at corners with the help of the reference's readings."""

    def __init__(self, rng, theme, start, calls, names, first):
        self.rng, self.theme = rng, theme
        self.aimed = 6 < first < ALL and rng.random() < 0.5     # whether the first stretch ends by a scene
        self.names = names                       # the participants to admit
        self.days = MOST_DAYS if len(names) <= 5 or theme == 'leaving' else 300 if len(names) <= 20 else 150
        self.everyone = False                    # whether a batch for all 64 was entered
        self.scale = {p: rng.choice((1, 1, 10, 100, 1000, 10 ** 4, 10 ** 5, 10 ** 6, 10 ** 6, 2 * 10 ** 7, 10 ** 8, 10 ** 8, 10 ** 9, 10 ** 11))
                      for p in range(64)}
        super().__init__(start, calls, first)

    def likely(self, chance):
        return self.rng.random() < chance

    def among(self, *values):
        return self.rng.choice(values)

    # -- arguments -------------------------------------------------------------------------------------------------------------------------

    def stranger(self):
        """A participant that is not admitted, or none that could be."""
        absent = [p for p in range(64) if p not in self.book.people]
        if absent and self.likely(0.5):
            return self.rng.choice(absent)
        known = self.rng.choice(sorted(self.book.people) or [0])
        return self.among(64, 64, 65, 127, 128, 255, 256, known + 64, known + 256, known + 2 ** 16, known + 2 ** 32, HALF, 2 ** 63, WORD)

    def anyone(self, odd=0.01):
        """An admitted participant; now and then somebody else."""
        if not self.book.people:
            self.scene_admit()
        if self.likely(odd) or not self.book.people:
            return self.stranger()
        return self.rng.choice(sorted(self.book.people))

    def who(self):
        p = self.anyone(0)
        while p not in self.book.people:
            self.admit(p % 64, self.rng.randrange(6))
            p = self.anyone(0)
        return p, self.book.people[p]

    def amount(self, p):
        """An amount at the participant's scale, mostly one that 6/5 goes into evenly."""
        n = self.scale[p % 64] * self.rng.randint(1, 9)
        return min(max(n * 5 if self.likely(0.5) else n + self.among(-1, 0, 1), 1), MOST)

    def wrong_amount(self):
        return self.among(0, 0, MOST + 1, MOST + 1, 2 ** 32 * 1000, 2 ** 63, 2 ** 63 - 1, WORD, self.rng.randrange(MOST + 1, WORD))

    def place(self, who, filled):
        """A filled or an empty position, or None."""
        places = [x for x in range(8) if (who.position(x, self.t) is not None) == filled]
        return self.rng.choice(places) if places else None

    def wrong_place(self):
        return self.among(8, 8, 9, 15, 16, 64, 255, 256, 257, 2 ** 32, 2 ** 32 + 1, WORD)

    def letter(self):
        """A letter's days, against no rule: often soon over, of one day, or not begun."""
        t, end = self.t, LAST_DAY
        first = self.among(0, t - 1, t, t, t, t + 1, t + 1, t + 2, t + self.rng.randint(1, 15), t - self.rng.randint(1, 400))
        first = min(max(first, 0), end)
        at = max(first, t)
        last = self.among(t, t + 1, t + 2, first, at, at, at + 1, t + 9, t + 10, t + 11, at + self.rng.randint(1, 40),
                          at + self.rng.randint(20, 300), end)
        return first, min(max(last, at), end)

    def wrong_letter(self):
        t = self.t
        return self.among((t + 1, t), (t + 2, t + 1), (0, t - 1), (t - 1, t - 1), (t, LAST_DAY + 1), (LAST_DAY, LAST_DAY + 1), (t, HALF),
                          (HALF, HALF), (HALF, t), (LAST_DAY + 1, LAST_DAY), (t + 30, t + 3), (1, 0), (0, 2 ** 31), (t, 65536 + t)) \
            if t > 0 else self.among((1, 0), (0, LAST_DAY + 1), (HALF, 0), (0, HALF))

    def figures_of(self, e):
        """5 to 16 figures, within 10^12, with the sum e."""
        rng = self.rng
        if abs(e) > MOST:
            sign = 1 if e > 0 else -1
            parts = [sign * MOST] * min(abs(e) // MOST, 16)
            parts += [e - sum(parts)] * (len(parts) < 16)
            return parts + [0] * (5 - len(parts))
        style = rng.random()
        if style < 0.62:
            parts = [0] * 4
        elif style < 0.8:
            parts = [rng.randint(-9, 9) for _ in range(self.among(4, 4, 5, 6))]
        elif style < 0.88:
            parts = [rng.randint(-9, 9) for _ in range(15)]
        elif style < 0.93:
            parts = [rng.randint(-9, 9) for _ in range(rng.randint(4, 15))]
        elif style < 0.97:
            part = rng.randint(0, abs(e))
            parts = [part, -part, rng.randint(0, 99), 0]
        else:
            parts = [MOST, -MOST, 0, 0]
        rest = e - sum(parts)
        if abs(rest) > MOST:
            parts, rest = [0] * 4, e
        parts.insert(rng.randrange(len(parts) + 1), rest)
        return parts

    def wrong_figures(self, e):
        """Too few, too many, or out of range; sometimes two of these."""
        rng = self.rng
        bad = self.among(MOST + 1, -MOST - 1, MOST + 1, -MOST - 1, 2 ** 63 - 1, 1 - 2 ** 63, 2 ** 62 + rng.randrange(2 ** 62), -10 ** 13)
        parts = self.figures_of(e)
        style = rng.random()
        if style < 0.35:
            parts[rng.randrange(len(parts))] = bad
        elif style < 0.45:
            parts = [bad, -bad, e, 0, 0] + [0] * rng.randint(0, 2)
        elif style < 0.7:
            parts = [e] + [0] * 3
            parts = parts[:self.among(0, 1, 2, 3, 4, 4, 4)]
        elif style < 0.9:
            parts = [e] + [0] * (self.among(17, 17, 17, 18, 19, 20) - 1)
        elif style < 0.95:
            parts = [bad] * self.among(1, 2, 4)
        else:
            parts = [0] * 16 + [bad]
        rng.shuffle(parts)
        return parts

    def total(self, p, who):
        """A total aimed at the check's corners."""
        t = self.t
        d, cover, firm, calls, coming = who.deposited(t), who.cover(t), who.firm(t), who.open_calls(t), who.next_amount(t)
        edge = -(-6 * d // 5)
        top = max(calls + [firm])
        some = [edge] * 3 + [edge - 1] * 3 + [d, d, d + 1, d - 1, edge + 1, firm, firm, firm + 1, firm + 1, firm - 1, top, top + 1, top + 1, 0, 0,
                1, -1, -5, 2 * d, top + self.amount(p), top + self.amount(p), self.amount(p), self.amount(p), -self.amount(p)]
        some += [d + 10 ** 8, d + 10 ** 8 + self.among(-1, 1)] if self.scale[p % 64] >= 10 ** 6 else []
        some += calls + calls[:-1] + [amount + 1 for amount in calls]
        some += [] if cover == d else [cover, cover, cover - 1, cover + 1, -(-6 * cover // 5)]
        some += [] if coming is None else [coming, coming + 1]
        if self.likely(0.01):
            some = [16 * MOST, -16 * MOST, MOST, 3 * MOST + 1, -MOST]
        return self.rng.choice(some)

    def check_month(self):
        return max(month(self.t) - 2, 0)

    # -- scenes ----------------------------------------------------------------------------------------------------------------------------

    def scene_admit(self):
        """Somebody new, mostly followed by a first payment. Where role 1 is refused, another role follows."""
        absent = [p for p in self.names if p not in self.book.people]
        if not absent:
            return self.scene_wrong_admit()
        p = absent[0]
        if self.admit(p, RETIRED if self.first < 13 and self.likely(0.3) else self.among(0, 1, 1, 2, 2, 3, 3, 4, 5))[0] == 0:
            self.admit(p, self.among(0, 0, 2, 3))
        if self.likely(0.55 if len(self.names) <= 5 else 0.2):
            self.pay(p, self.among(0, 0, 0, -1, 1))
        elif self.likely(0.2):
            self.statement(p)

    def scene_wrong_admit(self):
        p = self.anyone(0) if self.likely(0.4) else self.stranger()
        if p <= 63 and p not in self.book.people and self.likely(0.8):
            return self.admit(p, self.among(6, 6, 7, 8, 255, 256, 257, 258, 2 ** 32, 2 ** 32 + 1, 2 ** 32 + 3, WORD))
        if p <= 63 and p not in self.book.people and (len(self.names) <= 5 and len(self.book.people) >= 5):
            return None
        return self.admit(p, self.among(0, 1, 2, 3, 5, 6, 6, 255, WORD))

    def scene_retired(self):
        """Role 1: for somebody new, which is refused behind the first stretch, for one admitted already, or for none that could be."""
        style, absent = self.rng.random(), [p for p in range(64) if p not in self.book.people]
        if style < 0.6 and absent:
            p = self.rng.choice(absent)
            if self.book.first_stretch and len(self.book.people) > len(self.names):
                return self.statement(p)
            if self.admit(p, RETIRED)[0] == 0:
                if self.likely(0.3):
                    self.statement(p)
                if self.likely(0.15) and len(self.book.people) <= len(self.names):
                    self.admit(p, self.among(0, 2, 3))
            return None
        if style < 0.85:
            return self.admit(self.who()[0], RETIRED)
        return self.admit(self.among(64, 64, 65, 127, 256, 257, 2 ** 32, WORD), RETIRED)

    def scene_stretch_end(self):
        """The first stretch ends here: by role 1 as its last call, by an advance, or before one; behind it role 1 is asked for."""
        absent = self.rng.sample([p for p in range(64) if p not in self.book.people], min(2, 64 - len(self.book.people)))
        style = self.rng.random()
        self.first = len(self.lines) + (style < 0.8)
        if style < 0.6 and absent:
            self.admit(absent.pop(), RETIRED)
        elif self.t < LAST_DAY and self.days > 1:
            self.go(self.t + 1)
        if absent:
            self.admit(absent.pop(), RETIRED)

    def pay(self, p, more=0, all_due=0.7):
        """Lodges what is due now or later, or a cent more or less, as cash or as a letter."""
        who, t = self.book.people[p], self.t
        need = (who.release_floor(t) if self.likely(all_due) else who.firm(t)) - who.cover(t) + more
        place = self.place(who, False)
        if place is None:
            return self.release(p, self.rng.randrange(8), self.amount(p))
        need = need if 1 <= need <= MOST else self.amount(p)
        if need > 1 and self.likely(0.15):
            need = need - 10 ** 8 + self.among(-1, 0, 0, 1) if need > 10 ** 8 + 1 and self.likely(0.7) else need // 2
        if self.likely(0.65):
            return self.lodge(p, place, need)
        if self.likely(0.6):
            return self.lodge(p, place, need, max(t - self.among(0, 0, 1, 7), 0), min(t + self.rng.randint(5, 200), LAST_DAY))
        return self.lodge(p, place, need, *self.letter())

    def scene_pay(self):
        p, _ = self.who()
        self.pay(p, self.among(0, 0, 0, 0, -1, 1))
        if self.likely(0.3):
            self.statement(p)

    def scene_lodge(self):
        p, who = self.who()
        place = self.place(who, False)
        if place is None or self.likely(0.06):
            place = self.rng.randrange(8)
        amount = 1 if self.likely(0.05) else MOST if self.likely(0.02) else self.amount(p)
        if self.likely(0.05):
            place = self.wrong_place()
        cash = self.likely(0.3 if amount < MOST else 0.05)
        if self.likely(0.08):
            amount = self.wrong_amount()
        if cash:
            self.lodge(p, place, amount)
        else:
            self.lodge(p, place, amount, *(self.letter() if self.likely(0.8) else self.wrong_letter()))

    def scene_letter(self):
        """A letter followed over its first and last days."""
        p, who = self.who()
        place = self.place(who, False)
        if place is None:
            return self.scene_release()
        first, last = self.letter()
        self.lodge(p, place, self.amount(p), first, last)
        for day in sorted({first - 1, first, last, last + 1} - set(range(self.t + 1)) if self.likely(0.8) else {last + 1}):
            if self.t < day <= min(self.t + 60, LAST_DAY) and day - self.t <= self.days // 3:
                self.go(day)
                if self.likely(0.5):
                    self.statement(p)
                if self.likely(0.3):
                    self.lodge(p, place, self.amount(p), *self.letter())
                if self.likely(0.4):
                    self.release_at(p, place)
        return None

    def release_at(self, p, place):
        """A release aimed at what is held and at the limit."""
        who, t = self.book.people[p], self.t
        held = who.position(place, t)
        limit = who.cover(t) - who.release_floor(t)
        if held is None:
            return self.release(p, place, self.among(1, self.amount(p)))
        what, most, _, _ = held
        if what == 'letter':
            amount = self.among(most, most, most, most, most, most, most, most - 1, most + 1, 1)
        elif 1 <= limit <= most:
            amount = self.among(limit, limit, limit, limit + 1, limit + 1, limit + 1, limit - 1, most, most, most + 1, most - 1, most // 2)
        else:
            amount = self.among(most, most, most, most + 1, most - 1, 1, 1, most // 2, most // 2, limit + 1)
        return self.release(p, place, max(amount, 1) if self.likely(0.95) else self.wrong_amount())

    def scene_release(self):
        p, who = self.who()
        place = self.place(who, self.likely(0.93))
        if place is not None:
            self.release_at(p, place)
            if self.likely(0.25):
                self.statement(p)

    def scene_limit(self, p=None):
        """Cover brought to the limit, or a cent from it, and something more that is then taken away."""
        p = self.who()[0] if p is None else p
        who = self.book.people[p]
        if who.cover(self.t) < who.release_floor(self.t):
            self.pay(p, self.among(0, 0, -1), 1)
        place = self.place(who, False)
        if place is None:
            return self.scene_release()
        amount = self.amount(p)
        style = self.rng.random()
        if style < 0.35:
            self.lodge(p, place, amount)
            self.release(p, place, amount + self.among(1, 0))
        elif style < 0.75:
            self.lodge(p, place, amount, max(self.t - self.among(0, 1), 0), min(self.t + self.among(0, 1, 50), LAST_DAY))
        else:
            first = min(self.t + self.among(1, 2, 20), LAST_DAY)
            self.lodge(p, place, amount, first, min(first + self.among(0, 1, 30), LAST_DAY))
        self.release(p, place, self.among(amount, amount, amount, amount - 1))
        for other in self.rng.sample(range(8), 3):
            if who.position(other, self.t):
                self.release_at(p, other)
        return None

    def scene_check(self):
        """One or two totals of the month that is checked."""
        p, who = self.who()
        place, need = self.place(who, False), who.release_floor(self.t) - who.cover(self.t) + self.amount(p)
        if place is not None and self.t + 1 < LAST_DAY and need > 0 and self.likely(0.1):
            self.lodge(p, place, min(need, MOST), self.t + 1, min(self.t + self.among(1, 12, 100), LAST_DAY))
            self.settle(p, self.check_month(), self.figures_of(who.cover(self.t) + need))
        for _ in range(self.among(1, 1, 2)):
            self.settle(p, self.check_month(), self.figures_of(self.total(p, who)))
            if self.likely(0.3):
                self.pay(p, self.among(0, 0, -1, 1))

    def scene_lapse(self):
        """Letters that lapse around day t + 11, or begin tomorrow, beside a total that they cover; some are released before it."""
        p, who = self.who()
        if self.theme == 'end' and self.t < 29209 and self.likely(0.6) and 29209 - self.t < self.days:
            self.go(self.among(*[day for day in (29207, 29208, 29208, 29209) if day > self.t]))
        t, due, lodged = self.t, who.release_floor(self.t), []
        amount = due + self.amount(p)
        ends = [(t, t + n) for n in (10, 10, 11, 11, 2, self.rng.randint(0, 12))] + [(t, LAST_DAY)] * (4 if t > LAST_DAY - 15 else 0)
        for first, last in self.rng.sample(ends, self.among(1, 1, 2)) + [(t + 1, t + 99)] * self.likely(0.25):
            place = self.place(who, False)
            if place is not None and max(first, t) <= min(last, LAST_DAY):
                self.lodge(p, place, min(amount, MOST), max(first - self.among(0, 0, 1, 30), 0) if first <= t else first, min(last, LAST_DAY))
                lodged.append(place)
        if lodged and self.likely(0.3):
            self.release(p, lodged[0], min(amount, MOST))
        totals = [amount, amount, amount - 1, amount + 1, who.deposited(t), who.deposited(t) + 1, self.total(p, who)]
        for e in self.rng.sample(totals, self.among(1, 2, 2, 3)):
            self.settle(p, self.check_month(), self.figures_of(e))
        if self.likely(0.3):
            self.enter(File(self.check_month(), [(p, [max(min(amount, MOST), 0) + self.among(0, 1), 0, 0, 0, 0])]).bytes(), [])
        if self.likely(0.2) and self.place(who, True) is not None:
            self.release_at(p, self.place(who, True))
        if self.likely(0.4):
            self.scene_late(p)

    def scene_even(self):
        """Paid up and evenly divisible, then checked at 20% and below it."""
        p, who = self.who()
        self.pay(p)
        place, d = self.place(who, False), who.deposited(self.t)
        if d % 5 and place is not None:
            self.lodge(p, place, 5 - d % 5)
            d = who.deposited(self.t)
        order = [6 * d // 5 - 1, 6 * d // 5]
        for e in order if self.likely(0.8) else order[::-1]:
            self.settle(p, self.check_month(), self.figures_of(e))
        if self.likely(0.5):
            self.count()

    def scene_rise(self):
        """Rising totals until four calls are open and a fifth is refused; then what is still taken."""
        p, who = self.who()
        apart = self.likely(0.25)
        if len(who.open_calls(self.t)) == 4 and self.likely(0.7):
            return self.scene_late(p)
        for _ in range(self.among(3, 5, 5, 6)):
            t = self.t
            top = max(who.open_calls(t) + [who.firm(t), -(-6 * who.deposited(t) // 5) - 1])
            full = len(who.open_calls(t)) >= 4
            e = top + (1 if self.likely(0.5) else self.amount(p))
            if full and self.likely(0.25):
                self.settle(p, self.check_month(), self.wrong_figures(e))
            if self.settle(p, self.check_month(), self.figures_of(min(e, 16 * MOST)))[0] == 3 and full:
                break
            if apart and self.days > 10 and t + 3 <= LAST_DAY:
                self.go(t + self.among(1, 1, 2, 3))
        self.settle(p, self.check_month(), self.figures_of(self.total(p, who)))
        if self.likely(0.5):
            self.settle(p, max(month(self.t) - self.among(3, 14), 0), self.figures_of(self.total(p, who)))
        if self.likely(0.3):
            self.count()
        if self.likely(0.4):
            self.scene_late(p)
        return None

    def scene_late(self, p=None):
        """Payment on the last free day, or late by some days."""
        if p is None:
            p, _ = self.who()
        who = self.book.people[p]
        ahead = sorted({last for _, last in who.calls() if last >= self.t})
        if not ahead:
            who_total = who.release_floor(self.t) + self.amount(p)
            self.settle(p, self.check_month(), self.figures_of(max(who_total, -(-6 * who.deposited(self.t) // 5))))
            ahead = sorted({last for _, last in who.calls() if last >= self.t})
            if not ahead:
                return None
        day = ahead[0] + self.among(0, 0, 1, 1, 1, 2, 3, 5)
        if day > LAST_DAY or day - self.t > self.days // 2:
            return None
        self.go(day)
        if self.likely(0.5):
            self.statement(p)
        self.pay(p, self.among(0, 0, 0, -1, 1))
        if self.likely(0.5):
            self.statement(p)
        if day < LAST_DAY and self.days > 1:
            self.go(day + 1)
            self.statement(p)
        return None

    def scene_months(self):
        """Months at the window's ends and one beyond."""
        p, who = self.who()
        here = month(self.t)
        for _ in range(self.among(1, 2, 3)):
            m = here - self.among(15, 14, 14, 13, 3, 3, 2, 1, 0, self.rng.randint(2, 14))
            if m < 0 or self.likely(0.03):
                m = self.among(0, 1, 957, 958, 959, 960, 65535, 65536 + here - 2, 2 ** 31, HALF - 14, HALF - 13, HALF - 2, HALF - 1, HALF)
            self.settle(p, m, self.figures_of(self.total(p, who)))

    def scene_wrong_settle(self):
        p, who = self.who()
        m = self.check_month() if self.likely(0.6) else max(month(self.t) - self.among(0, 1, 3, 14, 15), 0)
        self.settle(p if self.likely(0.9) else self.stranger(), m, self.wrong_figures(self.total(p, who)))

    def scene_turn(self):
        """The last day of a month and the first of the next."""
        p, who = self.who()
        t = self.t
        ends = [d for d in range(t, min(t + 32, LAST_DAY)) if month(d) != month(d + 1)]
        if not ends or ends[0] + 1 - t > self.days // 4:
            return None
        self.go(ends[0])
        for back in (1, 2):
            if month(self.t) >= back:
                self.settle(p, month(self.t) - back, self.figures_of(self.total(p, who)))
        self.go(self.t + 1)
        for back in (2, 14, 15):
            if month(self.t) >= back and self.likely(0.7):
                self.settle(p, month(self.t) - back, self.figures_of(self.total(p, who)))
        return None

    def record(self, p, count):
        """Totals of some months that an annual run looks at."""
        here = month(self.t)
        window = list(range(max(here - 14, 0), max(here - 2, 0)))
        if count == 0:
            return
        low, high = self.among((1, 9), (1, 9), (-9, 9), (-9, -1))
        for m in self.rng.sample(window, min(count, len(window))):
            self.settle(p, m, self.figures_of(self.scale[p] * self.rng.randint(low, high) + self.among(0, 0, 1)))
        if self.likely(0.5) and window:
            due = self.book.people[p].release_floor(self.t)
            self.settle(p, self.among(window[0], window[-1]), self.figures_of(self.among(self.scale[p] * 11, due + 1, due + self.amount(p))))
        if self.likely(0.5) and here >= 2:
            self.settle(p, here - 2, self.figures_of(self.scale[p] * 12 + MINIMUM[self.book.people[p].role]))

    def scene_annual(self):
        """Annual runs around the first ten days of September; when far from them, now and then a way to the next ones."""
        t, d = self.t, date(self.t)
        september = day_number(d.year, 9, 1)
        if not september - 5 <= t <= september + 10:
            if self.likely(0.25):
                self.annual(self.anyone())
            if t > september + 10:
                september = day_number(min(d.year + 1, 2099), 9, 1)
            day = september + self.among(-1, 0, 0, 3, 8, 9, 10)
            if not self.t < day <= LAST_DAY or day - t > self.days * 2 // 3 or not self.likely(0.5):
                return None
            self.go(day)
        if self.likely(0.3):
            self.scene_admit()
            p = list(self.book.people)[-1]
        else:
            p, _ = self.who()
        who = self.book.people[p]
        if self.likely(0.2):
            for m in [m for m in range(max(month(self.t) - 14, 0), max(month(self.t) - 2, 0)) if (who.total(m) or 0) > 0]:
                self.settle(p, m, self.figures_of(self.among(0, -1, -self.amount(p))))
        else:
            self.record(p, self.among(0, 0, 0, 1, 1, 2, 3, 5, 8, 11, 12, 12))
        self.annual(p)
        if self.aimed and self.book.first_stretch and who.role == RETIRED and self.likely(0.5):
            self.first = len(self.lines)        # the first stretch ends behind the run
        if self.likely(0.5):
            if self.likely(0.6) and month(self.t) > 2:
                m = max(month(self.t) - self.rng.randint(3, 14), 0)
                self.settle(p, m, self.figures_of(self.among(0, -1, self.amount(p), 13 * self.scale[p], (who.next_amount(self.t) or 0) + 1)))
            else:
                window = range(max(month(self.t) - 14, 0), max(month(self.t) - 2, 0))
                for m in [m for m in window if who.total(m) == who.next_amount(self.t)]:
                    self.settle(p, m, self.figures_of(self.amount(p) if self.likely(0.4) else 0))
            self.annual(p)
        if self.likely(0.6):
            self.scene_limit(p)
        if self.likely(0.3):
            self.pay(p, self.among(0, -1, 1))
        if in_annual_days(self.t) and self.likely(0.35):
            self.go(day_number(date(self.t).year, 9, self.among(10, 10, 11)))
            self.annual(self.anyone())
        if self.likely(0.45):
            self.scene_october()
        return None

    def scene_summer(self):
        """A fifth call refused, then the annual run that looks at its month."""
        d = date(self.t)
        year = d.year if d.month < 9 else d.year + 1
        september = day_number(min(year, 2099), 9, self.among(1, 1, 5, 10))
        if not self.t < september or september - self.t > self.days * 2 // 3 or self.theme in ('crowd', 'end') or not self.likely(0.6):
            return self.scene_annual()
        p, who = self.who()
        while self.settle(p, self.check_month(), self.figures_of(who.release_floor(self.t) + who.cover(self.t) + self.amount(p)))[0] == 2:
            pass
        if self.likely(0.3):
            self.settle(p, self.check_month(), self.figures_of(self.amount(p)))
        self.go(september)
        self.annual(p)
        return None

    def scene_vast(self):
        """The largest totals, unpaid for years."""
        p, who = self.who()
        for e in (16 * MOST - self.among(0, 1, 3, 7), 16 * MOST):
            self.settle(p, self.check_month(), self.figures_of(e))
        n = min(self.days - 100, LAST_DAY - self.t)
        if n > 20:
            self.go(self.t + self.among(10, 11))
            self.lodge(p, 0, self.among(MOST, MOST - 1, 7))
            self.go(self.t + n - 20)
            self.statement(p)

    def scene_october(self):
        """30 September, 1 October and the days around them."""
        october = day_number(date(self.t).year, 10, 1)
        if not self.t < october <= LAST_DAY or october - self.t > self.days // 2:
            return None
        for day in sorted({october + self.among(-11, -10, -1), october - 1, october, october + self.among(1, 2, 10, 11)}):
            if day > self.t and (self.likely(0.6) or day == october):
                self.go(day)
                p, who = self.who()
                if self.likely(0.6):
                    self.statement(p)
                if self.likely(0.3):
                    self.pay(p, self.among(0, -1))
                if self.likely(0.3) and self.place(who, True) is not None:
                    self.release_at(p, self.place(who, True))
                if self.likely(0.2):
                    self.scene_admit()
        return None

    # -- leaving participants --------------------------------------------------------------------------------------------------------------

    def stayers(self, most=1):
        """Admitted participants that aren't under deletion, at most so many; somebody new where there is none."""
        staying = [p for p, who in self.book.people.items() if not who.deletion()]
        if not staying or (len(staying) == 1 and self.likely(0.3)):
            self.scene_admit()
            staying = [p for p, who in self.book.people.items() if not who.deletion()]
        return self.rng.sample(sorted(staying), min(most, len(staying))) or [self.who()[0]]

    def reach(self, *days):
        """Goes to one of the days that lie ahead and not too far; whether it could."""
        near = [day for day in days if self.t < day <= LAST_DAY and day - self.t <= self.days * 2 // 3]
        if near:
            self.go(self.rng.choice(near))
        return near != []

    def autumn(self):
        """The year of the next August or September that isn't over."""
        d = date(self.t)
        return d.year if d.month < 10 else min(d.year + 1, 2099)

    def record_latest(self, p):
        """Totals of months that a deletion looks at, or nearly: few or many, at the window's ends, in any order, now and then all below 0."""
        here, who = month(self.t), self.book.people[p]
        window = list(range(max(here - 14, 0), here - 1))
        some = self.among([], window[:1], window[:2], window[:3], window[-1:], window[-3:], window[-4:], window[-5:], [window[-1], window[0]], window,
                          self.rng.sample(window, 3), self.rng.sample(window, 5))
        low, high = self.among((1, 9), (1, 9), (0, 3), (-9, 9), (-9, -1), (-9, -1))
        latest = sorted({*some, *(m for m in window if who.total(m) is not None)})[-3:]
        for m in self.rng.sample(some, len(some)):
            e = self.scale[p] * self.rng.randint(low, high) + self.among(0, 0, 1)
            self.settle(p, m, self.figures_of(self.scale[p] * 12 if m not in latest and self.likely(0.5) else e))

    def aim_deletion(self, p, aim):
        """Totals by which a deletion amounts to this: larger ones of the latest months are replaced, and one of the latest gets it."""
        who, here = self.book.people[p], month(self.t)
        for m in latest_months(who, self.t):
            if who.total(m) > aim:
                self.settle(p, m, self.figures_of(aim - self.among(0, 1, self.amount(p))))
        latest = latest_months(who, self.t)
        if len(latest) < 3:
            latest = [m for m in range(max(here - 14, 0), here - 1) if who.total(m) is None]
        if not is_september(here) and len(latest) > 1:
            latest = [m for m in latest if m != here - 2]       # which would be checked
        self.settle(p, self.rng.choice(latest), self.figures_of(min(aim, 16 * MOST)))

    def aims(self, p):
        """Amounts of a deletion at what it is compared with, and at what it isn't."""
        who, t = self.book.people[p], self.t
        firm, calls, cover, coming = who.firm(t), who.open_calls(t), who.cover(t), who.next_amount(t)
        top = max(calls + [firm])
        some = [firm, firm + 1, firm + 1, top, top + 1, top + 1, top + self.amount(p), self.amount(p), self.amount(p), 0, -1, cover, cover + 1,
                cover - 1, max(top, cover) + 1, (top + cover) // 2, MINIMUM[who.role] - 1, 1]
        if coming is not None:
            some += [coming, coming, coming + 1, coming - 1, (firm + coming) // 2, (top + coming) // 2, coming + self.amount(p)] * 2
        return some

    def scene_delete(self):
        """A deletion in August or September or around them, of whatever months are recorded."""
        year, near = self.autumn(), self.theme == 'leaving'
        if not in_deletion_days(self.t) and self.likely(0.1 if near else 0.4):
            self.delete(self.anyone(0.1))
        if not near and day_number(year, 8, 1) - self.t > 60 and self.likely(0.7):
            return None
        days = [day_number(year, *day) for day in ((7, 31), (8, 1), (8, 1), (8, 31), (8, 31), (9, 1), (9, 11), (9, 19), (9, 30), (10, 1))]
        days += [day_number(year, 8, self.rng.randint(1, 31)), day_number(year, 9, self.rng.randint(1, 30))]
        if not in_deletion_days(self.t) or self.likely(0.5):
            self.reach(*days[:self.among(2, 5, len(days))])
        p, = self.stayers()
        if not in_deletion_days(self.t):
            return self.delete(p) if self.likely(0.3) else None
        if self.likely(0.25):
            p = min(self.stayers(64), key=lambda q: len(recorded(self.book.people[q], month(self.t))))
            if self.turn_to_september(p):
                return self.delete(p)
        if self.likely(0.45):
            self.record_latest(p)
        if self.likely(0.35):
            self.pay(p, self.among(0, 1, self.amount(p)))
        if self.likely(0.5):
            self.aim_deletion(p, self.rng.choice(self.aims(p)))
        self.delete(p)
        return self.after_deletion(p)

    def turn_to_september(self, p):
        """In August large totals of the months at the window's old end, and then September, in which the oldest is out of it; whether it is."""
        here = month(self.t)
        for m in self.rng.sample(range(max(here - 14, 0), max(here - 14, 0) + 2), 2):
            self.settle(p, m, self.figures_of(self.scale[p] * self.among(3, 7, 12)))
        if is_september(here):
            return False
        return self.reach(*[day_number(date(self.t).year, 9, dom) for dom in (1, 1, 2, 30)])

    def after_deletion(self, p):
        """A second deletion, an annual run, and the days on which the call of the first ends."""
        if self.likely(0.2):
            self.delete(p)
        if self.likely(0.3):
            self.annual(p)
        if self.likely(0.15):
            self.count()
        if self.likely(0.15):
            self.statement(p)
        if self.likely(0.3):
            self.scene_limit(p)
        if self.likely(0.2):
            who = self.book.people[p]
            self.settle(p, self.check_month(), self.figures_of(min(max(who.release_floor(self.t), 2 * who.cover(self.t)) + 1, 16 * MOST)))
        if self.likely(0.5):
            self.follow([p])

    def follow(self, names):
        """The days of the calls of deletions and 1 October, one by one or at once, with settlements, releases and payments between them."""
        gone = {p: self.book.people[p].deletion() for p in names if self.book.people[p].deletion()}
        if not gone:
            return
        made = [day for day, _, _ in gone.values()]
        october = day_number(date(made[0]).year, 10, 1)
        for day in sorted({october - 1, october, october + self.rng.randint(0, 9), *(day + n for day in made for n in (10, 11, 12))}):
            if day > self.t and self.likely(0.65) and self.reach(day):
                for p in gone:
                    self.beside(p)
        for p in gone:
            if self.likely(0.7):
                self.statement(p)

    def beside(self, p):
        """What a participant under deletion does on a day: totals around the firm amount and the open calls, releases at the limit, payments."""
        who, t = self.book.people[p], self.t
        firm, calls = who.firm(t), who.open_calls(t)
        if self.likely(0.3):
            self.statement(p)
        if date(t).month == 10:
            some = [firm, firm + 1, max(calls + [firm]) + 1] + calls + [amount + 1 for amount in calls] + [(firm + amount) // 2 for amount in calls]
            for e in self.rng.sample(some, self.among(1, 1, 2, 3)):
                self.settle(p, self.check_month(), self.figures_of(e))
        if self.likely(0.3):
            self.scene_limit(p)
        elif min(calls, default=firm + 1) <= firm and self.likely(0.6):
            self.pay(p, self.among(0, 1, self.amount(p)), 1)
        for _ in range(self.among(0, 0, 1, 2)):
            if self.place(who, True) is not None:
                self.release_at(p, self.place(who, True))
        if self.likely(0.2):
            self.pay(p, self.among(0, 0, -1, 1), 0.8)
        if self.likely(0.1):
            self.among(self.delete, self.annual)(p)

    def scene_outlive(self):
        """Deletions behind annual runs, whose calls outlive 1 October or just don't."""
        if not in_annual_days(self.t):
            year = date(self.t).year + ((date(self.t).month, date(self.t).day) > (9, 10))
            if year > 2099 or (self.theme != 'leaving' and day_number(year, 9, 1) - self.t > 60 and self.likely(0.7)) \
                    or not self.reach(*[day_number(year, 9, dom) for dom in (1, 3, 7, 10)]):
                return self.scene_delete()
        year, names = date(self.t).year, self.stayers(self.among(1, 1, 2, 3))
        for p in names:
            self.record(p, self.among(0, 1, 2, 3, 5))
            if self.likely(0.9):
                self.annual(p)
            if self.likely(0.2):
                self.pay(p, self.among(0, 1, self.amount(p)), 1)
        days = [day_number(year, 9, self.among(11, 19, 20, 20, 20, 21, 21, 21, 22, 25, 29, 30, 30, 30)) for _ in names]
        for p, day in zip(names, sorted(days)):
            if day > self.t and self.likely(0.85):
                self.reach(day)
            if self.likely(0.15):
                self.record_latest(p)
            self.aim_deletion(p, self.rng.choice(self.aims(p)))
            if self.likely(0.15):
                self.annual(p)
            self.delete(p)
        if self.likely(0.85):
            return self.follow(names)
        return self.after_deletion(names[0])

    def scene_fifth(self):
        """Four open calls in August, and a deletion then or in the first days of September that would be a fifth; and again, changed or later."""
        year = self.autumn()
        if date(self.t).month != 8:
            days = [day_number(year, 8, dom) for dom in (1, 15, 22, 25, 28, 30, 31, 31, 31)] + [day_number(year, 7, 31)] * self.likely(0.15)
            if (self.theme != 'leaving' and days[0] - self.t > 60 and self.likely(0.7)) or not self.reach(*days):
                return self.scene_delete()
        p, = self.stayers()
        who = self.book.people[p]
        if self.likely(0.3):
            self.pay(p, self.amount(p))
        for _ in range(self.among(1, 2, 3, 3, 4, 4, 4, 4)):
            top = max(who.open_calls(self.t) + [who.firm(self.t), -(-6 * who.deposited(self.t) // 5) - 1])
            if len(who.open_calls(self.t)) < 4:
                self.settle(p, self.check_month(), self.figures_of(min(top + (1 if self.likely(0.5) else self.amount(p)), 16 * MOST)))
        if not who.open_calls(self.t):
            return self.scene_delete()
        if self.likely(0.6) and date(self.t).month == 8:
            last = min(last for _, last in who.calls() if last >= self.t)
            self.reach(*range(day_number(year, 9, 1), last + 1))
        if self.likely(0.25):
            self.pay(p, self.amount(p), 1)
        if self.likely(0.2):
            self.delete(p)                                      # of the called month: not above its call
        for _ in range(2):
            if not who.deletion():
                top = max(who.open_calls(self.t) + [who.firm(self.t)])
                self.aim_deletion(p, top + self.among(0, 1, 1, 1, self.amount(p), -1))
                self.delete(p)
                if self.likely(0.3):
                    self.statement(p)
                if in_annual_days(self.t) and self.likely(0.5):
                    self.annual(p)
                if self.likely(0.5):
                    self.reach(*[last + 1 for _, last in who.calls() if last >= self.t])
        if len(who.open_calls(self.t)) == 4 and self.likely(0.5):
            self.aim_deletion(p, max(who.open_calls(self.t)) + 1)
            self.delete(p)
        return self.after_deletion(p)

    def go(self, day):
        """Advances to a day; by a budget that allows it, or by one that stops there."""
        n = day - self.t
        self.days -= n
        if self.likely(0.15):
            return self.advance(self.among(day + 1, day + self.rng.randint(1, 500), LAST_DAY) if day < LAST_DAY - 501 else LAST_DAY, n)
        return self.advance(day, self.among(n, n, n + 1, n + 1, 2 * n, 1000 + n, 30000, 2 ** 32, 2 ** 32 + n - 1, WORD))

    def landmarks(self):
        """Days on which something happens."""
        t, d = self.t, date(self.t)
        days = [t + 1, t + 9, t + 10, t + 11, t + 12]
        for who in self.book.people.values():
            for _, last in who.calls()[-6:]:
                days += [last, last + 1, last + 2]
            for held in (who.position(place, t) for place in range(8)):
                if held and held[0] == 'letter':
                    days += [held[2] - 1, held[2], held[3], held[3] + 1, held[3] + 2]
        for year in (d.year, d.year + 1):
            for mon, dom in ((7, 31), (8, 1), (8, 31), (9, 1), (9, 10), (9, 11), (9, 20), (9, 21), (9, 30), (10, 1), (10, 2)):
                days.append(day_number(year, mon, dom))
        days += [LAST_DAY - 11, LAST_DAY - 10, LAST_DAY - 9, LAST_DAY - 1, LAST_DAY]
        return [day for day in days if t < day <= min(LAST_DAY, t + max(self.days // 3, 1))]

    def scene_advance(self):
        t, rng = self.t, self.rng
        room = min(self.days, LAST_DAY - t)
        style = rng.random()
        if style < 0.16 or room < 1:
            return self.scene_still()
        marks = self.landmarks()
        if style < 0.45:
            self.go(t + 1)
        elif style < 0.8 and marks:
            near = sorted(set(marks))
            self.go(rng.choice(near[:6] if self.likely(0.7) else near))
        elif style < 0.92 or room < 200:
            self.go(t + rng.randint(1, min(room, 45)))
        else:
            self.go(t + (rng.randint(100, min(room, 500)) if room < 800 or self.likely(0.8) else rng.randint(380, 780)))
        for p in self.rng.sample(sorted(self.book.people), min(len(self.book.people), self.among(0, 1, 1, 2))):
            self.statement(p)
        return None

    def scene_still(self):
        """Advances that open nothing: no budget, no day ahead, or refused."""
        t = self.t
        before, ahead = self.rng.randint(0, max(t - 1, 0)), min(t + self.among(1, 1, 10, 400), LAST_DAY)
        day, budget = self.among((t, 0), (t, 1), (t, WORD), (ahead, 0), (ahead, 0), (LAST_DAY, 0), (max(t - 1, 0), 0), (max(t - 1, 0), 1),
                                 (before, WORD), (before, 0), (LAST_DAY + 1, 0), (LAST_DAY + 1, 1), (LAST_DAY + 1, WORD), (HALF, 1), (HALF, 0),
                                 (65536 + t, 1), (2 ** 31, 5), (30000, 2))
        self.advance(day, budget if day > LAST_DAY or day <= t or budget == 0 else 0)

    def scene_wrong(self):
        """Refusals, often with several causes at once."""
        bad = self.likely
        p, who = self.who()
        q = self.stranger() if bad(0.25) else p
        kind = self.among('lodge', 'lodge', 'release', 'release', 'settle', 'admit', 'annual', 'statement', 'delete')
        at = self.wrong_place() if bad(0.3) else self.rng.randrange(8)
        amount = self.wrong_amount() if bad(0.5) else self.amount(p)
        if kind == 'lodge':
            chosen = self.place(who, bad(0.4))
            at = chosen if chosen is not None and bad(0.7 if q == p else 0.3) else at
            if bad(0.7):
                self.lodge(q, at, amount, *(self.wrong_letter() if bad(0.7) else self.letter()))
            else:
                self.lodge(q, at, self.wrong_amount() if bad(0.6) else amount)
        elif kind == 'release':
            filled = self.place(who, True)
            at = filled if filled is not None and bad(0.6) else at
            held = who.position(at, self.t) if at <= 7 else None
            if held and bad(0.6):
                amount = self.among(held[1] + 1, held[1] + 1, held[1] - 1, held[1] * 2, MOST + 1)
            self.release(q, at, max(amount, 0))
        elif kind == 'settle':
            here = month(self.t)
            m = self.among(here, here + 1, here - 1, here - 15, here - 16, 960, HALF, HALF - 13) if bad(0.5) else self.check_month()
            e = self.total(p, who)
            self.settle(q, max(m, 0), self.wrong_figures(e) if bad(0.7) else self.figures_of(e))
        elif kind == 'admit':
            self.scene_wrong_admit()
        elif kind == 'annual':
            self.annual(q)
        elif kind == 'delete':
            self.delete(self.stranger() if bad(0.5) else q)
        else:
            self.statement(self.stranger())
        if bad(0.2):
            self.statement(p)

    # -- batches ---------------------------------------------------------------------------------------------------------------------------

    def room(self):
        """How many bytes a batch may have. A history that admits all 64 keeps some for a batch of them."""
        kept = 4800 if len(self.names) == 64 and not self.everyone else 0
        return MOST_BATCH - self.batches - kept

    def parts(self):
        """Participants and their figures, aimed at the check's corners."""
        known = sorted(self.book.people)
        chosen = self.rng.sample(known, min(len(known), self.among(1, 2, 2, 3, 3, 4, 5, 8)))
        return [(p, self.figures_of(self.total(p, self.book.people[p]))) for p in chosen]

    def batch_month(self):
        here = month(self.t)
        return max(here - self.among(2, 2, 2, 2, 2, 2, 3, 3, 14, self.rng.randint(2, 14)), 0)

    def wrong_rows(self):
        """Figures of which there are too few or too many, or one out of range."""
        e = self.amount(0)
        bad = self.among(MOST + 1, -MOST - 1, -2 ** 63, 2 ** 63 - 1, 2 ** 62, 1 - 2 ** 63)
        some = [[e, 0, 0, 0], [], [e] + [0] * 16, [e] + [0] * 16, [e, 0, 0], [e] + [0] * self.among(31, 63), [e, 0, 0, 0, bad], [bad, 0, 0, 0, 0],
                [0, bad, 0, 0, e], [bad], [0] * 16 + [bad]]
        return [e] + [0] * 254 if self.likely(0.04) and self.room() > 2400 else self.rng.choice(some)

    def full(self):
        """A participant with four open calls and figures that would call; calls are made until there is one."""
        full = [p for p, who in self.book.people.items() if len(who.open_calls(self.t)) == 4]
        p = self.rng.choice(full or sorted(self.book.people))
        who = self.book.people[p]
        for _ in range(5):
            e = who.release_floor(self.t) + who.cover(self.t) + self.amount(p)
            if len(who.open_calls(self.t)) == 4 or e > 16 * MOST or self.settle(p, self.check_month(), self.figures_of(e))[0] != 2:
                break
        return p, self.figures_of(min(who.release_floor(self.t) + who.cover(self.t) + self.amount(p), 16 * MOST))

    def refused_parts(self, m, parts):
        """A month and parts of which one, mostly not the first, is refused; now and then two."""
        here, style = month(self.t), self.rng.random()
        at = self.among(0, 1, len(parts) - 1, len(parts))
        if style < 0.2:
            m = max(self.among(here - 1, here - 15, here, here + 1, here + 256, 959, 960, 65535), 0)
        elif style < 0.4:
            names = [p for p, _ in parts]
            strange = [p for p in range(64) if p not in self.book.people and p not in names] + [64, 64, 65, 127, 128, 255] * 4
            parts.insert(at, (self.rng.choice(strange), self.figures_of(self.amount(0))))
        elif style < 0.55:
            p, figures = self.full()
            others = [part for part in parts if part[0] != p]
            m, parts = self.check_month(), others[:1] + [(p, figures)] + others[1:]
        else:
            at = min(at, len(parts) - 1)
            parts[at] = (parts[at][0], self.wrong_rows())
        if self.likely(0.2):
            parts[-1] = (parts[-1][0], self.wrong_rows())
        return m, parts

    def damage(self, file):
        """One thing of a file is made wrong."""
        self.among(self.short_file, self.moved_file, self.moved_file, self.ended_file, self.wrong_part, self.wrong_part, self.twice)(file)

    def short_file(self, file):
        """A count that there isn't, or fewer bytes than the pairs need."""
        if self.likely(0.5):
            file.count = self.among(0, 0, 65, 65, 66, 256, 257, 256 * file.count, 65535)
        else:
            size = 4 + 8 * len(file.pairs)
            file.cut = self.among(0, 0, 1, 2, 3, 4, 4, 5, size - 1, size - 1, size - 8, size, self.rng.randrange(size))

    def moved_file(self, file):
        """An offset that isn't where it must be; or a part with a byte before it that belongs to none."""
        i = self.rng.randrange(len(file.pairs))
        offset, length = file.pairs[i]
        if self.likely(0.15) and len(file.pairs) > 1:
            file.pairs[0], file.pairs[-1] = file.pairs[-1], file.pairs[0]
        elif self.likely(0.2):
            for pair in file.pairs[i:]:
                pair[0] += 1
            file.parts[i] = bytes(1) + file.parts[i]
        elif self.likely(0.12) and i > 0:
            at = file.pairs[i - 1][0]
            beyond = self.among(0, self.rng.randrange(at % 2 ** 32 or 1))
            file.pairs[i - 1][1], file.pairs[i][0] = 2 ** 32 + beyond - at, beyond
        else:
            file.pairs[i][0] = self.among(offset - 1, offset + 1, offset - 1, offset + 1, 0, offset + 8, length, 2 ** 31 + offset, 2 ** 32 - 1,
                                          self.rng.randrange(2 ** 32))

    def ended_file(self, file):
        """Parts that follow on, and an end that isn't the file's."""
        i, style = self.rng.randrange(len(file.pairs)), self.rng.random()
        if style < 0.25:
            file.more = bytes(self.among(1, 1, 2, 8, 42))
        elif style < 0.45:
            file.parts[-1] = file.parts[-1][:-self.among(1, 1, 2, 8)]
        elif style < 0.6:
            file.pairs[-1][1] = max(file.pairs[-1][1] + self.among(1, -1, 8, -8, 2 ** 31, 256), 0)
        elif style < 0.85:
            more = self.among(1, 8, 1000, 2 ** 16, 2 ** 31, 2 ** 32 - 10000)
            file.pairs[i][1] += more
            for pair in file.pairs[i + 1:]:
                pair[0] += more
        elif len(file.pairs) > 1:
            for pair in file.pairs[-2:]:
                pair[1] += 2 ** 31
            file.pairs[-1][0] += 2 ** 31
        else:
            file.pairs[0][1] = 2 ** 32 - 1

    def wrong_part(self, file):
        """A length that isn't that of its rows, with parts that follow on."""
        i, style = self.rng.randrange(len(file.parts)), self.rng.random()
        part = file.parts[i]
        if style < 0.3:
            file.parts[i] = part[:self.among(0, 1)]
        elif style < 0.6 and len(part) > 1:
            file.parts[i] = part[:1] + bytes([max(part[1] + self.among(1, -1, 1, -1, 100), 0) % 256]) + part[2:]
        else:
            file.parts[i] = self.among(part[:-1], part + b'\0', part[:-8], part + bytes(8), part[:2])
        file.place()

    def twice(self, file):
        """A participant of two parts, now and then one above 63."""
        if len(file.parts) < 2 or self.likely(0.2):
            extra = File(0, [(self.among(64, 255, 7), [1, 0, 0, 0, 0])])
            file.parts.insert(self.rng.randint(0, len(file.parts)), extra.parts[0])
            file.count = len(file.parts)
            file.place()
        i, j = sorted(self.rng.sample(range(len(file.parts)), 2))
        p = b'\x40' if self.likely(0.15) else file.parts[i][:1]
        file.parts[i], file.parts[j] = p + file.parts[i][1:], p + file.parts[j][1:]

    def whole_parts(self):
        """Parts for all 64, of 5 to 14 rows."""
        parts = []
        for p in self.rng.sample(range(64), 64):
            e = self.total(p, self.book.people[p])
            parts.append((p, [max(min(e, MOST), -MOST)] + [0] * self.among(4, 4, 4, 4, 5, 6, 8, 13)))
        return parts

    def scene_everyone(self):
        """A batch of 64 parts, before it now and then one that is refused for the last of them."""
        parts, m = self.whole_parts(), self.check_month()
        data = File(m, parts).bytes()
        less = File(m, [(p, [1, 0, 0, 0, 0]) for p, _ in parts[:-1]] + [(parts[-1][0], [])]).bytes()
        if self.likely(0.6) and len(less) + len(data) <= MOST_BATCH - self.batches:
            self.enter(less, parts)
        self.everyone = True
        self.enter(data, parts)

    def enter(self, data, parts):
        """Enters a file, if there is room for it, and looks at what it left."""
        if len(data) > MOST_BATCH - self.batches:
            return
        refused = self.batch(data)[0] == 10
        if not parts:
            return
        p = self.rng.choice(parts)[0]
        if self.likely(0.5 if refused else 0.35):
            self.statement(parts[0][0] if refused else p)
        if self.likely(0.35):
            self.count()
        if in_annual_days(self.t) and self.likely(0.7):
            self.annual(p)
        elif p in self.book.people and self.likely(0.12):
            self.scene_late(p)

    def scene_batch(self):
        """A month's file: as it should be, with a settlement that is refused, with something wrong, or one of before."""
        if len(self.book.people) == 64 and not self.everyone and self.likely(0.8):
            return self.scene_everyone()
        if not self.book.people:
            self.scene_admit()
        style, m, parts = self.rng.random(), self.batch_month(), self.parts()
        if style > 0.74:
            m, parts = self.refused_parts(m, parts)
        file = File(m, parts)
        if 0.42 < style < 0.74 or self.likely(0.03):
            self.damage(file)
            if self.likely(0.25):
                self.damage(file)
        data = file.bytes()
        if style < 0.07 and self.files:
            data, parts = self.rng.choice(list(self.files)[-3:]), []
        elif style < 0.09:
            data, parts = File(m, [(p, []) for p in range(self.among(64, 65, 65))]).bytes(), []
        if len(data) <= self.room():
            self.enter(data, parts)
        return None

    def scene_ask(self):
        if self.likely(0.25):
            self.count()
        else:
            self.statement(self.anyone(0.03))

    SCENES = ('admit', 'pay', 'lodge', 'letter', 'release', 'limit', 'check', 'even', 'rise', 'late', 'months', 'wrong_settle', 'turn', 'annual',
              'summer', 'october', 'advance', 'wrong', 'ask', 'batch', 'lapse', 'retired', 'delete', 'outlive', 'fifth')
    WEIGHTS = {
        'mixed': (2, 5, 4, 3, 5, 4, 7, 4, 3, 5, 4, 2, 2, 3, 1, 2, 9, 6, 6, 8, 4, 2, 1, 1, 1),
        'annual': (2, 4, 3, 2, 4, 4, 4, 2, 1, 3, 3, 1, 1, 12, 4, 5, 6, 3, 4, 8, 2, 1, 1, 1, 0),
        'autumn': (3, 4, 3, 3, 4, 4, 5, 3, 2, 4, 3, 1, 3, 3, 1, 9, 9, 3, 5, 6, 2, 2, 2, 4, 1),
        'checks': (2, 5, 2, 1, 3, 2, 10, 7, 7, 7, 4, 3, 3, 1, 2, 1, 6, 3, 4, 8, 7, 1, 1, 0, 1),
        'guarantees': (2, 5, 8, 8, 9, 9, 2, 1, 1, 3, 1, 1, 1, 2, 1, 2, 7, 4, 5, 5, 5, 1, 1, 1, 0),
        'refusals': (2, 3, 3, 2, 4, 2, 3, 1, 3, 2, 5, 6, 1, 2, 1, 1, 6, 18, 5, 10, 2, 5, 2, 0, 1),
        'crowd': (26, 4, 3, 1, 3, 3, 5, 2, 2, 2, 3, 1, 1, 4, 1, 2, 6, 4, 6, 9, 3, 3, 1, 2, 1),
        'end': (4, 5, 5, 3, 5, 4, 7, 4, 5, 3, 3, 2, 1, 2, 1, 1, 6, 4, 5, 7, 10, 2, 1, 1, 0),
        'begin': (3, 5, 4, 3, 5, 3, 5, 3, 2, 4, 5, 2, 5, 4, 2, 3, 9, 4, 5, 7, 3, 2, 2, 2, 1),
        'leaving': (9, 3, 2, 1, 3, 3, 3, 1, 1, 3, 3, 1, 1, 4, 1, 3, 5, 3, 4, 5, 1, 2, 9, 18, 14),
    }

    def make(self):
        weights = self.WEIGHTS[self.theme]
        try:
            for _ in range(self.among(1, len(self.names)) if self.theme == 'crowd' else self.among(1, 1, 2, len(self.names))):
                self.scene_admit()
            if self.theme == 'mixed' and self.likely(0.15):
                self.scene_vast()
            while True:
                if self.aimed and self.first - 6 <= len(self.lines) < self.first:
                    self.scene_stretch_end()
                getattr(self, 'scene_' + self.rng.choices(self.SCENES, weights)[0])()
        except Full:
            pass
        self.finish()
        if self.first == ALL:
            self.first = self.among(*[len(self.lines) + n for n in (0, 0, 1, 2)], MOST_CALLS, HALF + 1, WORD)
        self.met_stretch()


def start_of(theme, rng):
    """A start day for a theme."""
    year, last_september = rng.randint(2020, 2099), day_number(2099, 9, 1)
    autumn = [day_number(year, 9, 1) + rng.randint(-2, 10), day_number(year, 9, 20) + rng.randint(-2, 2),
              day_number(year, 10, 1) + rng.randint(-2, 1)]
    if theme == 'end':
        return rng.choice([rng.randint(29200, 29219)] * 3 + [LAST_DAY - 10, rng.randint(29205, 29211), LAST_DAY - 100,
                                                             last_september + rng.randint(-3, 10)])
    if theme == 'begin':
        return rng.choice((0, 0, 0, 1, rng.randint(2, 29), 30, rng.randint(31, 70), 59, 60, 243, 244, rng.randint(245, 253)))
    if theme == 'annual':
        return rng.choice((autumn[0], autumn[0], day_number(year, 7, 1) + rng.randint(0, 60), day_number(year, 8, 31)))
    if theme == 'autumn':
        return rng.choice(autumn)
    if theme == 'leaving':
        year = rng.choice((year, year, year, year, 2020, 2099))
        august, september = day_number(year, 8, 1), day_number(year, 9, 1)
        return rng.choice((august + rng.randint(-2, 1), august + rng.randint(0, 30), august + rng.randint(19, 30), september + rng.randint(0, 9),
                           september + rng.randint(17, 29)))
    first = day_number(rng.randint(2021, 2098), rng.randint(1, 12), 1)
    leap = day_number(4 * rng.randint(505, 524), 3, 1)
    return rng.choice((first + rng.randint(-3, 1), first + rng.randint(0, 27), leap - rng.randint(0, 3), rng.choice(autumn)))


def stretch_of(calls, rng):
    """How many calls a first stretch has: none, a few, some, or all that there are."""
    return rng.choice([0] * 6 + [rng.randint(1, 2), rng.randint(1, 12), rng.randint(2, 12)] + [rng.randint(13, calls)] * 9 + [ALL] * 2)


def make(seed, i):
    """History number i of a seed; it depends on no other."""
    rng = random.Random(f'paper 01 history {seed} {i}')
    theme = ('mixed', 'annual', 'checks', 'guarantees', 'autumn', 'end', 'mixed', 'refusals', 'annual', 'begin', 'checks', 'crowd', 'leaving',
             'leaving', 'leaving')[i % 15]
    many = rng.choice((8, 20, 64) if theme == 'crowd' else (5, 8, 10, 12, 16) if theme == 'leaving' else (1, 1, 2, 2, 3, 3, 4, 5))
    names = rng.sample(range(64), many)
    if many < 64 and rng.random() < 0.3:
        names[0] = 63 if 0 in names else 0 if 63 in names else rng.choice((0, 63))
    start, calls = start_of(theme, rng), rng.randint(200, 268)
    maker = Maker(rng, theme, start, calls, names, stretch_of(calls, rng))
    maker.make()
    return maker


def main():
    words = argparse.ArgumentParser(description='Random histories and their answers by the reference.')
    words.add_argument('--out', required=True)
    words.add_argument('--histories', type=int, default=240)
    words.add_argument('--seed', type=int, default=1)
    words = words.parse_args()
    began = time.time()
    data = os.path.join(words.out, 'data')
    os.makedirs(data, exist_ok=True)
    for name in os.listdir(data):
        if name[:1] == 'h' and name[1:].isdigit():
            os.remove(os.path.join(data, name))
    width = max(3, len(str(words.histories - 1)))
    kinds, refusals, pairs, corners = (collections.Counter() for _ in range(4))
    calls = size = largest = most_calls = most_figures = most_batch = most_days = 0
    with open(os.path.join(words.out, 'stdout'), 'w') as answers:
        for i in range(words.histories):
            made = make(words.seed, i)
            text = made.text()
            assert len(text) < MOST_BYTES and len(made.lines) < MOST_CALLS and made.figures < MOST_FIGURES and made.batches <= MOST_BATCH
            with open(os.path.join(data, f'h{i:0{width}}'), 'w') as file:
                file.write(text)
            answers.write(read(text))
            for sum_, part in ((kinds, made.kinds), (refusals, made.refusals), (pairs, made.pairs), (corners, made.corners)):
                sum_.update(part)
            calls, size = calls + len(made.lines), size + len(text)
            largest, most_calls = max(largest, len(text)), max(most_calls, len(made.lines))
            most_figures, most_days = max(most_figures, made.figures), max(most_days, made.t - made.start)
            most_batch = max(most_batch, made.batches)
    print(f'{words.histories} histories of seed {words.seed}: {calls} calls, {size} bytes, {os.path.getsize(answers.name)} bytes of answers, '
          f'{time.time() - began:.0f} s')
    print(f'largest: {largest} bytes, {most_calls} calls, {most_figures} figures, {most_batch} bytes of batches, {most_days} days opened')
    print('answers: ' + ', '.join(f'{name} {kinds[kind]}' for kind, name in ANSWERS.items()))
    numbers = [*range(1, 18), 20, 21, 22, 23, 24, 25]
    print('refusals: ' + ', '.join(f'{n}: {refusals[n]}' for n in numbers))
    print('first cause + another that held: ' + ', '.join(f'{name} {a}+{b}: {pairs[name, a, b]}' for name, a, b in sorted(pairs)))
    print('corners:')
    for corner in CORNERS:
        print(f'  {corners[corner]:6} {corner}')
    unknown = set(corners) - set(CORNERS)
    assert not unknown, unknown
    missing = [corner for corner in CORNERS if not corners[corner]] + [f'refusal {n}' for n in numbers if not refusals[n]]
    together = [(name, a, b) for name, order in ORDER.items() for a, b in itertools.combinations(order, 2) if (a, b) not in APART.get(name, ())]
    missing += [f'{name} {a} and {b} at once' for name, a, b in together if not pairs[name, a, b]]
    print(f'{len(CORNERS)} corners, {len(numbers)} refusals and {len(together)} pairs of causes, {len(missing)} not met')
    for what in missing:
        print(f'not met: {what}')


if __name__ == '__main__':
    main()
