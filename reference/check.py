"""Paper 01's 'Figures to reproduce' that concern the book, and paper 02's batch, D, role retired, deletion and counts of calls, by the reference:
python3 reference/check.py

Each figure is reached by a history from a fresh book, so that cover, firm amount and charges are the reading's own. The batches are bytes worked
out by hand, on both sides of each bound. What may be released is compared with every amount tried, on small books drawn from a fixed seed; and the
items of a participant with its statement, with the opened days worked out afresh and with the items of its extract. Exits 1 on a difference.
"""
import random
import sys

sys.dont_write_bytecode = True

import accounts
import ledger
import reading
from reading import History, LAST_DAY, date, day_charge, day_number, fresh, in_annual_days, month

differences = []
done = 0


def same(what, got, expected):
    global done
    done += 1
    if got != expected:
        differences.append(f'{what}: {got}, expected {expected}')


def called(e, asked, last):
    return (2, e, asked, last, 0, 0, 0)


def covered(e):
    return (3, e, 0, 0, 0, 0, 0)


def recorded(e):
    return (4, e, 0, 0, 0, 0, 0)


def statement(firm, cover, days, mills, made):
    return (7, firm, cover, max(firm - cover, 0), days, mills, made)


def settle(h, p, e, back=2):
    """A settlement of the month that lies some months back, with total e."""
    return h.settle(p, month(h.today) - back, [e, 0, 0, 0, 0])


def go(h, days):
    same('days opened', h.advance(h.today + days, days), (6, days, 0, 0, 0, 0, 0))


def firm_and_cover(d):
    """A producer whose firm amount and cover are both d, with no call open: called to d, paid, eleven days on."""
    h = History(day_number(2021, 4, 1))
    h.admit(0, 3)
    if d > 0:
        same(f'called to {d}', settle(h, 0, d), called(d, d, h.today + 10))
        h.lodge(0, 0, 'cash', d)
    go(h, 11)
    same(f'firm amount and cover {d}', h.statement(0), statement(d, d, 0, 0, int(d > 0)))
    same(f'no call open at {d}', h.people[0].open_calls(h.today), [])
    return h


def short_of(s):
    """A producer called to s who lodges nothing, on its last free day."""
    h = History(day_number(2021, 4, 1))
    h.admit(0, 4)
    settle(h, 0, s)
    go(h, 10)
    same(f'called to {s}, last free day', h.statement(0), statement(0, 0, 0, 0, int(s > 0)))
    return h


def calendar():
    same('day 59', str(date(59)), '2020-02-29')
    same('day 639', str(date(639)), '2021-10-01')
    same('last day', str(date(LAST_DAY)), '2099-12-31')
    same('last month', month(LAST_DAY), 959)
    same('annual days of 2021', [str(date(d)) for d in range(366, 731) if in_annual_days(d)], [f'2021-09-{n:02}' for n in range(1, 11)])
    same('fresh on the last day', (fresh(LAST_DAY)[0], fresh(LAST_DAY)[1].today), (0, LAST_DAY))
    same('fresh beyond it', (fresh(LAST_DAY + 1)[0], fresh(LAST_DAY + 1)[1].today, fresh(LAST_DAY + 1)[1].people), (17, 0, {}))


def examples():
    """Source 002's examples 1, 2 and 3 in one history of participant A, a Supplier."""
    table = [687801, 556887, 557260, 644620, 692868, 654313, 629674, 669566, 672286, 773729, 596570, 723508]
    h = History(day_number(2021, 9, 1))
    same('admission', h.admit(0, 0), History.DONE)
    for back, euros in zip(range(14, 2, -1), table):
        same('example 1, a month', settle(h, 0, 100 * euros, back), recorded(100 * euros))
    same('example 1', h.annual(0), (5, 77372900, 12, 0, 0, 0, 0))
    h.lodge(0, 0, 'cash', 77372900)
    same('July is settled in September', settle(h, 0, 75446400), recorded(75446400))
    go(h, 29)
    same('30 September 2021', h.statement(0), statement(2000000, 77372900, 0, 0, 1))
    go(h, 1)
    same('1 October 2021', h.statement(0), statement(77372900, 77372900, 0, 0, 1))
    same('no call open', h.people[0].open_calls(h.today), [])
    same('example 2, the first month', settle(h, 0, 75446400), covered(75446400))
    same('example 2, the second month', settle(h, 0, 93679500), called(93679500, 16306600, 649))
    go(h, 10)
    same('example 3, last free day', h.statement(0), statement(77372900, 77372900, 0, 0, 2))
    go(h, 2)
    same('example 3, two days', h.statement(0), statement(93679500, 77372900, 2, 200000000, 2))
    h.lodge(0, 1, 'cash', 10000000)
    same('example 3, shortfall left', h.statement(0)[3], 6306600)
    go(h, 3)
    same('example 3, five days', h.statement(0), statement(93679500, 87372900, 5, 500000000, 2))
    h.lodge(0, 2, 'cash', 6306600)
    go(h, 1)
    same('no charge after payment', h.statement(0), statement(93679500, 93679500, 5, 500000000, 2))
    same('calls made', h.calls_made(), (8, 2, 0, 0, 0, 0, 0))


def checks():
    h = firm_and_cover(1000000)
    same('D = 1,000,000, E = 1,199,999', settle(h, 0, 1199999), covered(1199999))
    same('D = 1,000,000, E = 1,200,000', settle(h, 0, 1200000), called(1200000, 200000, h.today + 10))
    h = firm_and_cover(77372900)
    same('D = 77,372,900, E = 75,446,400', settle(h, 0, 75446400), covered(75446400))
    same('D = 77,372,900, E = 93,679,500', settle(h, 0, 93679500), called(93679500, 16306600, h.today + 10))
    h = firm_and_cover(0)
    same('D = 0, E = 0', settle(h, 0, 0), covered(0))
    same('D = 0, E = -5', settle(h, 0, -5), covered(-5))
    same('D = 0, no call was made', h.calls_made(), (8, 0, 0, 0, 0, 0, 0))


def charges():
    for s, mills in ((0, 0), (1, 100000000), (100000000, 100000000), (100000001, 100000001)):
        same(f'day charge of {s}', day_charge(s), mills)
        h = short_of(s)
        go(h, 1)
        same(f'one day short of {s}', h.statement(0), statement(s, 0, 1 if s > 0 else 0, mills, int(s > 0)))
    h = short_of(150000000)
    go(h, 1)
    same('S = 150,000,000', h.statement(0), statement(150000000, 0, 1, 150000000, 1))
    h.lodge(0, 0, 'cash', 100000000)
    go(h, 1)
    same('then 50,000,000', h.statement(0), statement(150000000, 100000000, 2, 250000000, 1))
    h.lodge(0, 1, 'cash', 50000000)
    go(h, 1)
    same('no charge after payment', h.statement(0), statement(150000000, 150000000, 2, 250000000, 1))


def two_calls():
    """A new call doesn't put off an older one."""
    h = History(day_number(2021, 4, 1))
    h.admit(0, 5)
    settle(h, 0, 100)
    go(h, 5)
    same('a second call', settle(h, 0, 200), called(200, 200, h.today + 10))
    go(h, 6)
    same('the first call is due', h.statement(0), statement(100, 0, 1, 100000000, 2))
    go(h, 5)
    same('the second call is due', h.statement(0), statement(200, 0, 6, 600000000, 2))


# ---- batches (paper 02, ask 1): the bytes of files, in hexadecimal digits

# Five figures: the first, least byte first, and four of 0. The part of a participant with five figures has 42 = 2a bytes.
ZERO = '0000000000000000 '
FIVE, SEVEN = '0500000000000000' + ZERO * 4, '0700000000000000' + ZERO * 4

# Month 13 = 0d, February 2021. One pair begins its part at 12 = 0c, two at 20 = 14 and 62 = 3e, three at 28 = 1c, 70 = 46 and 112 = 70.
ONE = '0d00 0100  0c000000 2a000000 '
TWO = '0d00 0200  14000000 2a000000  3e000000 2a000000 '
THREE = '0d00 0300  1c000000 2a000000  46000000 2a000000  70000000 2a000000 '


def batch_book():
    """1 April 2021, month 15: producers 0 and 1, with no cover, so that a total above 0 calls; and trader 2, whose minimum is called."""
    h = History(day_number(2021, 4, 1))
    for p, role in ((0, 3), (1, 4), (2, 2)):
        h.admit(p, role)
    return h


def batch(what, text, due, h=None):
    """Compares the answer to a batch, `n` or `number, index`. A refused one leaves every reading as it was."""
    h = h or batch_book()
    before = [(who.acts[:], h.statement(p)) for p, who in sorted(h.people.items())], h.calls_made()
    answer = (9, due, 0, 0, 0, 0, 0) if isinstance(due, int) else (10, *due, 0, 0, 0, 0)
    same(f'batch, {what}', h.batch(bytes.fromhex(text)), answer)
    if answer[0] == 10:
        after = [(who.acts[:], h.statement(p)) for p, who in sorted(h.people.items())], h.calls_made()
        same(f'batch, {what}, the book', after, before)
    return h


def empty_parts(count):
    """So many parts of two bytes, for participants 0, 1, .. with no rows."""
    pairs = ''.join(f'{(4 + 8 * count + 2 * i).to_bytes(4, "little").hex()} 02000000 ' for i in range(count))
    return f'0d00 {count:02x}00 ' + pairs + ''.join(f'{p:02x}00 ' for p in range(count))


def batch_too_short():
    """20: too short for its pairs, or n outside 1 to 64."""
    batch('no bytes', '', (20, 0))
    batch('3 bytes', '0d0001', (20, 0))
    batch('n = 0', '0d00 0000', (20, 0))
    batch('n = 0 before a part', '0d00 0000  0c000000 2a000000 0005' + FIVE, (20, 0))
    batch('4 bytes, n = 1', '0d00 0100', (20, 0))
    batch('11 bytes, n = 1', '0d00 0100  0c000000 000000', (20, 0))
    batch('12 bytes, n = 1, a part of 0 bytes', '0d00 0100  0c000000 00000000', (22, 0))
    batch('n = 256', '0d00 0001  0c000000 2a000000 0005' + FIVE, (20, 0))
    batch('n = 64, no rows', empty_parts(64), (10, 0))
    batch('n = 65, no rows', empty_parts(65), (20, 0))
    batch('n = 64, one byte short of its pairs', '0d00 4000' + '00' * 511, (20, 0))
    batch('n = 64, nothing behind its pairs', '0d00 4000' + '00' * 512, (21, 0))


def batch_not_following():
    """21: the first part at 4 + 8 n, each next one where the last ended, the last to the end of the file."""
    batch('one part at 12', ONE + '0005' + FIVE, 1)
    batch('one part at 11', ONE.replace('0c00', '0b00') + '0005' + FIVE, (21, 0))
    batch('one part at 13', ONE.replace('0c00', '0d00') + '0005' + FIVE, (21, 0))
    batch('one part at 13, and a byte before it', ONE.replace('0c00', '0d00') + 'ff 0005' + FIVE, (21, 0))
    batch('two parts', TWO + '0005' + FIVE + '0105' + SEVEN, 2)
    batch('the second at 61', TWO.replace('3e', '3d') + '0005' + FIVE + '0105' + SEVEN, (21, 1))
    batch('the second at 63', TWO.replace('3e', '3f') + '0005' + FIVE + '0105' + SEVEN, (21, 1))
    batch('the first at 21, the second at 63', TWO.replace('14', '15').replace('3e', '3f') + '0005' + FIVE + '0105' + SEVEN, (21, 0))
    three = '0005' + FIVE + '0105' + SEVEN + '0205' + FIVE
    batch('three parts', THREE + three, 3)
    batch('the middle one at 69', THREE.replace('46', '45') + three, (21, 1))
    batch('the last one at 113', THREE.replace('70', '71') + three, (21, 2))
    batch('a byte behind the end', THREE + three + '00', (21, 2))
    batch('a byte missing at the end', (THREE + three).replace(' ', '')[:-2], (21, 2))
    batch('a last length of 41', THREE.replace('70000000 2a', '70000000 29') + three, (21, 2))
    batch('a last length of 2^32 - 1', THREE.replace('70000000 2a000000', '70000000 ffffffff') + three, (21, 2))
    # The first part is said to be 256 bytes longer, and the others follow on from there: only the end is wrong.
    past = '0d00 0300  1c000000 2a010000  46010000 2a000000  70010000 2a000000 '
    batch('the first ends past the file', past + three, (21, 2))
    # Two lengths 2^31 too large: the end is right modulo 2^32.
    batch('an end of 2^32 too much', '0d00 0200  14000000 2a000080  3e000080 2a000080 ' + '0005' + FIVE + '0105' + SEVEN, (21, 1))


def batch_parts():
    """22: a length of 2 + 8 r, and no participant twice; the later pair's index. 20, 21 and 22 come before any settlement, in that order."""
    batch('a length of 1', '0d00 0100  0c000000 01000000  00', (22, 0))
    batch('a length of 2, no rows', '0d00 0100  0c000000 02000000  0000', (10, 0))
    batch('a length of 41', '0d00 0100  0c000000 29000000  0005' + FIVE[:-3], (22, 0))
    batch('a length of 43', '0d00 0100  0c000000 2b000000  0005' + FIVE + '00', (22, 0))
    batch('a length of 42, 4 rows', ONE + '0004' + FIVE, (22, 0))
    batch('a length of 42, 6 rows', ONE + '0006' + FIVE, (22, 0))
    batch('a participant twice', TWO + '0105' + FIVE + '0105' + SEVEN, (22, 1))
    batch('a participant twice, apart', THREE + '0105' + FIVE + '0005' + SEVEN + '0105' + FIVE, (22, 2))
    batch('a participant above 63 twice', TWO + '4005' + FIVE + '4005' + SEVEN, (22, 1))
    batch('22 of pair 0 and 21 of pair 2', THREE.replace('70', '71') + '0004' + FIVE + '0105' + SEVEN + '0205' + FIVE, (21, 2))
    batch('22 of pair 0, and the end', THREE + '0004' + FIVE + '0105' + SEVEN + '0205' + FIVE + '00', (21, 2))
    batch('22 of pairs 1 and 2', THREE + '0005' + FIVE + '0005' + SEVEN + '0204' + FIVE, (22, 1))
    batch('1 of pair 0 and 22 of pair 1', TWO + 'ff05' + FIVE + '0104' + SEVEN, (22, 1))
    batch('12, and 22 of pair 1', '0e00' + TWO[4:] + '0005' + FIVE + '0104' + SEVEN, (22, 1))


def deposits():
    """D of a check on 1 March 2021, day 425, by letters that lapse around day t + 11, 436, or begin tomorrow; and at the calendar's end."""
    for what, letters, cash, e, expected in (
            ('a letter of three days', [(425, 427)], 0, 100, called(100, 100, 435)),
            ('three days left', [(366, 428)], 0, 50, called(50, 50, 435)),
            ('until t + 11', [(425, 436)], 40, 167, covered(167)),
            ('until t + 11, 20%', [(425, 436)], 40, 168, called(168, 28, 435)),
            ('until t + 10', [(425, 435)], 40, 167, called(167, 127, 435)),
            ('from today', [(425, 29219)], 0, 119, covered(119)),
            ('from tomorrow', [(426, 29219)], 0, 119, called(119, 119, 435)),
            ('one until tomorrow, one from tomorrow', [(425, 426), (426, 29219)], 0, 100, called(100, 100, 435))):
        h = History(425)
        h.admit(0, 3)
        for place, (first, last) in enumerate(letters):
            h.lodge(0, place, 'letter', 100, first, last)
        if cash:
            h.lodge(0, 7, 'cash', cash)
        same(f'D, {what}', settle(h, 0, e), expected)
    for day, what, expected in ((29208, 'letter', covered(100)), (29209, 'letter', called(100, 100, 29219)), (29209, 'cash', covered(100)),
                                (29219, 'cash', covered(100))):
        h = History(day)
        h.admit(0, 3)
        h.lodge(0, 0, what, 100, 29000, LAST_DAY)
        same(f'D, {what} on day {day}', settle(h, 0, 100), expected)


def batch_settlements():
    """The settlements in pair order: the first refusal is answered with its pair's index, and the book is as before."""
    batch('1 of pair 1', TWO + '0005' + FIVE + '4005' + SEVEN, (1, 1))
    batch('2 of pair 1', TWO + '0005' + FIVE + '3f05' + SEVEN, (2, 1))
    batch('2 of pair 0, 1 of pair 1', TWO + '3f05' + FIVE + '4005' + SEVEN, (2, 0))
    batch('month 14 = P - 1', '0e00' + TWO[4:] + '0005' + FIVE + '0105' + SEVEN, (12, 0))
    batch('month 1 = P - 14', '0100' + TWO[4:] + '0005' + FIVE + '0105' + SEVEN, 2)
    batch('month 0 = P - 15', '0000' + TWO[4:] + '0005' + FIVE + '0105' + SEVEN, (12, 0))
    batch('month 13 + 256', '0d01' + TWO[4:] + '0005' + FIVE + '0105' + SEVEN, (12, 0))
    batch('4 rows', '0d00 0100  0c000000 22000000  0004' + ZERO * 4, (10, 0))
    batch('16 rows', '0d00 0100  0c000000 82000000  0010' + ZERO * 16, 1)
    batch('17 rows', '0d00 0100  0c000000 8a000000  0011' + ZERO * 17, (10, 0))
    batch('255 rows', '0d00 0100  0c000000 fa070000  00ff' + ZERO * 255, (10, 0))
    batch('10^12', ONE + '0005 0010a5d4e8000000' + ZERO * 4, 1)
    batch('10^12 + 1', ONE + '0005 0110a5d4e8000000' + ZERO * 4, (11, 0))
    batch('-10^12', ONE + '0005 00f05a2b17ffffff' + ZERO * 4, 1)
    batch('-10^12 - 1', ONE + '0005 ffef5a2b17ffffff' + ZERO * 4, (11, 0))
    batch('-2^63', ONE + '0005' + ZERO * 4 + '0000000000000080', (11, 0))
    h = batch('called, called and a credit', THREE + '0105' + FIVE + '0005' + SEVEN + '0205 f9ffffffffffffff' + ZERO * 4, 3)
    same('batch, the totals', [h.people[p].total(13) for p in (0, 1, 2)], [7, 5, -7])
    same('batch, its calls', [h.people[p].calls() for p in (0, 1, 2)], [[(7, 466)], [(5, 466)], [(1000000, 466)]])
    same('batch, calls made', h.calls_made(), (8, 3, 0, 0, 0, 0, 0))
    batch('the same month again', ONE + '0105 0400000000000000' + ZERO * 4, 1, h)
    same('batch, a total replaced', (h.people[1].total(13), h.calls_made()), (4, (8, 3, 0, 0, 0, 0, 0)))
    go(h, 11)
    same('batch, its call is due', h.statement(0), statement(7, 0, 1, 100000000, 1))
    h = batch_book()
    for e in (1, 2, 3, 4):
        same('batch, an open call', settle(h, 1, e), called(e, e, 466))
    batch('13 of pair 1', TWO + '0005' + SEVEN + '0105' + FIVE, (13, 1), h)
    batch('none of it is checked', '0c00' + TWO[4:] + '0005' + SEVEN + '0105' + FIVE, 2, h)
    same('batch, calls made after 13', h.calls_made(), (8, 5, 0, 0, 0, 0, 0))


# ---- role retired (paper 02, ask 3)

def admissions():
    """The causes of an admission in their order, under the old rule 1, 3, 4 and under the new one 1, 3, 4, 23; what is refused leaves no file."""
    for first_stretch, retired in ((True, History.DONE), (False, History.refused(23))):
        h = fresh(609, first_stretch)[1]
        for p, role, expected in ((0, 0, History.DONE), (0, 1, History.refused(3)), (0, 6, History.refused(3)), (64, 1, History.refused(1)),
                                  (257, 1, History.refused(1)), (64, 6, History.refused(1)), (1, 6, History.refused(4)), (1, 257, History.refused(4)),
                                  (63, 2, History.DONE), (63, 1, History.refused(3)), (1, 1, retired), (62, 1, retired), (2, 3, History.DONE),
                                  (3, 4, History.DONE), (4, 5, History.DONE)):
            before = sorted(h.people)
            same(f'admit {p} {role}, first stretch {first_stretch}', h.admit(p, role), expected)
            same(f'admit {p} {role}, who is admitted', sorted(h.people), sorted(before + [p]) if expected == History.DONE else before)
        same(f'calls of admissions, first stretch {first_stretch}', h.calls_made(), (8, 4 if first_stretch else 2, 0, 0, 0, 0, 0))
    for day in (0, LAST_DAY, LAST_DAY + 1):
        same(f'fresh on {day}, the rule', [fresh(day)[1].first_stretch, fresh(day, True)[1].first_stretch], [False, True])


def first_stretch():
    """Admitted with role 1 in a first stretch, on 1 September 2021: the file keeps the role, its minimum and its annual runs behind it."""
    h = History(609, first_stretch=True)
    same('role 1, the last call of the first stretch', h.admit(0, 1), History.DONE)
    h.end_stretch()
    same('role 1, the first call behind it, on the same day', h.admit(1, 1), History.refused(23))
    same('role 0 behind it', h.admit(1, 0), History.DONE)
    same('two minimums are called', h.calls_made(), (8, 2, 0, 0, 0, 0, 0))
    same('the annual run, raised to the minimum', h.annual(0), (5, 2000000, 0, 0, 0, 0, 0))
    same('a total below the minimum', settle(h, 0, 1999999, 3), recorded(1999999))
    same('the annual run of one month', h.annual(0), (5, 2000000, 1, 0, 0, 0, 0))
    go(h, 10)
    same('the last free day of its minimum', h.statement(0), statement(0, 0, 0, 0, 1))
    go(h, 1)
    same('its minimum is firm', h.statement(0), statement(2000000, 0, 1, 100000000, 1))
    same('cash for half of it', h.lodge(0, 0, 'cash', 1000000), History.DONE)
    go(h, 19)
    same('1 October, the next amount', h.statement(0), statement(2000000, 1000000, 20, 2000000000, 1))
    same('a settlement calls', settle(h, 0, 2000001), called(2000001, 1000001, 649))
    same('none of the cash is released', h.release(0, 0, 1), History.refused(16))
    go(h, 11)
    same('the call is firm', h.statement(0), statement(2000001, 1000000, 31, 3100000000, 2))
    same('role 1 again', h.admit(0, 1), History.refused(3))
    same('and of another', h.admit(2, 1), History.refused(23))
    same('calls made', h.calls_made(), (8, 3, 0, 0, 0, 0, 0))
    same('the role', h.people[0].role, 1)


# ---- leaving participants (paper 02, ask 4)

# 2021: 31 July is day 577, 1 August 578, 31 August 608, 1 September 609, 20 September 628, 30 September 638, 1 October 639. August is month 19,
# September month 20 and October month 21.

def deletion(amount, called):
    return (11, amount, called, 0, 0, 0, 0)


def record(h, p, totals):
    """Totals of months, each given by how many months back it lies, in the order in which they are settled."""
    for back, e in totals:
        same(f'{back} months back, {e}', h.settle(p, month(h.today) - back, [e, 0, 0, 0, 0])[1], e)


def producer(day, totals=()):
    """A history that begins on a day with a producer, who has no minimum, and its totals."""
    h = History(day)
    h.admit(0, 3)
    record(h, 0, totals)
    return h


def deletion_days():
    """Every day of August and September and none beside them: by hand the first and the last, also of 2020, a leap year, and of 2099."""
    for day in (0, 59, 212, 274, 577, 639, 640, 29066, 29128, LAST_DAY):
        same(f'deletion on day {day}', producer(day).delete(0), History.refused(24))
    for day in (213, 243, 244, 273, 578, 608, 609, 638, 29067, 29097, 29098, 29127):
        same(f'deletion on day {day}', producer(day).delete(0), deletion(0, 0))
    for year in (2020, 2021, 2024, 2099):
        months = [date(day).month for day in range(day_number(year, 1, 1), day_number(year, 12, 31)) if producer(day).delete(0)[0] == 11]
        same(f'days of a deletion in {year}', (len(months), set(months)), (61, {8, 9}))


def deletion_amounts():
    """The largest total of the three latest recorded months, on 1 September 2021: P is 20, and months 6 to 18 count. No total is checked there."""
    for what, totals, amount in (
            ('no month', [], 0), ('July 2021', [(2, 5)], 5), ('July 2020', [(14, 5)], 5), ('a credit', [(2, -5)], 0), ('0', [(2, 0)], 0),
            ('one cent', [(9, 1)], 1), ('two months', [(2, 10), (3, 20)], 20), ('three months', [(2, 10), (3, 20), (4, 30)], 30),
            ('the first of three', [(2, 30), (3, 20), (4, 10)], 30), ('the second of three', [(2, 10), (3, 30), (4, 20)], 30),
            ('four months', [(2, 10), (3, 20), (4, 30), (5, 40)], 30), ('the oldest settled first', [(5, 40), (4, 30), (3, 20), (2, 10)], 30),
            ('the oldest settled last', [(2, 1), (3, 2), (4, 3), (14, 99)], 3), ('three credits', [(2, -1), (3, -2), (4, -3)], 0),
            ('three credits and an older total', [(2, -1), (3, -2), (4, -3), (5, 40)], 0), ('two credits', [(2, -1), (3, -2), (5, 40), (6, 50)], 40),
            ('gaps', [(14, 9), (8, 8), (5, 7)], 9), ('gaps, and a fourth', [(14, 9), (8, 8), (5, 7), (2, 1)], 8),
            ('the three oldest', [(14, 9), (13, 8), (12, 7)], 9), ('a total replaced by a lower one', [(2, 50), (2, 7)], 7),
            ('a total replaced by a higher one', [(2, 7), (3, 9), (2, 50)], 50), ('all 13', [(back, back) for back in range(2, 15)], 4),
            ('all 13, the latest the largest', [(back, 20 - back) for back in range(2, 15)], 18)):
        h = producer(609, totals)
        same(f'deletion, {what}', h.delete(0), deletion(amount, int(amount > 0)))
        same(f'deletion, {what}, its call', h.people[0].calls(), [(amount, 619)] if amount else [])
    h = producer(609)
    same('16 figures of 10^12', h.settle(0, 18, [10 ** 12] * 16), recorded(16 * 10 ** 12))
    same('their deletion', h.delete(0), deletion(16 * 10 ** 12, 1))
    # June 2020, month 5, is P - 14 in August 2021 and P - 15 in September.
    for days, amount in ((0, 99), (1, 7)):
        h = producer(608, [(14, 99), (13, 7)])
        go(h, days)
        same(f'June 2020, {days} days later', h.delete(0), deletion(amount, 1))
    # In 2020 there are no months before January: August sees months 0 to 5.
    h = producer(213, [(7, 4), (6, 3), (5, 2), (4, 1)])
    same('August 2020', h.delete(0), deletion(3, 1))


def deletion_compared():
    """With the firm amount and every open call, and with nothing else: a trader with its minimum of 1,000,000, called on 1 August or firm then."""
    for what, day, cash, total, expected in (
            ('below the open minimum', 578, 0, 999999, deletion(999999, 0)), ('equal to it', 578, 0, 1000000, deletion(1000000, 0)),
            ('one above it', 578, 0, 1000001, deletion(1000001, 1)), ('the cover is above it', 578, 5000000, 1000001, deletion(1000001, 1)),
            ('below the firm minimum', 567, 0, 999999, deletion(999999, 0)), ('equal to that', 567, 0, 1000000, deletion(1000000, 0)),
            ('one above that', 567, 0, 1000001, deletion(1000001, 1)), ('the cover is equal', 567, 1000001, 1000001, deletion(1000001, 1)),
            ('20% above the cover', 567, 1000000, 1200000, deletion(1200000, 1)), ('19% above it', 567, 1000000, 1190000, deletion(1190000, 1))):
        h = History(day)
        h.admit(0, 2)
        if cash:
            h.lodge(0, 0, 'cash', cash)
        go(h, 578 - day)
        record(h, 0, [(3, total)])
        same(f'deletion, {what}', h.delete(0), expected)
        same(f'deletion, {what}, calls made', h.calls_made(), (8, 1 + expected[2], 0, 0, 0, 0, 0))
        same(f'deletion, {what}, open calls', h.people[0].open_calls(578), [1000000] * (day == 578) + [total] * expected[2])


def deletion_causes():
    """1, 2, 24, 13 of a deletion, and 1, 2, 14, 25 of an annual run; what is refused changes nothing."""
    h = producer(577, [(3, 70)])
    for p, number in ((64, 1), (256, 1), (1, 2), (63, 2), (0, 24)):
        same(f'31 July, delete {p}', h.delete(p), History.refused(number))
    go(h, 1)
    for p, number in ((64, 1), (1, 2)):
        same(f'1 August, delete {p}', h.delete(p), History.refused(number))
    same('not under deletion yet', h.people[0].deletion(), None)
    same('1 August, delete 0', h.delete(0), deletion(70, 1))
    same('a second time', h.delete(0), History.refused(24))
    same('an annual run in August', h.annual(0), History.refused(14))
    go(h, 31)
    same('1 September, delete 0', h.delete(0), History.refused(24))
    for p, number in ((64, 1), (1, 2), (0, 25)):
        same(f'1 September, annual {p}', h.annual(p), History.refused(number))
    h.admit(1, 3)
    same('the annual run of another', h.annual(1), (5, 0, 0, 0, 0, 0, 0))
    go(h, 10)
    same('11 September, annual 0', h.annual(0), History.refused(14))
    go(h, 20)
    same('1 October, no next amount', h.statement(0), statement(70, 0, 639 - 588, (639 - 588) * 100000000, 1))
    same('1 October, delete 0', h.delete(0), History.refused(24))
    same('1 October, delete 1', h.delete(1), History.refused(24))
    go(h, 335)
    same('1 September 2022, annual 0', h.annual(0), History.refused(25))
    same('1 September 2022, delete 0', h.delete(0), History.refused(24))
    same('calls made', h.calls_made(), (8, 1, 0, 0, 0, 0, 0))


def deletion_fifth():
    """31 August 2021: four open calls until 10 September. A deletion that would be the fifth is refused, and its participant stays as it was."""
    def full(more):
        h = producer(608)
        for e in (10, 20, 30, 40):
            same('an open call', settle(h, 0, e), called(e, e, 618))
        record(h, 0, [(3, more)])
        return h

    same('four open, equal to the last', full(40).delete(0), deletion(40, 0))
    h = full(41)
    same('a fifth', h.delete(0), History.refused(13))
    same('the totals are lowered', settle(h, 0, 39, 3), recorded(39))
    same('and it is tried again', h.delete(0), deletion(40, 0))
    same('a settlement of one under deletion', settle(h, 0, 41), History.refused(13))
    h = full(41)
    same('a fifth', h.delete(0), History.refused(13))
    go(h, 1)
    same('a fifth on 1 September', h.delete(0), History.refused(13))
    same('its annual run', h.annual(0), (5, 41, 2, 0, 0, 0, 0))
    go(h, 9)
    same('10 September, still a fifth', h.delete(0), History.refused(13))
    same('its annual run again', h.annual(0), (5, 41, 2, 0, 0, 0, 0))
    go(h, 1)
    same('11 September, they are firm', h.statement(0), statement(40, 0, 1, 100000000, 4))
    same('then it is accepted', h.delete(0), deletion(41, 1))
    same('once', h.delete(0), History.refused(24))
    same('calls made', h.calls_made(), (8, 5, 0, 0, 0, 0, 0))
    # In the status 24 comes before 13, and outside August and September too.
    h = full(40)
    same('four open', h.delete(0), deletion(40, 0))
    record(h, 0, [(3, 50)])
    same('in the status, and it would be a fifth', h.delete(0), History.refused(24))
    h = producer(639)
    for e in (10, 20, 30, 40):
        same('an open call', settle(h, 0, e), called(e, e, 649))
    record(h, 0, [(3, 50)])
    same('1 October, and it would be a fifth', h.delete(0), History.refused(24))


def deletion_october():
    """A next amount of 2,000,000 euros set on 1 September 2021, and a deletion to 3,000,000 euros on 20, 21 or 30 September: the firm amount of the
    days from 30 September on, and what is charged with no cover at all. The call of 20 September is firm on no day."""
    m = 100000000
    for day, table in ((628, {638: 0, 639: 2, 640: 2, 649: 2, 650: 2}), (629, {638: 0, 639: 2, 640: 3, 649: 3, 650: 3}),
                       (638, {638: 0, 639: 2, 640: 2, 648: 2, 649: 3, 650: 3})):
        h = producer(609, [(3, 2 * m)])
        same('the annual run', h.annual(0), (5, 2 * m, 1, 0, 0, 0, 0))
        record(h, 0, [(2, 3 * m)])
        go(h, day - 609)
        same(f'deletion on {day}', h.delete(0), deletion(3 * m, 1))
        for at, firm in table.items():
            go(h, at - h.today)
            same(f'deletion on {day}, the firm amount of {at}', h.people[0].firm(at), firm * m)
        mills = {628: 12 * 2 * m, 629: 1 * 2 * m + 11 * 3 * m, 638: 10 * 2 * m + 2 * 3 * m}[day]
        same(f'deletion on {day}, charged', h.statement(0), statement(table[650] * m, 0, 12, mills, 1))
    # The next amount is higher: the call of 21 September raises nothing when it ends.
    h = producer(609, [(3, 1 * m), (4, 1 * m), (5, 1 * m), (6, 2 * m)])
    same('the annual run', h.annual(0), (5, 2 * m, 4, 0, 0, 0, 0))
    go(h, 20)
    same('the deletion, below the next amount', h.delete(0), deletion(1 * m, 1))
    go(h, 10)
    same('1 October, the next amount', h.statement(0), statement(2 * m, 0, 1, 2 * m, 1))
    same('its call is open below it', h.people[0].open_calls(639), [1 * m])
    same('a total between the two', settle(h, 0, 2 * m), covered(2 * m))
    same('a total above both', settle(h, 0, 2 * m + 1), called(2 * m + 1, 2 * m + 1, 649))
    go(h, 1)
    same('2 October, it has ended', h.statement(0), statement(2 * m, 0, 2, 4 * m, 2))
    # The next amount is lower: the open call keeps a total from calling.
    h = producer(609, [(3, 100)])
    same('the annual run', h.annual(0), (5, 100, 1, 0, 0, 0, 0))
    record(h, 0, [(2, 300)])
    go(h, 29)
    same('30 September', h.delete(0), deletion(300, 1))
    h.lodge(0, 0, 'cash', 200)
    go(h, 1)
    same('1 October', h.statement(0), statement(100, 200, 0, 0, 1))
    same('none of the cash is released', h.release(0, 0, 1), History.refused(16))
    same('a total above the firm amount alone', settle(h, 0, 299), covered(299))
    same('the same as the open call', settle(h, 0, 300), covered(300))
    same('one above it', settle(h, 0, 301), called(301, 101, 649))
    go(h, 9)
    same('10 October, the last free day', h.statement(0), statement(100, 200, 0, 0, 2))
    go(h, 1)
    same('11 October, it is firm', h.statement(0), statement(300, 200, 1, 100000000, 2))
    go(h, 1)
    same('12 October, the other is', h.statement(0), statement(301, 200, 2, 200000000, 2))


def deletion_example():
    """Participant A of source 002's example 1, on 1 September 2021: its three latest months are April to June with 773,729 euros at most; when July
    is settled at 754,464, as in example 2, they are May to July, and July is the largest."""
    table = [687801, 556887, 557260, 644620, 692868, 654313, 629674, 669566, 672286, 773729, 596570, 723508]

    def participant():
        h = History(609)
        h.admit(0, 0)
        record(h, 0, [(back, 100 * euros) for back, euros in zip(range(14, 2, -1), table)])
        h.lodge(0, 0, 'cash', 2000000)
        return h

    same('before July is settled', participant().delete(0), deletion(77372900, 1))
    h = participant()
    same('the annual run', h.annual(0), (5, 77372900, 12, 0, 0, 0, 0))
    record(h, 0, [(2, 75446400)])
    go(h, 20)
    same('21 September', h.delete(0), deletion(75446400, 1))
    same('calls made, the minimum and this', h.calls_made(), (8, 2, 0, 0, 0, 0, 0))
    same('an annual run', h.annual(0), History.refused(14))
    go(h, 9)
    same('30 September', h.statement(0), statement(2000000, 2000000, 0, 0, 2))
    go(h, 1)
    same('1 October, 753,729 euros are missing', h.statement(0), statement(77372900, 2000000, 1, 100000000, 2))
    go(h, 1)
    same('2 October', h.statement(0), statement(77372900, 2000000, 2, 200000000, 2))


def deletion_life():
    """1 August 2021, a producer with cash for a fifth of its deletion's amount: none of it is released, the rest is paid on the last free day, and
    its months are checked as ever."""
    h = producer(578)
    h.lodge(0, 0, 'cash', 100)
    record(h, 0, [(4, 500)])
    same('the cash is free', h.release(0, 0, 1), History.DONE)
    same('the deletion', h.delete(0), deletion(500, 1))
    same('the cash is held', h.release(0, 0, 1), History.refused(16))
    go(h, 10)
    same('11 August, the last free day', h.statement(0), statement(0, 99, 0, 0, 1))
    same('what is missing', h.lodge(0, 1, 'cash', 401), History.DONE)
    go(h, 1)
    same('12 August, it is firm', h.statement(0), statement(500, 500, 0, 0, 1))
    same('a check of June', settle(h, 0, 600), called(600, 100, 599))
    go(h, 11)
    same('23 August', h.statement(0), statement(600, 500, 1, 100000000, 2))
    go(h, 39)
    same('1 October, the firm amount stays', h.statement(0), statement(600, 500, 40, 4000000000, 2))
    same('a check of August, below 20%', settle(h, 0, 599), covered(599))
    same('not above the firm amount', settle(h, 0, 600), covered(600))
    same('above it', settle(h, 0, 601), called(601, 101, 649))
    same('calls made', h.calls_made(), (8, 3, 0, 0, 0, 0, 0))
    # In the first stretch of a history, by one with role 1: nothing of it depends on the stretch.
    h = History(609, first_stretch=True)
    h.admit(0, 1)
    record(h, 0, [(2, 2000001)])
    same('role 1, in the first stretch', h.delete(0), deletion(2000001, 1))
    h.end_stretch()
    same('behind it', (h.delete(0), h.annual(0)), (History.refused(24), History.refused(25)))
    same('its two calls', h.people[0].calls(), [(2000000, 619), (2000001, 619)])
    go(h, 11)
    same('both are firm', h.statement(0), statement(2000001, 0, 1, 100000000, 2))


# ---- calls counted by participant (paper 02, ask 6)

def counted(what, h, *due):
    """The counts in the statements of participants 0, 1, .., and their sum, which answers the old question."""
    same(f'counts, {what}', [h.statement(p)[6] for p in range(len(due))], list(due))
    same(f'counts, {what}, their sum', h.calls_made(), (8, sum(due), 0, 0, 0, 0, 0))


def counts():
    """1 April 2021, month 15: each participant's count has its own calls alone, and each call once, as long as it is kept and afterwards."""
    h = History(day_number(2021, 4, 1))
    counted('a fresh book', h)
    same('counts, of nobody', (h.statement(0), h.statement(64)), (History.refused(2), History.refused(1)))
    for p, role in enumerate((0, 2, 3, 4, 5, 3)):
        h.admit(p, role)
    counted('the minimums of admissions', h, 1, 1, 0, 0, 0, 0)
    same('counts, refused admissions', (h.admit(0, 2), h.admit(6, 6), h.admit(6, 1)), tuple(map(History.refused, (3, 4, 23))))
    counted('refused admissions', h, 1, 1, 0, 0, 0, 0)
    for e in (100, 200):
        same('counts, a settlement', settle(h, 2, e), called(e, e, 466))
    same('counts, a settlement', settle(h, 3, 200), called(200, 200, 466))
    same('counts, a settlement', settle(h, 4, 0), covered(0))
    same('counts, a settlement', settle(h, 5, 500, 3), recorded(500))
    counted('settlements', h, 1, 1, 2, 1, 0, 0)
    same('counts, a called total replaced', settle(h, 3, 7), covered(7))
    counted('a called total replaced', h, 1, 1, 2, 1, 0, 0)
    batch('counts, a batch that calls twice', TWO + '0405' + FIVE + '0505' + SEVEN, 2, h)
    counted('a batch that calls twice', h, 1, 1, 2, 1, 1, 1)
    batch('counts, a refused batch', TWO + '0405' + SEVEN + '3f05' + SEVEN, (2, 1), h)
    counted('a refused batch, whose first part would have called', h, 1, 1, 2, 1, 1, 1)
    go(h, 11)
    # 12 April 2021: no call is open. Producers 2 and 3, called to 100 and 200 and to 200, differ in their counts alone.
    same('counts, no call is open', [h.people[p].open_calls(h.today) for p in range(6)], [[]] * 6)
    same('counts, called twice', h.statement(2), statement(200, 0, 1, 100000000, 2))
    same('counts, called once', h.statement(3), statement(200, 0, 1, 100000000, 1))
    counted('calls that are open no longer', h, 1, 1, 2, 1, 1, 1)


def counts_of_fifth():
    """A fifth open call is refused and not counted; when the four have ended it is made, and is the fifth that is counted. So is a batch's."""
    h = batch_book()
    for e in (1, 2, 3, 4):
        same('counts, an open call', settle(h, 1, e), called(e, e, 466))
    counted('four open calls', h, 0, 4, 1)
    same('counts, a fifth', settle(h, 1, 5), History.refused(13))
    batch('counts, a fifth behind a call of another', TWO + '0005' + SEVEN + '0105' + FIVE, (13, 1), h)
    counted('a fifth', h, 0, 4, 1)
    go(h, 11)
    batch('counts, when the four have ended', TWO + '0005' + SEVEN + '0105' + FIVE, 2, h)
    counted('when the four have ended', h, 1, 5, 1)


def counts_of_deletions():
    """1 September 2021: a deletion is counted if it calls. An annual run makes no call, nor does the 1 October on which its amount takes effect."""
    h = History(609)
    for p, role in enumerate((0, 3, 3, 3)):
        h.admit(p, role)
    record(h, 0, [(3, 1999999)])
    record(h, 1, [(3, 70)])
    record(h, 3, [(3, 70)])
    same('counts, an annual run', h.annual(3), (5, 70, 1, 0, 0, 0, 0))
    counted('before any deletion', h, 1, 0, 0, 0)
    for p, expected in ((0, deletion(1999999, 0)), (1, deletion(70, 1)), (2, deletion(0, 0))):
        same(f'counts, delete {p}', h.delete(p), expected)
    counted('deletions', h, 1, 1, 0, 0)
    same('counts, delete 1 again', h.delete(1), History.refused(24))
    counted('a second deletion', h, 1, 1, 0, 0)
    go(h, 30)
    same('counts, 1 October, a next amount', h.statement(3), statement(70, 0, 1, 100000000, 0))
    same("counts, 1 October, a deletion's call", h.statement(1), statement(70, 0, 20, 2000000000, 1))
    counted('1 October', h, 1, 1, 0, 0)
    # Refused with 13 a deletion makes no call; accepted once the four have ended it makes the fifth.
    h = producer(608)
    for e in (10, 20, 30, 40):
        same('counts, an open call', settle(h, 0, e), called(e, e, 618))
    record(h, 0, [(3, 41)])
    same('counts, a deletion that would be the fifth', h.delete(0), History.refused(13))
    counted('a deletion that would be the fifth', h, 4)
    go(h, 11)
    same('counts, the deletion when they have ended', h.delete(0), deletion(41, 1))
    counted('the deletion when they have ended', h, 5)


def counts_of_others():
    """What the accountants compared: a participant's statement is the same whoever else is there, and whatever was called of them."""
    def life(others):
        h, seen = History(609, first_stretch=True), []
        h.admit(1, 1)
        if others:
            for p in (0, 2, 63):
                h.admit(p, 0)
        h.end_stretch()
        record(h, 1, [(3, 2000001)])
        for days, act in ((0, lambda p: h.annual(p)), (0, lambda p: h.delete(p)), (40, lambda p: settle(h, p, 2000002)), (11, None), (300, None)):
            go(h, days)
            for p in (0, 1, 2, 63) if others and act else (1,) if act else ():
                act(p)
            seen.append(h.statement(1))
        return h, seen

    alone, among = life(False), life(True)
    same('counts, among others', among[1], alone[1])
    # Its minimum, its deletion, and on 11 October a settlement above what they have left firm.
    same('counts, alone', [found[6] for found in alone[1]], [1, 2, 3, 3, 3])
    same('counts, alone, the sum', alone[0].calls_made(), (8, 3, 0, 0, 0, 0, 0))
    # Each of the three others: its minimum and the settlement; their deletions of 0 called nothing.
    same('counts, among others, the sum', among[0].calls_made(), (8, 3 + 3 * 2, 0, 0, 0, 0, 0))


def releases():
    """The most that may be released: of cash what is held or what the cover has beyond the floor, of a letter all or nothing."""
    h = History(day_number(2021, 4, 1))
    for p in (0, 1):
        h.admit(p, 3)
    same('releasable, above 63', h.releasable(64, 8), (1, 0))
    same('releasable, not admitted', h.releasable(2, 8), (2, 0))
    same('releasable, above 7', h.releasable(0, 8), (5, 0))
    same('releasable, empty', h.releasable(0, 7), (0, 0))
    h.lodge(0, 0, 'cash', 700)
    h.lodge(0, 1, 'letter', 500, h.today, h.today + 3)
    h.lodge(0, 2, 'letter', 90, h.today + 1, h.today + 20)
    same('releasable, nothing called', [h.releasable(0, place)[1] for place in range(4)], [700, 500, 90, 0])
    same('it calls', settle(h, 0, 1000), called(1000, 300, h.today + 10))
    same('releasable, of the cash what is above the call', [h.releasable(0, place)[1] for place in range(4)], [200, 0, 90, 0])
    same('one cent more', h.release(0, 0, 201), History.refused(16))
    go(h, 3)
    h.lodge(0, 3, 'cash', 1)
    same("releasable, on the letter's last day", [h.releasable(0, place)[1] for place in range(4)], [291, 0, 90, 1])
    go(h, 1)
    same('releasable, the letter lapsed', [h.releasable(0, place)[1] for place in range(4)], [0, 0, 0, 0])
    same('not even the letter that has begun', h.release(0, 2, 90), History.refused(16))


def small_call(h, rng, p):
    """A call on a small book, of amounts in single cents."""
    t, place, amount = h.today, rng.randrange(3), rng.randint(1, 9)
    way = rng.choice('cccllrrsssadg')
    if way == 'c':
        return h.lodge(p, place, 'cash', amount)
    if way == 'l':
        first = t + rng.randint(-3, 4)
        return h.lodge(p, place, 'letter', amount, first, first + rng.randint(0, 16))
    if way == 'r':
        return h.release(p, place, amount)
    if way == 's':
        return h.settle(p, month(t) - rng.choice((2, 2, 3)), [rng.randint(-2, 20), 0, 0, 0, 0])
    if way == 'a':
        return h.annual(p)
    if way == 'd' and rng.random() < 0.2:
        return h.delete(p)
    return h.advance(t + rng.choice((1, 1, 2, 5, 11)), 20)


def accepted(h, p, place, amount):
    """Whether a release is accepted; it is taken out of the history again."""
    done = h.release(p, place, amount) == History.DONE
    if done:
        h.people[p].acts.pop()
    return done


def releases_tried():
    """On small books, after each call: the most that may be released is the largest amount whose release is accepted, of all that could be."""
    rng, met = random.Random('releases 1'), set()
    for _ in range(60):
        h = History(day_number(2021, rng.choice((7, 8, 9)), rng.randint(1, 28)))
        for p in (0, 1):
            h.admit(p, 3 + p)
        for _ in range(40):
            p = rng.randrange(2)
            small_call(h, rng, p)
            for place in range(3):
                most = max([a for a in range(1, 12) if accepted(h, p, place, a)], default=0)
                same('releasable, every amount tried', h.releasable(p, place), (0, most))
                held = h.people[p].position(place, h.today)
                met.add((held and held[0], most == 0, held is not None and most == held[1]))
    same('releasable, met', met, {(None, True, False), ('cash', True, False), ('cash', False, False), ('cash', False, True), ('letter', True, False),
                                  ('letter', False, True)})


def afresh(who, start):
    """The opened days, their firm amounts and covers at the opening, worked out from all of a participant's calls at the end: firm amounts by them
    all, covers by those made on an earlier day."""
    return [(day, reading.firm_on(day, who.periods(), who.calls()),
             reading.cover_on(day, who.amounts([act for act in who.acts if act[0] < day]))) for day in range(who.day + 1, start + 1)]


def account_lines(rng):
    """A journal of three participants: lines as they may be typed, accepted or not."""
    today = day_number(2021, rng.choice((3, 6, 8, 9)), rng.randint(1, 28))
    lines = ['fresh %d # from today on' % today]
    for _ in range(rng.randint(20, 70)):
        p, place, m, euros = rng.randrange(3), rng.randrange(3), month(today), '%d.%02d' % (rng.randint(0, 30000), rng.randrange(100))
        way, behind = rng.random(), rng.choice(('', '', ' # receipt %d' % rng.randrange(9999), '\t#\t  a note\t ', '#'))
        if way < 0.12:
            line = f'admit {p} {rng.choice((0, 2, 3, 4))}'
        elif way < 0.25:
            line = f'lodge {p} {place} cash {euros}'
        elif way < 0.40:
            first = today + rng.randint(-3, 20)
            line = f'lodge {p} {place} letter {euros} {first} {first + rng.randint(0, 60)}'
        elif way < 0.48:
            line = f'release {p} {place} {euros}'
        elif way < 0.60:
            line = f'settle {p} {m - rng.choice((2, 2, 2, 3, 9))} {euros} 0 -0.00 -{rng.randint(0, 900)} 0.05'
        elif way < 0.66:
            parts = [(q, [rng.randint(-100000, 3000000), 0, 0, 0, 0]) for q in rng.sample(range(3), rng.choice((1, 2, 3)))]
            line = 'batch ' + batch_bytes(m - 2, parts).hex()
        elif way < 0.70:
            line = f'annual {p}'
        elif way < 0.73:
            line = f'delete {p}'
        elif way < 0.76:
            line = f'statement {p}'
        else:
            today += rng.choice((1, 1, 5, 10, 11, 30))
            line = f'advance {today}'
        lines.append(line + behind)
    return [line.encode() for line in lines]


def batch_bytes(m, parts):
    data = [bytes([p, len(figures)]) + b''.join(x.to_bytes(8, 'little', signed=True) for x in figures) for p, figures in parts]
    at, pairs = 4 + 8 * len(data), b''
    for part in data:
        pairs += at.to_bytes(4, 'little') + len(part).to_bytes(4, 'little')
        at += len(part)
    return m.to_bytes(2, 'little') + len(data).to_bytes(2, 'little') + pairs + b''.join(data)


class Keeping(ledger.Kept):
    """A kept book whose journal is held."""

    def __init__(self):
        super().__init__()
        self.data = b''

    def keep(self, lines):
        self.data += b''.join(line + b'\n' for line in lines)


def items():
    """The items of participants in journals drawn from a fixed seed: their sums are the statements', the days are as worked out afresh, and an
    extract has the same items and the same figures, day by day."""
    rng, runs, charged = random.Random('accounts 1'), 0, 0
    for _ in range(120):
        keeping = Keeping()
        for line in account_lines(rng):
            keeping.answer(line)
        book = keeping.ledger.book
        for p in sorted(book.people):
            who = book.people[p]
            same('openings, worked out afresh', who.openings, afresh(who, book.today))
            _, _, _, _, days, mills, _ = book.statement(p)
            text, own = accounts.items(p, keeping.data), accounts.extract(p, keeping.data)
            same('items, their sum and the statement', text.split(b'\n')[-3].split()[1:], text.split(b'\n')[-2].split()[1:])
            same('items, days and charge', text.split(b'\n')[-2].split(), [b'statement', b'%d' % days, accounts.mills_in_euros(mills).encode()])
            same('items of the extract', accounts.audit(own), text)
            same('items of the extract, separated', accounts.audit(own, True), accounts.items(p, keeping.data, True))
            same('days of the extract', accounts.days(p, own), accounts.days(p, keeping.data))
            same('an extract of the extract', accounts.extract(p, own), own)
            alone = accounts.replayed(p, own).ledger.book
            same('the extract names nobody else', list(alone.people), [p])
            same('statement by the extract', alone.statement(p), book.statement(p))
            found = who.items()
            same('runs, one behind the other', all(a[1] < b[0] for a, b in zip(found, found[1:])), True)
            same('runs, as long as they can be', any(a[1] + 1 == b[0] and a[2:] == b[2:] for a, b in zip(found, found[1:])), False)
            same('runs, every charged day', [day for a in found for day in range(a[0], a[1] + 1)], [day for day, s in who.shortfalls() if s > 0])
            runs, charged = runs + len(found), charged + days
    same('runs and charged days, met', (runs > 100, charged > 1000), (True, True))


def entries():
    """What made a participant's figures, by hand."""
    journal = b"""role-retired
fresh 366 # begins
admit 3 0
lodge 3 0 cash 25000000
lodge 3 1 letter 10000000 370 730 # receipt 4711
admit 5 3 # somebody else
advance 425 59
settle 3 12 12345678 0 0 0 0 # too little to call
settle 3 12 42345678 0 0 0 0 # March
advance 639 1000 # to October
advance 731 92 # and to the new year
"""
    due = """2021-01-01  admitted            supplier
2021-01-01  called                       20000.00  free until 2021-01-11, admission
2021-01-01  lodged at 0                 250000.00  cash
2021-01-01  lodged at 1                 100000.00  letter from 2021-01-05 to 2021-12-31  # receipt 4711
2021-03-01  called                      423456.78  free until 2021-03-11, settlement of 2021-01  # March
2022-01-01  lapsed at 1                 100000.00
      from         to   days          firm EUR         cover EUR     shortfall EUR  charge a day EUR            charge EUR
2021-03-12 2021-12-31    295         423456.78         350000.00          73456.78        1000.00000          295000.00000
2022-01-01 2022-01-01      1         423456.78         250000.00         173456.78        1000.00000            1000.00000
sum                      296                                                                                  296000.00000
statement                296                                                                                  296000.00000
"""
    same('entries and items', accounts.items(3, journal).decode(), due)
    # of the operator's own lines the references are left out, since they may tell of others
    own = journal.replace(b'admit 5 3 # somebody else\n', b'')
    for reference in (b' # begins', b' # to October', b' # and to the new year'):
        own = own.replace(reference, b'')
    same('extract', accounts.extract(3, journal), b'# extract of participant 3\n' + own)


def files():
    """A participant's file, by hand: every kind of line, a month below zero, and the last digits of all wholes at one place."""
    to = ledger.Filter()
    for line in (b'fresh 2021-09-01', b'admit 3 trader', b'lodge 3 0 cash 250000.00', b'lodge 3 2 letter 100000.00 2021-01-01 2021-12-31',
                 b'settle 3 2021-05 123456.78 0 0 0 0', b'settle 3 2020-07 -0.05 0 0 0 0', b'settle 3 2021-07 400000.00 0 0 0 0',
                 b'release 3 0 1.00', b'annual 3', b'delete 3', b'advance 2021-09-03'):
        to.answer(line)
    same('file', to.answer(b'file 3'), """file 3 611 2021-09-03
role             trader
status           under deletion
position 0       cash           249999.00
position 2       letter         100000.00  from 2021-01-01 to 2021-12-31
open call                        10000.00  free until 2021-09-11
open call                       400000.00  free until 2021-09-11
next amount                     123456.78
month 2020-07                       -0.05
month 2021-05                   123456.78
month 2021-07                   400000.00
firm amount                          0.00
cover                           349999.00
shortfall                            0.00
days charged                         0
charge                               0.00000
calls made                           2""")
    to.answer(b'advance 2021-09-14')
    to.answer(b'advance 2021-10-01')
    to.answer(b'release 3 0 1.00')
    to.answer(b'settle 3 2021-08 -1234567.89 0 0 0 0')
    same('file, later', to.answer(b'file 3'), """file 3 639 2021-10-01
role             trader
status           under deletion
position 0       cash           249998.00
position 2       letter         100000.00  from 2021-01-01 to 2021-12-31
month 2021-05                   123456.78
month 2021-07                   400000.00
month 2021-08                 -1234567.89
firm amount                     123456.78
cover                           349998.00
shortfall                            0.00
days charged                        19
charge                           19000.00000
calls made                           2""")


def words():
    """What stands behind the answers, by hand."""
    to = ledger.Filter(words=True)
    for line, due in ((b'fresh 2021-03-01', 'done'), (b'admit 0 supplier', 'done'), (b'today', 'today 425 2021-03-01'), (b'calls', 'calls 1'),
                      (b'settle 0 2021-01 123456.78 0 0 0 0', 'called 12345678 12345678 435  total 123456.78, lodge 123456.78 by 2021-03-11'),
                      (b'settle 0 2021-01 -0.05 0 0 0 0', 'covered -5  total -0.05'), (b'settle 0 2020-11 0 0 0 0 0', 'recorded 0  total 0.00'),
                      (b'releasable 0 0', 'releasable 0  0.00'), (b'advance 2021-03-14', 'opened 13'),
                      (b'statement 0', 'statement 12345678 0 12345678 3 300000000 2  firm 123456.78, cover 0.00, shortfall 123456.78, '
                                       '3 days charged, charge 3000.00000, 2 calls made'),
                      (b'settle 1 2021-01', 'refused 2  the participant is not admitted'), (b'batch', 'refused 20 0  '
                      'the file is too short for its pairs, or has none or over 64 (pair 0, counted from 0)'), (b'admit', 'error 13 too few words'),
                      (b'fresh 29220', 'refused 17  the day is above 29219, or before today'), (b'admit 1 Trader', 'error 15 not a role: Trader'),
                      (b'special 3 0 0 0 3 0 0 0 3 0 0 0 0 0 0 0', 'special 500000  5000.00'), (b'advance 2021-09-01', 'opened 171'),
                      (b'annual 0', 'annual 2000000 2  next amount 20000.00 from 2 months'), (b'delete 0', 'deletion 0 0  amount 0.00, not called'),
                      (b'admit 2 3', 'done'), (b'settle 2 2021-06 5.00 0 0 0 0', 'recorded 500  total 5.00'),
                      (b'delete 2', 'deletion 500 1  amount 5.00, called'), (b'role-retired', None),
                      (b'lodge 0 0 cash 1,00', 'error 24 not a number: 1,00  no comma: whole cents, or euros as 20000.00')):
        same(f'words behind {line}', to.answer(line), due)
    to = ledger.Filter(words=True, csv=True)
    for line in (b'fresh 0', b'admit 5 trader', b'admit 0 producer', b'lodge 5 0 cash 12.34', b'advance 12'):
        to.answer(line)
    same('a report as comma-separated values', to.answer(b'report'), """participant,role,firm,cover,shortfall,days_charged,charge
0,producer,0.00,0.00,0.00,0,0.00000
5,trader,10000.00,12.34,9987.66,2,2000.00000""")
    same('no rows', ledger.Filter(csv=True).answer(b'report'), 'participant,role,firm,cover,shortfall,days_charged,charge')


def references():
    for line, due in ((b'calls', b''), (b'calls #', b''), (b'calls # \t\r ', b''), (b'calls#a', b'a'), (b'calls # \ta  b#\t\r', b'a  b#'),
                      (b'calls #' + b'x' * 1001, b'x' * 1000), (b'calls #  ' + b'x' * 999 + b' y', b'x' * 999), (b'calls # \x00\xff', b'\x00\xff')):
        same('reference', ledger.reference_of(line), due)


def wrong_words():
    for line, due in ((b'frob 1 2', b'frob'), (b'admit 2 0 0 1', b'0'), (b'admit x y', b'x'), (b'fresh 2021-02-30', b'2021-02-30'),
                      (b'settle 0 2022-01 1 2 x y', b'x'), (b'settle 0 2021-13 1', b'2021-13'), (b'admit 0 nobody 1', b'nobody'),
                      (b'lodge 0 0 bond 5', b'bond'), (b'batch 180 1', b'180'), (b'batch 18 1 2', b'1'), (b'admit', None), (b'calls \x00', None),
                      (b'special 3 1 2', None), (b'special 1 5 0 0 0 0 0 0 1 0', b'1'), (b'today 1', b'1'), (b'release 0 0 2,000', b'2,000'),
                      (b'x #' + b' ' * 4093, b'x'), (b'x #' + b' ' * 4094, None)):
        same(f'wrong word of {line[:40]}', ledger.wrong_word(line, ledger.reason_of(line)), due)
    same('a mark at the start is passed over', ledger.Filter(words=True).answer(ledger.MARK + b'frob'), 'error 1 no such call: frob')
    same('a word is cut', ledger.beside_error(b'x' * 41, 'no such call'), ': ' + 'x' * 40)
    same('a comma', ledger.beside_error(b'release 0 0 2,00', 'not a number'), ': 2,00  no comma: whole cents, or euros as 20000.00')


def main():
    for part in (calendar, examples, checks, charges, two_calls, deposits, batch_too_short, batch_not_following, batch_parts,
                 batch_settlements, admissions, first_stretch, deletion_days, deletion_amounts, deletion_compared, deletion_causes, deletion_fifth,
                 deletion_october, deletion_example, deletion_life, counts, counts_of_fifth, counts_of_deletions, counts_of_others, releases,
                 releases_tried, items, entries, files, words, references, wrong_words):
        part()
    for line in differences:
        print(line)
    print(f'paper 01, figures of the book, D, batches, role retired, deletion, counts, releases and items: {done} compared, '
          f'{len(differences)} different')
    return 1 if differences else 0


if __name__ == '__main__':
    sys.exit(main())
