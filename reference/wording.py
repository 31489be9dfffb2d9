"""Amounts as people write them, and the words beside the numbers of an answer: what stands behind the answer's line where words are asked for.

The texts of the refusals are for people, and follow from nothing: they are the table of docs/LEDGER.md, shortened to one clause each. An error's
words need the line that it is about, and are in ledger.py.
"""
import reading

REFUSED = {
    1: 'there is no participant above 63',
    2: 'the participant is not admitted',
    3: 'the participant is admitted already',
    4: 'there is no role above 5',
    5: 'there is no position above 7',
    6: 'the position is filled',
    7: 'the position is empty',
    8: 'the amount is outside 1 to 10^12 cents',
    9: "the letter's days are against the rule",
    10: 'there are fewer than 5 or more than 16 figures',
    11: 'a figure, rate, settlement, excess or mark is out of range',
    12: "the month does not lie 2 to 14 months before today's",
    13: 'the call would be a fifth open one',
    14: 'an annual run is made only from 1 to 10 September',
    15: 'more is released than is held, or a letter in part',
    16: 'too little cover would be left',
    17: 'the day is above 29219, or before today',
    18: 'a list has fewer than three usable rates',
    19: 'a list is too long, or two lists differ in length',
    20: 'the file is too short for its pairs, or has none or over 64',
    21: 'a part does not begin where the one before it ended',
    22: "a part's length is wrong, or its participant stands twice",
    23: 'role 1, self-supplied, is retired',
    24: 'deletion is in August and September only, and once',
    25: 'the participant is under deletion: it has no annual run'}


def decimals(number, places):
    """A number of parts as a number of wholes, a whole being 10 ^ places parts. A minus stands before one below zero."""
    size = abs(number)
    return f'{"-" if number < 0 else ""}{size // 10 ** places}.{size % 10 ** places:0{places}}'


def euros(cents):
    return decimals(cents, 2)


def mills_in_euros(mills):
    """1,000 mills are a cent."""
    return decimals(mills, 5)


def date_text(day):
    """The date of a day; none of one beyond the calendar, which a call's last free day may be."""
    return str(reading.date(day)) if day <= reading.LAST_DAY else ''


def month_name(m):
    return f'{2020 + m // 12}-{m % 12 + 1:02}'


def beside(answer):
    """What stands behind an answer that is no error. One of several lines has nothing."""
    word, *numbers = answer.split()
    if word not in BESIDE or '\n' in answer:
        return ''
    return '  ' + BESIDE[word](*map(int, numbers))


def refused(number, index=None):
    return REFUSED[number] + ('' if index is None else f' (pair {index}, counted from 0)')


def called(e, asked, last):
    return f'total {euros(e)}, lodge {euros(asked)} by {date_text(last)}'


def total(e):
    return f'total {euros(e)}'


def annual(amount, months):
    return f'next amount {euros(amount)} from {months} months'


def deletion(amount, is_called):
    return f'amount {euros(amount)}, {"called" if is_called else "not called"}'


def statement(firm, cover, shortfall, days, mills, calls):
    return (f'firm {euros(firm)}, cover {euros(cover)}, shortfall {euros(shortfall)}, {days} days charged, charge {mills_in_euros(mills)}, '
            f'{calls} calls made')


BESIDE = {'refused': refused, 'called': called, 'covered': total, 'recorded': total, 'annual': annual, 'deletion': deletion, 'statement': statement,
          'special': euros, 'releasable': euros}
