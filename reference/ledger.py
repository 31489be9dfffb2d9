"""The ledger in Python's standard library, over paper 01's reading of the history (reading.py): what the program `ledger` has to answer.

    python3 reference/ledger.py [--bail] [--end] < CALLS                the filter; so also with --words and --csv
    python3 reference/ledger.py [--bail] [--end] --keep FILE < CALLS    keeps the book in the journal FILE
    python3 reference/ledger.py [--bail] [--end] --read FILE < CALLS    answers questions to the journal FILE
    python3 reference/ledger.py --load BATCH < CALLS                    the filter, and then a batch that is a file
    python3 reference/ledger.py --load BATCH --keep FILE                enters a batch that is a file behind the journal FILE
    python3 reference/ledger.py --check                                 paper 01's starred figures, as calls and their answers

With --words what a number means stands behind the answers (wording.py), and with --csv a report is a file of comma-separated values.

A line is read to a tuple, the call's name first and its arguments after it, numbers as numbers; a settlement's last argument is the list of its
figures, a special guarantee's arguments are its seven lists, and a batch's is its bytes. An advance without a budget has the last day's number for
it. The line `role-retired` is read the same way, but is no call: it ends the first stretch of a journal, whose calls were made under the old
admission rule (paper 02, ask 3), and has no answer. The comment behind an accepted change is its reference, and is kept with it. The book is
reading.py's; the special guarantee stands here, and what is worked out from a whole journal in accounts.py. What the program does with the system
(locks, forced writes, what fails) is not here: reference/ledger_cases.py tries that.
"""
import datetime
import os
import re
import sys

sys.dont_write_bytecode = True

import reading
from wording import beside, date_text, euros, mills_in_euros, month_name

LONGEST = 65535                                     # bytes of a line without its newline
LOADED = 32764                                      # bytes of a file that is entered as a batch, at most
DROPPED = 20479                                     # bytes behind a journal's last newline that are dropped at most
MARK = b'\xef\xbb\xbf'                              # a byte order mark, passed over at the start of an input
REFERENCE = 1000                                    # bytes of a reference at most
LOOKED_AT, SHOWN = 4096, 40                         # bytes of a line whose wrong word is looked for at most, and that are shown of the word
BLANKS = b' \t\r'
QUESTIONS = ('statement', 'calls', 'special', 'report', 'file', 'releasable', 'today')
STRETCH_END = ('role-retired',)                     # the line that ends a journal's first stretch, as it is read
NATURAL, DAY, SIGNED = 2 ** 64 - 1, 2 ** 32 - 1, 2 ** 63 - 1
ROLES = ('supplier', 'self-supplied', 'trader', 'producer', 'res-aggregator', 'demand-response')
WORD = re.compile(rb'[^ \t\r]+')                    # blanks are spaces, tabs and carriage returns
CONTROL = re.compile(rb'[\x00-\x08\x0a-\x0c\x0e-\x1f\x7f]')
DIGITS = re.compile(rb'[0-9]+')
EUROS = re.compile(rb'([0-9]+)\.([0-9]{2})')
HEXADECIMAL = re.compile(rb'(?:[0-9A-Fa-f]{2})+')
DATE = re.compile(rb'([0-9]{4})-([0-9]{2})-([0-9]{2})')
MONTH = re.compile(rb'([0-9]{4})-([0-9]{2})')


class Fault(Exception):
    """A line that is no call, with its reason."""


# ---- words

def value(digits, most):
    """The number that digits give; one above the most counts as that."""
    digits = digits.lstrip(b'0')
    return most if len(digits) > 20 else min(int(digits or b'0'), most)


def natural(word):
    if not DIGITS.fullmatch(word):
        raise Fault('not a number')
    return value(word, NATURAL)


def cents(word):
    """The digits of an amount in cents: one in euros has two of them behind a dot."""
    parts = EUROS.fullmatch(word)
    return b''.join(parts.groups()) if parts else word


def amount(word):
    """An amount that is lodged or released."""
    return natural(cents(word))


def figure(word):
    """A figure of a settlement."""
    return signed(b'-' + cents(word[1:]) if word[:1] == b'-' else cents(word))


def signed(word):
    """A rate, zero settlement or excess, or a figure's cents: it may have a minus."""
    if word[:1] != b'-':
        return mark(word)
    if not DIGITS.fullmatch(word[1:]):
        raise Fault('not a number')
    return -value(word[1:], SIGNED + 1)


def mark(word):
    """A natural number that is held as a signed one."""
    if not DIGITS.fullmatch(word):
        raise Fault('not a number')
    return value(word, SIGNED)


def real(year, mon, dom):
    """A date from 2020 to 2099, or None where there is no such date."""
    try:
        return datetime.date(year, mon, dom) if 2020 <= year <= 2099 else None
    except ValueError:
        return None


def day(word):
    if DIGITS.fullmatch(word):
        return value(word, DAY)
    parts = DATE.fullmatch(word)
    found = parts and real(*map(int, parts.groups()))
    if not found:
        raise Fault('not a day')
    return (found - reading.FIRST).days


def month(word):
    if DIGITS.fullmatch(word):
        return value(word, DAY)
    parts = MONTH.fullmatch(word)
    found = parts and real(*map(int, parts.groups()), 1)
    if not found:
        raise Fault('not a month')
    return (found.year - 2020) * 12 + found.month - 1


def role(word):
    for number, name in enumerate(ROLES):
        if word == name.encode():
            return number
    if not DIGITS.fullmatch(word):
        raise Fault('not a role')
    return value(word, NATURAL)


def kind(word):
    if word not in (b'cash', b'letter'):
        raise Fault('neither cash nor letter')
    return word.decode()


def file(word):
    """The bytes of a batch."""
    if not HEXADECIMAL.fullmatch(word):
        raise Fault('not two hexadecimal digits for each byte')
    return bytes.fromhex(word.decode())


# ---- a line

# The arguments of the calls that have a fixed number of words; a lodging's go on after `cash` or `letter`. A batch's word and an advance's budget may
# be missing.
ARGUMENTS = {'fresh': (day,), 'admit': (natural, role), 'lodge': (natural, natural, kind), 'release': (natural, natural, amount),
             'settle': (natural, month), 'annual': (natural,), 'advance': (day,), 'statement': (natural,), 'calls': (), 'special': (),
             'report': (), 'batch': (), 'role-retired': (), 'delete': (natural,), 'file': (natural,), 'releasable': (natural, natural), 'today': ()}
LODGED = {'cash': (amount,), 'letter': (amount, day, day)}


class Words:
    """The words of a line, taken from the left to the right."""

    def __init__(self, words):
        self.words, self.at = words, 0

    def more(self):
        return self.at < len(self.words)

    def take(self, due):
        if not self.more():
            raise Fault('too few words')
        self.at += 1
        return due(self.words[self.at - 1])

    def numbers(self, due):
        """A list: its length and then its numbers."""
        found = []
        for _ in range(self.take(natural)):
            found.append(self.take(due))
        return found


def call_of(line):
    """The call that a line is, without its newline, or STRETCH_END; None where it has no words."""
    if len(line) > LONGEST:
        raise Fault('line too long')
    line = line.partition(b'#')[0]
    if CONTROL.search(line):
        raise Fault('a control byte')
    found = WORD.findall(line)
    if not found:
        return None
    name = found[0].decode('latin-1')
    if name not in ARGUMENTS:
        raise Fault('no such call')
    words = Words(found[1:])
    call = [name] + [words.take(due) for due in ARGUMENTS[name]]
    if name == 'lodge':
        call += [words.take(due) for due in LODGED[call[3]]]
    elif name == 'settle':
        figures = []
        while words.more():
            figures.append(words.take(figure))
        call.append(figures)
    elif name == 'special':
        call += [words.numbers(due) for due in (signed, signed, mark, signed, signed, signed, signed)]
    elif name == 'batch':
        call.append(words.take(file) if words.more() else b'')
    elif name == 'advance':
        call.append(words.take(natural) if words.more() else reading.LAST_DAY)
    if words.more():
        raise Fault('too many words')
    return tuple(call)


def reference_of(line):
    """The reference that a line gives its call: its comment without the blanks around it, of which the first bytes are kept."""
    return line.partition(b'#')[2].strip(BLANKS)[:REFERENCE].rstrip(BLANKS)


# The reasons that a word of the line is to blame for.
OF_A_WORD = ('no such call', 'too many words', 'not a number', 'not a day', 'not a month', 'not a role', 'neither cash nor letter',
             'not two hexadecimal digits for each byte')


def reason_of(line):
    try:
        call_of(line)
    except Fault as fault:
        return str(fault)
    return None


def wrong_word(line, reason):
    """The word for which a line is no call: the last of the shortest beginning of its words that is no call for the same reason. None where no word
    is to blame, or the line is too long."""
    if reason not in OF_A_WORD or len(line) > LOOKED_AT:
        return None
    words = WORD.findall(line.partition(b'#')[0])
    return next(word for n, word in enumerate(words, 1) if reason_of(b' '.join(words[:n])) == reason)


def beside_error(line, reason):
    """What stands behind an error's reason: the wrong word, and what to write in place of a comma. Bytes stand for themselves."""
    word = wrong_word(line, reason)
    if word is None:
        return ''
    hint = '  no comma: whole cents, or euros as 20000.00' if b',' in word else ''
    return f': {word[:SHOWN].decode("latin-1")}{hint}'


def kept_line(call, reference=b''):
    """The line of a call as it is kept: in its numeric form, with its reference behind it."""
    return numeric(call).encode() + (b' # ' + reference if reference else b'')


def numeric(call):
    """The line of a call in its numeric form."""
    words = []
    for argument in call:
        if isinstance(argument, bytes):
            words.append(argument.hex())
        elif not isinstance(argument, list):
            words.append(argument)
        else:
            words += argument if call[0] == 'settle' else [len(argument)] + argument
    return ' '.join(map(str, words))


# ---- the special guarantee (paper 01, 'Special guarantee', and its causes 19, 11, 18)

def nearest(amount, parts):
    """amount / parts to the nearest whole, halves toward the larger number."""
    return (2 * amount + parts) // (2 * parts)


def ratio(rates):
    """The mean of the three largest rates."""
    return nearest(sum(sorted(rates)[-3:]), 3)


def within(numbers, least, most):
    return all(least <= number <= most for number in numbers)


def special(medium, low, marks, zero_medium, zero_low, excess_medium, excess_low):
    """The refusal's number, or 0, and the special guarantee in cents."""
    lists = (zero_medium, zero_low, excess_medium, excess_low)
    if len(medium) > 64 or len(low) > 64 or len(marks) != len(low) or len(set(map(len, lists))) > 1 or len(zero_medium) > 16:
        return 19, 0
    most = reading.MOST
    if not (within(medium + low, -100000, 100000) and within(marks, 0, 1) and within(zero_medium + zero_low, -most, most)
            and within(excess_medium + excess_low, 0, most)):
        return 11, 0
    usable = [rate for rate, new in zip(low, marks) if not new]
    if len(medium) < 3 or len(usable) < 3:
        return 18, 0
    product = ratio(medium) * sum(zero_medium) + ratio(usable) * sum(zero_low)
    return 0, max(nearest(product, 10000) - sum(excess_medium) - sum(excess_low), 500000)


# ---- the book

WIDTHS = (11, 16, 17, 17, 17, 12, 21)
HEADING = ('participant', 'role', 'firm EUR', 'cover EUR', 'shortfall EUR', 'days charged', 'charge EUR')
CSV_HEADING = ('participant', 'role', 'firm', 'cover', 'shortfall', 'days_charged', 'charge')


def row(cells, widths=WIDTHS):
    return ' '.join(str(cell).rjust(width) for cell, width in zip(cells, widths))


def comma_separated(rows):
    return '\n'.join(','.join(map(str, cells)) for cells in rows)


def in_file(label, text):
    """A line of a participant's file."""
    return f'{label:17}' + text


def of_wholes(number, places, what=''):
    """What it is, and a number with so many places: the last digit of the wholes stands at one place, so that amounts, counts and charges are
    aligned."""
    return f'{what:7}' + number.rjust(14 + (1 + places if places else 0))


class Ledger:
    """The book, and the answer to one call after the other. Before any `fresh` it is the fresh book of day 0. A first stretch goes on behind a
    `fresh`, until it is ended. With csv a report is comma-separated values."""

    def __init__(self, first_stretch=False, csv=False):
        self.book, self.csv = reading.History(0, first_stretch), csv

    def make(self, call):
        """The answer to a call: a line, or for a report several, without the last newline."""
        name, *args = call
        book = self.book
        if name == 'fresh':
            number, made = reading.fresh(*args, book.first_stretch)
            if number == 0:
                self.book = made
            return f'refused {number}' if number else 'done'
        if name == 'special':
            number, cents = special(*args)
            return f'refused {number}' if number else f'special {cents}'
        if name == 'report':
            return self.report()
        if name == 'file':
            return self.file(*args)
        if name == 'releasable':
            number, cents = book.releasable(*args)
            return f'refused {number}' if number else f'releasable {cents}'
        if name == 'today':
            return f'today {book.today} {reading.date(book.today)}'
        found, *numbers = getattr(book, 'calls_made' if name == 'calls' else name)(*args)
        word, count = (('refused', 1), ('done', 0), ('called', 3), ('covered', 1), ('recorded', 1), ('annual', 2), ('opened', 1),
                       ('statement', 6), ('calls', 1), ('batch', 1), ('refused', 2), ('deletion', 2))[found]
        return ' '.join([word] + [str(number) for number in numbers[:count]])

    def report(self):
        book, rows = self.book, []
        for p in sorted(book.people):
            _, firm, cover, shortfall, days, mills, _ = book.statement(p)
            rows.append((p, ROLES[book.people[p].role], euros(firm), euros(cover), euros(shortfall), days, mills_in_euros(mills)))
        if self.csv:
            return comma_separated([CSV_HEADING] + rows)
        return '\n'.join([f'report {book.today} {reading.date(book.today)} {len(book.people)}', row(HEADING)] + [row(cells) for cells in rows])

    def file(self, p):
        """A participant's file: what it holds, what is due of it, and what its statement says."""
        no = self.book.unknown(p)
        if no:
            return f'refused {no[1]}'
        who, today = self.book.people[p], self.book.today
        _, firm, cover, shortfall, days, mills, calls = self.book.statement(p)
        coming, now = who.next_amount(today), reading.month(today)
        lines = [f'file {p} {today} {reading.date(today)}', in_file('role', ROLES[who.role]),
                 in_file('status', 'under deletion' if who.deletion() else 'admitted')]
        for place in range(8):
            held = who.position(place, today)
            if held:
                what, amount, first, last = held
                dates = f'  from {reading.date(first)} to {reading.date(last)}' if what == 'letter' else ''
                lines.append(in_file(f'position {place}', of_wholes(euros(amount), 2, what) + dates))
        lines += [in_file('open call', of_wholes(euros(amount), 2) + f'  free until {date_text(last)}') for amount, last in who.open_until(today)]
        if coming is not None:
            lines.append(in_file('next amount', of_wholes(euros(coming), 2)))
        lines += [in_file(f'month {month_name(m)}', of_wholes(euros(total), 2)) for m, total in who.totals(now - 14, now - 2)]
        lines += [in_file('firm amount', of_wholes(euros(firm), 2)), in_file('cover', of_wholes(euros(cover), 2)),
                  in_file('shortfall', of_wholes(euros(shortfall), 2)), in_file('days charged', of_wholes(str(days), 0)),
                  in_file('charge', of_wholes(mills_in_euros(mills), 5)), in_file('calls made', of_wholes(str(calls), 0))]
        return '\n'.join(lines)


def refused(answer):
    return answer.startswith('refused')


class Filter:
    """Answers the lines of an input, which are counted from 1. Whoever types them is under the new admission rule, and `role-retired` is passed over
    like a line without words."""

    def __init__(self, words=False, csv=False):
        self.words, self.ledger = words, Ledger(csv=csv)
        self.begin()

    def begin(self, bail=False):
        """Before the first line of an input; with bail it stops behind the first refusal or error."""
        self.line, self.accepted, self.bail, self.stopped = 0, 0, bail, False

    def answer(self, line, whole=True):
        """The answer to the next line, without its newline; None where it has none. A last line that has no newline is not whole."""
        self.line += 1
        line = line.removeprefix(MARK) if self.line == 1 else line
        try:
            answer = self.taken(line, whole)
            answer = answer + beside(answer) if answer and self.words else answer
        except Fault as fault:
            answer = f'error {self.line} {fault}' + (beside_error(line, str(fault)) if self.words else '')
        if answer is not None and answer.startswith(('refused', 'error')):
            self.stopped = self.bail
        else:
            self.accepted += 1
        return answer

    def taken(self, line, whole):
        call = call_of(line)
        return None if call in (None, STRETCH_END) else self.made(call, reference_of(line))

    def made(self, call, reference=b''):
        return self.ledger.make(call)


class Stop(Exception):
    """A journal that can't be replayed, with what is said of it."""


class Kept(Filter):
    """The same for a kept book: changes that are accepted are kept, `fresh` only as the first of them, and no line without its newline is taken. The
    journal is replayed first, under the old admission rule up to its line `role-retired`; one without that line is a first stretch as a whole, and
    gets the line before the first change that is added."""

    def __init__(self, words=False, csv=False):
        super().__init__(words)
        self.ledger = Ledger(True, csv)
        self.any = False     # whether the journal has a change
        self.marked = False  # whether it has the line that ends its first stretch

    def first_only(self, call):
        if call[0] == 'fresh' and self.any:
            raise Fault('fresh is not the first call')

    def taken(self, line, whole):
        if not whole:
            raise Fault('line without newline, not taken')
        return super().taken(line, whole)

    def made(self, call, reference=b''):
        self.first_only(call)
        answer = self.ledger.make(call)
        if call[0] not in QUESTIONS and not refused(answer):
            self.keep(([] if self.marked else [kept_line(STRETCH_END)]) + [kept_line(call, reference)])
            self.any = self.marked = True
        return answer

    def replay(self, data):
        """Replays the complete lines of a journal, and gives the rest behind them. What is asked then is under the new rule, marked or not."""
        *lines, rest = data.removeprefix(MARK).split(b'\n')
        for number, line in enumerate(lines, 1):
            self.replay_line(number, line)
        self.ledger.book.end_stretch()
        return rest

    def replay_line(self, number, line):
        try:
            call = call_of(line)
            if call is None:
                return
            if call == STRETCH_END:
                self.marked = True
                self.ledger.book.end_stretch()
                self.replayed(call, line)
                return
            self.first_only(call)
            answer = self.ledger.make(call)
        except Fault as fault:
            raise Stop(f'line {number}: error {number} {fault}')
        if refused(answer):
            raise Stop(f'line {number}: {answer}')
        self.any |= call[0] not in QUESTIONS
        self.replayed(call, line)

    def replayed(self, call, line):
        """A call of the journal was replayed, or the line that ends its first stretch."""

    def found(self, data):
        """The same for a journal that is to be kept: a rest is given to be dropped only behind a kept call or the line `role-retired`, and if it is
        not too long."""
        rest, lines = self.replay(data), data.count(b'\n')
        if rest and (not (self.any or self.marked) or len(rest) > DROPPED):
            raise Stop(f'line {lines + 1}: line without newline')
        return rest


class Read(Kept):
    """The same for a journal that is only read: questions are answered, and changes are not made. A line without its newline is taken."""

    def taken(self, line, whole):
        return super().taken(line, True)

    def made(self, call, reference=b''):
        if call[0] not in QUESTIONS:
            raise Fault('only questions, the journal is read')
        return self.ledger.make(call)


def shown(rest):
    """What is dropped, as it is said: bytes that don't print as question marks."""
    return ''.join(chr(byte) if 32 <= byte <= 126 else '?' for byte in rest)


def dropped(name, rest):
    """What is said of a rest that is dropped."""
    return f'ledger: {name}: the last line has no end and is dropped: {shown(rest)}'


def contents(name):
    try:
        with open(name, 'rb') as file:
            return file.read()
    except OSError as error:
        raise Stop(error.strerror)


class Keeper(Kept):
    """Keeps the accepted changes in a journal, which is replayed first."""

    def __init__(self, name, words=False, csv=False):
        super().__init__(words, csv)
        data = contents(name) if os.path.exists(name) else b''
        rest = self.found(data)
        self.file = os.fdopen(os.open(name, os.O_RDWR | os.O_CREAT, 0o600), 'r+b', buffering=0)
        if rest:
            print(dropped(name, rest), file=sys.stderr, flush=True)
            self.file.truncate(len(data) - len(rest))
        self.file.seek(0, os.SEEK_END)

    def keep(self, lines):
        """Appends lines at once."""
        self.file.write(b''.join(line + b'\n' for line in lines))


def answers(data, to=None):
    """The answers of the filter (or of a kept book) to the bytes of an input, as bytes. What stands behind the last newline is the last line."""
    to, out = to or Filter(), []
    *lines, rest = data.split(b'\n')
    for line, whole in [(line, True) for line in lines] + [(rest, False)] * (rest != b''):
        if to.stopped:
            break
        out.append(to.answer(line, whole))
    return b''.join(answer.encode('latin-1') + b'\n' for answer in out if answer is not None)


def ended(to):
    """The line that is due behind the answers where an end is asked for, when the whole input was answered."""
    return b'' if to.stopped else f'end {to.line} {to.accepted}\n'.encode()


def load(to, data):
    """The answer to a file that is entered as a batch, as bytes. In the kept way its line is kept like any other."""
    if len(data) > LOADED:
        raise Stop('too long for a batch')
    answer = to.made(('batch', data))
    return (answer + (beside(answer) if to.words else '')).encode() + b'\n'


def run(to, end):
    """Answers standard input: every complete line that was read before more is waited for."""
    rest = []                # pieces of a line whose newline has not come
    while not to.stopped:
        piece = os.read(0, 1 << 16)
        whole, newline, last = piece.rpartition(b'\n')
        if newline or not piece:
            rest.append(whole + newline)
            put(answers(b''.join(rest), to))
            rest = []
        rest.append(last)
        if not piece:
            put(ended(to) if end else b'')
            return


def put(data):
    while data:
        data = data[os.write(1, data):]


# ---- paper 01's starred figures

EXAMPLE_1 = (687801, 556887, 557260, 644620, 692868, 654313, 629674, 669566, 672286, 773729, 596570, 723508)  # July 2020 to June 2021, euros
SECTION_8 = ('special 5 126 -18 4 -234 0 6 3253 4048 4723 1326 780 11291 6 0 0 0 0 0 1 4 18633458 39457632 73289522 95618724 '
             '4 2338818 5389234 7762366 8919274 4 0 0 0 0 4 0 0 {} 0')

# Calls and the answers that are due. The rates' ratios are shown by a zero settlement of 10^12 cents, of which a hundredth of a percent is
# 10^8 cents; with low rates of 0 they stand alone.
STARRED = [('# example 1', '')] + [
    ('fresh 2021-09-01', 'done'), ('admit 0 supplier', 'done')] + [
    (f'settle 0 20{20 + (m + 6) // 12}-{(m + 6) % 12 + 1:02} {euros}00 0 0 0 0', f'recorded {euros}00') for m, euros in enumerate(EXAMPLE_1)] + [
    ('annual 0', 'annual 77372900 12'), ('lodge 0 0 cash 77372900', 'done'), ('advance 2021-10-01 100', 'opened 30'),
    ('# D = 77,372,900', ''),
    ('statement 0', 'statement 77372900 77372900 0 0 0 1'),
    ('settle 0 2021-08 75446400 0 0 0 0', 'covered 75446400'), ('settle 0 2021-08 93679500 0 0 0 0', 'called 93679500 16306600 649'),
    ('# example 3', ''),
    ('advance 2021-10-13 100', 'opened 12'), ('statement 0', 'statement 93679500 77372900 16306600 2 200000000 2'),
    ('lodge 0 1 cash 10000000', 'done'), ('advance 2021-10-16 100', 'opened 3'),
    ('statement 0', 'statement 93679500 87372900 6306600 5 500000000 2'),
    ('lodge 0 2 cash 6306600', 'done'), ('advance 2021-10-17 100', 'opened 1'), ('statement 0', 'statement 93679500 93679500 0 5 500000000 2'),
    ('# D = 1,000,000', ''),
    ('fresh 2021-01-01', 'done'), ('admit 0 trader', 'done'), ('lodge 0 0 cash 1000000', 'done'), ('advance 2021-01-12 11', 'opened 11'),
    ('statement 0', 'statement 1000000 1000000 0 0 0 1'),
    ('settle 0 2020-11 1199999 0 0 0 0', 'covered 1199999'), ('settle 0 2020-11 1200000 0 0 0 0', 'called 1200000 200000 387'),
    ('# D = 0', ''),
    ('fresh 2021-01-01', 'done'), ('admit 0 producer', 'done'),
    ('settle 0 2020-11 0 0 0 0 0', 'covered 0'), ('settle 0 2020-11 -5 0 0 0 0', 'covered -5'), ('calls', 'calls 0'),
    ('# day charges: S = 0, 1, 100,000,000 and 100,000,001', '')]
for shortfall, charge in ((0, 0), (1, 100000000), (100000000, 100000000), (100000001, 100000001)):
    STARRED += [
        ('fresh 366', 'done'), ('admit 63 5', 'done'),
        (f'settle 63 10 {shortfall} 0 0 0 0', f'called {shortfall} {shortfall} 376' if shortfall else 'covered 0'),
        ('advance 376 100', 'opened 10'), ('statement 63', f'statement 0 0 0 0 0 {int(shortfall > 0)}'), ('advance 377 100', 'opened 1'),
        ('statement 63', f'statement {shortfall} 0 {shortfall} {int(shortfall > 0)} {charge} {int(shortfall > 0)}')]
STARRED += [
    ('# S = 150,000,000, then 50,000,000', ''),
    ('fresh 2021-01-01', 'done'), ('admit 63 res-aggregator', 'done'), ('settle 63 2020-11 150000000 0 0 0 0', 'called 150000000 150000000 376'),
    ('advance 2021-01-12 100', 'opened 11'), ('lodge 63 7 cash 100000000', 'done'), ('advance 2021-01-13 100', 'opened 1'),
    ('statement 63', 'statement 150000000 100000000 50000000 2 250000000 1'),
    ('# ratios of 43 and 4,008', ''),
    ('special 3 126 4 0 3 0 0 0 3 0 0 0 1 1000000000000 1 0 1 0 1 0', f'special {43 * 10 ** 8}'),
    ('special 3 0 0 0 3 3253 4048 4723 3 0 0 0 1 0 1 1000000000000 1 0 1 0', f'special {4008 * 10 ** 8}'),
    ('# section 8, without the impairment and with it', ''),
    (SECTION_8.format(0), 'special 10759502'), (SECTION_8.format(10588754 - 7762366), 'special 7933114')]


def check():
    """The starred figures. Each call is also printed in its numeric form and read again."""
    to, wrong, done = Filter(), [], 0
    for line, due in STARRED:
        got = to.answer(line.encode()) or ''
        done += due != ''
        if got != due:
            wrong.append(f'{line}: {got}, due is {due}')
        call = call_of(line.encode())
        if call and call_of(numeric(call).encode()) != call:
            wrong.append(f'{line}: the numeric form {numeric(call)} is another call')
    for got, due in ((ratio([126, -18, 4, -234, 0]), 43), (ratio([3253, 4048, 4723, 1326, 780]), 4008), (nearest(-5000, 10000), 0),
                     (nearest(5000, 10000), 1), (nearest(-5001, 10000), -1)):
        done += 1
        if got != due:
            wrong.append(f'{got}, due is {due}')
    for line in wrong:
        print(line)
    print(f'paper 01, starred figures as calls: {done} compared, {len(wrong)} different')
    return 1 if wrong else 0


def book_of(words, shown):
    """The book that the command line asks for, or None where it asks for none."""
    if not words:
        return Filter(*shown)
    if len(words) == 2 and words[0] == '--keep':
        return Keeper(words[1], *shown)
    if len(words) == 2 and words[0] == '--read':
        book = Read(*shown)
        book.replay(contents(words[1]))
        return book
    return None


def main(words):
    if words == ['--check']:
        return check()
    bail, end, *shown = [option in words for option in ('--bail', '--end', '--words', '--csv')]
    words = [word for word in words if word not in ('--bail', '--end', '--words', '--csv')]
    batch = words[1] if len(words) > 1 and words[0] == '--load' else None
    words = words if batch is None else words[2:]
    name = words[-1] if words else batch
    try:
        to = book_of(words, shown)
        if to is None or batch is not None and (bail or end or isinstance(to, Read)):
            print('use: ledger.py [--bail] [--end] [--words] [--csv] [--keep FILE | --read FILE], ledger.py --load BATCH [--words] [--keep FILE], '
                  'or ledger.py --check', file=sys.stderr)
            return 2
        to.begin(bail)
        if batch is None or not words:
            run(to, end)
        if batch is not None:
            name = batch
            put(load(to, contents(batch)))
        return 0
    except Stop as stop:
        print(f'ledger: {name}: {stop}', file=sys.stderr)
        return 1


if __name__ == '__main__':
    sys.exit(main(sys.argv[1:]))
