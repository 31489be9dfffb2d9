"""What is worked out for one participant from a whole journal, by paper 01's reading of the history (reading.py):

    python3 reference/accounts.py items P JOURNAL [--csv]    what made its figures, the charged days, and their sum beside its statement
    python3 reference/accounts.py extract P JOURNAL          its own calls and the days opened, as a journal
    python3 reference/accounts.py audit EXTRACT [--csv]      the items of an extract; the participant is the one that its lines name
    python3 reference/accounts.py days P JOURNAL             each day opened since its admission: day, date, firm amount, cover and shortfall at
                                                             the opening, in cents

A journal is replayed as the kept way replays it, and a rest behind its last newline is passed over. The status is 1, with a message, where it can't
be replayed or the participant isn't admitted. The items of an extract are those of the journal that it was made of, whatever the others did.
"""
import sys

sys.dont_write_bytecode = True

import ledger
import reading
from ledger import Stop
from wording import date_text, euros, mills_in_euros, month_name

OWN = ('admit', 'lodge', 'release', 'settle', 'annual', 'delete')       # the calls whose first argument is a participant
ITEM_WIDTHS = (10, 10, 6, 17, 17, 17, 17, 21)
ITEM_HEADING = ('from', 'to', 'days', 'firm EUR', 'cover EUR', 'shortfall EUR', 'charge a day EUR', 'charge EUR')
CSV_HEADING = ('from', 'to', 'days', 'firm', 'cover', 'shortfall', 'charge_a_day', 'charge')


def parts_of(call):
    """A call as those of one participant each: a batch is its settlements."""
    name, *args = call
    if name != 'batch':
        return [call]
    data, = args
    parts = [reading.part_of(data[offset:offset + length]) for offset, length in reading.pairs_of(data)]
    return [('settle', p, reading.least_first(data[:2]), figures) for p, figures in parts]


def own_call(call, p):
    """What a call says of a participant, as a call of its own; None where it says nothing."""
    found = [part for part in parts_of(call) if part[0] in OWN and part[1] == p]
    return found[0] if found else None


def entry(day, label, text):
    return f'{reading.date(day)}  {label:20}{text}'.rstrip(' ')


def amount_entry(day, label, cents, behind=''):
    return entry(day, label, euros(cents).rjust(17) + ('  ' + behind if behind else ''))


def called_entry(day, cents, why):
    return amount_entry(day, 'called', cents, f'free until {date_text(day + reading.FREE_DAYS)}, {why}')


def lodged_entry(day, place, what, cents, first, last):
    dates = f' from {reading.date(first)} to {reading.date(last)}' if what == 'letter' else ''
    return amount_entry(day, f'lodged at {place}', cents, what + dates)


class Account(ledger.Kept):
    """A journal that is replayed with an eye on one participant: the lines of its extract, and the entries of what made its figures."""

    def __init__(self, p):
        super().__init__()
        self.p, self.lines, self.entries = p, [], []

    def who(self):
        return self.ledger.book.people.get(self.p)

    def replay_line(self, number, line):
        self.before = self.ledger.book.today
        super().replay_line(number, line)

    def replayed(self, call, line):
        if call[0] in ledger.QUESTIONS:
            return
        reference = ledger.reference_of(line)
        own = own_call(call, self.p)
        if own or call[0] in ('fresh', 'advance') or call == ledger.STRETCH_END:
            # a reference of a call that names no participant is the operator's, and may tell of others
            self.lines.append(ledger.kept_line(own or call, b'' if call == ledger.STRETCH_END or call[0] in ('advance', 'fresh') else reference))
        made = self.opened() if call[0] == 'advance' else self.made_by(own) if own else []
        if made and reference and call[0] != 'advance':
            made[-1] += '  # ' + reference.decode('latin-1')
        self.entries += made

    def made_by(self, call):
        """The entries of a call of the participant's own that was accepted just now, and stands last in its history."""
        name, today, who = call[0], self.ledger.book.today, self.who()
        if name == 'admit':
            minimum = reading.MINIMUM[who.role]
            return [entry(today, 'admitted', ledger.ROLES[who.role])] + [called_entry(today, minimum, 'admission')] * (minimum > 0)
        _, _, args = who.acts[-1]
        if name == 'lodge':
            return [lodged_entry(today, *args)]
        if name == 'release':
            return [amount_entry(today, f'released at {args[0]}', args[1])]
        if name == 'settle':
            month, figures, calls = args
            return [called_entry(today, sum(figures), f'settlement of {month_name(month)}')] * calls
        if name == 'annual':
            return [amount_entry(today, 'next amount', args[0], 'annual run')]
        amount, calls = args
        return [called_entry(today, amount, 'deletion')] * calls + [entry(today, 'under deletion', '')]

    def opened(self):
        """The entries of the days that an advance opened: letters that lapsed, and a next amount that took effect, in the order of the opening."""
        who, first, last = self.who(), self.before + 1, self.ledger.book.today
        if who is None or last < first:
            return []
        found = []
        for place in range(8):
            held = who.position(place, self.before)
            if held and held[0] == 'letter' and held[3] < last:
                found.append((held[3] + 1, 0, amount_entry(held[3] + 1, f'lapsed at {place}', held[1])))
        coming = who.next_amount(self.before)
        if coming is not None and who.next_amount(last) is None:
            october = who.periods()[-1][0]
            found.append((october, 1, amount_entry(october, 'next amount', coming, 'took effect')))
        return [text for _, _, text in sorted(found, key=lambda one: one[:2])]

    def known(self):
        """The participant, which must be admitted."""
        no = self.ledger.book.unknown(self.p)
        if no:
            raise Stop(f'refused {no[1]}')
        return self.who()


def replayed(p, data):
    account = Account(p)
    account.replay(data)
    account.known()
    return account


def item_cells(run):
    first, last, firm, cover = run
    days, shortfall = last - first + 1, reading.opening_shortfall(firm, cover)
    a_day = reading.day_charge(shortfall)
    return (reading.date(first), reading.date(last), days, euros(firm), euros(cover), euros(shortfall), mills_in_euros(a_day),
            mills_in_euros(days * a_day))


def sum_line(label, days, mills):
    """A label where the dates stand, and the days and the charge in their columns."""
    line = ledger.row(('', '', days, '', '', '', '', mills_in_euros(mills)), ITEM_WIDTHS)
    return label + line[len(label):]


def text_of_items(account, csv=False):
    """The items as text, or as comma-separated values."""
    who, runs = account.who(), account.who().items()
    rows = [item_cells(run) for run in runs]
    if csv:
        return ledger.comma_separated([CSV_HEADING] + rows) + '\n'
    days = sum(last - first + 1 for first, last, _, _ in runs)
    mills = sum((last - first + 1) * reading.day_charge(reading.opening_shortfall(firm, cover)) for first, last, firm, cover in runs)
    _, _, _, _, charged, accrued, _ = account.ledger.book.statement(account.p)
    lines = account.entries + [ledger.row(cells, ITEM_WIDTHS) for cells in [ITEM_HEADING] + rows]
    return '\n'.join(lines + [sum_line('sum', days, mills), sum_line('statement', charged, accrued)]) + '\n'


def items(p, data, csv=False):
    """What made a participant's figures, from a journal's bytes, as bytes."""
    return text_of_items(replayed(p, data), csv).encode('latin-1')


def extract(p, data):
    """A participant's extract of a journal's bytes, as bytes."""
    lines = replayed(p, data).lines
    return b''.join(line + b'\n' for line in [f'# extract of participant {p}'.encode()] + lines)


def named(data):
    """The participant that the lines of an extract name; there must be one, and no other."""
    found = set()
    for line in data.removeprefix(ledger.MARK).split(b'\n')[:-1]:
        try:
            call = ledger.call_of(line)
        except ledger.Fault:
            continue                                    # the replay says what is wrong with the line
        found |= {part[1] for part in (parts_of(call) if call else []) if part[0] in OWN}
    if len(found) != 1:
        raise Stop('no participant is named' if not found else 'more than one participant is named')
    return found.pop()


def audit(data, csv=False):
    """The items of an extract, from its bytes, as bytes."""
    return items(named(data), data, csv)


def days(p, data):
    """Each opened day since the admission, for a chart."""
    who = replayed(p, data).who()
    lines = [f'{day} {reading.date(day)} {firm} {cover} {reading.opening_shortfall(firm, cover)}\n' for day, firm, cover in who.openings]
    return ''.join(lines).encode()


def main(words):
    csv = '--csv' in words
    words = [word for word in words if word != '--csv']
    made = {'items': items, 'extract': extract, 'audit': audit, 'days': days}.get(words[0] if words else None)
    if made is None or len(words) != (2 if made is audit else 3) or csv and made not in (items, audit):
        print('use: accounts.py items P JOURNAL [--csv], extract P JOURNAL, audit EXTRACT [--csv], or days P JOURNAL', file=sys.stderr)
        return 2
    name = words[-1]
    try:
        given = [ledger.natural(word.encode()) for word in words[1:-1]] + [ledger.contents(name)]
        ledger.put(made(*given, csv) if made in (items, audit) else made(*given))
        return 0
    except (Stop, ledger.Fault) as stop:
        print(f'accounts: {name}: {stop}', file=sys.stderr)
        return 1


if __name__ == '__main__':
    sys.exit(main(sys.argv[1:]))
