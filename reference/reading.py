"""Paper 01's reading of the history, in Python's standard library: the reference that the book's answers are compared with.

Written from the section 'The reading of the history' and the table of causes alone, for a batch from paper 02's ask 1, for D from its ask 2, for
the two admission rules from its ask 3, for a deletion from its ask 4 and for the count of a participant's calls from its ask 6. A participant's
figures are read from its accepted calls, each with its arguments and the day it was made on, and from the days opened. Nothing is summed up in
between: cover, D, firm amount, open calls, the count of calls made, month totals, the next amount and whether it is under deletion are worked out
afresh from the calls whenever they are asked for. What is kept is the history itself and what the reading once gave and no later call can change:
beside a settlement whether it called, beside an annual run its amount, beside a deletion its amount and whether it called, beside an opened day its
firm amount and its cover at the opening. An accepted batch is in the history as its settlements.
"""
import datetime

FIRST = datetime.date(2020, 1, 1)
LAST_DAY = 29219
MOST = 10 ** 12
MINIMUM = {0: 2000000, 1: 2000000, 2: 1000000, 3: 0, 4: 0, 5: 0}
DAY_MINIMUM = 100000000  # mills
FREE_DAYS = 10
DEPOSITED_DAYS = 11  # what counts in a check is still in force so many days after it
ALWAYS = float('inf')  # cash has no last day
MOST_PARTS = 64
RETIRED = 1  # the role that is no longer registered (paper 02, ask 3); files that have it keep it, and its minimum
LATEST = 3  # a deletion looks at so many recorded months, the latest (paper 02, ask 4)


def date(day):
    """The date of a day number, for a day of the calendar."""
    return FIRST + datetime.timedelta(days=day)


def day_number(year, mon, dom):
    return (datetime.date(year, mon, dom) - FIRST).days


def month(day):
    """The month number that holds a day."""
    d = date(day)
    return (d.year - 2020) * 12 + d.month - 1


def is_september(m):
    return m % 12 == 8


def in_annual_days(day):
    d = date(day)
    return d.month == 9 and 1 <= d.day <= 10


def in_deletion_days(day):
    """August and September, the last two months of a guarantee validity period (002, sections 1 and 6)."""
    return date(day).month in (8, 9)


def october_after(day):
    """The next 1 October after a day of January to September."""
    return day_number(date(day).year, 10, 1)


def day_charge(shortfall):
    return 0 if shortfall == 0 else max(shortfall, DAY_MINIMUM)


def opening_shortfall(firm, cover):
    """The firm amount less the cover, never below 0."""
    return max(firm - cover, 0)


def cover_on(day, amounts):
    """The sum of the amounts whose days include this one."""
    return sum(amount for amount, first, last in amounts if first <= day <= last)


def firm_on(day, periods, calls):
    """The largest of the base and every called amount with R <= last free day < day; R and the base are those of the latest period by then."""
    r, base = [period for period in periods if period[0] <= day][-1]
    return max([base] + [amount for amount, last in calls if r <= last < day])


# ---- a month in one file (paper 02, ask 1)

def least_first(data):
    """The number that bytes give, the least first."""
    return int.from_bytes(data, 'little')


def pairs_of(data):
    """The pairs of offset and length; None where the file is too short for them, or their count isn't 1 to 64."""
    count = least_first(data[2:4])
    if len(data) < 4 or not 1 <= count <= MOST_PARTS or len(data) < 4 + 8 * count:
        return None
    return [(least_first(data[at:at + 4]), least_first(data[at + 4:at + 8])) for at in range(4, 4 + 8 * count, 8)]


def not_following(pairs, size):
    """The first pair that doesn't begin where it must: the first part behind the pairs, each next one where the last ended. If they all do, and
    the last doesn't end with the file, the last pair. None where the parts follow on as said."""
    begins = 4 + 8 * len(pairs)
    for index, (offset, length) in enumerate(pairs):
        if offset != begins:
            return index
        begins = offset + length
    return None if begins == size else len(pairs) - 1


def part_of(data):
    """The participant and the figures that a part's bytes hold; None where their number isn't 2 + 8 x the row count."""
    if len(data) < 2 or len(data) != 2 + 8 * data[1]:
        return None
    return data[0], [int.from_bytes(data[at:at + 8], 'little', signed=True) for at in range(2, len(data), 8)]


class Participant:
    """One participant's accepted calls, in their order, from its admission on."""

    def __init__(self, day, role):
        self.day, self.role = day, role
        self.acts = []       # (day, kind, arguments)
        self.openings = []   # (day, firm amount on it, cover at its opening)

    def amounts(self, acts):
        """Lodgings less releases, each with the days that it counts on: (amount, first, last). Cash counts on every day; a release takes the
        dates of what was last lodged at its position."""
        found, dates = [], {}
        for _, kind, args in acts:
            if kind == 'lodge':
                place, what, amount, first, last = args
                dates[place] = (0, ALWAYS) if what == 'cash' else (first, last)
                found.append((amount, *dates[place]))
            elif kind == 'release':
                place, amount = args
                found.append((-amount, *dates[place]))
        return found

    def cover(self, day, acts=None):
        return cover_on(day, self.amounts(self.acts if acts is None else acts))

    def deposited(self, today):
        """D of a check: the amount in force today that will still be in force on day t + 11, whether the calendar has that day or not."""
        later = today + DEPOSITED_DAYS
        return sum(amount for amount, first, last in self.amounts(self.acts) if first <= today <= last and first <= later <= last)

    def position(self, place, today):
        """What is held, (what, amount, first, last): what was last lodged less what was released since. None if that is nothing, or a letter
        whose last day is before today."""
        amount, found = 0, None
        for _, kind, args in self.acts:
            if kind == 'lodge' and args[0] == place:
                found, amount = args, args[2]
            elif kind == 'release' and args[0] == place:
                amount -= args[1]
        if found is None or amount == 0:
            return None
        _, what, _, first, last = found
        if what == 'letter' and last < today:
            return None
        return (what, amount, first, last)

    def total(self, m):
        """A month's total, that of its last accepted settlement, or None."""
        found = None
        for _, kind, args in self.acts:
            if kind == 'settle' and args[0] == m:
                found = sum(args[1])
        return found

    def totals(self, first, last):
        """The recorded months from a first to a last one, each with its total, the earliest first."""
        found = [(m, self.total(m)) for m in range(max(first, 0), last + 1)]
        return [(m, total) for m, total in found if total is not None]

    def annual_amount(self, day):
        """The amount of an annual run on a day, and how many months were recorded."""
        p = month(day)
        totals = [total for _, total in self.totals(p - 14, p - 3)]
        return max([MINIMUM[self.role]] + totals), len(totals)

    def deletion_amount(self, day):
        """The amount of a deletion on a day: the largest total of the three latest recorded months among P - 14 to P - 2, those with the largest
        month numbers, or of as many as there are; 0 if none is recorded or that is negative. No minimum is looked at."""
        p = month(day)
        return max([0] + [total for _, total in self.totals(p - 14, p - 2)][-LATEST:])

    def deletion(self):
        """The accepted deletion, (day, amount, whether it called), or None. From it on the participant is under deletion; nothing ends that."""
        found = [(day, *args) for day, kind, args in self.acts if kind == 'delete']
        return found[0] if found else None

    def runs(self):
        return [(day, args[0]) for day, kind, args in self.acts if kind == 'annual']

    def next_amount(self, today):
        """The last annual run's amount until the next 1 October opens, or None."""
        runs = self.runs()
        if not runs or october_after(runs[-1][0]) <= today:
            return None
        return runs[-1][1]

    def periods(self):
        """R and the base, oldest first: the admission day with 0, then each 1 October with the amount that takes effect when it opens, the
        later of two runs in one September standing last. One that lies ahead is after every day that is asked for."""
        return [(self.day, 0)] + [(october_after(day), amount) for day, amount in self.runs()]

    def calls(self):
        """Every call made, oldest first: (amount, last free day). They are the admission's and those of settlements and of a deletion."""
        made = []
        if MINIMUM[self.role] > 0:
            made.append((MINIMUM[self.role], self.day + FREE_DAYS))
        for day, kind, args in self.acts:
            if kind == 'settle' and args[2]:
                made.append((sum(args[1]), day + FREE_DAYS))
            elif kind == 'delete' and args[1]:
                made.append((args[0], day + FREE_DAYS))
        return made

    def calls_made(self):
        """How many calls were made (paper 02, ask 6): of the participant's own, open or no longer, the admission's and the deletion's included. What
        was refused, also with 13, made none."""
        return len(self.calls())

    def firm(self, day):
        return firm_on(day, self.periods(), self.calls())

    def open_until(self, today):
        """The open calls, oldest first: (amount, last free day)."""
        return [(amount, last) for amount, last in self.calls() if last >= today]

    def open_calls(self, today):
        return [amount for amount, _ in self.open_until(today)]

    def check_due(self, today, m):
        p = month(today)
        return m + 2 == p and not is_september(p)

    def would_call(self, today, m, figures):
        e, d = sum(figures), self.deposited(today)
        return (self.check_due(today, m) and e > d and 5 * e >= 6 * d and e > self.firm(today)
                and all(e > amount for amount in self.open_calls(today)))

    def deletion_calls(self, today, amount):
        """Whether a deletion of this amount calls: whatever the cover and the next amount are."""
        return amount > self.firm(today) and all(amount > called for called in self.open_calls(today))

    def release_floor(self, today):
        """What a release must leave: the largest of the firm amount, each open call and the next amount."""
        return max([self.firm(today), self.next_amount(today) or 0] + self.open_calls(today))

    def release_cause(self, today, place, amount):
        """The cause for which the release of an amount at a position would be refused, of 5, 7, 8, 15 and 16 the first; 0 if none holds."""
        if place > 7:
            return 5
        held = self.position(place, today)
        if held is None:
            return 7
        if not 1 <= amount <= MOST:
            return 8
        if amount > held[1] or (held[0] == 'letter' and amount != held[1]):
            return 15
        left = self.cover(today, self.acts + [(today, 'release', (place, amount))])
        return 16 if left < self.release_floor(today) else 0

    def releasable(self, today, place):
        """The largest amount whose release at a position would be accepted, 0 if none would. What is held is one to try, and of cash what the cover
        has beyond what must be left: more than the smaller of the two is refused with 15 or 16, and if that is refused so is every smaller one."""
        held = self.position(place, today)
        tried = [held[1], self.cover(today) - self.release_floor(today)] if held else []
        return max([0] + [amount for amount in tried if self.release_cause(today, place, amount) == 0])

    def open_days(self, days):
        """The days are opened: with each stands the firm amount on it, and the cover by what was made before."""
        amounts, periods, calls = self.amounts(self.acts), self.periods(), self.calls()
        for day in days:
            self.openings.append((day, firm_on(day, periods, calls), cover_on(day, amounts)))

    def shortfalls(self):
        """Each opened day and its opening shortfall."""
        return [(day, opening_shortfall(firm, cover)) for day, firm, cover in self.openings]

    def days_charged(self):
        return sum(1 for _, shortfall in self.shortfalls() if shortfall > 0)

    def accrued(self):
        return sum(day_charge(shortfall) for _, shortfall in self.shortfalls())

    def items(self):
        """The charged days in runs, the earliest first: (first day, last day, firm amount, cover). A run is as many days on end as are charged
        and have one firm amount and one cover."""
        runs = []
        for day, firm, cover in self.openings:
            if opening_shortfall(firm, cover) == 0:
                continue
            if runs and runs[-1][1:] == (day - 1, firm, cover):
                runs[-1] = (runs[-1][0], day, firm, cover)
            else:
                runs.append((day, day, firm, cover))
        return runs


class History:
    """A history from a fresh book on a day. Each method answers as the papers decide: seven numbers, the kind of answer first.

    It may have a first stretch of calls made under the old admission rule, which admits every role; the calls behind it, of a history without one
    all calls, are made under the new one, which admits no role 1 (paper 02, ask 3). Which rule it is depends on a call's place in the list, not on
    its day, and only an admission depends on it: what is read of a participant is the same for both."""

    def __init__(self, day, first_stretch=False):
        self.today = day
        self.people = {}
        self.first_stretch = first_stretch

    def end_stretch(self):
        """The first stretch ends with the call before."""
        self.first_stretch = False

    @staticmethod
    def refused(n):
        return (0, n, 0, 0, 0, 0, 0)

    @staticmethod
    def refused_at(n, index):
        """A refused batch: the number, and the index of the pair."""
        return (10, n, index, 0, 0, 0, 0)

    DONE = (1, 0, 0, 0, 0, 0, 0)

    def unknown(self, p):
        if p > 63:
            return self.refused(1)
        if p not in self.people:
            return self.refused(2)
        return None

    def admit(self, p, role):
        """An admission, whose causes are 1, 3, 4 and, behind the first stretch, 23."""
        if p > 63:
            return self.refused(1)
        if p in self.people:
            return self.refused(3)
        if role > 5:
            return self.refused(4)
        if role == RETIRED and not self.first_stretch:
            return self.refused(23)
        self.people[p] = Participant(self.today, role)
        return self.DONE

    def lodge(self, p, place, what, amount, first=0, last=0):
        no = self.unknown(p)
        if no:
            return no
        who = self.people[p]
        if place > 7:
            return self.refused(5)
        if who.position(place, self.today) is not None:
            return self.refused(6)
        if not 1 <= amount <= MOST:
            return self.refused(8)
        if what == 'letter' and not (first <= last and self.today <= last <= LAST_DAY):
            return self.refused(9)
        who.acts.append((self.today, 'lodge', (place, what, amount, first, last)))
        return self.DONE

    def release(self, p, place, amount):
        no = self.unknown(p)
        if no:
            return no
        who, t = self.people[p], self.today
        cause = who.release_cause(t, place, amount)
        if cause:
            return self.refused(cause)
        who.acts.append((t, 'release', (place, amount)))
        return self.DONE

    def releasable(self, p, place):
        """The refusal's number, or 0, and the most that a release at the position would be accepted for now. The causes are 1, 2, 5."""
        no = self.unknown(p)
        if no:
            return no[1], 0
        return (5, 0) if place > 7 else (0, self.people[p].releasable(self.today, place))

    def settle(self, p, m, figures):
        no = self.unknown(p)
        if no:
            return no
        who, t = self.people[p], self.today
        if not (month(t) <= m + 14 and m + 2 <= month(t)):
            return self.refused(12)
        if not 5 <= len(figures) <= 16:
            return self.refused(10)
        if any(abs(x) > MOST for x in figures):
            return self.refused(11)
        calls = who.would_call(t, m, figures)
        if calls and len(who.open_calls(t)) >= 4:
            return self.refused(13)
        e, d = sum(figures), who.deposited(t)
        who.acts.append((t, 'settle', (m, list(figures), calls)))
        if calls:
            return (2, e, e - d, t + FREE_DAYS, 0, 0, 0)
        return (3 if who.check_due(t, m) else 4, e, 0, 0, 0, 0, 0)

    def batch(self, data):
        """A month's file, as bytes. What is wrong with the file comes before any settlement: 20, then 21 of any pair, then 22 of any pair."""
        pairs = pairs_of(data)
        if pairs is None:
            return self.refused_at(20, 0)
        wrong = not_following(pairs, len(data))
        if wrong is not None:
            return self.refused_at(21, wrong)
        parts = []
        for index, (offset, length) in enumerate(pairs):
            part = part_of(data[offset:offset + length])
            if part is None or part[0] in [p for p, _ in parts]:
                return self.refused_at(22, index)
            parts.append(part)
        return self.settle_all(least_first(data[:2]), parts)

    def settle_all(self, m, parts):
        """The settlements in pair order, all or none: with the first that is refused, those before it are taken out of the history again. No
        participant stands twice, so that each has its settlement last."""
        for index, (p, figures) in enumerate(parts):
            answer = self.settle(p, m, figures)
            if answer[0] == 0:
                for q, _ in parts[:index]:
                    self.people[q].acts.pop()
                return self.refused_at(answer[1], index)
        return (9, len(parts), 0, 0, 0, 0, 0)

    def annual(self, p):
        """An annual run, whose causes are 1, 2, 14 and, for one under deletion, 25."""
        no = self.unknown(p)
        if no:
            return no
        who = self.people[p]
        if not in_annual_days(self.today):
            return self.refused(14)
        if who.deletion():
            return self.refused(25)
        amount, months = who.annual_amount(self.today)
        who.acts.append((self.today, 'annual', (amount,)))
        return (5, amount, months, 0, 0, 0, 0)

    def delete(self, p):
        """A participant is put under deletion (paper 02, ask 4); the causes are 1, 2, 24 and 13. The answer gives the amount and whether it called.
        Refused with 13 it isn't under deletion, and may be tried again. A next amount stays, and settlements go on being checked."""
        no = self.unknown(p)
        if no:
            return no
        who, t = self.people[p], self.today
        if not in_deletion_days(t) or who.deletion():
            return self.refused(24)
        amount = who.deletion_amount(t)
        calls = who.deletion_calls(t, amount)
        if calls and len(who.open_calls(t)) >= 4:
            return self.refused(13)
        who.acts.append((t, 'delete', (amount, calls)))
        return (11, amount, int(calls), 0, 0, 0, 0)

    def advance(self, day, budget):
        if day > LAST_DAY or day < self.today:
            return self.refused(17)
        n = min(budget, day - self.today)
        for who in self.people.values():
            who.open_days(range(self.today + 1, self.today + n + 1))
        self.today += n
        return (6, n, 0, 0, 0, 0, 0)

    def statement(self, p):
        no = self.unknown(p)
        if no:
            return no
        who, t = self.people[p], self.today
        firm, cover = who.firm(t), who.cover(t)
        return (7, firm, cover, max(firm - cover, 0), who.days_charged(), who.accrued(), who.calls_made())

    def calls_made(self):
        """The old question for one count: the sum of the participants' counts."""
        return (8, sum(who.calls_made() for who in self.people.values()), 0, 0, 0, 0, 0)


def fresh(day, first_stretch=False):
    """A fresh book on a day: the refusal's number, or 0 where there is none, and the history that begins. Refused, it begins on day 0."""
    return (17, History(0, first_stretch)) if day > LAST_DAY else (0, History(day, first_stretch))
