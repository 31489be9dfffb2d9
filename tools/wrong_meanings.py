"""Wrong meanings, for tools/mutants --shared: each changes a definition that both accounts share, or the same number or order in both at once.
"""
from wrong_books import ACCOUNT, ANNUAL, DELETION, FIELDS, OPENING, POSITION, SETTLE

CIVIL = 'calendar/specs/Civil.antt'
CALLS, TOTALS, ANSWER = 'file/specs/Calls.antt', 'file/specs/Totals.antt', 'file/specs/Answer.antt'
ADMIT, LODGE, RELEASE = 'file/specs/Admit.antt', 'file/specs/Lodge.antt', 'file/specs/Release.antt'
STATEMENT = 'file/specs/Statement.antt'
CAUSES, INTEGERS, LARGEST = 'laws/specs/Causes.antt', 'laws/specs/Integers.antt', 'laws/specs/Largest.antt'
SIGNED, EVERY, LISTS = 'laws/specs/Signed.antt', 'laws/specs/Every.antt', 'laws/specs/Lists.antt'
AMOUNT, CHARGE, CHECK = 'manual/specs/Annual.antt', 'manual/specs/Charge.antt', 'manual/specs/Check.antt'
AT_LEAST, LEAVING = 'manual/specs/Largest.antt', 'manual/specs/Deletion.antt'
FIGURES, MINIMUM = 'manual/specs/Figures.antt', 'manual/specs/Minimum.antt'
LENGTHS, GUARANTEE, RANGES, RATIO = (f'special/specs/{name}.antt' for name in ('Causes', 'Guarantee', 'Ranges', 'Ratio'))
DECISIONS, READ_CALLS, CHARGES = (f'book/specs/Reading/{name}.antt' for name in ('Decisions', 'Calls', 'Charges'))
HOLDINGS, MONTHS, EVENTS = (f'book/specs/Reading/{name}.antt' for name in ('Holdings', 'Months', 'Events'))
BYTES, BATCH, SAYS, LEAST = 'batch/specs/Bytes.antt', 'batch/specs/Batch.antt', 'book/specs/Call.antt', 'laws/specs/Least.antt'
RULE, NUMBERS = 'book/specs/Rule.antt', 'refusal/specs/Numbers.antt'


def swapped(path, one, other):
    """Two texts of a file, each in the other's place."""
    return [(path, one, '\0'), (path, other, one), (path, '\0', other)]


def named(number, holds):
    """A cause as the account writes it."""
    return f'record {{ number = {number}; holds = {holds} }}'


# Causes of a lodging, a release, a settlement, an annual run and a deletion, as the account and the reading write them.
SLOT = 'position_at f.slots k'
HELD = 'position_in t k own'
LODGED = {6: (f'filled ({SLOT})', f'filled ({HELD})'), 8: ('outside_amounts (amount_of p)', 'outside_amounts (amount_of h)'),
          9: ('against_days t p', 'against_days t h')}
RELEASED = {7: (f'not (filled ({SLOT}))', f'not (filled ({HELD}))'), 8: ('outside_amounts a', 'outside_amounts a'),
            15: (f'not_releasable a ({SLOT})', f'not_releasable a ({HELD})'),
            16: ('ltb (cover_on t (slots_left f k a)) (release_floor f)', 'ltb (cover_left t k a own) (must_stay t own)')}
SETTLED = {12: ('outside_months (month_of t) m',) * 2, 10: ('wrong_count figures',) * 2, 11: ('out_of_range figures',) * 2,
           13: ('settlement_calls f t m figures && leb 4 (length (open_calls f))',
                'called_in t m figures own (calls_in own) && leb 4 (length (open_in t own))')}

RUN = {14: ('not (in_annual_days t)',) * 2, 25: ('f.leaving', 'leaving_in own')}
DELETED = {24: ('not (in_deletion_months t) || f.leaving', 'not (in_deletion_months t) || leaving_in own'),
           13: ('deletion_calls f t && leb 4 (length (open_calls f))',
                'deletion_called t own (calls_in own) && leb 4 (length (open_in t own))')}


def reordered(path, causes, one, other):
    """Two causes of a call, each in the other's place in both accounts."""
    return (swapped(path, named(one, causes[one][0]), named(other, causes[other][0]))
            + swapped(DECISIONS, f'cause {one} ({causes[one][1]})', f'cause {other} ({causes[other][1]})'))


def in_both(path, old, new):
    """A text of the account and the same text of the reading of the history, changed alike."""
    return [(path, old, new), (DECISIONS, old, new)]


# What a call on a participant's file answers behind cause 1, as the account writes it; and its causes, as the reading does.
ON_FILE = 'unless_retired rule a (file_answer (file_at b p) b.today.0 a)'
OWN = 'own_causes (today_of s events) (mine p events) a'
DECIDED = f'(cause 1 (ltb 63 p) ∷ ({OWN} ++ retirement rule a))'


def participants(last):
    """The last participant, in both accounts."""
    return [(ACCOUNT, 'ltb 63 p', f'ltb {last} p'), (DECISIONS, '(ltb 63 p) ∷ (own_causes', f'(ltb {last} p) ∷ (own_causes'),
            (DECISIONS, '(ltb 63 p) ∷ cause 2', f'(ltb {last} p) ∷ cause 2')]


# What a check counts as deposited, as the account and the reading write it.
DEPOSITED, STAYS = 'cover_through t (t + 11) f.slots', 'in_force t p && in_force (t + 11) p'


def deposits(account, reading):
    """What is deposited, in both accounts."""
    return [(SETTLE, DEPOSITED, account), (HOLDINGS, STAYS, reading)]


def most_open(calls):
    """How many open calls refuse one more of a settlement, in both accounts."""
    return [(SETTLE, 'leb 4 (length', f'leb {calls} (length'),
            (DECISIONS, 'called_in t m figures own (calls_in own) && leb 4', f'called_in t m figures own (calls_in own) && leb {calls}')]


# How an amount is worked out from totals: its path, its left side, and the amount as it is.
FROM_TOTALS = {AMOUNT: ('annual_amount role', 'largest_at_least (minimum_of role)'), LEAVING: ('deletion_amount', 'largest_at_least 0')}


def amount_by_cases(path, none, some):
    """An amount from totals by other equations, where there are none and where a comes first and the rest behind it."""
    left, right = FROM_TOTALS[path]
    return [(path, 'Prelude.{ℕ, List, ℤ}', 'Prelude.{ℕ, cond, List, [], ◌∷◌, ℤ, pos, nat_abs}'),
            (path, 'Largest.{largest_at_least}', 'Largest.{larger, largest_total, largest_at_least}'),
            (path, f'{left} totals = {right} totals', f'{left} [] = {none}\n{left} (a ∷ rest) = {some}')]


def places(path, after, last):
    """The last position of a lodging or a release, by the cause that follows, in both accounts."""
    return [(path, 'ltb 7 k', f'ltb {last} k'), (DECISIONS, f'(ltb 7 k)\n    ∷ cause {after}', f'(ltb {last} k)\n    ∷ cause {after}')]


def not_admitted_last(call, answer, first, last):
    """Cause 2 after the others of a call, in both accounts."""
    return [(ACCOUNT, f'{call} = if_admitted f ({answer})', f'{call} = cond (accepted ({answer})) (if_admitted f ({answer})) ({answer})'),
            (DECISIONS, f'cause 2 (not (admitted_in own))\n    ∷ {first}', f'{first}'),
            (DECISIONS, f'{last}\n    ∷ []', f'{last}\n    ∷ cause 2 (not (admitted_in own))\n    ∷ []')]


def retired(test):
    """Which roles are retired, in both accounts."""
    return [(ACCOUNT, 'admits_retired (admit role) = eqb role 1', f'admits_retired (admit role) = {test}'),
            (DECISIONS, 'cause 23 (eqb role 1)', f'cause 23 ({test})')]


def retired_number(number):
    """The number of their refusal, in both accounts."""
    return [(ACCOUNT, '(refused 23)', f'(refused {number})'), (DECISIONS, 'cause 23', f'cause {number}')]


def floor(account, reading):
    """What must stay after a release, in both accounts."""
    return [(RELEASE, 'largest f.next.amount (f.firm ∷ open_amounts f)', account),
            (DECISIONS, 'largest (next_in own).amount (firm_in t own ∷ amounts_of (open_in t own))', reading)]


# How the sum of a list of amounts begins, as an amount again.
SUM_OF_ALL = ('Rattle.std.specs.Prelude.nat_abs (Rattle.laws.specs.Integers.sum_of '
              '(Rattle.std.specs.Prelude.map Rattle.std.specs.Prelude.pos')


def last_free_day(days):
    """The last free day of a settlement's call, in both accounts: as answered, and as kept."""
    return [(SETTLE, '(t + 10) (checked', f'(t + {days}) (checked'), (DECISIONS, '(t + 10)', f'(t + {days})')] + kept_free_day(days)


def kept_free_day(days):
    """.. as kept alone."""
    return [(SETTLE, '(t + 10) ∷ []', f'(t + {days}) ∷ []'),
            (READ_CALLS, '(nat_abs (sum_of figures)) (d + 10)', f'(nat_abs (sum_of figures)) (d + {days})')]


def admission_free_day(days):
    """The last free day of an admission's call, in both accounts."""
    return [(ADMIT, '(minimum_of role) (t + 10)', f'(minimum_of role) (t + {days})'),
            (READ_CALLS, '(minimum_of role) (d + 10)', f'(minimum_of role) (d + {days})')]


# When an admission is refused with 23, as the account writes it, and the same cause, as the reading does; the calls since and those of the first stretch
# in a history.
RETIRED, BEHIND = 'admits_retired a && accepted answer', 'cause 23 (eqb role 1) ∷ []'
SINCE, STRETCH = 'map (under new_rule) since', 'map (under old_rule) first'

# What a call asks of a file, in all its forms.
ACTS = '(admit role)', '(lodge k h)', '(release k a)', '(settle m figures)', 'annual_run', 'delete'


def cause_of_deletion(number, account, reading):
    """When a deletion is refused with one of its causes, in both accounts."""
    return [(DELETION, DELETED[number][0], account), (DECISIONS, DELETED[number][1], reading)]


def latest(account, reading):
    """Which of its recorded months a deletion's amount is of, in both accounts."""
    return [(DELETION, 'drop (length totals - 3) totals', account), (MONTHS, 'take 3 (totals_before', f'{reading}(totals_before')]


def window(first, last):
    """The window of a deletion, from P − first to P − last, in both accounts."""
    return [(DELETION, '(month_of t - 14) (month_of t - 1 - (month_of t - 14))',
             f'(month_of t - {first}) (month_of t - {last - 1} - (month_of t - {first}))'),
            (MONTHS, '(month_of d - 1) 13', f'(month_of d - {last - 1}) {first - last + 1}')]


# What a deletion's amount must exceed, as the account and the reading write it.
EXCEEDED = '(f.firm ∷ open_amounts f)', '(largest (firm_from d (base_in d own) made) (amounts_of (open_on d made)))'
EXCEEDS = f'exceeds_each (pos (deletion_amount_of f t)) {EXCEEDED[0]}', f'ltb {EXCEEDED[1]} (deletion_in d own)'


def exceeding(account, reading):
    """What a deletion's amount must exceed, in both accounts."""
    return [(DELETION, EXCEEDED[0], account), (READ_CALLS, f'ltb {EXCEEDED[1]} (deletion_in d own)', f'ltb {reading} (deletion_in d own)')]


def calling(account, reading):
    """When a deletion calls, in both accounts."""
    return [(DELETION, EXCEEDS[0], account), (READ_CALLS, EXCEEDS[1], reading)]


def also_asked(account, reading):
    """What is asked besides, for a deletion's call, in both accounts."""
    return calling(f'{EXCEEDS[0]} && {account}', f'{EXCEEDS[1]} && {reading}')


def deletion_free_day(days):
    """The last free day of a deletion's call, in both accounts."""
    return [(DELETION, '(deletion_amount_of f t) (t + 10)', f'(deletion_amount_of f t) (t + {days})'),
            (READ_CALLS, '(deletion_in d own) (d + 10)', f'(deletion_in d own) (d + {days})')]


# The months of deletions, and what a deletion answers, as the account and the reading write it.
DELETION_MONTHS = 'eqb (place_of m) 7 || eqb (place_of m) 8'
ANSWERED = '(deletion (deletion_amount_of f t) (deletion_calls f t))', 'deletion (deletion_in t own) (deletion_called t own (calls_in own))'


def of_calls(left, others, deletion):
    """The equations of a function of a call: what it gives for a deletion and for the others."""
    calls = [f'(on p {act})' for act in ACTS] + ['(advance day budget)', '(statement p)', 'calls_made', '(batch file)']
    return ''.join(f'{left} {call} = {deletion if call == "(on p delete)" else others}\n' for call in calls) + '\n'


# The status taken by a deletion that is refused with 13: the book and the events that it leaves. Its call isn't made.
TAKEN = 'abbrev pub taken_by : Rule → Book → Call → Book\n' + of_calls(
    'taken_by rule b', 'b',
    'cond (Rattle.std.specs.Prelude.eqb (Rattle.book.specs.Call.refusal_of (answer rule b (on p delete))) 13) '
    '(with_file b p (Rattle.file.specs.Fields.with_deletion (file_at b p) (Rattle.file.specs.Fields.open_calls (file_at b p)) 0)) b')
READ_TAKEN = 'abbrev pub taken_by : Rule → ℕ → List Event → Call → List Event\n' + of_calls(
    'taken_by rule s events', 'events',
    'cond (eqb (Rattle.book.specs.Call.refusal_of (decision rule s events (on p delete))) 13) (did (today_of s events) p delete ∷ events) events')

# How many calls a deletion made, read from a participant's own calls.
OF_DELETION = ('abbrev pub of_deletion : List Own → ℕ\nof_deletion [] = 0\nof_deletion (day_opened d ∷ own) = of_deletion own\n' + ''.join(
    f'of_deletion (act d {act} ∷ own) = {"cond (deletion_called d own (calls_in own)) 1 0" if act == "delete" else "of_deletion own"}\n'
    for act in ACTS) + '\n')
# The smallest of a total and those after it.
SMALLEST = ('abbrev pub smallest : ℤ → List ℤ → ℤ\nsmallest a [] = a\n'
            'smallest a (b ∷ rest) = cond (Rattle.std.specs.Int.Signed.lt_z a (smallest b rest)) a (smallest b rest)\n\n')


# The special guarantee's causes 19, 11 and 18, in their order.
LONG = ('(wrong_lengths (length medium) (length low) (length marks) (length zero_medium) (length zero_low) (length excess_medium) (length excess_low))\n'
        '    (Err ListLengths)')
OUTSIDE = '(outside_ranges medium low marks zero_medium zero_low excess_medium excess_low) (Err OutOfRange)'
TOO_FEW = '(too_few medium (usable low marks)) (Err TooFewRates)'

# The three causes of a file that is no batch, and the pair that cause 21 names.
SHORT = 'refused_if BatchTooShort 0 (too_short file)'
APART = 'refused_if PartsMisplaced (min (first_misplaced file) (count_in file - 1)) (not_following file)'
WRONG = 'refused_if WrongPart (first_wrong file) (ltb (first_wrong file) (count_in file))'
# The causes of refusal by their names.
CAUSE = 'Rattle.refusal.specs.declared.Refusal.TheVariants'
# How the least place begins.
FOUND = 'least test (suc n) = cond (test zero) zero'
# Whether a participant comes again behind pair i.
AGAIN = 'ltb (least (λ k. eqb (participant_at file (i + 1 + k)) (participant_at file i)) (count_in file - (i + 1))) (count_in file - (i + 1))'


def parts_settled(count):
    """How many parts of a batch are settled, in both accounts."""
    return [(ACCOUNT, 'after_parts b file (count_in file)', f'after_parts b file ({count})'),
            (DECISIONS, 'with_parts (today_of s events) file (count_in file) events', f'with_parts (today_of s events) file ({count}) events')]


def settled_for(participant):
    """For whom part k of a batch is settled, in both accounts."""
    return [(ACCOUNT, 'applied_on (after_parts b file k) (participant_at file k)', f'applied_on (after_parts b file k) ({participant})'),
            (DECISIONS, 'did t (participant_at file k)', f'did t ({participant})')]


# A change: its name; its edits; and the record that must refuse it with the fact that it is expected of.
SHARED = [
    # ---- the calendar
    ('every fourth year a leap year', [(CIVIL, '(eqb (y % 4) 0 && not (eqb (y % 100) 0)) || eqb (y % 400) 0', 'eqb (y % 4) 0')], 'Dates.leap-2100'),
    ('no four-hundredth year a leap year', [(CIVIL, ' || eqb (y % 400) 0', '')], 'Dates.leap-2000'),
    ('April of 31 days', [(CIVIL, '31 ∷ 28 ∷ 31 ∷ 30', '31 ∷ 28 ∷ 31 ∷ 31')], 'Dates.lengths-2020'),
    ('February of 29 days in every year', [(CIVIL, '31 ∷ 28', '31 ∷ 29')], 'Dates.lengths-2020'),
    ('a leap day in January', [(CIVIL, 'leap y && eqb k 1', 'leap y && eqb k 0')], 'Dates.lengths-2020'),
    ('no leap day', [(CIVIL, 'cond (leap y && eqb k 1) 1 0', '0')], 'Dates.lengths-2020'),
    ('month 0 in 2021', [(CIVIL, '2020 + m / 12', '2021 + m / 12')], 'Dates.lengths-2020'),
    ('month 0 a February', [(CIVIL, 'place_of m = m % 12', 'place_of m = (m + 1) % 12')], 'Dates.lengths-2020'),
    ('every year as long as 2021', [(CIVIL, 'length_in (year_of m)', 'length_in 2021')], 'Dates.lengths-2020'),
    ('the first day 1', [(CIVIL, 'first_day zero = 0', 'first_day zero = 1')], 'Dates.first-day'),
    ('a month that begins after the length of the next',
     [(CIVIL, 'first_day m + length_of m', 'first_day m + length_of (suc m)')], 'Dates.february-1-day'),
    ('a month that holds the day after its last', [(CIVIL, 'cond (ltb r (length_of m))', 'cond (leb r (length_of m))')], 'Dates.february-1'),
    ('a day counted into its month from the one before',
     [(CIVIL, '(holding n (suc m) (r - length_of m))', '(holding n (suc m) (suc r - length_of m))')], 'Dates.leap-day'),
    ('months from February on', [(CIVIL, 'holding months 0 d', 'holding months 1 d')], 'Dates.day-0'),
    ('959 months', [(CIVIL, 'months = 960', 'months = 959')], 'Dates.past-the-last'),
    ('961 months', [(CIVIL, 'months = 960', 'months = 961')], 'Dates.far-past-the-last'),
    ('a calendar that ends in September 2099', [(CIVIL, 'last_day = 29219', 'last_day = 29127')], 'Dates.first-october-2099'),
    ('days of the month from 0', [(CIVIL, 'd - first_day (month_of d) + 1', 'd - first_day (month_of d)')], 'Dates.day-0-first'),
    ('August taken for September', [(CIVIL, 'is_september m = eqb (place_of m) 8', 'is_september m = eqb (place_of m) 7')], 'Dates.august-no-september'),
    ('October taken for September', [(CIVIL, 'is_september m = eqb (place_of m) 8', 'is_september m = eqb (place_of m) 9')], 'Dates.september'),
    ('the annual run until 9 September', [(CIVIL, 'leb (day_of_month d) 10', 'leb (day_of_month d) 9')], 'Dates.annual-september-10'),
    ('the annual run until 11 September', [(CIVIL, 'leb (day_of_month d) 10', 'leb (day_of_month d) 11')], 'Dates.annual-september-11'),
    ('the annual run in every month',
     [(CIVIL, '(is_september (month_of d) && leb (day_of_month d) 10)', 'leb (day_of_month d) 10')], 'Dates.annual-august-1'),
    ('1 November taken for 1 October', [(CIVIL, 'eqb (place_of (month_of d)) 9', 'eqb (place_of (month_of d)) 10')], 'Dates.first-october-2020'),
    ('2 October taken for 1 October', [(CIVIL, 'eqb (day_of_month d) 1', 'eqb (day_of_month d) 2')], 'Dates.first-october-2020'),
    ('the first of every month taken for 1 October',
     [(CIVIL, '(eqb (place_of (month_of d)) 9 && eqb (day_of_month d) 1)', 'eqb (day_of_month d) 1')], 'Dates.first-september'),
    ('every day of October taken for the first',
     [(CIVIL, '(eqb (place_of (month_of d)) 9 && eqb (day_of_month d) 1)', 'eqb (place_of (month_of d)) 9')], 'Dates.first-october-after'),
    # ---- positions
    ('an empty position of amount 1', [(POSITION, 'amount_of Empty = 0', 'amount_of Empty = 1')], 'Positions.amount-empty'),
    ('cash of amount 0', [(POSITION, 'amount_of (Cash a) = a', 'amount_of (Cash a) = 0')], 'Positions.amount-cash'),
    ('a letter of amount 0', [(POSITION, 'amount_of (Letter a first last) = a', 'amount_of (Letter a first last) = 0')], 'Positions.amount-letter'),
    ('a letter without its first day',
     [(POSITION, 'leb first.0 d && leb e last.0', 'ltb first.0 d && leb e last.0')], 'Positions.on-its-first'),
    ('a letter without its last day',
     [(POSITION, 'leb first.0 d && leb e last.0', 'leb first.0 d && ltb e last.0')], 'Positions.on-its-last'),
    ('a letter in force before its first day', [(POSITION, 'leb first.0 d && leb e last.0', 'leb e last.0')], 'Positions.before-its-first'),
    ('a letter in force after its last day', [(POSITION, 'leb first.0 d && leb e last.0', 'leb first.0 d')], 'Positions.after-its-last'),
    ('cash that is never in force',
     [(POSITION, 'in_force_through d e (Cash a) = true', 'in_force_through d e (Cash a) = false')], 'Positions.through-cash'),
    ('a letter that counts on every day',
     [(POSITION, 'counts_through d e p = cond (in_force_through d e p) (amount_of p) 0', 'counts_through d e p = amount_of p'),
      (HOLDINGS, 'cond (counts h) (amount_of h) 0', 'amount_of h')], 'Decisions.unbegun-short'),
    ('an empty position in force', [(POSITION, 'in_force_through d e Empty = false', 'in_force_through d e Empty = true')], 'Positions.through-none'),
    ('in force on the second of two days alone', [(POSITION, 'leb first.0 d && leb e last.0', 'leb first.0 e && leb e last.0')],
     'Positions.through-from-before'),
    ('in force on the first of two days alone', [(POSITION, 'leb first.0 d && leb e last.0', 'leb first.0 d && leb d last.0')],
     'Positions.through-to-after'),
    ('an empty position taken for filled', [(POSITION, 'filled Empty = false', 'filled Empty = true')], 'Positions.filled-empty'),
    ('cash taken for empty', [(POSITION, 'filled (Cash a) = true', 'filled (Cash a) = false')], 'Positions.filled-cash'),
    ('a letter taken for empty',
     [(POSITION, 'filled (Letter a first last) = true', 'filled (Letter a first last) = false')], 'Positions.filled-letter'),
    ('a letter lapsed on its last day', [(POSITION, '= ltb last.0 d', '= leb last.0 d')], 'Positions.lapsed-not'),
    ('a letter lapsed a day late', [(POSITION, '= ltb last.0 d', '= ltb (Rattle.std.specs.Prelude.suc last.0) d')], 'Positions.lapsed'),
    ('cash that lapses', [(POSITION, 'lapsed_by d (Cash a) = false', 'lapsed_by d (Cash a) = ltb 29218 d')], 'Positions.lapsed-cash'),
    ('a lapsed letter that is not emptied', [(POSITION, 'cond (lapsed_by d p) Empty p', 'p')], 'Positions.emptied'),
    ('a letter emptied where it is not in force',
     [(POSITION, 'cond (lapsed_by d p) Empty p', 'cond (in_force d p) p Empty')], 'Positions.emptied-later'),
    ('cash released in part only', [(POSITION, '= ltb b a', '= leb b a')], 'Positions.cash-whole'),
    ('cash released whole only', [(POSITION, '= ltb b a', '= not (eqb a b)')], 'Positions.cash-in-part'),
    ('cash released above what is held', [(POSITION, '= ltb b a', '= false')], 'Positions.cash-above'),
    ('a letter released in part', [(POSITION, '= not (eqb a b)', '= ltb b a')], 'Positions.letter-in-part'),
    ('a letter released above what is held', [(POSITION, '= not (eqb a b)', '= ltb a b')], 'Positions.letter-above'),
    ('a letter that is never released', [(POSITION, '= not (eqb a b)', '= true')], 'Positions.letter-whole'),
    ('an amount of 0 allowed', [(POSITION, 'leb 1 a', 'leb 0 a')], 'Positions.amount-0'),
    ('amounts from 2 on', [(POSITION, 'leb 1 a', 'leb 2 a')], 'Positions.amount-1'),
    ('an amount above 10^12 allowed', [(POSITION, 'leb a 1000000000000', 'leb a 1000000000001')], 'Positions.amount-above'),
    ('amounts below 10^12', [(POSITION, 'leb a 1000000000000', 'ltb a 1000000000000')], 'Positions.amount-largest'),
    ('no letter of one day', [(POSITION, 'leb first.0 last.0', 'ltb first.0 last.0')], 'Positions.one-day-letter'),
    ('a letter whose first day is after its last',
     [(POSITION, '(leb first.0 last.0 && (leb t last.0 && leb last.0 29219))', '(leb t last.0 && leb last.0 29219)')],
     'Positions.first-after-last'),
    ('no letter until today', [(POSITION, 'leb t last.0', 'ltb t last.0')], 'Positions.last-today'),
    ('a letter that is past', [(POSITION, '(leb t last.0 && leb last.0 29219)', 'leb last.0 29219')], 'Positions.last-before-today'),
    ('no letter that has begun', [(POSITION, 'leb t last.0', 'leb t first.0')], 'Positions.last-today'),
    ('a letter until 2100', [(POSITION, 'leb last.0 29219', 'leb last.0 29220')], 'Positions.last-past-calendar'),
    ('no letter until the last day', [(POSITION, 'leb last.0 29219', 'leb last.0 29218')], 'Positions.last-of-calendar'),
    # ---- settlements and the annual run
    ('a month P − 15 settled', [(SETTLE, 'm + 14', 'm + 15')], 'Settlements.month-p-15'),
    ('no month P − 14 settled', [(SETTLE, 'm + 14', 'm + 13')], 'Settlements.month-p-14'),
    ('a month P − 1 settled', [(SETTLE, 'leb (m + 2) p', 'leb (m + 1) p')], 'Settlements.month-p-1'),
    ('no month P − 2 settled', [(SETTLE, 'leb (m + 2) p', 'leb (m + 3) p')], 'Settlements.month-p-2'),
    ('September dropped from the check', [(SETTLE, 'eqb (m + 2) p && not (is_september p)', 'eqb (m + 2) p')], 'Settlements.not-due-september'),
    ('month P − 3 checked', [(SETTLE, 'eqb (m + 2) p', 'eqb (m + 3) p')], 'Settlements.due'),
    ('every month checked that is settled', [(SETTLE, 'eqb (m + 2) p', 'leb (m + 2) p')], 'Settlements.not-due-p-3'),
    ('month P − 1 checked too', [(SETTLE, 'eqb (m + 2) p', 'leb p (m + 2)')], 'Settlements.not-due-p-1'),
    ('a call that answers asked before E', [(SETTLE, 'called call.amount call.asked last', 'called call.asked call.amount last')], 'Settlements.says-called'),
    ('covered answered as recorded only',
     [(SETTLE, 'None = covered e', 'None = Rattle.file.specs.Answer.recorded e')], 'Settlements.says-covered'),
    ('four figures allowed', [(FIGURES, 'ltb (length figures) 5', 'ltb (length figures) 4')], 'Settlements.figures-4'),
    ('six figures at least', [(FIGURES, 'ltb (length figures) 5', 'ltb (length figures) 6')], 'Settlements.figures-5'),
    ('17 figures allowed', [(FIGURES, 'ltb 16 (length figures)', 'ltb 17 (length figures)')], 'Settlements.figures-17'),
    ('15 figures at most', [(FIGURES, 'ltb 16 (length figures)', 'ltb 15 (length figures)')], 'Settlements.figures-16'),
    ('a figure above 10^12 allowed', [(FIGURES, 'bound = 1000000000000', 'bound = 1000000000001')], 'Settlements.figure-above'),
    ('figures below 10^12', [(FIGURES, 'bound = 1000000000000', 'bound = 999999999999')], 'Settlements.figure-largest'),
    ('only the first figure judged', [(FIGURES, 'leb (nat_abs x) bound && all_within rest', 'leb (nat_abs x) bound')], 'Settlements.last-figure-above'),
    ('no figure out of range',
     [(FIGURES, 'out_of_range figures = not (all_within figures)', 'out_of_range figures = not true')], 'Settlements.figure-above'),
    ('a sum of figures without their signs',
     [(INTEGERS, 'sum_of (x ∷ rest) = x +ℤ sum_of rest', 'sum_of (x ∷ rest) = pos (nat_abs x) +ℤ sum_of rest')], 'Settlements.sum'),
    ('a sum that begins with 1', [(INTEGERS, 'sum_of [] = pos 0', 'sum_of [] = pos 1')], 'Settlements.sum'),
    ('a call where E is D', [(CHECK, 'lt_z (pos d) e && le_z', 'le_z (pos d) e && le_z')], 'Settlements.at-cover'),
    ('a call without E > D', [(CHECK, 'lt_z (pos d) e && le_z', 'le_z')], 'Settlements.at-cover'),
    ('a call only above 20%', [(CHECK, 'le_z (pos (6 * d)) (pos 5 *ℤ e)', 'lt_z (pos (6 * d)) (pos 5 *ℤ e)')], 'Settlements.tolerance-at-20-percent'),
    ('a call below 20%', [(CHECK, 'le_z (pos (6 * d)) (pos 5 *ℤ e)', 'le_z (pos (6 * d)) (pos 6 *ℤ e)')], 'Settlements.tolerance-below'),
    ('a call from 7/5 of D on', [(CHECK, '(6 * d)', '(7 * d)')], 'Settlements.tolerance-at-20-percent'),
    ('a call without the tolerance', [(CHECK, 'lt_z (pos d) e && le_z (pos (6 * d)) (pos 5 *ℤ e)', 'lt_z (pos d) e')], 'Settlements.tolerance-below'),
    ('a call where E is the firm amount', [(CHECK, 'lt_z (pos a) e && exceeds_each', 'le_z (pos a) e && exceeds_each')], 'Settlements.at-firm'),
    ('only the first amount exceeded', [(CHECK, 'lt_z (pos a) e && exceeds_each e rest', 'lt_z (pos a) e')], 'Settlements.at-first-call'),
    ('a call that need not exceed the firm amount', [(CHECK, '&& exceeds_each e (firm ∷ opens)', '&& exceeds_each e opens')], 'Settlements.at-firm'),
    ('a call that need not exceed the open calls',
     [(CHECK, '&& exceeds_each e (firm ∷ opens)', '&& exceeds_each e (firm ∷ [])')], 'Settlements.at-first-call'),
    ('a call within the tolerance',
     [(CHECK, 'exceeds_tolerance e d && exceeds_each e (firm ∷ opens)', 'exceeds_each e (firm ∷ opens)')], 'Settlements.within-tolerance'),
    ('asked E less the firm amount', [(CHECK, 'asked = nat_abs e - d', 'asked = nat_abs e - firm')], 'Settlements.asked'),
    ('a call of the amount asked', [(CHECK, 'amount = nat_abs e;', 'amount = nat_abs e - d;')], 'Settlements.asked'),
    ('the amount itself left out of the largest', [(CALLS, 'largest a [] = a', 'largest a [] = 0')], 'Settlements.largest-itself'),
    ('the sum for the largest', [(CALLS, 'max b (largest a rest)', 'Rattle.std.specs.Prelude.◌+◌ b (largest a rest)')], 'Settlements.largest-itself'),
    ('only the first of a list in the largest', [(CALLS, 'max b (largest a rest)', 'max b a')], 'Settlements.largest-last'),
    ('the last free days for the amounts', [(CALLS, 'c.amount) calls', 'c.last.0) calls')], 'Settlements.amounts'),
    ('a call with amount and last free day exchanged',
     [(CALLS, 'record { amount = amount; last = record { 0 = last } }', 'record { amount = last; last = record { 0 = amount } }')],
     'Settlements.amounts'),
    ('calls kept that fail the test', swapped(CALLS, '(c ∷ keep test calls)', '(keep test calls)\n'), 'Settlements.kept'),
    ('calls kept up to the first that fails', [(CALLS, '(c ∷ keep test calls) (keep test calls)', '(c ∷ keep test calls) []')], 'Settlements.kept'),
    ('a year from P − 15 on', [(TOTALS, '(p - 14) (p - 2 - (p - 14))', '(p - 15) (p - 2 - (p - 15))')], 'Settlements.july-to-june'),
    ('a year from P − 13 on', [(TOTALS, '(p - 14) (p - 2 - (p - 14))', '(p - 13) (p - 2 - (p - 13))')], 'Settlements.july-to-june'),
    ('a year until P − 2', [(TOTALS, '(p - 14) (p - 2 - (p - 14))', '(p - 14) (p - 1 - (p - 14))')], 'Settlements.july-to-june'),
    ('a year until P − 4', [(TOTALS, '(p - 14) (p - 2 - (p - 14))', '(p - 14) (p - 3 - (p - 14))')], 'Settlements.july-to-june'),
    ('twelve months also where there are fewer', [(TOTALS, '(p - 2 - (p - 14))', '12')], 'Settlements.january-to-june'),
    ('one month twelve times', [(TOTALS, 'totals_from look (suc m) n', 'totals_from look m n')], 'Settlements.july-to-june'),
    ('a total of 0 where none is recorded', [(TOTALS, 'added none rest = rest', 'added none rest = pos 0 ∷ rest')], 'Settlements.recorded-only'),
    ('a recorded total left out', [(TOTALS, 'added (total e) rest = e ∷ rest', 'added (total e) rest = rest')], 'Settlements.july-to-june'),
    ('the smaller for the larger', [(INTEGERS, 'cond (lt_z a b) b a', 'cond (lt_z a b) a b')], 'Settlements.larger-one'),
    ('the first total left out of the largest', [(AT_LEAST, 'larger a (largest_total b rest)', 'largest_total b rest')], 'Settlements.largest-in-front'),
    ('the last total left out of the largest', [(AT_LEAST, 'larger a (largest_total b rest)', 'a')], 'Settlements.largest-at-end'),
    ('an annual amount below the minimum',
     amount_by_cases(AMOUNT, 'minimum_of role', 'nat_abs (largest_total a rest)'), 'Settlements.annual-below'),
    ('an annual amount of 0 where none is recorded',
     [(AT_LEAST, 'largest_at_least least [] = least', 'largest_at_least least [] = 0')], 'Settlements.annual-none'),
    ('a minimum for a Producer', [(MINIMUM, '1000000 ∷ 0 ∷ 0 ∷ 0 ∷ []', '1000000 ∷ 1000000 ∷ 0 ∷ 0 ∷ []')], 'Settlements.annual-nothing'),
    ('€10,000 for a Supplier', [(MINIMUM, '2000000 ∷ 2000000 ∷', '1000000 ∷ 2000000 ∷')], 'Settlements.annual-below'),
    ('a minimum for a number that is no role', [(MINIMUM, 'get_or minimums role 0', 'get_or minimums role 1000000')], 'Settlements.minimums'),
    ('a least charge of €999.99', [(CHARGE, 'max s 100000000', 'max s 99999000')], 'Settlements.charge-below'),
    ('a least charge of €1,000.01', [(CHARGE, 'max s 100000000', 'max s 100001000')], 'Figures.charge-of-1'),
    ('the smaller of S and €1,000', [(CHARGE, 'max s 100000000', 'Rattle.std.specs.Prelude.min s 100000000')], 'Figures.charge-of-1'),
    ('a charge where the shortfall is 0', [(CHARGE, 'cond (eqb s 0) 0 (max s 100000000)', 'max s 100000000')], 'Figures.charge-of-0'),
    ('the last cause that holds',
     [(CAUSES, 'cond c.holds (refused c.number) (decide refused causes answer)',
       'decide refused causes (cond c.holds (refused c.number) answer)')],
     'Settlements.first-cause'),
    ('only the first cause judged', [(CAUSES, '(decide refused causes answer)', 'answer')], 'Settlements.second-cause'),
    # ---- answers, calls and what an annual run leaves, on histories
    ('a refused call that counts as accepted',
     [(ANSWER, 'accepted (refused n) = false', 'accepted (refused n) = true')], 'Decisions.annual-not-recorded'),
    ('an admission or lodging that leaves nothing', [(ANSWER, 'accepted done = true', 'accepted done = false')], 'Decisions.admitted-already'),
    ('a settlement that called leaves nothing',
     [(ANSWER, 'accepted (called e asked last) = true', 'accepted (called e asked last) = false')], 'Decisions.largest-short'),
    ('a covered settlement leaves nothing', [(ANSWER, 'accepted (covered e) = true', 'accepted (covered e) = false')], 'Decisions.on-october'),
    ('a recorded settlement leaves nothing', [(ANSWER, 'accepted (recorded e) = true', 'accepted (recorded e) = false')], 'Decisions.next-short'),
    ('an annual run that leaves nothing', [(ANSWER, 'accepted (annual a n) = true', 'accepted (annual a n) = false')], 'Decisions.next-short'),
    ('an advance that leaves nothing', [(ANSWER, 'accepted (days_opened n) = true', 'accepted (days_opened n) = false')], 'Decisions.today'),
    ('a next amount set that stays unset',
     [(FIELDS, 'record { set = true; amount = a }', 'record { set = false; amount = a }')], 'Decisions.on-october'),
    ('a next amount of 0', [(FIELDS, 'record { set = true; amount = a }', 'record { set = true; amount = 0 }')], 'Decisions.next-short'),
    ('an unset amount taken for 0', [(FIELDS, 'record { set = false; amount = 0 }', 'record { set = true; amount = 0 }')], 'Decisions.taken-once'),
    ('an unset amount of 1', [(FIELDS, 'record { set = false; amount = 0 }', 'record { set = false; amount = 1 }')], 'Decisions.released-whole'),
    # ---- numbers and orders that stand in both accounts
    ('participant 64 allowed', participants(64), 'Decisions.participant-64'),
    ('participant 63 refused', participants(62), 'Decisions.participant-63'),
    ('role 6 allowed', in_both(ACCOUNT, 'ltb 5 role', 'ltb 6 role'), 'Decisions.role-6'),
    ('role 5 refused', in_both(ACCOUNT, 'ltb 5 role', 'ltb 4 role'), 'Decisions.role-5'),
    ('a lodging at position 8', places(LODGE, 6, 8), 'Decisions.position-8'),
    ('no lodging at position 7', places(LODGE, 6, 6), 'Decisions.position-7'),
    ('a release at position 8', places(RELEASE, 7, 8), 'Decisions.release-position-8'),
    ('no release at position 7', places(RELEASE, 7, 6), 'Decisions.release-empty'),
    ("nine free days for a settlement's call", last_free_day(9), 'Decisions.settle-p-2'),
    ("eleven free days for a settlement's call", last_free_day(11), 'Decisions.settle-p-2'),
    ("nine free days kept for a settlement's call", kept_free_day(9), 'Decisions.before-october'),
    ("eleven free days kept for a settlement's call", kept_free_day(11), 'Decisions.fifth-later'),
    ("nine free days for an admission's call", admission_free_day(9), 'Decisions.last-free-day'),
    ("eleven free days for an admission's call", admission_free_day(11), 'Decisions.first-charged-day'),
    ('a fifth open call allowed', most_open(5), 'Decisions.fifth-call'),
    ('a fourth open call refused', most_open(3), 'Decisions.fourth-call'),
    ('an advance to day 29,220', in_both(ACCOUNT, 'ltb 29219 day', 'ltb 29220 day'), 'Decisions.advance-past'),
    ('no advance to day 29,219', in_both(ACCOUNT, 'ltb 29219 day', 'ltb 29218 day'), 'Decisions.advance-last-day'),
    ('an advance to today refused',
     [(ACCOUNT, 'ltb day b.today.0', 'Rattle.std.specs.Prelude.leb day b.today.0'),
      (DECISIONS, 'ltb day (today_of s events)', 'leb day (today_of s events)')],
     'Decisions.advance-today'),
    ('an advance to a day that is past',
     [(ACCOUNT, 'ltb 29219 day || ltb day b.today.0', 'ltb 29219 day'),
      (DECISIONS, 'ltb 29219 day || ltb day (today_of s events)', 'ltb 29219 day')],
     'Decisions.advance-back'),
    ('an advance over its budget',
     [(ACCOUNT, 'min budget (day - b.today.0)', 'day - b.today.0'),
      (DECISIONS, '(days_opened (min budget (day - today_of s events)))', '(days_opened (day - today_of s events))'),
      (DECISIONS, 'with_days (min budget (day - today_of s events))', 'with_days (day - today_of s events)')],
     'Decisions.advance-budget-less'),
    ('a fresh book on day 29,220', [(ACCOUNT, 'ltb 29219 d ', 'ltb 29220 d ')], 'Decisions.fresh-past'),
    ('no fresh book on day 29,219', [(ACCOUNT, 'ltb 29219 d ', 'ltb 29218 d ')], 'Decisions.fresh-last-day'),
    ('admit: 4 before 3',
     swapped(ACCOUNT, named(3, 'f.admitted'), named(4, 'ltb 5 role'))
     + swapped(DECISIONS, 'cause 3 (admitted_in own)', 'cause 4 (ltb 5 role)'),
     'Decisions.admit-3-before-4'),
    ('admit: 1 after the others',
     [(ACCOUNT, f'answer_on rule b p a = if_numbered p ({ON_FILE})',
       f'answer_on rule b p a = cond (accepted ({ON_FILE})) (if_numbered p ({ON_FILE})) ({ON_FILE})'),
      (DECISIONS, DECIDED, f'({OWN} ++ (retirement rule a ++ (cause 1 (ltb 63 p) ∷ [])))')],
     'Decisions.admit-1-before-4'),
    ('lodge: 5 before 2',
     [(ACCOUNT, '(lodge k h) = if_admitted f (lodge_answer f t k h)',
       f"(lodge k h) = decide refused ({named(5, 'ltb 7 k')} ∷ []) (if_admitted f (lodge_answer f t k h))"),
      (DECISIONS, 'cause 2 (not (admitted_in own))\n    ∷ cause 5 (ltb 7 k)\n    ∷ cause 6',
       'cause 5 (ltb 7 k)\n    ∷ cause 2 (not (admitted_in own))\n    ∷ cause 6')],
     'Decisions.lodge-2-before-5'),
    ('release: 2 after the others',
     not_admitted_last('(release k a)', 'release_answer f t k a', 'cause 5 (ltb 7 k)\n    ∷ cause 7', f'cause 16 ({RELEASED[16][1]})'),
     'Decisions.release-not-admitted'),
    ('settle: 2 after the others',
     not_admitted_last('(settle m figures)', 'settle_answer f t m figures', f'cause 12 ({SETTLED[12][1]})', f'cause 13 ({SETTLED[13][1]})'),
     'Decisions.settle-2-before-12'),
    ('release: 7 before 5',
     [(RELEASE, f"{named(5, 'ltb 7 k')}\n    ∷ {named(7, RELEASED[7][0])}", f"{named(7, RELEASED[7][0])}\n    ∷ {named(5, 'ltb 7 k')}"),
      (DECISIONS, f'cause 5 (ltb 7 k)\n    ∷ cause 7 ({RELEASED[7][1]})', f'cause 7 ({RELEASED[7][1]})\n    ∷ cause 5 (ltb 7 k)')],
     'Decisions.release-position-8'),
    ('lodge: 8 before 6', reordered(LODGE, LODGED, 6, 8), 'Decisions.lodge-6-before-8'),
    ('lodge: 9 before 8', reordered(LODGE, LODGED, 8, 9), 'Decisions.lodge-8-before-9'),
    ('release: 8 before 7', reordered(RELEASE, RELEASED, 7, 8), 'Decisions.release-7-before-8'),
    ('release: 15 before 8', reordered(RELEASE, RELEASED, 8, 15), 'Decisions.release-8-before-15'),
    ('release: 16 before 15', reordered(RELEASE, RELEASED, 15, 16), 'Decisions.release-15-before-16'),
    ('settle: 10 before 12', reordered(SETTLE, SETTLED, 12, 10), 'Decisions.settle-12-before-10'),
    ('settle: 11 before 10', reordered(SETTLE, SETTLED, 10, 11), 'Decisions.settle-10-before-11'),
    ('settle: 13 before 11', reordered(SETTLE, SETTLED, 11, 13), 'Decisions.settle-11-before-13'),
    ('annual: 14 before 2',
     [(ACCOUNT, 'annual_run = if_admitted f (annual_answer f t)',
       'annual_run = cond (accepted (annual_answer f t)) (if_admitted f (annual_answer f t)) (annual_answer f t)'),
      (DECISIONS, 'cause 2 (not (admitted_in own)) ∷ cause 14 (not (in_annual_days t)) ∷ cause 25',
       'cause 14 (not (in_annual_days t)) ∷ cause 2 (not (admitted_in own)) ∷ cause 25')],
     'Decisions.annual-2-before-14'),
    ('statement: 2 before 1',
     [(ACCOUNT, 'if_numbered p (if_admitted (file_at b p) (statement_says', 'if_admitted (file_at b p) (if_numbered p (statement_says'),
      (DECISIONS, 'cause 1 (ltb 63 p) ∷ cause 2 (not (admitted_in (mine p events))) ∷ []',
       'cause 2 (not (admitted_in (mine p events))) ∷ cause 1 (ltb 63 p) ∷ []')],
     'Decisions.statement-participant'),
    ('a release floor without the next amount',
     floor('largest f.firm (open_amounts f)', 'largest (firm_in t own) (amounts_of (open_in t own))'), 'Decisions.next-short'),
    ('a release floor without the firm amount',
     floor('largest f.next.amount (open_amounts f)', 'largest (next_in own).amount (amounts_of (open_in t own))'), 'Decisions.firm-short'),
    ('a release floor without the open calls',
     floor('largest f.next.amount (f.firm ∷ [])', 'largest (next_in own).amount (firm_in t own ∷ [])'), 'Decisions.open-call-short'),
    ('a release floor of the firm amount and the largest open call together',
     floor(
         'Rattle.std.specs.Prelude.◌+◌ f.firm (largest f.next.amount (open_amounts f))',
         'firm_in t own + largest (next_in own).amount (amounts_of (open_in t own))'),
     'Decisions.firm-and-call-left'),
    ('a release floor of the next amount and the largest of the others together',
     floor(
         'Rattle.std.specs.Prelude.◌+◌ f.next.amount (largest f.firm (open_amounts f))',
         '(next_in own).amount + largest (firm_in t own) (amounts_of (open_in t own))'),
     'Decisions.next-and-call-left'),
    ('a release floor of the sum of all three',
     floor(
         f'{SUM_OF_ALL} (f.next.amount ∷ f.firm ∷ open_amounts f)))',
         f'{SUM_OF_ALL} ((next_in own).amount ∷ firm_in t own ∷ amounts_of (open_in t own))))'),
     'Decisions.largest-left'),
    ('cover left at least the floor and one cent more',
     [(RELEASE, 'ltb (cover_on t (slots_left f k a)) (release_floor f)', 'Rattle.std.specs.Prelude.leb (cover_on t (slots_left f k a)) (release_floor f)'),
      (DECISIONS, 'ltb (cover_left t k a own) (must_stay t own)', 'leb (cover_left t k a own) (must_stay t own)')],
     'Decisions.released-whole'),
    ('an opening that keeps the next amount',
     [(OPENING, 'cond (takes_effect f d) unset f.next', 'f.next'),
      (MONTHS, 'cond (is_first_october d) unset (next_in own)', 'next_in own')],
     'Decisions.taken-once'),
    ('a 1 October amount that only raises',
     [(OPENING, 'cond (takes_effect f d) f.next.amount (firm_raised f d)',
       'cond (takes_effect f d) (Rattle.std.specs.Prelude.max f.next.amount (firm_raised f d)) (firm_raised f d)'),
      (READ_CALLS, 'record { from = e; amount = (next_in own).amount }', 'record { from = 0; amount = (next_in own).amount }')],
     'Decisions.on-october'),
    ('a call that ends a day late',
     [('file/specs/Calls.antt', 'eqb (suc c.last.0) d', 'eqb (suc (suc c.last.0)) d'),
      (READ_CALLS, 'ltb c.last.0 d', 'ltb (c.last.0 + 1) d'),
      (READ_CALLS, 'leb t c.last.0', 'leb t (c.last.0 + 1)')],
     'Decisions.fifth-later'),
    ('an opening charged by the cover of the day before',
     [(OPENING, 'firm_opened f d - cover_on d (slots_opened f d)', 'firm_opened f d - cover_on (d - 1) f.slots'),
      (CHARGES, 'cover_in d (before d own)', 'cover_in (d - 1) (before d own)')],
     'Decisions.letter-no-longer'),
    ('a kept call of the amount asked',
     [(SETTLE, 'call_of (nat_abs (sum_of figures))', 'call_of (Rattle.std.specs.Prelude.◌-◌ (nat_abs (sum_of figures)) (deposited f t))'),
      (READ_CALLS, 'call_of (nat_abs (sum_of figures))', 'call_of (Rattle.std.specs.Prelude.◌-◌ (nat_abs (sum_of figures)) (deposited_in d own))')],
     'Decisions.taken-once'),
    # ---- letters about to lapse
    ('a check against the cover today', deposits('cover_through t t f.slots', 'in_force t p'), 'Deposits.three-days-left'),
    ('a letter deposited that lapses on the last free day',
     deposits('cover_through t (t + 10) f.slots', 'in_force t p && in_force (t + 10) p'), 'Deposits.last-t-10'),
    ('no letter deposited until day t + 11',
     deposits('cover_through t (t + 12) f.slots', 'in_force t p && in_force (t + 12) p'), 'Deposits.last-t-11'),
    ('a letter deposited that begins later',
     deposits('cover_through (t + 11) (t + 11) f.slots', 'in_force (t + 11) p'), 'Deposits.from-tomorrow'),
    ('no letter deposited that begins today',
     deposits('cover_through (Rattle.std.specs.Prelude.◌-◌ t 1) (t + 11) f.slots', 'in_force (t - 1) p && in_force (t + 11) p'), 'Deposits.last-t-11'),
    ('day t + 11 cut at the end of the calendar',
     deposits('cover_through t (Rattle.std.specs.Prelude.min 29219 (t + 11)) f.slots',
              'in_force t p && in_force (Rattle.std.specs.Prelude.min 29219 (t + 11)) p'),
     'Deposits.day-29209'),
    ('a check against the smaller of the covers of today and of day t + 11',
     [(SETTLE, DEPOSITED, 'Rattle.std.specs.Prelude.min (cover_through t t f.slots) (cover_through (t + 11) (t + 11) f.slots)'),
      (HOLDINGS, 'lodged_where (stays_in_force t) own - released_where (stays_in_force t) own',
       'Rattle.std.specs.Prelude.min (cover_in t own) (cover_in (t + 11) own)')],
     'Deposits.not-the-smaller'),
    ('a release that must leave enough deposited',
     [(RELEASE, 'cover_on t (slots_left f k a)', 'Rattle.file.specs.Position.cover_through t (Rattle.std.specs.Prelude.◌+◌ t 11) (slots_left f k a)'),
      (DECISIONS, 'cover_left t k a own = cover_in t', 'cover_left t k a own = deposited_in t')],
     'Deposits.release-rule'),
    ('a statement of what is deposited',
     [(FIELDS, 'cover_of f d = cover_on d f.slots',
       'cover_of f d = Rattle.file.specs.Position.cover_through d (Rattle.std.specs.Prelude.◌+◌ d 11) f.slots'),
      (DECISIONS, '(cover_in t own) (firm_in t own - cover_in t own)', '(deposited_in t own) (firm_in t own - deposited_in t own)')],
     'Deposits.cover-today'),
    ('an opening charged by what is deposited',
     [(OPENING, 'cover_on d (slots_opened f d)', 'Rattle.file.specs.Position.cover_through d (Rattle.std.specs.Prelude.◌+◌ d 11) (slots_opened f d)'),
      (CHARGES, 'cover_in d (before d own)', 'Rattle.book.specs.Reading.Holdings.deposited_in d (before d own)')],
     'Deposits.not-charged'),
    ('a total recorded without its sign',
     [(TOTALS, 'month = record { 0 = m }; total = e', 'month = record { 0 = m }; total = pos (Rattle.std.specs.Prelude.nat_abs e)'),
      (MONTHS, '(total (sum_of figures))', '(total (Rattle.std.specs.Prelude.pos (Rattle.std.specs.Prelude.nat_abs (sum_of figures))))')],
     'Decisions.annual-credit'),
    ('a second annual run that leaves the first amount',
     [(ANNUAL, '(set_to (annual_amount_of f t))', '(cond f.next.set f.next (set_to (annual_amount_of f t)))'),
      (MONTHS, 'annual_run ∷ own) = set_to (annual_in d own)', 'annual_run ∷ own) = cond (next_in own).set (next_in own) (set_to (annual_in d own))')],
     'Decisions.next-replaced'),
    ('a minimum that is firm from the admission on',
     [(ADMIT, '      role = role;\n      firm = 0;', '      role = role;\n      firm = minimum_of role;'),
      (READ_CALLS, 'record { from = e; amount = 0 }', 'record { from = e; amount = minimum_of role }')],
     'Decisions.last-free-day'),
    ('a call of 0 for a Producer',
     [(ADMIT, 'cond (ltb 0 (minimum_of role)) (call_of (minimum_of role) (t + 10) ∷ []) []', 'call_of (minimum_of role) (t + 10) ∷ []'),
      (READ_CALLS, 'cond (ltb 0 (minimum_of role)) (call_of (minimum_of role) (d + 10) ∷ []) []', '(call_of (minimum_of role) (d + 10) ∷ [])')],
     'Decisions.fourth-call'),
    ('a refused fresh book on day 1', [(ACCOUNT, '(fresh_book d) (fresh_book 0)', '(fresh_book d) (fresh_book 1)')], 'Decisions.fresh-beside'),
    ('a participant admitted with role 0',
     [(ADMIT, '      role = role;', '      role = 0;'),
      (EVENTS, 'role_in (act d (admit role) ∷ own) = role', 'role_in (act d (admit role) ∷ own) = 0')],
     'Decisions.next-left'),
    ('an advance with day and budget exchanged',
     [(ACCOUNT, 'answer rule b (advance day budget)', 'answer rule b (advance budget day)'),
      (ACCOUNT, 'applied b (advance day budget)', 'applied b (advance budget day)'),
      (DECISIONS, 'decision rule s events (advance day budget)', 'decision rule s events (advance budget day)'),
      (DECISIONS, 'with_call s events (advance day budget)', 'with_call s events (advance budget day)')],
     'Decisions.advance-last-day'),
    ('a release with place and amount exchanged',
     [(ACCOUNT, 'file_answer f t (release k a)', 'file_answer f t (release a k)'),
      (ACCOUNT, 'file_after f t (release k a)', 'file_after f t (release a k)'),
      (DECISIONS, 'own_causes t own (release k a)', 'own_causes t own (release a k)'),
      (DECISIONS, '(act t (release k a) ∷ own)', '(act t (release a k) ∷ own)'),
      (HOLDINGS, 'released_since k (act d (release j a)', 'released_since k (act d (release a j)'),
      (HOLDINGS, 'released_where counts (act e (release k a)', 'released_where counts (act e (release a k)')],
     'Decisions.released-whole'),
    ('an annual run that answers months before amount',
     [(ANNUAL, '(annual (annual_amount_of f t) (length (annual_totals f t)))', '(annual (length (annual_totals f t)) (annual_amount_of f t))'),
      (DECISIONS, 'annual (annual_in t own) (length (years_totals t own))', 'annual (length (years_totals t own)) (annual_in t own)')],
     'Decisions.annual-first-day'),
    ('a statement with cover and shortfall exchanged',
     [(ANSWER, 's.cover s.shortfall', 's.shortfall s.cover'),
      (DECISIONS, '(cover_in t own) (firm_in t own - cover_in t own)', '(firm_in t own - cover_in t own) (cover_in t own)')],
     'Decisions.first-charged-day'),
    # ---- the role that is retired: which, its number, its place among the causes, and the rules
    ('role 0 retired', retired('eqb role 0'), 'Retirement.role-0'),
    ('role 2 retired', retired('eqb role 2'), 'Retirement.role-1'),
    ('role 6 retired', retired('eqb role 6'), 'Retirement.role-1'),
    ('roles 0 and 1 retired', retired('ltb role 2'), 'Retirement.role-0'),
    ('roles 1 and 2 retired', retired('eqb role 1 || eqb role 2'), 'Retirement.role-2'),
    ('every role but 0 retired', retired('ltb 0 role'), 'Retirement.role-2'),
    ('22 for 23', retired_number(22), 'Retirement.role-1'),
    ('24 for 23', retired_number(24), 'Retirement.role-1'),
    ('4 for 23', retired_number(4), 'Retirement.role-1'),
    ('admit: 23 before 3',
     [(ACCOUNT, RETIRED, 'admits_retired a'),
      (DECISIONS, DECIDED, f'(cause 1 (ltb 63 p) ∷ (retirement rule a ++ {OWN}))')],
     'Retirement.admit-3-before-23'),
    ('admit: 23 before 1',
     [(ACCOUNT, RETIRED, 'admits_retired a'),
      (ACCOUNT, f'if_numbered p ({ON_FILE})', 'unless_retired rule a (if_numbered p (file_answer (file_at b p) b.today.0 a))'),
      (DECISIONS, DECIDED, f'(retirement rule a ++ (cause 1 (ltb 63 p) ∷ {OWN}))')],
     'Retirement.admit-1-before-23'),
    ('role 1 still admitted',
     [(ACCOUNT, f'new_rule a answer = cond ({RETIRED}) (refused 23) answer', 'new_rule a answer = answer'),
      (DECISIONS, f'retirement new_rule (admit role) = {BEHIND}', 'retirement new_rule (admit role) = []')],
     'Retirement.role-1'),
    ('role 1 refused in the first stretch too',
     [(ACCOUNT, 'old_rule a answer = answer', f'old_rule a answer = cond ({RETIRED}) (refused 23) answer'),
      (DECISIONS, 'retirement old_rule a = []', '\n'.join(
          f'retirement old_rule {call} = {BEHIND if call == "(admit role)" else "[]"}'
          for call in ACTS))],
     'Retirement.first-role-1'),
    ('the rules exchanged',
     [(ACCOUNT, 'old_rule a answer = answer', '\0'),
      (ACCOUNT, f'new_rule a answer = cond ({RETIRED}) (refused 23) answer', 'new_rule a answer = answer'),
      (ACCOUNT, '\0', f'old_rule a answer = cond ({RETIRED}) (refused 23) answer'),
      (DECISIONS, 'retirement : Rule → Act → List Cause\nretirement old_rule a = []', 'retirement : Rule → Act → List Cause\nretirement new_rule a = []')]
     + [(DECISIONS, f'retirement new_rule {call}', f'retirement old_rule {call}')
        for call in ACTS],
     'Retirement.role-1'),
    ('a first stretch by the new rule', [(RULE, 'map (under old_rule) first', 'map (under new_rule) first')], 'Retirement.kept-3-before-23'),
    ('calls since by the old rule', [(RULE, 'map (under new_rule) since', 'map (under old_rule) since')], 'Retirement.refused-again'),
    ('no first stretch', [(RULE, f'{SINCE} ++ {STRETCH}', SINCE)], 'Retirement.kept-3-before-23'),
    ('no calls since', [(RULE, f'{SINCE} ++ {STRETCH}', STRETCH)], 'Retirement.admit-3-before-23'),
    ('calls since before the first stretch', [(RULE, f'{SINCE} ++ {STRETCH}', f'{STRETCH} ++ {SINCE}')], 'Retirement.open-last-day'),
    # .. and what files keep that have it
    ('no minimum of the retired role', [(MINIMUM, '2000000 ∷ 2000000 ∷ 1000000', '2000000 ∷ 0 ∷ 1000000')], 'Retirement.first-release'),
    ("a Trader's minimum for the retired role", [(MINIMUM, '2000000 ∷ 2000000 ∷ 1000000', '2000000 ∷ 1000000 ∷ 1000000')], 'Retirement.first-release'),
    ('no annual run of the retired role',
     [(ACCOUNT, 'annual_run = if_admitted f (annual_answer f t)',
       f"annual_run = if_admitted f (decide refused ({named(23, 'eqb f.role 1')} ∷ []) (annual_answer f t))"),
      (DECISIONS, 'cause 2 (not (admitted_in own)) ∷ cause 14',
       'cause 2 (not (admitted_in own)) ∷ cause 23 (eqb (Rattle.book.specs.Reading.Events.role_in own) 1) ∷ cause 14')],
     'Retirement.first-annual'),
    ('no settlement of the retired role',
     [(ACCOUNT, '(settle m figures) = if_admitted f (settle_answer f t m figures)',
       f"(settle m figures) = if_admitted f (decide refused ({named(23, 'eqb f.role 1')} ∷ []) (settle_answer f t m figures))"),
      (DECISIONS, 'cause 2 (not (admitted_in own))\n    ∷ cause 12',
       'cause 2 (not (admitted_in own))\n    ∷ cause 23 (eqb (Rattle.book.specs.Reading.Events.role_in own) 1)\n    ∷ cause 12')],
     'Retirement.first-batch'),
    # ---- participants under deletion: when a participant is placed there
    ('deletions in July too', [(CIVIL, DELETION_MONTHS, f'eqb (place_of m) 6 || ({DELETION_MONTHS})')], 'Deletions.days-2020'),
    ('deletions in August only', [(CIVIL, DELETION_MONTHS, 'eqb (place_of m) 7')], 'Deletions.days-2020'),
    ('deletions in September only', [(CIVIL, f'is_deletion_month m = {DELETION_MONTHS}', 'is_deletion_month m = eqb (place_of m) 8')],
     'Deletions.days-2020'),
    ('deletions in September and October',
     [(CIVIL, DELETION_MONTHS, 'eqb (place_of m) 8 || eqb (place_of m) 9')], 'Deletions.days-2020'),
    ('deletions in every month', [(CIVIL, 'leb d last_day && is_deletion_month (month_of d)', 'leb d last_day')], 'Deletions.days-2020'),
    # .. its amount
    ('a deletion of the smallest total',
     amount_by_cases(LEAVING, '0', 'nat_abs (larger (smallest a rest) (pos 0))')
     + [(LEAVING, 'unfoldable pub deletion_amount :', f'{SMALLEST}unfoldable pub deletion_amount :')],
     'Deletions.amount-one'),
    ('a deletion of the sum of the totals',
     amount_by_cases(LEAVING, '0', 'nat_abs (larger (Rattle.laws.specs.Integers.sum_of (a ∷ rest)) (pos 0))'), 'Deletions.amount-one'),
    ('a deletion of 1 at least', [(LEAVING, 'largest_at_least 0', 'largest_at_least 1')], 'Deletions.amount-none'),
    ('a deletion of 1 where none is recorded',
     amount_by_cases(LEAVING, '1', 'nat_abs (larger (largest_total a rest) (pos 0))'), 'Deletions.amount-none'),
    ("a deletion of a negative total's size", amount_by_cases(LEAVING, '0', 'nat_abs (largest_total a rest)'), 'Deletions.amount-negative'),
    ("a deletion of the role's minimum at least",
     [(DELETION, 'deletion_amount (last_three', 'Rattle.manual.specs.Annual.annual_amount f.role (last_three'),
      (MONTHS, 'deletion_amount (take 3', 'annual_amount (role_in own) (take 3')],
     'Deletions.no-month'),
    ('a deletion of the latest month', latest('drop (length totals - 1) totals', 'take 1 '), 'Deletions.fifth'),
    ('a deletion of the two latest months', latest('drop (length totals - 2) totals', 'take 2 '), 'Deletions.with-gaps'),
    ('a deletion of the four latest months', latest('drop (length totals - 4) totals', 'take 4 '), 'Deletions.three-latest'),
    ('a deletion of all recorded months', latest('totals', ''), 'Deletions.three-latest'),
    ('a deletion of the three earliest months',
     latest('Rattle.std.specs.Prelude.take 3 totals',
            '(λ (l : List ℤ). Rattle.std.specs.Prelude.drop (Rattle.std.specs.Prelude.length l - 3) l) '),
     'Deletions.three-latest'),
    ('a deletion of months from P − 15 on', window(15, 2), 'Deletions.p-15'),
    ('a deletion of months from P − 13 on', window(13, 2), 'Deletions.p-14'),
    ('a deletion of months until P − 3', window(14, 3), 'Deletions.with-gaps'),
    # .. its call
    ('a deletion that need not exceed the open calls', exceeding('(f.firm ∷ [])', '(firm_from d (base_in d own) made)'), 'Deletions.fifth-uncalled'),
    ('a deletion that need not exceed the firm amount',
     exceeding('(0 ∷ open_amounts f)', '(largest 0 (amounts_of (open_on d made)))'), 'Deletions.at-firm'),
    ('a deletion that must exceed the next amount too',
     exceeding('(f.next.amount ∷ f.firm ∷ open_amounts f)',
               '(largest (next_in own).amount (firm_from d (base_in d own) made ∷ amounts_of (open_on d made)))'),
     'Deletions.below_next'),
    ('a deletion that must exceed the firm amount and the open calls together',
     exceeding(f'({SUM_OF_ALL} (f.firm ∷ open_amounts f))) ∷ [])',
               f'({SUM_OF_ALL} (firm_from d (base_in d own) made ∷ amounts_of (open_on d made)))))'),
     'Deletions.fifth'),
    ('a deletion that need only reach the firm amount and the open calls',
     calling('leb 1 (deletion_amount_of f t) && leb (Rattle.file.specs.Calls.largest f.firm (open_amounts f)) (deletion_amount_of f t)',
             f'leb 1 (deletion_in d own) && leb {EXCEEDED[1]} (deletion_in d own)'),
     'Deletions.fifth-uncalled'),
    ('a deletion that calls for 0',
     calling('leb (Rattle.file.specs.Calls.largest f.firm (open_amounts f)) (deletion_amount_of f t)', f'leb {EXCEEDED[1]} (deletion_in d own)'),
     'Deletions.participant-63'),
    ('a deletion with the tolerance of the check',
     also_asked('Rattle.manual.specs.Check.exceeds_tolerance (pos (deletion_amount_of f t)) (Rattle.file.specs.Settle.deposited f t)',
                'Rattle.manual.specs.Check.exceeds_tolerance (Rattle.std.specs.Prelude.pos (deletion_in d own)) (deposited_in d own)'),
     'Deletions.whatever-the-cover'),
    ('a deletion with a tolerance above the firm amount',
     also_asked('Rattle.manual.specs.Check.exceeds_tolerance (pos (deletion_amount_of f t)) f.firm',
                'Rattle.manual.specs.Check.exceeds_tolerance (Rattle.std.specs.Prelude.pos (deletion_in d own)) (firm_from d (base_in d own) made)'),
     'Deletions.above-firm'),
    ('a deletion that must exceed the cover',
     also_asked('Rattle.std.specs.Prelude.ltb (Rattle.file.specs.Fields.cover_of f t) (deletion_amount_of f t)',
                'ltb (Rattle.book.specs.Reading.Holdings.cover_in d own) (deletion_in d own)'),
     'Deletions.whatever-the-cover'),
    ('a deletion that must exceed what is deposited',
     also_asked('Rattle.std.specs.Prelude.ltb (Rattle.file.specs.Settle.deposited f t) (deletion_amount_of f t)',
                'ltb (deposited_in d own) (deletion_in d own)'),
     'Deletions.whatever-the-cover'),
    ("nine free days for a deletion's call", deletion_free_day(9), 'UnderDeletion.last-free-day'),
    ("eleven free days for a deletion's call", deletion_free_day(11), 'UnderDeletion.first-charged-day'),
    ("a deletion's call in front of the others",
     [(DELETION, '(open_calls f ++ (call_of (deletion_amount_of f t) (t + 10) ∷ []))', '(call_of (deletion_amount_of f t) (t + 10) ∷ open_calls f)'),
      (READ_CALLS, 'calls_in own ++ cond (deletion_called d own (calls_in own)) (call_of (deletion_in d own) (d + 10) ∷ []) []',
       'cond (deletion_called d own (calls_in own)) (call_of (deletion_in d own) (d + 10) ∷ []) [] ++ calls_in own')],
     'Deletions.open-call'),
    ("a deletion's call that is not counted",
     [(DELETION, '(calls_deleted f t) (cond (deletion_calls f t) 1 0)', '(calls_deleted f t) 0'),
      (READ_CALLS, 'abbrev pub made_in : ', f'{OF_DELETION}abbrev pub made_in : '),
      (READ_CALLS, 'made_in own = length (calls_in own)', 'made_in own = Rattle.std.specs.Prelude.◌-◌ (length (calls_in own)) (of_deletion own)')],
     'Deletions.counts'),
    # .. what it answers, and its causes
    ('a deletion that answers 0 where it makes no call',
     [(DELETION, ANSWERED[0], '(deletion (cond (deletion_calls f t) (deletion_amount_of f t) 0) (deletion_calls f t))'),
      (DECISIONS, ANSWERED[1], 'deletion (cond (deletion_called t own (calls_in own)) (deletion_in t own) 0) (deletion_called t own (calls_in own))')],
     'Deletions.fifth-uncalled'),
    ('a deletion that answers whether it made no call',
     [(DELETION, ANSWERED[0], '(deletion (deletion_amount_of f t) (not (deletion_calls f t)))'),
      (DECISIONS, ANSWERED[1], 'deletion (deletion_in t own) (not (deletion_called t own (calls_in own)))')],
     'Deletions.participant-63'),
    ('a deletion that leaves nothing', [(ANSWER, 'accepted (deletion a calls) = true', 'accepted (deletion a calls) = false')], 'Deletions.already'),
    ('deletion: 24 before 2',
     [(ACCOUNT, 'f t delete = if_admitted f (deletion_answer f t)',
       'f t delete = cond (accepted (deletion_answer f t)) (if_admitted f (deletion_answer f t)) (deletion_answer f t)'),
      (DECISIONS, f'cause 2 (not (admitted_in own))\n    ∷ cause 24 ({DELETED[24][1]})',
       f'cause 24 ({DELETED[24][1]})\n    ∷ cause 2 (not (admitted_in own))')],
     'Deletions.two-before-24'),
    ('deletion: 13 before 24', reordered(DELETION, DELETED, 24, 13), 'Deletions.twentyfour-before-13'),
    ('deletion: 23 for 24', [(DELETION, 'number = 24', 'number = 23'), (DECISIONS, 'cause 24', 'cause 23')], 'Deletions.july-31'),
    ('deletion: 25 for 24', [(DELETION, 'number = 24', 'number = 25'), (DECISIONS, 'cause 24', 'cause 25')], 'Deletions.july-31'),
    ('deletion: 24 for 13',
     [(DELETION, 'number = 13', 'number = 24'), (DECISIONS, 'cause 13 (deletion_called', 'cause 24 (deletion_called')], 'Deletions.fifth'),
    ('a deletion on any day', cause_of_deletion(24, 'f.leaving', 'leaving_in own'), 'Deletions.july-31'),
    ('a second deletion', cause_of_deletion(24, 'not (in_deletion_months t)', 'not (in_deletion_months t)'), 'Deletions.already'),
    ('a fifth open call of a deletion allowed',
     cause_of_deletion(13, 'deletion_calls f t && leb 5 (length (open_calls f))', 'deletion_called t own (calls_in own) && leb 5 (length (open_in t own))'),
     'Deletions.fifth'),
    ('a fourth open call of a deletion refused',
     cause_of_deletion(13, 'deletion_calls f t && leb 3 (length (open_calls f))', 'deletion_called t own (calls_in own) && leb 3 (length (open_in t own))'),
     'Deletions.fourth'),
    ('a deletion refused at four open calls though it makes none',
     cause_of_deletion(13, 'leb 4 (length (open_calls f))', 'leb 4 (length (open_in t own))'), 'Deletions.fifth-uncalled'),
    ('a deletion refused as an admission with role 1 is',
     [(ACCOUNT, 'admits_retired delete = false', 'admits_retired delete = Rattle.std.specs.Prelude.true'),
      (DECISIONS, 'retirement new_rule delete = []', 'retirement new_rule delete = cause 23 Rattle.std.specs.Prelude.true ∷ []')],
     'Deletions.participant-63'),
    # .. and what follows of the status
    ('the status taken by a deletion refused with 13',
     [(ACCOUNT, 'unfoldable pub step : ', f'{TAKEN}unfoldable pub step : '),
      (ACCOUNT, 'step rule b c = cond (accepted (answer rule b c)) (applied b c) b',
       'step rule b c = cond (accepted (answer rule b c)) (applied b c) (taken_by rule b c)'),
      (DECISIONS, 'unfoldable pub events_of : ', f'{READ_TAKEN}unfoldable pub events_of : '),
      (DECISIONS, '(with_call s (events_of s before) e.call) (events_of s before)',
       '(with_call s (events_of s before) e.call) (taken_by e.rule s (events_of s before) e.call)'),
      (READ_CALLS, '++ cond (deletion_called d own (calls_in own)) (call_of',
       '++ cond (deletion_called d own (calls_in own) '
       '&& Rattle.std.specs.Prelude.not (leb 4 (Rattle.std.specs.Prelude.length (open_on d (calls_in own))))) (call_of')],
     'Deletions.fifth-later'),
    ('a deletion that does not take the status',
     [(FIELDS, 'leaving = true;', 'leaving = f.leaving;'),
      (EVENTS, 'leaving_in (act d delete ∷ own) = true', 'leaving_in (act d delete ∷ own) = leaving_in own')],
     'Deletions.already'),
    ('a participant admitted under deletion',
     [(ADMIT, '      admitted = true;\n      leaving = false;', '      admitted = true;\n      leaving = true;'),
      (EVENTS, 'leaving_in (act d (admit role) ∷ own) = leaving_in own', 'leaving_in (act d (admit role) ∷ own) = true')],
     'Deletions.participant-63'),
    ('a status of deletion that ends on 1 October',
     [(OPENING, 'leaving = f.leaving;', 'leaving = f.leaving && Rattle.std.specs.Prelude.not (is_first_october d);'),
      (EVENTS, 'leaving_in (day_opened d ∷ own) = leaving_in own',
       'leaving_in (day_opened d ∷ own) = cond (Rattle.calendar.specs.Civil.is_first_october d) false (leaving_in own)')],
     'Deletions.already-next-year'),
    ('an annual run under deletion',
     [(ANNUAL, f" ∷ {named(25, 'f.leaving')}", ''), (DECISIONS, ' ∷ cause 25 (leaving_in own)', '')], 'UnderDeletion.no-annual-run'),
    ('annual: 25 before 14', reordered(ANNUAL, RUN, 14, 25), 'UnderDeletion.fourteen-before-25'),
    ('annual: 24 for 25', [(ANNUAL, 'number = 25', 'number = 24'), (DECISIONS, 'cause 25', 'cause 24')], 'UnderDeletion.no-annual-run'),
    ('annual: 26 for 25', [(ANNUAL, 'number = 25', 'number = 26'), (DECISIONS, 'cause 25', 'cause 26')], 'UnderDeletion.no-annual-run'),
    ('a next amount unset by a deletion',
     [(DELETION, '(with_deletion f (calls_deleted f t) (cond (deletion_calls f t) 1 0))',
       '(Rattle.file.specs.Fields.with_next (with_deletion f (calls_deleted f t) (cond (deletion_calls f t) 1 0)) Rattle.file.specs.Fields.unset)'),
      (MONTHS, 'next_in (act d delete ∷ own) = next_in own', 'next_in (act d delete ∷ own) = unset')],
     'UnderDeletion.next-kept-short'),
    ('a next amount replaced by that of a deletion',
     [(DELETION, '(with_deletion f (calls_deleted f t) (cond (deletion_calls f t) 1 0))',
       '(Rattle.file.specs.Fields.with_next (with_deletion f (calls_deleted f t) (cond (deletion_calls f t) 1 0)) (Rattle.file.specs.Fields.set_to (deletion_amount_of f t)))'),
      (MONTHS, 'next_in (act d delete ∷ own) = next_in own', 'next_in (act d delete ∷ own) = set_to (deletion_in d own)')],
     'UnderDeletion.next-kept-short'),
    ('no check of a settlement under deletion',
     [(SETTLE, 'check_due (month_of t) m && call_is_made (sum_of figures) (deposited f t) f.firm (open_amounts f)',
       'not f.leaving && (check_due (month_of t) m && call_is_made (sum_of figures) (deposited f t) f.firm (open_amounts f))'),
      (SETTLE, 'cond (check_due (month_of t) m)', 'cond (not f.leaving && check_due (month_of t) m)'),
      (READ_CALLS, 'check_due (month_of d) m\n    &&',
       '(Rattle.std.specs.Prelude.not (Rattle.book.specs.Reading.Events.leaving_in own) && check_due (month_of d) m)\n    &&'),
      (DECISIONS, 'cond (check_due (month_of t) m)', 'cond (not (leaving_in own) && check_due (month_of t) m)')],
     'UnderDeletion.settle-below-call'),
    # ---- the file of a month: its bytes
    ('most significant byte first',
     [(BYTES, 'get_or file at 0 + 256 * number_at file (suc at) n', 'get_or file (at + n) 0 + 256 * number_at file at n')], 'Files.two_bytes'),
    ('bytes of 255', [(BYTES, '256 * number_at', '255 * number_at')], 'Files.two_bytes'),
    ('bytes of 257', [(BYTES, '256 * number_at', '257 * number_at')], 'Files.two_bytes'),
    ('the next byte for the first', [(BYTES, 'get_or file at 0 +', 'get_or file (suc at) 0 +')], 'Files.two_bytes'),
    ('a number of no bytes is 1', [(BYTES, 'number_at file at zero = 0', 'number_at file at zero = 1')], 'Files.two_bytes'),
    ('the first byte again and again', [(BYTES, 'number_at file (suc at) n', 'number_at file at n')], 'Files.two_bytes'),
    ('2^63 − 1 cents taken for negative', [(BYTES, 'ltb w 9223372036854775808', 'ltb w 9223372036854775807')], 'Files.cents-largest'),
    ('−2^63 cents taken for positive', [(BYTES, 'ltb w 9223372036854775808', 'ltb w 9223372036854775809')], 'Files.cents-least'),
    ('cents without a sign',
     [(BYTES, 'cond (ltb w 9223372036854775808) (pos w) (negsuc (18446744073709551615 - w))', 'pos w')], 'Files.cents-least'),
    ('negative cents one too low', [(BYTES, 'negsuc (18446744073709551615 - w)', 'negsuc (18446744073709551616 - w)')], 'Files.cents-least'),
    ('negative cents one too high', [(BYTES, 'negsuc (18446744073709551615 - w)', 'negsuc (18446744073709551614 - w)')], 'Files.cents-least'),
    ('negative cents as a sign and an amount',
     [(BYTES, 'negsuc (18446744073709551615 - w)', 'negsuc (w - 9223372036854775808)')], 'Files.cents-least'),
    # .. its month and count
    ('a month of one byte', [(BATCH, 'number_at file 0 2', 'number_at file 0 1')], 'Files.month'),
    ('a month of four bytes', [(BATCH, 'number_at file 0 2', 'number_at file 0 4')], 'Files.month'),
    ('month and count exchanged', swapped(BATCH, 'number_at file 0 2', 'number_at file 2 2'), 'Files.month'),
    ('a count of one byte', [(BATCH, 'number_at file 2 2', 'number_at file 2 1')], 'Files.count'),
    ('a count of four bytes', [(BATCH, 'number_at file 2 2', 'number_at file 2 4')], 'Files.count'),
    ('a count behind four bytes', [(BATCH, 'number_at file 2 2', 'number_at file 4 2')], 'Files.count'),
    # .. its pairs
    ('pairs that begin at byte 3', [(BATCH, '(4 + 8 * i) 4', '(3 + 8 * i) 4')], 'Files.first-offset'),
    ('pairs that begin at byte 5', [(BATCH, '(4 + 8 * i) 4', '(5 + 8 * i) 4')], 'Files.first-offset'),
    ('offsets of two bytes', [(BATCH, '(4 + 8 * i) 4', '(4 + 8 * i) 2')], 'Files.first-offset'),
    ('offsets of three bytes', [(BATCH, '(4 + 8 * i) 4', '(4 + 8 * i) 3')], 'Files.first-offset'),
    ('offsets every four bytes', [(BATCH, '(4 + 8 * i) 4', '(4 + 4 * i) 4')], 'Files.second-offset'),
    ("the first pair's offset for all", [(BATCH, '(4 + 8 * i) 4', '4 4')], 'Files.second-offset'),
    ('lengths at byte 7', [(BATCH, '(8 + 8 * i) 4', '(7 + 8 * i) 4')], 'Files.first-length'),
    ('lengths at byte 9', [(BATCH, '(8 + 8 * i) 4', '(9 + 8 * i) 4')], 'Files.first-length'),
    ('lengths of two bytes', [(BATCH, '(8 + 8 * i) 4', '(8 + 8 * i) 2')], 'Files.first-length'),
    ('lengths of three bytes', [(BATCH, '(8 + 8 * i) 4', '(8 + 8 * i) 3')], 'Files.first-length'),
    ('lengths every four bytes', [(BATCH, '(8 + 8 * i) 4', '(8 + 4 * i) 4')], 'Files.second-length'),
    ('offset and length exchanged', swapped(BATCH, '(4 + 8 * i)', '(8 + 8 * i)'), 'Files.first-offset'),
    ('a length taken for the end',
     [(BATCH, 'end_at file i = offset_at file i + length_at file i', 'end_at file i = length_at file i')], 'Files.first-end'),
    ('an end one byte too far', [(BATCH, 'end_at file i = offset_at file i +', 'end_at file i = 1 + offset_at file i +')], 'Files.first-end'),
    ('ends in 32 bits',
     [(BATCH, 'offset_at file i + length_at file i', 'Rattle.std.specs.Prelude.◌%◌ (offset_at file i + length_at file i) 4294967296')],
     'Files.offset-past-2-32'),
    ('a first part at 3 + 8 n', [(BATCH, 'zero = 4 + 8 * count_in file', 'zero = 3 + 8 * count_in file')], 'Files.first-begins'),
    ('a first part at 5 + 8 n', [(BATCH, 'zero = 4 + 8 * count_in file', 'zero = 5 + 8 * count_in file')], 'Files.first-begins'),
    ('a first part at 4 + 7 n', [(BATCH, 'zero = 4 + 8 * count_in file', 'zero = 4 + 7 * count_in file')], 'Files.first-begins'),
    ('a first part at 4 + 9 n', [(BATCH, 'zero = 4 + 8 * count_in file', 'zero = 4 + 9 * count_in file')], 'Files.first-begins'),
    ('a first part behind one pair', [(BATCH, 'zero = 4 + 8 * count_in file', 'zero = 12')], 'Files.first-begins'),
    ('a next part a byte behind the last', [(BATCH, '(suc i) = end_at file i', '(suc i) = 1 + end_at file i')], 'Files.second-begins'),
    ('a next part a byte before the end of the last', [(BATCH, '(suc i) = end_at file i', '(suc i) = end_at file i - 1')], 'Files.second-begins'),
    ('a next part where the last began', [(BATCH, '(suc i) = end_at file i', '(suc i) = offset_at file i')], 'Files.second-begins'),
    ('a next part anywhere', [(BATCH, '(suc i) = end_at file i', '(suc i) = offset_at file (suc i)')], 'Files.second-before'),
    # .. its parts
    ('a participant behind the row count',
     [(BATCH, 'get_or file (offset_at file i) 0', 'get_or file (offset_at file i + 1) 0')], 'Files.participant-of-first'),
    ('a participant of two bytes', [(BATCH, 'get_or file (offset_at file i) 0', 'number_at file (offset_at file i) 2')], 'Files.participant-of-first'),
    ('the participant taken for the row count',
     [(BATCH, 'get_or file (offset_at file i + 1) 0', 'get_or file (offset_at file i + 0) 0')], 'Files.rows-of-first'),
    ('a row count behind two bytes', [(BATCH, 'get_or file (offset_at file i + 1) 0', 'get_or file (offset_at file i + 2) 0')], 'Files.rows-of-first'),
    ('a row count of two bytes', [(BATCH, 'get_or file (offset_at file i + 1) 0', 'number_at file (offset_at file i + 1) 2')], 'Files.rows-of-second'),
    ('figures behind one byte', [(BATCH, 'offset + 2 + 8 * k', 'offset + 1 + 8 * k')], 'Files.figures-of-first'),
    ('figures behind three bytes', [(BATCH, 'offset + 2 + 8 * k', 'offset + 3 + 8 * k')], 'Files.figures-of-first'),
    ('figures every seven bytes', [(BATCH, 'offset + 2 + 8 * k', 'offset + 2 + 7 * k')], 'Files.figures-of-second'),
    ('figures every nine bytes', [(BATCH, 'offset + 2 + 8 * k', 'offset + 2 + 9 * k')], 'Files.figures-of-second'),
    ('figures of four bytes', [(BATCH, '8 * k) 8)', '8 * k) 4)')], 'Files.figures-of-second'),
    ('figures of seven bytes', [(BATCH, '8 * k) 8)', '8 * k) 7)')], 'Files.figures-of-second'),
    ('figures without a sign',
     [(BATCH, 'signed_of (number_at file (offset + 2 + 8 * k) 8)', 'Rattle.std.specs.Prelude.pos (number_at file (offset + 2 + 8 * k) 8)')],
     'Files.figures-of-second'),
    ('the last figure left out', [(BATCH, 'table rows', 'table (rows - 1)')], 'Files.figures-of-first'),
    ('a figure behind the last', [(BATCH, 'table rows', 'table (rows + 1)')], 'Files.figures-of-first'),
    ('a table of one value', [(LISTS, 'f zero ∷ table n (λ k. f (suc k))', 'f zero ∷ table n f')], 'Files.figures-of-second'),
    ('a table of one value less', [(LISTS, 'table (suc n) f = f zero ∷ table n (λ k. f (suc k))', 'table (suc n) f = table n (λ k. f (suc k))')],
     'Files.figures-of-first'),
    ("the first part's figures for all", [(BATCH, 'figures_behind file (offset_at file i)', 'figures_behind file (offset_at file 0)')],
     'Files.figures-of-second'),
    ("as many figures as the first part has", [(BATCH, '(offset_at file i) (rows_at file i)', '(offset_at file i) (rows_at file 0)')],
     'Files.figures-of-second'),
    # .. cause 20
    ('a batch of no parts', [(BATCH, 'leb 1 (count_in file)', 'leb 0 (count_in file)')], 'Files.count-0'),
    ('no batch of one part', [(BATCH, 'leb 1 (count_in file)', 'leb 2 (count_in file)')], 'Files.one-is-batch'),
    ('a batch of 65 parts', [(BATCH, 'leb (count_in file) 64', 'leb (count_in file) 65')], 'Files.count-65'),
    ('no batch of 64 parts', [(BATCH, 'leb (count_in file) 64', 'leb (count_in file) 63')], 'Files.count-64'),
    ('pairs one byte short', [(BATCH, 'ltb (length file) (4 + 8 *', 'ltb (length file) (3 + 8 *')], 'Files.pair-too-short'),
    ('a byte wanted behind the pairs', [(BATCH, 'ltb (length file) (4 + 8 *', 'ltb (length file) (5 + 8 *')], 'Files.pair-just-there'),
    ('a file that ends with its pairs too short', [(BATCH, 'ltb (length file) (4 + 8 *', 'leb (length file) (4 + 8 *')], 'Files.pair-just-there'),
    ('pairs of seven bytes', [(BATCH, 'ltb (length file) (4 + 8 *', 'ltb (length file) (4 + 7 *')], 'Files.pair-too-short'),
    ('pairs of nine bytes', [(BATCH, 'ltb (length file) (4 + 8 *', 'ltb (length file) (4 + 9 *')], 'Files.pair-just-there'),
    ('room wanted for one pair alone', [(BATCH, 'ltb (length file) (4 + 8 * count_in file)', 'ltb (length file) 12')], 'Files.second-pair-too-short'),
    ('no file too short for its pairs',
     [(BATCH, '64) || ltb (length file) (4 + 8 * count_in file)', '64) || false')], 'Files.no-64-pairs'),
    ('a file of twelve bytes too short', [(BATCH, 'ltb (length file) 4\n', 'ltb (length file) 13\n')], 'Files.pair-just-there'),
    # .. cause 21
    ('a part behind its place',
     [(BATCH, 'not (eqb (offset_at file i) (begins_at file i))', 'ltb (offset_at file i) (begins_at file i)')], 'Files.first-behind'),
    ('a part before its place',
     [(BATCH, 'not (eqb (offset_at file i) (begins_at file i))', 'ltb (begins_at file i) (offset_at file i)')], 'Files.first-before'),
    ('a part at its place refused',
     [(BATCH, 'not (eqb (offset_at file i) (begins_at file i))', 'eqb (offset_at file i) (begins_at file i)')], 'Files.one-is-batch'),
    ("the last part's place not looked at",
     [(BATCH, 'ltb (first_misplaced file) (count_in file) ||', 'ltb (first_misplaced file) (count_in file - 1) ||')], 'Files.first-before'),
    ('no place looked at', [(BATCH, 'ltb (first_misplaced file) (count_in file) ||', 'false ||')], 'Files.first-before'),
    ("the file's end not looked at", [(BATCH, ' || not (eqb (end_at file (count_in file - 1)) (length file))', '')], 'Files.one-byte-less'),
    ('bytes behind the last part',
     [(BATCH, 'not (eqb (end_at file (count_in file - 1)) (length file))', 'ltb (length file) (end_at file (count_in file - 1))')],
     'Files.one-byte-more'),
    ("a last part past the file's end",
     [(BATCH, 'not (eqb (end_at file (count_in file - 1)) (length file))', 'ltb (end_at file (count_in file - 1)) (length file)')],
     'Files.one-byte-less'),
    ("the first part's end for the last one's", [(BATCH, 'eqb (end_at file (count_in file - 1))', 'eqb (end_at file 0)')], 'Files.two-is-batch'),
    ('index n where only the end is wrong',
     [(BATCH, '(min (first_misplaced file) (count_in file - 1))', '(first_misplaced file)')], 'Files.one-byte-less'),
    ('index 0 where only the end is wrong',
     [(BATCH, '(min (first_misplaced file) (count_in file - 1))', '(min (first_misplaced file) 0)')], 'Files.second-before'),
    ('index n − 1 wherever a part is', [(BATCH, '(min (first_misplaced file) (count_in file - 1))', '(count_in file - 1)')], 'Files.first-of-two'),
    # .. cause 22
    ('no part of two bytes', [(BATCH, 'ltb (length_at file i) 2', 'ltb (length_at file i) 3')], 'Files.count-1'),
    ('parts of 1 + 8 r bytes', [(BATCH, '(2 + 8 * rows_at file i)', '(1 + 8 * rows_at file i)')], 'Files.one-is-batch'),
    ('parts of 3 + 8 r bytes', [(BATCH, '(2 + 8 * rows_at file i)', '(3 + 8 * rows_at file i)')], 'Files.one-is-batch'),
    ('parts of 2 + 7 r bytes', [(BATCH, '(2 + 8 * rows_at file i)', '(2 + 7 * rows_at file i)')], 'Files.one-is-batch'),
    ('parts of 2 + 9 r bytes', [(BATCH, '(2 + 8 * rows_at file i)', '(2 + 9 * rows_at file i)')], 'Files.one-is-batch'),
    ('a part too long for its rows',
     [(BATCH, 'not (eqb (length_at file i) (2 + 8 * rows_at file i))', 'ltb (length_at file i) (2 + 8 * rows_at file i)')], 'Files.length-3'),
    ('a part too short for its rows',
     [(BATCH, 'not (eqb (length_at file i) (2 + 8 * rows_at file i))', 'ltb (2 + 8 * rows_at file i) (length_at file i)')], 'Files.length-9'),
    ('a participant twice', [(BATCH, 'wrong_length file i || is_before file i (participant_at file i)', 'wrong_length file i')], 'Files.twice'),
    ("the earlier pair's index for a participant twice", [(BATCH, '|| is_before file i (participant_at file i)', f'|| {AGAIN}')], 'Files.twice'),
    ('a participant compared with the pair before alone',
     [(BATCH, 'eqb (participant_at file i) p || is_before file i p', 'eqb (participant_at file i) p')], 'Files.third-is-first'),
    ('a participant compared with the first alone',
     [(BATCH, 'eqb (participant_at file i) p || is_before file i p', 'eqb (participant_at file 0) p')], 'Files.third-is-second'),
    ('every first participant twice', [(BATCH, 'is_before file zero p = false', 'is_before file zero p = not false')], 'Files.one-is-batch'),
    ('the last part not judged',
     [(BATCH, '(ltb (first_wrong file) (count_in file))', '(ltb (first_wrong file) (count_in file - 1))')], 'Files.pair-just-there'),
    ('index 0 for every wrong part', [(BATCH, 'refused_if WrongPart (first_wrong file)', 'refused_if WrongPart 0')], 'Files.second-length-3'),
    ('index n − 1 for every wrong part',
     [(BATCH, 'refused_if WrongPart (first_wrong file)', 'refused_if WrongPart (count_in file - 1)')], 'Files.second-pair-just-there'),
    # .. their numbers, their order and what is none of them
    ('19 for 20', [(BATCH, 'refused_if BatchTooShort', f'refused_if {CAUSE}.ListLengths')], 'Files.no_bytes'),
    ('index 1 for 20', [(BATCH, 'refused_if BatchTooShort 0', 'refused_if BatchTooShort 1')], 'Files.no_bytes'),
    ('22 for 21', [(BATCH, 'refused_if PartsMisplaced', 'refused_if WrongPart')], 'Files.first-before'),
    ('23 for 22', [(BATCH, 'refused_if WrongPart', f'refused_if {CAUSE}.RetiredRole')], 'Files.pair-just-there'),
    ('21 before 20', swapped(BATCH, SHORT, APART), 'Files.three-bytes'),
    ('22 before 21', swapped(BATCH, APART, WRONG), 'Files.first-before'),
    ('22 before 20', swapped(BATCH, SHORT, WRONG), 'Files.three-bytes'),
    ('the number for the index', [(BATCH, 'pair = pair }', 'pair = Rattle.refusal.specs.Numbers.number_of refusal }')], 'Files.no_bytes'),
    ('a batch of one part less', [(BATCH, 'Ok (count_in file)', 'Ok (count_in file - 1)')], 'Files.one-is-batch'),
    ('a place counted from 1', [(LEAST, 'cond (test zero) zero', 'cond (test zero) (suc zero)')], 'Files.pair-just-there'),
    ('a place n + 1 where there is none', [(LEAST, 'least test zero = zero', 'least test zero = suc zero')], 'Files.least-none'),
    ('the first place alone',
     [(LEAST, f'{FOUND} (suc (least (λ k. test (suc k)) n))', f'{FOUND} (suc n)')],
     'Files.second-before'),
    # .. its settlements' answers
    ('a refusal without its number', [(SAYS, 'refusal_of (refused n) = n', 'refusal_of (refused n) = 0')], 'Files.number-of-refusal'),
    ('the first settlement that is accepted', [(SAYS, 'not (accepted (answers k))', 'accepted (answers k)')], 'Files.first-refused'),
    ('the last settlement not judged',
     [(SAYS, 'cond (ltb (first_refused answers n) n)', 'cond (ltb (Rattle.std.specs.Prelude.suc (first_refused answers n)) n)')], 'Files.says-last-pair'),
    ("the first settlement's number", [(SAYS, 'refusal_of (answers (first_refused answers n))', 'refusal_of (answers 0)')], 'Files.says-refused-pair'),
    ('indices from 1',
     [(SAYS, ')) (first_refused answers n))', ')) (Rattle.std.specs.Prelude.suc (first_refused answers n)))')], 'Files.says-refused-pair'),
    ('index 0 for every settlement', [(SAYS, ')) (first_refused answers n))', ')) 0)')], 'Files.says-refused-pair'),
    ("a refused file's number and index exchanged", [(SAYS, 'answers = loaded_says (Err m)', 'answers = refused_pair m.pair (number_of m.refusal)')], 'Files.says-refused-file'),
    ('a refused file at index 0', [(SAYS, 'answers = loaded_says (Err m)', 'answers = refused_pair (number_of m.refusal) 0')], 'Files.says-refused-file'),
    ('an accepted batch that answers its last index',
     [(SAYS, '    (batched n)', '    (batched (Rattle.std.specs.Prelude.◌-◌ n 1))')], 'Files.says-accepted'),
    # .. what a part asks, and what is left, on histories
    ('every part settled for month 0', [(SAYS, 'settle (month_in file)', 'settle 0')], 'Batches.month-p-1'),
    ("the first part's figures for all", [(SAYS, '(figures_at file k)', '(figures_at file 0)')], 'Batches.second-rows-4'),
    ('an accepted batch that leaves nothing', [(ANSWER, 'accepted (batched n) = true', 'accepted (batched n) = false')], 'Batches.two_made'),
    ('a refused batch that is settled',
     [(ANSWER, 'accepted (refused_pair n i) = false', 'accepted (refused_pair n i) = true')], 'Batches.refused-made'),
    ('the last part left unsettled', parts_settled('count_in file - 1'), 'Batches.two_made'),
    ('the first part alone settled', parts_settled('1'), 'Batches.two_made'),
    ("every part settled for the first one's participant", settled_for('participant_at file 0'), 'Batches.second-firm'),
    ('parts settled for the next participant', settled_for('suc (participant_at file k)'), 'Batches.firm'),
    # ---- the special guarantee
    ('64 medium rates made 65', [(LENGTHS, 'ltb 64 medium', 'ltb 65 medium')], 'Guarantees.medium-65'),
    ('64 medium rates made 63', [(LENGTHS, 'ltb 64 medium', 'ltb 63 medium')], 'Guarantees.medium-64'),
    ('64 low rates made 65', [(LENGTHS, 'ltb 64 low', 'ltb 65 low')], 'Guarantees.low-65'),
    ('64 low rates made 63', [(LENGTHS, 'ltb 64 low', 'ltb 63 low')], 'Guarantees.low-64'),
    ('more marks than low rates', [(LENGTHS, 'not (eqb marks low)', 'ltb marks low')], 'Guarantees.marks-more'),
    ('fewer marks than low rates', [(LENGTHS, 'not (eqb marks low)', 'ltb low marks')], 'Guarantees.marks-fewer'),
    ('low zero settlements of another length', [(LENGTHS, '|| not (eqb zero_low zero_medium) ', '')], 'Guarantees.low-zeros-unequal'),
    ('medium excesses of another length', [(LENGTHS, '|| not (eqb excess_medium zero_medium)\n', '\n')], 'Guarantees.medium-excesses-unequal'),
    ('low excesses of another length', [(LENGTHS, '|| not (eqb excess_low zero_medium) ', '')], 'Guarantees.low-excesses-unequal'),
    ('17 semesters allowed', [(LENGTHS, 'ltb 16 zero_medium', 'ltb 17 zero_medium')], 'Guarantees.semesters-17'),
    ('15 semesters at most', [(LENGTHS, 'ltb 16 zero_medium', 'ltb 15 zero_medium')], 'Guarantees.semesters-16'),
    ('medium rates not judged', [(LENGTHS, 'rates_in_range medium && ', '')], 'Guarantees.cause-medium-rate'),
    ('low rates not judged', [(LENGTHS, 'rates_in_range low && ', '')], 'Guarantees.cause-low-rate'),
    ('only usable low rates judged', [(LENGTHS, 'rates_in_range low && ', 'rates_in_range (usable low marks) && ')], 'Guarantees.cause-marked-rate'),
    ('marks not judged', [(LENGTHS, ' && marks_in_range marks', '')], 'Guarantees.cause-mark'),
    ('medium zero settlements not judged',
     [(LENGTHS, '(zeros_in_range zero_medium && zeros_in_range zero_low)', 'zeros_in_range zero_low')], 'Guarantees.cause-medium-zero'),
    ('low zero settlements not judged',
     [(LENGTHS, '(zeros_in_range zero_medium && zeros_in_range zero_low)', 'zeros_in_range zero_medium')], 'Guarantees.cause-low-zero'),
    ('medium excesses not judged',
     [(LENGTHS, '(excesses_in_range excess_medium && excesses_in_range excess_low)', 'excesses_in_range excess_low')], 'Guarantees.cause-medium-excess'),
    ('low excesses not judged',
     [(LENGTHS, '(excesses_in_range excess_medium && excesses_in_range excess_low)', 'excesses_in_range excess_medium')], 'Guarantees.cause-low-excess'),
    ('two medium rates enough', [(LENGTHS, 'ltb (length medium) 3', 'ltb (length medium) 2')], 'Guarantees.two-medium'),
    ('four medium rates needed', [(LENGTHS, 'ltb (length medium) 3', 'ltb (length medium) 4')], 'Guarantees.three-rates'),
    ('two low rates enough', [(LENGTHS, 'ltb (length low) 3', 'ltb (length low) 2')], 'Guarantees.two-low'),
    ('four low rates needed', [(LENGTHS, 'ltb (length low) 3', 'ltb (length low) 4')], 'Guarantees.three-rates'),
    ('marked rates counted as usable', [(GUARANTEE, 'too_few medium (usable low marks)', 'too_few medium low')], 'Guarantees.cause-too-few'),
    ('lists of wrong lengths refused with 18', [(NUMBERS, 'number_of ListLengths = 19', 'number_of ListLengths = 18')], 'Guarantees.number-of-lengths'),
    ('special: a figure out of its range refused with 10', [(NUMBERS, 'number_of OutOfRange = 11', 'number_of OutOfRange = 10')], 'Guarantees.number-of-ranges'),
    ('too few rates refused with 19', [(NUMBERS, 'number_of TooFewRates = 18', 'number_of TooFewRates = 19')], 'Guarantees.number-of-too-few'),
    ('special: 11 before 19', swapped(GUARANTEE, LONG, OUTSIDE), 'Guarantees.lengths-before-range'),
    ('special: 18 before 11', swapped(GUARANTEE, OUTSIDE, TOO_FEW), 'Guarantees.cause-mark'),
    ('special: 18 before 19',
     [(GUARANTEE, TOO_FEW, '\0'), (GUARANTEE, OUTSIDE, '\1'), (GUARANTEE, LONG, TOO_FEW), (GUARANTEE, '\1', LONG), (GUARANTEE, '\0', OUTSIDE)],
     'Guarantees.cause-mark'),
    ('rates from −99,999 on',
     [(RANGES, 'between low high x = le_z low x && le_z x high',
       'between low high x = Rattle.std.specs.Int.Signed.lt_z low x && le_z x high')], 'Guarantees.rate-least'),
    ('a rate above 100,000', [(RANGES, '(pos 100000))\n', '(pos 100001))\n')], 'Guarantees.rate-above'),
    ('rates below 100,000', [(RANGES, '(pos 100000))\n', '(pos 99999))\n')], 'Guarantees.rate-largest'),
    ('a rate below −100,000', [(RANGES, '(neg_ℤ (pos 100000))', '(neg_ℤ (pos 100001))')], 'Guarantees.rate-below'),
    ('rates above −100,000', [(RANGES, '(neg_ℤ (pos 100000))', '(neg_ℤ (pos 99999))')], 'Guarantees.rate-least'),
    ('a mark of 2', [(RANGES, 'leb m 1', 'leb m 2')], 'Guarantees.mark-2'),
    ('no mark of 1', [(RANGES, 'leb m 1', 'leb m 0')], 'Guarantees.mark-1'),
    ('a zero settlement above 10^12',
     [(RANGES, '(neg_ℤ (pos 1000000000000)) (pos 1000000000000)', '(neg_ℤ (pos 1000000000000)) (pos 1000000000001)')], 'Guarantees.zero-above'),
    ('zero settlements below 10^12',
     [(RANGES, '(neg_ℤ (pos 1000000000000)) (pos 1000000000000)', '(neg_ℤ (pos 1000000000000)) (pos 999999999999)')], 'Guarantees.zero-largest'),
    ('a zero settlement below −10^12', [(RANGES, '(neg_ℤ (pos 1000000000000))', '(neg_ℤ (pos 1000000000001))')], 'Guarantees.zero-below'),
    ('zero settlements above −10^12', [(RANGES, '(neg_ℤ (pos 1000000000000))', '(neg_ℤ (pos 999999999999))')], 'Guarantees.zero-least'),
    ('an excess below 0', [(RANGES, 'between (pos 0) (pos', 'between (neg_ℤ (pos 1)) (pos')], 'Guarantees.excess-negative'),
    ('excesses from 1 on', [(RANGES, 'between (pos 0) (pos', 'between (pos 1) (pos')], 'Guarantees.excess-0'),
    ('an excess above 10^12', [(RANGES, '(pos 0) (pos 1000000000000)', '(pos 0) (pos 1000000000001)')], 'Guarantees.excess-above'),
    ('excesses below 10^12', [(RANGES, '(pos 0) (pos 1000000000000)', '(pos 0) (pos 999999999999)')], 'Guarantees.excess-largest'),
    ('only the first of a list judged',
     [(EVERY, 'every test (x ∷ rest) = test x && every test rest', 'every test (x ∷ rest) = test x')], 'Guarantees.last-rate-above'),
    ('marked rates for the unmarked', [(RATIO, 'cond (eqb mark 0)', 'cond (eqb mark 1)')], 'Guarantees.marked-skipped'),
    ('marked rates not skipped',
     [(RATIO, 'cond (eqb mark 0) (rate ∷ usable rates marks) (usable rates marks)', 'rate ∷ usable rates marks')], 'Guarantees.marked-skipped'),
    ('the mean of the first three rates',
     [(RATIO, 'mean_of_three (three_largest rates)', 'mean_of_three (Rattle.std.specs.Prelude.take 3 rates)')], 'Figures.medium-ratio'),
    ('the two largest rates', [(LARGEST, 'take 3 (falling l)', 'take 2 (falling l)')], 'Guarantees.three-largest'),
    ('the four largest rates', [(LARGEST, 'take 3 (falling l)', 'take 4 (falling l)')], 'Guarantees.three-largest'),
    ('the smallest rates', [(LARGEST, 'cond (lt_z y x) (x ∷ y ∷ rest)', 'cond (lt_z x y) (x ∷ y ∷ rest)')], 'Guarantees.three-largest'),
    ('rates in their order',
     [(LARGEST, 'falling (x ∷ rest) = insert x (falling rest)', 'falling (x ∷ rest) = x ∷ falling rest')], 'Guarantees.three-largest'),
    ('the mean of three by 2', [(LARGEST, 'nearest (sum_of three) 3', 'nearest (sum_of three) 2')], 'Guarantees.mean-down'),
    ('a mean rounded down', [(LARGEST, 'nearest (sum_of three) 3', 'Rattle.laws.specs.Signed.floor_div (sum_of three) 3')], 'Guarantees.mean-up'),
    ('rounded down', [(SIGNED, 'nearest x n = floor_div (pos 2 *ℤ x +ℤ pos n) (2 * n)', 'nearest x n = floor_div x n')], 'Guarantees.mean-up'),
    ('halves downward', [(SIGNED, 'floor_div (pos 2 *ℤ x +ℤ pos n) (2 * n)', 'floor_div (pos 2 *ℤ x +ℤ pos (Rattle.std.specs.Prelude.◌-◌ n 1)) (2 * n)')], 'Guarantees.half'),
    ('halves below zero downward',
     [(SIGNED, 'floor_div (negsuc a) n = negsuc (a / n)', 'floor_div (negsuc a) n = neg_ℤ (pos (suc a / n))')], 'Guarantees.mean-below-up'),
    ('at least €4,999.99', [(GUARANTEE, 'at_least 500000', 'at_least 499999')], 'Guarantees.no-semester'),
    ('at least €5,000.01', [(GUARANTEE, 'at_least 500000', 'at_least 500001')], 'Guarantees.below-half-a-cent'),
    ('no least guarantee', [(GUARANTEE, 'max minimum n', 'n')], 'Guarantees.least-below'),
    ('always the least guarantee', [(GUARANTEE, 'max minimum n', 'minimum')], 'Guarantees.least_above'),
    ('no least guarantee where the amount is negative',
     [(GUARANTEE, 'at_least minimum (negsuc n) = minimum', 'at_least minimum (negsuc n) = 0')], 'Guarantees.least-negative'),
    ('a guarantee by 1,000', [(GUARANTEE, '10000 -ℤ', '1000 -ℤ')], 'Guarantees.amount-of'),
    ('medium excesses not subtracted', [(GUARANTEE, '(medium_excess +ℤ low_excess)', 'low_excess')], 'Guarantees.amount-of'),
    ('low excesses not subtracted', [(GUARANTEE, '(medium_excess +ℤ low_excess)', 'medium_excess')], 'Guarantees.amount-of'),
    ('excesses added', [(GUARANTEE, '10000 -ℤ (medium_excess', '10000 +ℤ (medium_excess')], 'Guarantees.amount-of'),
    ('low rates with the medium sum', [(GUARANTEE, 'low_ratio *ℤ sum_of_low', 'low_ratio *ℤ sum_of_medium')], 'Guarantees.amount-of'),
    ('the ratio of all low rates, marked ones too', [(GUARANTEE, 'ratio (usable low marks)', 'ratio low')], 'Guarantees.marked-not-in-ratio'),
    ('the sums exchanged',
     [(GUARANTEE, '(sum_of zero_medium)', '\0'),
      (GUARANTEE, '(sum_of zero_low)', '(sum_of zero_medium)'),
      (GUARANTEE, '\0', '(sum_of zero_low)')],
     'Figures.section-8'),
    ('only the first medium zero settlement',
     [(GUARANTEE, '(sum_of zero_medium)', '(sum_of (Rattle.std.specs.Prelude.take 1 zero_medium))')], 'Guarantees.semesters-summed'),
    ('only the first low excess',
     [(GUARANTEE, '(sum_of excess_low)', '(sum_of (Rattle.std.specs.Prelude.take 1 excess_low))')], 'Guarantees.semesters-summed'),
    # Calls counted by participant
    ("an admission's call that is not counted",
     [(ADMIT, 'made = length (calls_of_admission t role);', 'made = 0;'),
      (DECISIONS, '(accrued_in own) (made_in own)',
       '(accrued_in own) (made_in own - cond (ltb 0 (Rattle.manual.specs.Minimum.minimum_of (Rattle.book.specs.Reading.Events.role_in own))) 1 0)')],
     'Counts.role-0'),
    ('a count of the open calls alone',
     [(STATEMENT, 'made = f.made;', 'made = f.count;'), (DECISIONS, '(accrued_in own) (made_in own)', '(accrued_in own) (length (open_in t own))')],
     'Counts.day-after'),
    ('a statement with one call more',
     [(STATEMENT, 'made = f.made;', 'made = Rattle.std.specs.Prelude.suc f.made;'),
      (DECISIONS, '(accrued_in own) (made_in own)', '(accrued_in own) (suc (made_in own))')],
     'Counts.at-zero'),
    ('a statement with the sum of the counts',
     [(ACCOUNT, '(statement_says (file_statement (file_at b p) b.today.0))',
       '(Rattle.file.specs.Answer.stated (file_at b p).firm (Rattle.file.specs.Fields.cover_of (file_at b p) b.today.0) '
       '(Rattle.file.specs.Fields.shortfall_of (file_at b p) b.today.0) (file_at b p).charged (file_at b p).accrued (sum_of_counts b))'),
      (DECISIONS, '(own_statement (today_of s events) (mine p events))',
       '(stated (firm_in (today_of s events) (mine p events)) (cover_in (today_of s events) (mine p events)) '
       '(firm_in (today_of s events) (mine p events) - cover_in (today_of s events) (mine p events)) (charged_in (mine p events)) '
       '(accrued_in (mine p events)) (calls_below 64 events))')],
     'Counts.both-first'),
    ('the days charged for the count',
     [(ANSWER, 's.accrued s.made', 's.accrued s.charged'), (DECISIONS, '(accrued_in own) (made_in own)', '(accrued_in own) (charged_in own)')],
     'Counts.role-0'),
    ('the sum of the counts without that of participant 63',
     [(ACCOUNT, 'sum_of_counts b = sum_by (λ (f : File). f.made) b.files',
       'sum_of_counts b = sum_by (λ (f : File). f.made) (Rattle.std.specs.Prelude.take 63 b.files)'),
      (DECISIONS, 'counted (calls_below 64 events)', 'counted (calls_below 63 events)')],
     'Counts.sum-of-three'),
]

# The changes that are tried on the theorem too, and the numbers that its proof cites, changed with them.
ON_THE_THEOREM = {
    'September dropped from the check': [],
    'a month P − 15 settled': [('book/proofs/Participant/Ring.antt', 'n + 14', 'n + 15')],
    'a least charge of €999.99': [],
}
