//! The guarantee book in plain Rust, changed in place (paper 01, 'One participant's file' and 'The calls').

use crate::calendar::{
    date_of, in_annual_days, is_deletion_month, is_first_october, is_september, month_of, LAST_DAY,
};

/// How many participants, positions, open calls and places for month totals there are.
pub const PARTICIPANTS: usize = 64;
const POSITIONS: usize = 8;
const OPEN_CALLS: usize = 4;
const TOTALS: usize = 16;

/// The largest amount that is lodged or released and the bound of a figure, 10^12 cents.
const MOST: u64 = 1_000_000_000_000;

/// The days from a call to its last free day, and the least charge of a day with a shortfall, in mills.
const FREE_DAYS: u32 = 10;
const LEAST_CHARGE: u64 = 100_000_000;

/// How many recorded months, the latest, a deletion looks at (paper 02, Ask 4).
const LATEST: usize = 3;

/// The six roles' minimum guarantees, in cents (002, 3.1), and the role that is no longer admitted (paper 02, Ask 3).
const MINIMUMS: [u64; 6] = [2_000_000, 2_000_000, 1_000_000, 0, 0, 0];
const RETIRED: u64 = 1;

/// Why a call is refused, with the papers' numbers (paper 01, 'Causes of refusal').
#[derive(Clone, Copy)]
pub enum Refusal {
    ParticipantAbove = 1,
    NotAdmitted = 2,
    AdmittedAlready = 3,
    RoleAbove = 4,
    PositionAbove = 5,
    PositionFilled = 6,
    PositionEmpty = 7,
    AmountOutside = 8,
    LetterDays = 9,
    FigureCount = 10,
    OutOfRange = 11,
    MonthOutside = 12,
    FifthCall = 13,
    NotAnnualDays = 14,
    NotReleasable = 15,
    TooLittleCover = 16,
    DayOutside = 17,
    FewRates = 18,
    ListLengths = 19,
    RoleRetired = 23,
    NoDeletion = 24,
    UnderDeletion = 25,
}

/// What a position holds: nothing, cash, or a letter from its first day to its last, both included.
#[derive(Clone, Copy)]
pub enum Position {
    Empty,
    Cash(u64),
    Letter { amount: u64, first: u32, last: u32 },
}

/// The answer to a settlement (paper 01, 'Settle').
pub enum Settled {
    Called { amount: u64, asked: u64, last: u32 },
    Covered(i64),
    Recorded(i64),
}

/// The answer to an annual run: the next amount, and how many months were recorded.
pub struct Annual {
    pub amount: u64,
    pub months: u64,
}

/// The answer to a deletion: its amount, and whether it became a call.
pub struct Deletion {
    pub amount: u64,
    pub called: bool,
}

/// The answer to a question for the statement, in cents and, the accrued charge, in mills; `made` is the count of calls made to the participant.
pub struct Statement {
    pub firm: u64,
    pub cover: u64,
    pub shortfall: u64,
    pub charged: u64,
    pub accrued: u64,
    pub made: u64,
}

/// An open call: an amount and the last day to lodge it without a charge.
#[derive(Clone, Copy)]
struct OpenCall {
    amount: u64,
    last: u32,
}

/// The total of a month.
#[derive(Clone, Copy)]
struct MonthTotal {
    month: u32,
    total: i64,
}

/// One participant's file; it is `leaving` where it is under deletion. The open calls are the first `count`, oldest first; a month's total stands at
/// the month's number modulo 16; `made` counts the calls made, open or no longer (paper 02, Ask 6).
#[derive(Clone, Copy)]
pub struct File {
    pub admitted: bool,
    leaving: bool,
    pub role: u8,
    count: u8,
    firm: u64,
    positions: [Position; POSITIONS],
    calls: [OpenCall; OPEN_CALLS],
    next: Option<u64>,
    charged: u64,
    accrued: u64,
    made: u64,
    totals: [Option<MonthTotal>; TOTALS],
}

/// The book: 64 files, and today.
pub struct Book {
    pub files: [File; PARTICIPANTS],
    pub today: u32,
}

impl Position {
    /// The amount held; 0 where nothing is.
    fn amount(self) -> u64 {
        match self {
            Position::Empty => 0,
            Position::Cash(amount) | Position::Letter { amount, .. } => amount,
        }
    }

    /// What counts for the cover on a day: all cash, and a letter whose days include it.
    fn counts_on(self, day: u32) -> u64 {
        match self {
            Position::Letter { first, last, .. } if day < first || last < day => 0,
            held => held.amount(),
        }
    }

    /// What is deposited in a check on a day: all cash, and a letter that has begun and is still in force eleven days on.
    fn deposited_on(self, day: u32) -> u64 {
        match self {
            Position::Letter { first, last, .. } if day < first || last < day + 11 => 0,
            held => held.amount(),
        }
    }
}

/// Whether an amount is outside 1 to 10^12 cents, cause 8.
fn outside(amount: u64) -> bool {
    !(1..=MOST).contains(&amount)
}

/// The mills charged for a day with a shortfall of so many cents (002, section 4).
fn day_charge(shortfall: u64) -> u64 {
    if shortfall == 0 {
        0
    } else {
        shortfall.max(LEAST_CHARGE)
    }
}

/// The sum of a month's figures, or the first of the causes 10 and 11.
fn sum_of(figures: &[i64]) -> Result<i64, Refusal> {
    if !(5..=16).contains(&figures.len()) {
        return Err(Refusal::FigureCount);
    }
    if figures.iter().any(|figure| MOST < figure.unsigned_abs()) {
        return Err(Refusal::OutOfRange);
    }
    Ok(figures.iter().sum())
}

impl File {
    /// The file of a participant that isn't admitted.
    const NONE: File = File {
        admitted: false,
        leaving: false,
        role: 0,
        count: 0,
        firm: 0,
        positions: [Position::Empty; POSITIONS],
        calls: [OpenCall { amount: 0, last: 0 }; OPEN_CALLS],
        next: None,
        charged: 0,
        accrued: 0,
        made: 0,
        totals: [None; TOTALS],
    };

    /// The minimum guarantee of the file's role.
    fn minimum(&self) -> u64 {
        MINIMUMS[self.role as usize]
    }

    /// The open calls, oldest first.
    fn open_calls(&self) -> &[OpenCall] {
        &self.calls[..self.count as usize]
    }

    /// One more open call, made today, of which there are fewer than four, is counted; its last free day is the answer.
    fn call(&mut self, amount: u64, today: u32) -> u32 {
        let last = today + FREE_DAYS;
        self.calls[self.count as usize] = OpenCall { amount, last };
        self.count += 1;
        self.made += 1;
        last
    }

    /// The cover on a day.
    fn cover(&self, day: u32) -> u64 {
        self.positions.iter().map(|held| held.counts_on(day)).sum()
    }

    /// What is deposited in a check on a day (paper 02, Ask 2).
    fn deposited(&self, day: u32) -> u64 {
        self.positions
            .iter()
            .map(|held| held.deposited_on(day))
            .sum()
    }

    /// What a release must leave: the largest of the firm amount, the open calls and the next amount.
    fn floor(&self) -> u64 {
        let known = self.firm.max(self.next.unwrap_or(0));
        self.open_calls()
            .iter()
            .fold(known, |most, call| most.max(call.amount))
    }

    /// The place with a number, or cause 5.
    fn place(&mut self, place: u64) -> Result<&mut Position, Refusal> {
        self.positions
            .get_mut(place as usize)
            .ok_or(Refusal::PositionAbove)
    }

    /// Paper 01, 'Lodge', from cause 5 on.
    fn lodge(&mut self, place: u64, holding: Position, today: u32) -> Result<(), Refusal> {
        let held = self.place(place)?;
        if !matches!(held, Position::Empty) {
            return Err(Refusal::PositionFilled);
        }
        if outside(holding.amount()) {
            return Err(Refusal::AmountOutside);
        }
        if let Position::Letter { first, last, .. } = holding {
            if last < first || last < today || LAST_DAY < last {
                return Err(Refusal::LetterDays);
            }
        }
        *held = holding;
        Ok(())
    }

    /// Paper 01, 'Release', from cause 5 on.
    fn release(&mut self, place: u64, amount: u64, today: u32) -> Result<(), Refusal> {
        let held = *self.place(place)?;
        if let Position::Empty = held {
            return Err(Refusal::PositionEmpty);
        }
        if outside(amount) {
            return Err(Refusal::AmountOutside);
        }
        let left = match held {
            Position::Cash(cash) if amount < cash => Position::Cash(cash - amount),
            _ if amount == held.amount() => Position::Empty,
            _ => return Err(Refusal::NotReleasable),
        };
        let cover = self.cover(today) - held.counts_on(today) + left.counts_on(today);
        if cover < self.floor() {
            return Err(Refusal::TooLittleCover);
        }
        *self.place(place)? = left;
        Ok(())
    }

    /// Whether a total exceeds the firm amount and every open call.
    fn exceeds_each(&self, total: i64) -> bool {
        let exceeds = |amount: u64| (amount as i64) < total;
        exceeds(self.firm) && self.open_calls().iter().all(|call| exceeds(call.amount))
    }

    /// Whether a total that is checked calls for more than is deposited.
    fn calls_for(&self, total: i64, deposited: u64) -> bool {
        let deposited = deposited as i64;
        deposited < total && 6 * deposited <= 5 * total && self.exceeds_each(total)
    }

    /// Paper 01, 'Settle', from cause 12 on.
    fn settle(&mut self, month: u32, figures: &[i64], today: u32) -> Result<Settled, Refusal> {
        let current = month_of(today);
        let back = match current.checked_sub(month) {
            Some(back @ 2..=14) => back,
            _ => return Err(Refusal::MonthOutside),
        };
        let total = sum_of(figures)?;
        let settled = if back == 2 && !is_september(current) {
            self.check(total, today)?
        } else {
            Settled::Recorded(total)
        };
        self.totals[month as usize % TOTALS] = Some(MonthTotal { month, total });
        Ok(settled)
    }

    /// The check of a total against what is deposited today, which may call, or cause 13.
    fn check(&mut self, total: i64, today: u32) -> Result<Settled, Refusal> {
        let deposited = self.deposited(today);
        if !self.calls_for(total, deposited) {
            return Ok(Settled::Covered(total));
        }
        if self.count as usize == OPEN_CALLS {
            return Err(Refusal::FifthCall);
        }
        let amount = total as u64;
        let last = self.call(amount, today);
        Ok(Settled::Called {
            amount,
            asked: amount - deposited,
            last,
        })
    }

    /// Paper 01, 'Annual run', from cause 14 on: the largest recorded total of months P − 14 to P − 3, at least the minimum.
    fn annual_run(&mut self, today: u32) -> Result<Annual, Refusal> {
        let date = date_of(today);
        if !in_annual_days(&date) {
            return Err(Refusal::NotAnnualDays);
        }
        if self.leaving {
            return Err(Refusal::UnderDeletion);
        }
        let (mut largest, mut months) = (self.minimum() as i64, 0);
        for recorded in self.totals.iter().flatten() {
            if date.month <= recorded.month + 14 && recorded.month + 3 <= date.month {
                largest = largest.max(recorded.total);
                months += 1;
            }
        }
        let amount = largest as u64;
        self.next = Some(amount);
        Ok(Annual { amount, months })
    }

    /// The recorded total of a month.
    fn total(&self, month: u32) -> Option<i64> {
        let found = self.totals[month as usize % TOTALS];
        found
            .filter(|recorded| recorded.month == month)
            .map(|recorded| recorded.total)
    }

    /// The largest total of the three latest recorded months among P − 14 to P − 2, or of fewer; 0 if there are none, or it is negative.
    fn deletion_amount(&self, current: u32) -> i64 {
        let months = current.saturating_sub(14)..=current.saturating_sub(2);
        let totals = months.rev().filter_map(|month| self.total(month));
        totals.take(LATEST).fold(0, i64::max)
    }

    /// Paper 02, 'Leaving participants', from cause 24 on.
    fn delete(&mut self, today: u32) -> Result<Deletion, Refusal> {
        let current = month_of(today);
        if self.leaving || !is_deletion_month(current) {
            return Err(Refusal::NoDeletion);
        }
        let total = self.deletion_amount(current);
        let (amount, called) = (total as u64, self.exceeds_each(total));
        if called {
            if self.count as usize == OPEN_CALLS {
                return Err(Refusal::FifthCall);
            }
            self.call(amount, today);
        }
        self.leaving = true;
        Ok(Deletion { amount, called })
    }

    /// Empties the positions whose letter has lapsed, and answers the cover on the day.
    fn empty_lapsed(&mut self, day: u32) -> u64 {
        let mut cover = 0;
        for held in &mut self.positions {
            match *held {
                Position::Empty => {}
                Position::Cash(amount) => cover += amount,
                Position::Letter { last, .. } if last < day => *held = Position::Empty,
                Position::Letter { first, .. } if day < first => {}
                Position::Letter { amount, .. } => cover += amount,
            }
        }
        cover
    }

    /// Removes the open calls whose last free day is over, and raises the firm amount to each.
    fn end_calls(&mut self, day: u32) {
        let ended = self
            .open_calls()
            .iter()
            .take_while(|call| call.last < day)
            .count();
        if ended == 0 {
            return;
        }
        for call in &self.calls[..ended] {
            self.firm = self.firm.max(call.amount);
        }
        self.calls.copy_within(ended.., 0);
        self.count -= ended as u8;
    }

    /// Opens a day for the file (paper 01, 'Advance').
    fn open(&mut self, day: u32, first_october: bool) {
        let cover = self.empty_lapsed(day);
        self.end_calls(day);
        if first_october {
            self.firm = self.next.take().unwrap_or(self.firm);
        }
        let shortfall = self.firm.saturating_sub(cover);
        if 0 < shortfall {
            self.charged += 1;
            self.accrued += day_charge(shortfall);
        }
    }
}

impl Book {
    /// The fresh book of day 0: no participants.
    pub fn new() -> Book {
        Book {
            files: [File::NONE; PARTICIPANTS],
            today: 0,
        }
    }

    /// The file of an admitted participant, or the first of the causes 1 and 2.
    fn file(&self, participant: u64) -> Result<&File, Refusal> {
        match self.files.get(participant as usize) {
            None => Err(Refusal::ParticipantAbove),
            Some(file) if !file.admitted => Err(Refusal::NotAdmitted),
            Some(file) => Ok(file),
        }
    }

    /// The same, to be changed.
    fn file_mut(&mut self, participant: u64) -> Result<&mut File, Refusal> {
        match self.files.get_mut(participant as usize) {
            None => Err(Refusal::ParticipantAbove),
            Some(file) if !file.admitted => Err(Refusal::NotAdmitted),
            Some(file) => Ok(file),
        }
    }

    /// Makes this the fresh book on a day (paper 01, 'Fresh book'). Refused, it is left as it was.
    pub fn fresh(&mut self, day: u32) -> Result<(), Refusal> {
        if LAST_DAY < day {
            return Err(Refusal::DayOutside);
        }
        self.files.fill(File::NONE);
        self.today = day;
        Ok(())
    }

    /// Admits a participant with a role (paper 01, 'Admit'; paper 02, 'Role retired').
    pub fn admit(&mut self, participant: u64, role: u64) -> Result<(), Refusal> {
        let file = match self.files.get_mut(participant as usize) {
            None => return Err(Refusal::ParticipantAbove),
            Some(file) if file.admitted => return Err(Refusal::AdmittedAlready),
            Some(file) => file,
        };
        if MINIMUMS.len() as u64 <= role {
            return Err(Refusal::RoleAbove);
        }
        if role == RETIRED {
            return Err(Refusal::RoleRetired);
        }
        file.admitted = true;
        file.role = role as u8;
        let minimum = file.minimum();
        if 0 < minimum {
            file.call(minimum, self.today);
        }
        Ok(())
    }

    /// Lodges cash or a letter at a position (paper 01, 'Lodge').
    pub fn lodge(
        &mut self,
        participant: u64,
        place: u64,
        holding: Position,
    ) -> Result<(), Refusal> {
        let today = self.today;
        self.file_mut(participant)?.lodge(place, holding, today)
    }

    /// Releases an amount at a position (paper 01, 'Release').
    pub fn release(&mut self, participant: u64, place: u64, amount: u64) -> Result<(), Refusal> {
        let today = self.today;
        self.file_mut(participant)?.release(place, amount, today)
    }

    /// Settles a month by its figures (paper 01, 'Settle').
    pub fn settle(
        &mut self,
        participant: u64,
        month: u32,
        figures: &[i64],
    ) -> Result<Settled, Refusal> {
        let today = self.today;
        self.file_mut(participant)?.settle(month, figures, today)
    }

    /// Makes the annual run (paper 01, 'Annual run').
    pub fn annual_run(&mut self, participant: u64) -> Result<Annual, Refusal> {
        let today = self.today;
        self.file_mut(participant)?.annual_run(today)
    }

    /// Places a participant under deletion (paper 02, 'Leaving participants').
    pub fn delete(&mut self, participant: u64) -> Result<Deletion, Refusal> {
        let today = self.today;
        self.file_mut(participant)?.delete(today)
    }

    /// Opens the days after today until a day, at most so many, and answers how many were opened (paper 01, 'Advance').
    pub fn advance(&mut self, day: u32, budget: u64) -> Result<u64, Refusal> {
        if LAST_DAY < day || day < self.today {
            return Err(Refusal::DayOutside);
        }
        let days = budget.min((day - self.today) as u64);
        for _ in 0..days {
            self.open_day();
        }
        Ok(days)
    }

    /// Opens the next day for every admitted participant.
    fn open_day(&mut self) {
        self.today += 1;
        let first_october = is_first_october(self.today);
        for file in self.files.iter_mut().filter(|file| file.admitted) {
            file.open(self.today, first_october);
        }
    }

    /// The statement of a participant (paper 01, 'Statement').
    pub fn statement(&self, participant: u64) -> Result<Statement, Refusal> {
        let file = self.file(participant)?;
        let cover = file.cover(self.today);
        Ok(Statement {
            firm: file.firm,
            cover,
            shortfall: file.firm.saturating_sub(cover),
            charged: file.charged,
            accrued: file.accrued,
            made: file.made,
        })
    }

    /// The sum of the participants' counts of calls made.
    pub fn calls_made(&self) -> u64 {
        self.files.iter().map(|file| file.made).sum()
    }
}
