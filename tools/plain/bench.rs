//! The calls of crates/bench, made again with the same draws, and questions to the book that they begin with.

use std::ptr::read_volatile;

use crate::book::{Annual, Book, Position, Refusal, Settled, Statement, PARTICIPANTS};
use crate::calendar::{month_of, LAST_DAY};

extern "C" {
    /// The processor time used so far, in microseconds (the C library's, which Rust's own library is linked with).
    fn clock() -> i64;
}

/// The microseconds of processor time that some work takes, beside what it gives.
fn timed<T>(work: impl FnOnce() -> T) -> (T, i64) {
    let began = unsafe { clock() };
    let given = work();
    let ended = unsafe { clock() };
    (given, ended - began)
}

/// What the quickest of some runs gives, and its microseconds.
fn quickest<T>(repeats: u64, mut run: impl FnMut() -> (T, i64)) -> (T, i64) {
    let mut best = run();
    for _ in 1..repeats {
        let next = run();
        if next.1 < best.1 {
            best = next;
        }
    }
    best
}

// ---- answers as numbers, for the check sum

/// The number of an answer, or of its refusal.
fn number<T>(answer: Result<T, Refusal>, of: impl FnOnce(T) -> u64) -> u64 {
    answer.map_or_else(|refusal| refusal as u64, of)
}

/// An admission's, a lodging's or a release's answer.
fn outcome(answer: Result<(), Refusal>) -> u64 {
    number(answer, |()| 1000)
}

/// A settlement's answer.
fn settled(answer: Result<Settled, Refusal>) -> u64 {
    number(answer, |settled| match settled {
        Settled::Called { amount, asked, .. } => amount.wrapping_add(asked),
        Settled::Covered(_) => 2000,
        Settled::Recorded(_) => 3000,
    })
}

/// An annual run's answer.
fn annual(answer: Result<Annual, Refusal>) -> u64 {
    number(answer, |annual| annual.amount.wrapping_add(annual.months))
}

/// A statement: its figures, added and combined by 'exclusive or' in turn.
fn stated(answer: Result<Statement, Refusal>) -> u64 {
    number(answer, |s| {
        let charge = s.charged.wrapping_add(s.accrued);
        s.cover.wrapping_add(s.shortfall ^ charge) ^ s.firm
    })
}

// ---- draws

/// The number drawn after a number.
fn next(draw: u64) -> u64 {
    (draw % 2_147_483_648 * 1_103_515_245 + 12_345) % 2_147_483_648
}

/// The participant of a call.
fn participant_of(draw: u64) -> u64 {
    draw / 4_096 % 64
}

/// The argument of a call, below 8,192.
fn argument_of(draw: u64) -> u64 {
    draw / 262_144 % 8_192
}

/// The kind of a call, below 8.
fn kind_of(draw: u64) -> u64 {
    next(draw) / 4_096 % 8
}

// ---- a book with 64 participants that have letters

/// The letter at a position: the first four are in force for the whole calendar, the others lapse one after the other.
fn letter(participant: u64, position: u64) -> Position {
    let amount = 200_000 + 10_000 * participant + position;
    let last = match position {
        0..=3 => LAST_DAY,
        _ => (5_000 * (position - 3) + 50 * participant) as u32,
    };
    Position::Letter {
        amount,
        first: 0,
        last,
    }
}

/// The role of a participant: the six in turn, with 0 for 1, which is retired and has the same minimum.
fn role_of(participant: u64) -> u64 {
    match participant % 6 {
        1 => 0,
        role => role,
    }
}

/// A fresh book of day 0 with every participant admitted, the roles in turn, and so many letters lodged for each. No call is refused.
fn with_all(letters: u64) -> Box<Book> {
    let mut book = Box::new(Book::new());
    for participant in 0..PARTICIPANTS as u64 {
        let _ = book.admit(participant, role_of(participant));
        for position in 0..letters {
            let _ = book.lodge(participant, position, letter(participant, position));
        }
    }
    book
}

/// The sum of the statements of all participants.
fn statements(book: &Book) -> u64 {
    (0..PARTICIPANTS as u64).fold(0, |sum, participant| {
        sum.wrapping_add(stated(book.statement(participant)))
    })
}

// ---- the opening of every day of the calendar

/// One advance over the whole calendar for 64 participants with eight letters each.
pub fn opening(repeats: u64) {
    let ((book, answer), micros) = quickest(repeats, || {
        let mut book = with_all(8);
        let (answer, micros) = timed(|| book.advance(LAST_DAY, LAST_DAY as u64));
        ((book, answer), micros)
    });
    let days = answer.unwrap_or(0);
    println!(
        "whole calendar: days opened {days}, calls made {}, sum of the statements {}",
        book.calls_made(),
        statements(&book)
    );
    println!("  microseconds {micros}");
}

// ---- mixed calls

/// A day to start on, and rounds of so many calls and one advance of so many days.
pub struct Plan {
    pub start: u32,
    pub rounds: u64,
    pub calls: u64,
    pub days: u64,
}

/// A lodging at position 4 to 8 of cash, or of a letter that ends a year later.
fn lodge(book: &mut Book, participant: u64, argument: u64) -> u64 {
    let amount = 1_000 + argument / 8 % 4 * 1_000;
    let holding = match argument / 32 % 2 {
        0 => Position::Cash(amount),
        _ => Position::Letter {
            amount,
            first: book.today,
            last: book.today + 366,
        },
    };
    outcome(book.lodge(participant, 4 + argument % 5, holding))
}

/// A release at position 4 to 7.
fn release(book: &mut Book, participant: u64, argument: u64) -> u64 {
    let amount = 1_000 + argument / 8 % 4 * 1_000;
    outcome(book.release(participant, 4 + argument % 4, amount))
}

/// A settlement, by six figures, of one of the four months that end two months before today's.
fn settle(book: &mut Book, participant: u64, argument: u64) -> u64 {
    let month = month_of(book.today).wrapping_sub(2 + (argument % 4) as u32);
    let figures = [(argument * 300) as i64, 30_000, -40_000, 7_000, -900, 60];
    settled(book.settle(participant, month, &figures))
}

/// One call: its kind, its participant and its argument by a drawn number.
fn call(book: &mut Book, draw: u64) -> u64 {
    let (participant, argument) = (participant_of(draw), argument_of(draw));
    match kind_of(draw) {
        0 => lodge(book, participant, argument),
        1 | 2 => release(book, participant, argument),
        3 | 4 => settle(book, participant, argument),
        5 => annual(book.annual_run(participant)),
        6 => outcome(book.admit(participant, 0)),
        _ => stated(book.statement(participant)),
    }
}

/// The rounds of a plan, and the sum of the answers.
fn rounds(book: &mut Book, plan: &Plan) -> u64 {
    let mut sum: u64 = 0;
    for round in 0..plan.rounds {
        let mut draw = round;
        for _ in 0..plan.calls {
            draw = next(draw);
            sum = sum.wrapping_add(call(book, draw));
        }
        sum = sum.wrapping_add(book.advance(LAST_DAY, plan.days).unwrap_or(0));
    }
    sum
}

/// The book that a plan begins with: 64 participants with four letters each, on the day to start on.
fn begun(start: u32) -> Box<Book> {
    let mut book = with_all(4);
    let _ = book.advance(start, LAST_DAY as u64);
    book
}

/// A plan, from the book that it begins with.
pub fn mixed(plan: &Plan, repeats: u64) {
    let ((book, sum), micros) = quickest(repeats, || {
        let mut book = begun(plan.start);
        let (sum, micros) = timed(|| rounds(&mut book, plan));
        ((book, sum), micros)
    });
    let Plan {
        start,
        rounds,
        calls,
        days,
    } = plan;
    println!("mixed calls: from day {start}, rounds {rounds}, calls each {calls}, days after each {days}");
    println!(
        "  to day {}, calls made {}, sum of the answers {sum}, sum of the statements {}",
        book.today,
        book.calls_made(),
        statements(&book)
    );
    println!("  microseconds {micros}");
}

// ---- questions

/// The same book, of which the compiler knows nothing, so that it asks the book anew each time.
fn unknown(book: &Book) -> &Book {
    unsafe { read_volatile(&book) }
}

/// The sum of so many statements of drawn participants.
fn drawn_statements(book: &Book, count: u64) -> u64 {
    let (mut draw, mut sum) = (0, 0u64);
    for _ in 0..count {
        draw = next(draw);
        sum = sum.wrapping_add(stated(unknown(book).statement(participant_of(draw))));
    }
    sum
}

/// The sum of so many counts of calls made.
fn counts(book: &Book, count: u64) -> u64 {
    (0..count).fold(0, |sum, _| sum.wrapping_add(unknown(book).calls_made()))
}

/// So many questions of a kind.
fn asked(kind: &str, count: u64, repeats: u64, ask: impl Fn() -> u64) {
    let (sum, micros) = quickest(repeats, || timed(&ask));
    println!("{kind}: {count}");
    println!("  sum of the answers {sum}");
    println!("  microseconds {micros}");
}

/// So many statements, and then so many counts, on 5 September 2021.
pub fn questions(count: u64, repeats: u64) {
    let book = begun(613);
    asked("statements", count, repeats, || {
        drawn_statements(&book, count)
    });
    asked("counts", count, repeats, || counts(&book, count));
}
