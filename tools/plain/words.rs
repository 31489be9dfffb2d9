//! The words of a line, read byte by byte (docs/LEDGER.md, 'Lines').

use crate::calendar::{day_of_date, month_of_year};

/// The names of the six roles.
pub const ROLES: [&str; 6] = [
    "supplier",
    "self-supplied",
    "trader",
    "producer",
    "res-aggregator",
    "demand-response",
];

/// Why a line is no call (docs/LEDGER.md, 'Answers').
#[derive(Clone, Copy)]
pub enum Fault {
    ControlByte,
    NoSuchCall,
    TooFewWords,
    TooManyWords,
    NotANumber,
    NotADay,
    NotAMonth,
    NotARole,
    NoKind,
    LineTooLong,
}

impl Fault {
    /// The reason that an `error` gives.
    pub fn reason(self) -> &'static str {
        match self {
            Fault::ControlByte => "a control byte",
            Fault::NoSuchCall => "no such call",
            Fault::TooFewWords => "too few words",
            Fault::TooManyWords => "too many words",
            Fault::NotANumber => "not a number",
            Fault::NotADay => "not a day",
            Fault::NotAMonth => "not a month",
            Fault::NotARole => "not a role",
            Fault::NoKind => "neither cash nor letter",
            Fault::LineTooLong => "line too long",
        }
    }
}

/// Whether a byte separates words.
fn is_blank(byte: u8) -> bool {
    matches!(byte, b' ' | b'\t' | b'\r')
}

/// Whether a byte ends the words of a line.
fn ends_words(byte: u8) -> bool {
    matches!(byte, b'\n' | b'#')
}

/// Whether a line, which ends in its newline, has a control byte before its comment. No word of a call has one, so it is asked for only of a line
/// that is no call.
pub fn has_control(line: &[u8]) -> bool {
    let mut content = line.iter().take_while(|byte| !ends_words(**byte));
    content.any(|byte| byte.is_ascii_control() && !is_blank(*byte))
}

/// A number with one more digit behind it, or the largest number.
fn with_digit(number: u64, digit: u8) -> u64 {
    if number < u64::MAX / 10 {
        10 * number + digit as u64
    } else {
        number.saturating_mul(10).saturating_add(digit as u64)
    }
}

/// A number of 32 bits, or the largest of those.
fn small(number: u64) -> u32 {
    number.min(u32::MAX as u64) as u32
}

/// The number that a part of a date gives, if it is all digits.
fn part(digits: &[u8]) -> Option<u32> {
    let all = digits.iter().all(u8::is_ascii_digit);
    all.then(|| {
        digits
            .iter()
            .fold(0, |number, byte| 10 * number + (byte - b'0') as u32)
    })
}

/// A word of the form 2021-10-01 as a day.
fn dated_day(word: &[u8]) -> Option<u32> {
    match word {
        [y @ .., b'-', m0, m1, b'-', d0, d1] if y.len() == 4 => {
            day_of_date(part(y)?, part(&[*m0, *m1])?, part(&[*d0, *d1])?)
        }
        _ => None,
    }
}

/// A word of the form 2021-10 as a month.
fn dated_month(word: &[u8]) -> Option<u32> {
    match word {
        [y @ .., b'-', m0, m1] if y.len() == 4 => month_of_year(part(y)?, part(&[*m0, *m1])?),
        _ => None,
    }
}

/// Complete lines, each with its newline, and a place in them. What takes a word stays within its line, since no word has a newline.
pub struct Words<'a> {
    lines: &'a [u8],
    at: usize,
}

impl<'a> Words<'a> {
    /// The beginning of complete lines.
    pub fn of(lines: &'a [u8]) -> Words<'a> {
        Words { lines, at: 0 }
    }

    /// The lines from this place on.
    pub fn rest(&self) -> &'a [u8] {
        &self.lines[self.at..]
    }

    /// Goes on to the next line.
    pub fn next_line(&mut self) {
        while self.lines[self.at] != b'\n' {
            self.at += 1;
        }
        self.at += 1;
    }

    /// Goes on to the next word, and answers whether the line has one.
    pub fn more(&mut self) -> bool {
        while is_blank(self.lines[self.at]) {
            self.at += 1;
        }
        !ends_words(self.lines[self.at])
    }

    /// Whether a word ends at this place.
    fn at_end(&self) -> bool {
        is_blank(self.lines[self.at]) || ends_words(self.lines[self.at])
    }

    /// Goes on to the next word, which is due.
    fn due(&mut self) -> Result<(), Fault> {
        if self.more() {
            Ok(())
        } else {
            Err(Fault::TooFewWords)
        }
    }

    /// The word that began at a place, to its end.
    fn word_from(&mut self, start: usize) -> &'a [u8] {
        while !self.at_end() {
            self.at += 1;
        }
        &self.lines[start..self.at]
    }

    /// The next word.
    pub fn word(&mut self) -> Result<&'a [u8], Fault> {
        self.due()?;
        Ok(self.word_from(self.at))
    }

    /// The end of the line, where no more words are.
    pub fn end(&mut self) -> Result<(), Fault> {
        if self.more() {
            Err(Fault::TooManyWords)
        } else {
            Ok(())
        }
    }

    /// The rest of a word as a natural number, if it is all digits.
    fn digits(&mut self) -> Option<u64> {
        let (start, mut number) = (self.at, 0);
        loop {
            let digit = self.lines[self.at].wrapping_sub(b'0');
            if 9 < digit {
                break;
            }
            number = with_digit(number, digit);
            self.at += 1;
        }
        (start < self.at && self.at_end()).then_some(number)
    }

    /// A natural number.
    pub fn natural(&mut self) -> Result<u64, Fault> {
        self.due()?;
        self.digits().ok_or(Fault::NotANumber)
    }

    /// A natural number that is held as a signed one.
    pub fn mark(&mut self) -> Result<i64, Fault> {
        self.natural()
            .map(|number| number.min(i64::MAX as u64) as i64)
    }

    /// A number that may have a minus.
    pub fn signed(&mut self) -> Result<i64, Fault> {
        self.due()?;
        let negative = self.lines[self.at] == b'-';
        self.at += negative as usize;
        let number = self.digits().ok_or(Fault::NotANumber)?;
        let held = number.min(i64::MAX as u64 + negative as u64) as i64;
        Ok(if negative { held.wrapping_neg() } else { held })
    }

    /// A day: its number, or a date.
    pub fn day(&mut self) -> Result<u32, Fault> {
        self.due()?;
        let start = self.at;
        match self.digits() {
            Some(number) => Ok(small(number)),
            None => dated_day(self.word_from(start)).ok_or(Fault::NotADay),
        }
    }

    /// A month: its number, or a date without a day.
    pub fn month(&mut self) -> Result<u32, Fault> {
        self.due()?;
        let start = self.at;
        match self.digits() {
            Some(number) => Ok(small(number)),
            None => dated_month(self.word_from(start)).ok_or(Fault::NotAMonth),
        }
    }

    /// A role: its number, or its name.
    pub fn role(&mut self) -> Result<u64, Fault> {
        self.due()?;
        let start = self.at;
        if let Some(number) = self.digits() {
            return Ok(number);
        }
        let word = self.word_from(start);
        let named = ROLES.iter().position(|name| name.as_bytes() == word);
        named.map(|number| number as u64).ok_or(Fault::NotARole)
    }
}
