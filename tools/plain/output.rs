//! Answers on standard output, in a buffer of 64 KiB.

use std::fmt::Arguments;
use std::fs::File;
use std::io;
use std::io::Write;
use std::os::fd::AsFd;

/// The bytes of the buffer, and the most that the answer to one line has: a report of 64 participants has 66 lines of some 120 bytes.
const ROOM: usize = 65_536;
const MOST: usize = 16_384;

/// The numbers from 00 to 99 by their two digits.
const PAIRS: [[u8; 2]; 100] = pairs();

/// The table of those digits.
const fn pairs() -> [[u8; 2]; 100] {
    let mut found = [[0; 2]; 100];
    let mut number = 0;
    while number < 100 {
        found[number] = [b'0' + (number / 10) as u8, b'0' + (number % 10) as u8];
        number += 1;
    }
    found
}

/// Answers that wait to be written.
pub struct Output {
    file: File,
    waiting: Vec<u8>,
}

impl Output {
    /// Standard output, with nothing waiting.
    pub fn standard() -> io::Result<Output> {
        let file = File::from(io::stdout().as_fd().try_clone_to_owned()?);
        let waiting = Vec::with_capacity(ROOM);
        Ok(Output { file, waiting })
    }

    /// A text.
    pub fn text(&mut self, text: &str) {
        self.waiting.extend_from_slice(text.as_bytes());
    }

    /// The end of a line.
    pub fn end(&mut self) {
        self.waiting.push(b'\n');
    }

    /// A text and a natural number.
    pub fn number(&mut self, text: &str, number: u64) {
        self.text(text);
        self.decimal(number);
    }

    /// A text and a number that may be negative.
    pub fn signed(&mut self, text: &str, number: i64) {
        self.text(text);
        if number < 0 {
            self.waiting.push(b'-');
        }
        self.decimal(number.unsigned_abs());
    }

    /// A natural number in decimal digits, made from the last pair to the first.
    fn decimal(&mut self, number: u64) {
        let mut digits = [0; 20];
        let (mut at, mut rest) = (digits.len(), number);
        while 10 <= rest {
            at -= 2;
            digits[at..at + 2].copy_from_slice(&PAIRS[(rest % 100) as usize]);
            rest /= 100;
        }
        if 0 < rest || number == 0 {
            at -= 1;
            digits[at] = b'0' + rest as u8;
        }
        self.waiting.extend_from_slice(&digits[at..]);
    }

    /// A text with numbers laid out in columns.
    pub fn put(&mut self, text: Arguments) {
        self.waiting
            .write_fmt(text)
            .expect("a vector takes every byte");
    }

    /// Writes what waits.
    pub fn flush(&mut self) -> io::Result<()> {
        self.file.write_all(&self.waiting)?;
        self.waiting.clear();
        Ok(())
    }

    /// Writes what waits, where there may be no room for the answer to one more line.
    pub fn flush_if_full(&mut self) -> io::Result<()> {
        if ROOM - MOST < self.waiting.len() {
            self.flush()
        } else {
            Ok(())
        }
    }
}
