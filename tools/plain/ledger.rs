//! The ledger as a filter from standard input to standard output (docs/LEDGER.md).

use std::fs::File;
use std::io;
use std::io::{ErrorKind, Read};
use std::os::fd::AsFd;

use crate::book::{Book, Position, Refusal, Settled, PARTICIPANTS};
use crate::calendar::date_of;
use crate::output::Output;
use crate::special::Lists;
use crate::words::{has_control, Fault, Words, ROLES};

/// The most bytes of a line without its newline.
const LONGEST: usize = 65_535;

/// The heading of a report.
const HEADING: &str = "participant             role          firm EUR         cover EUR     shortfall EUR days charged            charge EUR\n";

/// The book, the number of the line that is taken, the numbers of its lists, and the answers that wait.
struct Ledger {
    book: Box<Book>,
    line: u64,
    numbers: Vec<i64>,
    out: Output,
}

impl Ledger {
    /// Takes complete lines, each with its newline.
    fn take_lines(&mut self, lines: &[u8]) -> io::Result<()> {
        let mut words = Words::of(lines);
        while !words.rest().is_empty() {
            self.line += 1;
            let line = words.rest();
            if let Err(fault) = self.take(&mut words) {
                let fault = if has_control(line) {
                    Fault::ControlByte
                } else {
                    fault
                };
                self.error(fault);
            }
            words.next_line();
            self.out.flush_if_full()?;
        }
        Ok(())
    }

    /// Takes a line that is too long.
    fn take_long(&mut self) {
        self.line += 1;
        self.error(Fault::LineTooLong);
    }

    /// Makes the call of one line and answers it, or finds that it is none. The line that ends a journal's first stretch has no answer.
    fn take(&mut self, words: &mut Words) -> Result<(), Fault> {
        if !words.more() {
            return Ok(());
        }
        match words.word()? {
            b"lodge" => self.lodge(words),
            b"release" => self.release(words),
            b"settle" => self.settle(words),
            b"statement" => self.statement(words),
            b"annual" => self.annual(words),
            b"delete" => self.delete(words),
            b"advance" => self.advance(words),
            b"admit" => self.admit(words),
            b"calls" => self.calls(words),
            b"special" => self.special(words),
            b"report" => self.report(words),
            b"fresh" => self.fresh(words),
            b"role-retired" => words.end(),
            _ => Err(Fault::NoSuchCall),
        }
    }

    /// error LINE REASON
    fn error(&mut self, fault: Fault) {
        self.out.number("error ", self.line);
        self.out.text(" ");
        self.out.text(fault.reason());
        self.out.end();
    }

    /// refused N, or what is put for an accepted call.
    fn answer<T>(
        &mut self,
        answer: Result<T, Refusal>,
        put: impl FnOnce(&mut Output, T),
    ) -> Result<(), Fault> {
        match answer {
            Ok(found) => put(&mut self.out, found),
            Err(refusal) => self.out.number("refused ", refusal as u64),
        }
        self.out.end();
        Ok(())
    }

    /// done, or refused N
    fn done(&mut self, answer: Result<(), Refusal>) -> Result<(), Fault> {
        self.answer(answer, |out, ()| out.text("done"))
    }

    /// fresh D
    fn fresh(&mut self, words: &mut Words) -> Result<(), Fault> {
        let day = words.day()?;
        words.end()?;
        let answer = self.book.fresh(day);
        self.done(answer)
    }

    /// admit P ROLE
    fn admit(&mut self, words: &mut Words) -> Result<(), Fault> {
        let (participant, role) = (words.natural()?, words.role()?);
        words.end()?;
        let answer = self.book.admit(participant, role);
        self.done(answer)
    }

    /// lodge P POSITION cash AMOUNT, lodge P POSITION letter AMOUNT FIRST LAST
    fn lodge(&mut self, words: &mut Words) -> Result<(), Fault> {
        let (participant, place) = (words.natural()?, words.natural()?);
        let holding = match words.word()? {
            b"cash" => Position::Cash(words.natural()?),
            b"letter" => Position::Letter {
                amount: words.natural()?,
                first: words.day()?,
                last: words.day()?,
            },
            _ => return Err(Fault::NoKind),
        };
        words.end()?;
        let answer = self.book.lodge(participant, place, holding);
        self.done(answer)
    }

    /// release P POSITION AMOUNT
    fn release(&mut self, words: &mut Words) -> Result<(), Fault> {
        let (participant, place, amount) = (words.natural()?, words.natural()?, words.natural()?);
        words.end()?;
        let answer = self.book.release(participant, place, amount);
        self.done(answer)
    }

    /// settle P MONTH FIGURE..
    fn settle(&mut self, words: &mut Words) -> Result<(), Fault> {
        let (participant, month) = (words.natural()?, words.month()?);
        self.numbers.clear();
        while words.more() {
            self.numbers.push(words.signed()?);
        }
        let answer = self.book.settle(participant, month, &self.numbers);
        self.answer(answer, |out, settled| match settled {
            Settled::Called {
                amount,
                asked,
                last,
            } => {
                out.number("called ", amount);
                out.number(" ", asked);
                out.number(" ", last as u64);
            }
            Settled::Covered(total) => out.signed("covered ", total),
            Settled::Recorded(total) => out.signed("recorded ", total),
        })
    }

    /// annual P
    fn annual(&mut self, words: &mut Words) -> Result<(), Fault> {
        let participant = words.natural()?;
        words.end()?;
        let answer = self.book.annual_run(participant);
        self.answer(answer, |out, annual| {
            out.number("annual ", annual.amount);
            out.number(" ", annual.months);
        })
    }

    /// delete P
    fn delete(&mut self, words: &mut Words) -> Result<(), Fault> {
        let participant = words.natural()?;
        words.end()?;
        let answer = self.book.delete(participant);
        self.answer(answer, |out, deletion| {
            out.number("deletion ", deletion.amount);
            out.number(" ", deletion.called as u64);
        })
    }

    /// advance T B
    fn advance(&mut self, words: &mut Words) -> Result<(), Fault> {
        let (day, budget) = (words.day()?, words.natural()?);
        words.end()?;
        let answer = self.book.advance(day, budget);
        self.answer(answer, |out, days| out.number("opened ", days))
    }

    /// statement P
    fn statement(&mut self, words: &mut Words) -> Result<(), Fault> {
        let participant = words.natural()?;
        words.end()?;
        let answer = self.book.statement(participant);
        self.answer(answer, |out, statement| {
            out.number("statement ", statement.firm);
            out.number(" ", statement.cover);
            out.number(" ", statement.shortfall);
            out.number(" ", statement.charged);
            out.number(" ", statement.accrued);
            out.number(" ", statement.made);
        })
    }

    /// calls
    fn calls(&mut self, words: &mut Words) -> Result<(), Fault> {
        words.end()?;
        let made = self.book.calls_made();
        self.answer(Ok(made), |out, made| out.number("calls ", made))
    }

    /// A list: its length and then its numbers, which go behind those of the lists before it.
    fn list(&mut self, words: &mut Words, signed: bool) -> Result<(), Fault> {
        for _ in 0..words.natural()? {
            self.numbers.push(if signed {
                words.signed()?
            } else {
                words.mark()?
            });
        }
        Ok(())
    }

    /// special LIST LIST LIST LIST LIST LIST LIST, the third being the marks
    fn special(&mut self, words: &mut Words) -> Result<(), Fault> {
        self.numbers.clear();
        let mut bounds = [0; 8];
        for i in 0..7 {
            self.list(words, i != 2)?;
            bounds[i + 1] = self.numbers.len();
        }
        words.end()?;
        let list = |i: usize| &self.numbers[bounds[i]..bounds[i + 1]];
        let lists = Lists {
            medium: list(0),
            low: list(1),
            marks: list(2),
            zero_medium: list(3),
            zero_low: list(4),
            excess_medium: list(5),
            excess_low: list(6),
        };
        let answer = lists.special();
        self.answer(answer, |out, cents| out.number("special ", cents))
    }

    /// report
    fn report(&mut self, words: &mut Words) -> Result<(), Fault> {
        words.end()?;
        let (today, date) = (self.book.today, date_of(self.book.today));
        let (year, month, day) = (2020 + date.month / 12, date.month % 12 + 1, date.day);
        let count = self.book.files.iter().filter(|file| file.admitted).count();
        self.out.put(format_args!(
            "report {today} {year:04}-{month:02}-{day:02} {count}\n{HEADING}"
        ));
        for participant in 0..PARTICIPANTS {
            self.row(participant);
        }
        Ok(())
    }

    /// The row of a participant, if it is admitted: amounts in euros, of 100 cents or 100,000 mills.
    fn row(&mut self, participant: usize) {
        if let Ok(s) = self.book.statement(participant as u64) {
            let role = ROLES[self.book.files[participant].role as usize];
            self.out.put(format_args!("{participant:>11} {role:>16}"));
            for cents in [s.firm, s.cover, s.shortfall].iter() {
                self.out
                    .put(format_args!(" {:>14}.{:02}", cents / 100, cents % 100));
            }
            self.out.put(format_args!(
                " {:>12} {:>15}.{:05}\n",
                s.charged,
                s.accrued / 100_000,
                s.accrued % 100_000
            ));
        }
    }
}

/// Standard input, read in blocks: the bytes of a line that has begun stand at the front of the block, or it is too long and they are dropped.
struct Input {
    file: File,
    block: Vec<u8>,
    filled: usize,
    long: bool,
}

impl Input {
    /// Standard input, of which nothing is read.
    fn standard() -> io::Result<Input> {
        Ok(Input {
            file: File::from(io::stdin().as_fd().try_clone_to_owned()?),
            block: vec![0; LONGEST + 1],
            filled: 0,
            long: false,
        })
    }

    /// Reads behind the bytes of the line that has begun, and answers how many bytes were read; 0 at the end.
    fn read(&mut self) -> io::Result<usize> {
        loop {
            match self.file.read(&mut self.block[self.filled..]) {
                Err(error) if error.kind() == ErrorKind::Interrupted => {}
                done => return done,
            }
        }
    }

    /// Takes the complete lines of the block after so many bytes were read, and moves what is left to its front.
    fn take(&mut self, read: usize, ledger: &mut Ledger) -> io::Result<()> {
        let newline = |byte: &u8| *byte == b'\n';
        let (mut start, end) = (0, self.filled + read);
        if let Some(complete) = self.block[..end].iter().rposition(newline) {
            if self.long {
                start = 1 + self.block[..end]
                    .iter()
                    .position(newline)
                    .unwrap_or(complete);
                ledger.take_long();
            }
            ledger.take_lines(&self.block[start..=complete])?;
            start = complete + 1;
            self.long = false;
        }
        self.block.copy_within(start..end, 0);
        self.long |= end - start == self.block.len();
        self.filled = if self.long { 0 } else { end - start };
        Ok(())
    }

    /// Takes a last line that has no newline.
    fn take_last(&mut self, ledger: &mut Ledger) -> io::Result<()> {
        if self.long {
            ledger.take_long();
        } else if 0 < self.filled {
            self.block[self.filled] = b'\n';
            ledger.take_lines(&self.block[..=self.filled])?;
        }
        ledger.out.flush()
    }
}

/// Answers standard input to its end: every complete line of a block before more is waited for.
pub fn run() -> io::Result<()> {
    let mut input = Input::standard()?;
    let mut ledger = Ledger {
        book: Box::new(Book::new()),
        line: 0,
        numbers: Vec::new(),
        out: Output::standard()?,
    };
    loop {
        let read = input.read()?;
        if read == 0 {
            return input.take_last(&mut ledger);
        }
        input.take(read, &mut ledger)?;
        ledger.out.flush()?;
    }
}
