//! The special guarantee (paper 01, 'Special guarantee'; 002, section 7), on lists.

use crate::book::Refusal;

/// The bounds of a rate, in hundredths of a percent, and of a zero settlement or an excess, in cents; the least special guarantee, in cents.
const MOST_RATE: i64 = 100_000;
const MOST: i64 = 1_000_000_000_000;
const LEAST: i64 = 500_000;

/// The most rates and the most semesters of a list.
const RATES: usize = 64;
const SEMESTERS: usize = 16;

/// The seven lists of a special guarantee, in the order of the ledger's words.
pub struct Lists<'a> {
    pub medium: &'a [i64],
    pub low: &'a [i64],
    pub marks: &'a [i64],
    pub zero_medium: &'a [i64],
    pub zero_low: &'a [i64],
    pub excess_medium: &'a [i64],
    pub excess_low: &'a [i64],
}

/// Whether every number of a list is within two bounds.
fn within(numbers: &[i64], least: i64, most: i64) -> bool {
    numbers
        .iter()
        .all(|number| least <= *number && *number <= most)
}

/// The ratio of the usable rates: the mean of the three largest to the nearest whole. There is none where they are fewer than three.
fn ratio(rates: impl Iterator<Item = i64>) -> Option<i64> {
    let (mut best, mut count) = ([i64::MIN; 3], 0);
    for rate in rates {
        count += 1;
        if best[2] < rate {
            best[2] = rate;
            best.sort_unstable_by(|a, b| b.cmp(a));
        }
    }
    (3 <= count).then(|| (best.iter().sum::<i64>() + 1).div_euclid(3))
}

impl Lists<'_> {
    /// Whether the lists' lengths fit, cause 19.
    fn lengths_fit(&self) -> bool {
        let semesters = self.zero_medium.len();
        self.medium.len() <= RATES
            && self.low.len() <= RATES
            && self.marks.len() == self.low.len()
            && semesters <= SEMESTERS
            && self.zero_low.len() == semesters
            && self.excess_medium.len() == semesters
            && self.excess_low.len() == semesters
    }

    /// Whether every number is in its range, cause 11.
    fn in_range(&self) -> bool {
        within(self.medium, -MOST_RATE, MOST_RATE)
            && within(self.low, -MOST_RATE, MOST_RATE)
            && within(self.marks, 0, 1)
            && within(self.zero_medium, -MOST, MOST)
            && within(self.zero_low, -MOST, MOST)
            && within(self.excess_medium, 0, MOST)
            && within(self.excess_low, 0, MOST)
    }

    /// The special guarantee in cents, or the first of the causes 19, 11 and 18.
    pub fn special(&self) -> Result<u64, Refusal> {
        if !self.lengths_fit() {
            return Err(Refusal::ListLengths);
        }
        if !self.in_range() {
            return Err(Refusal::OutOfRange);
        }
        let unmarked = self
            .low
            .iter()
            .zip(self.marks)
            .filter(|(_, mark)| **mark == 0);
        let medium = ratio(self.medium.iter().copied()).ok_or(Refusal::FewRates)?;
        let low = ratio(unmarked.map(|(rate, _)| *rate)).ok_or(Refusal::FewRates)?;
        let sum = |numbers: &[i64]| numbers.iter().sum::<i64>();
        let product = medium * sum(self.zero_medium) + low * sum(self.zero_low);
        let guarantee = (product + 5_000).div_euclid(10_000);
        let excess = sum(self.excess_medium) + sum(self.excess_low);
        Ok((guarantee - excess).max(LEAST) as u64)
    }
}
