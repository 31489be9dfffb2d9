//! Days and months from 2020 to 2099 (paper 01, 'Units and calendar'): day 0 is 1 January 2020, month 0 January 2020.

/// The last day, 31 December 2099.
pub const LAST_DAY: u32 = 29_219;

/// The days and the months from 1 March 2016 to 1 January 2020. Of the years that begin in March every fourth from then on is the longer one, by its
/// last day, and a cycle of four has 1,461 days.
const DAYS_BEFORE: u32 = 1_401;
const MONTHS_BEFORE: u32 = 46;

/// A day by the number of its month and its day of the month, from 1.
pub struct Date {
    pub month: u32,
    pub day: u32,
}

/// The date of a day of the calendar.
pub fn date_of(day: u32) -> Date {
    let days = day + DAYS_BEFORE;
    let year = (4 * days + 3) / 1_461;
    let rest = days - 1_461 * year / 4;
    let place = (5 * rest + 2) / 153;
    Date {
        month: 12 * year + place - MONTHS_BEFORE,
        day: rest - (153 * place + 2) / 5 + 1,
    }
}

/// The month that holds a day of the calendar.
pub fn month_of(day: u32) -> u32 {
    date_of(day).month
}

/// The first day of a month; that of month 960 is the day after the last.
fn first_day(month: u32) -> u32 {
    let months = month + MONTHS_BEFORE;
    let (year, place) = (months / 12, months % 12);
    1_461 * year / 4 + (153 * place + 2) / 5 - DAYS_BEFORE
}

/// The number of a month from 1 to 12 of a year from 2020 to 2099, if there is such a month.
pub fn month_of_year(year: u32, month: u32) -> Option<u32> {
    let known = (2020..=2099).contains(&year) && (1..=12).contains(&month);
    known.then(|| 12 * (year - 2020) + month - 1)
}

/// The day of a date from 2020 to 2099, if there is such a date.
pub fn day_of_date(year: u32, month: u32, day: u32) -> Option<u32> {
    let month = month_of_year(year, month)?;
    let first = first_day(month);
    let known = 1 <= day && day <= first_day(month + 1) - first;
    known.then(|| first + day - 1)
}

/// Whether a month is a September.
pub fn is_september(month: u32) -> bool {
    month % 12 == 8
}

/// Whether a month is an August or a September, the months in which a participant is placed under deletion.
pub fn is_deletion_month(month: u32) -> bool {
    matches!(month % 12, 7 | 8)
}

/// Whether a date is one of 1 to 10 September, the days of the annual run.
pub fn in_annual_days(date: &Date) -> bool {
    is_september(date.month) && date.day <= 10
}

/// Whether a day is a 1 October.
pub fn is_first_october(day: u32) -> bool {
    let date = date_of(day);
    date.month % 12 == 9 && date.day == 1
}
