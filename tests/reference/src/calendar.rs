//! The calendar of billing terms. 02, Job 1: "Gregorian, years 2000 to 2099,
//! month lengths from a table of twelve with the leap day added".

use std::iter::successors;
use std::sync::OnceLock;

const FIRST_YEAR: u32 = 2000;
const LAST_YEAR: u32 = 2099;
/// January to December, without the leap day.
const MONTH_LENGTHS: [u32; 12] = [31, 28, 31, 30, 31, 30, 31, 31, 30, 31, 30, 31];

/// Any three numbers; `is_date` says whether they are a date. They are compared
/// year first, then month, then day: of two dates the earlier is the lesser.
#[derive(Clone, Copy, PartialEq, Eq, PartialOrd, Ord, Debug)]
pub struct Date {
    pub year: u32,
    pub month: u32,
    pub day: u32,
}

/// Every fourth year, of full centuries every fourth: 2000 is one, 2100 is not.
pub fn is_leap_year(year: u32) -> bool {
    year % 4 == 0 && (year % 100 != 0 || year % 400 == 0)
}

/// The days of a month, 1 to 12; no other number is a month and has any.
pub fn month_length(year: u32, month: u32) -> u32 {
    let Some(at) = month.checked_sub(1) else {
        return 0;
    };
    let table = MONTH_LENGTHS.get(at as usize).copied().unwrap_or(0);
    let leap_day = month == 2 && is_leap_year(year);
    table + u32::from(leap_day)
}

impl Date {
    pub const FIRST: Date = Date::new(FIRST_YEAR, 1, 1);
    pub const LAST: Date = Date::new(LAST_YEAR, 12, 31);

    pub const fn new(year: u32, month: u32, day: u32) -> Date {
        Date { year, month, day }
    }

    pub fn is_date(&self) -> bool {
        let in_years = FIRST_YEAR <= self.year && self.year <= LAST_YEAR;
        in_years && 1 <= self.day && self.day <= month_length(self.year, self.month)
    }

    /// The day after this one, which is a date; none behind the last.
    pub fn next(self) -> Option<Date> {
        assert!(self.is_date(), "only a date has a next one: {self:?}");
        let in_month = Date::new(self.year, self.month, self.day + 1);
        let in_year = Date::new(self.year, self.month + 1, 1);
        let in_next_year = Date::new(self.year + 1, 1, 1);
        [in_month, in_year, in_next_year]
            .into_iter()
            .find(Date::is_date)
    }

    /// The date as callers from C write it: year × 10000 + month × 100 + day.
    /// Every number is three numbers, and they are one date or none.
    pub fn of_number(number: u32) -> Date {
        Date::new(number / 10_000, number / 100 % 100, number % 100)
    }

    /// The number that these three are; none where there is no such number.
    pub fn number(&self) -> Option<u32> {
        if self.month > 99 || self.day > 99 {
            return None;
        }
        let years = self.year.checked_mul(10_000)?;
        years.checked_add(100 * self.month + self.day)
    }
}

/// All dates, rising: each is the one before it stepped once.
pub fn all() -> &'static [Date] {
    static ALL: OnceLock<Vec<Date>> = OnceLock::new();
    ALL.get_or_init(|| successors(Some(Date::FIRST), |date| date.next()).collect())
}

/// The date so many days later, or earlier; none outside the calendar.
pub fn moved(date: Date, days: i64) -> Option<Date> {
    let at = all().binary_search(&date).ok()?;
    let to = usize::try_from(at as i64 + days).ok()?;
    all().get(to).copied()
}
