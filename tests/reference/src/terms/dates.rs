//! Which three numbers are a date: the last day of each month and the number
//! behind it, the ends of the calendar, and numbers that are none.

use super::{code_of, Case, Hand, DAYS};
use crate::calendar::Date;

/// Written down once more, so that the calendar is not asked about itself.
const LENGTHS: [u32; 12] = [31, 28, 31, 30, 31, 30, 31, 31, 30, 31, 30, 31];
/// Years, and whether they have a leap day.
const YEARS: [(u32, bool); 4] = [(2000, true), (2023, false), (2024, true), (2099, false)];

pub fn cases() -> Vec<Case> {
    let mut hand = Hand { cases: Vec::new() };
    month_ends(&mut hand);
    ends(&mut hand);
    no_dates(&mut hand);
    hand.cases
}

/// `1D2` from the last day of a month on: the 2 is of the next month's first
/// day. There is no day behind the last.
fn month_ends(hand: &mut Hand) {
    let code = code_of(DAYS.as_bytes(), b"1D2");
    for (year, leap) in YEARS {
        for (month, length) in (1..).zip(LENGTHS) {
            let length = length + u32::from(leap && month == 2);
            let last = Date::new(year, month, length);
            let next = match month {
                12 => Date::new(year + 1, 1, 1),
                _ => Date::new(year, month + 1, 1),
            };
            let name = format!("month ends: {year}, {month}");
            hand.add(&name, DAYS, &code, [last, next, next]);
            match (year, month) {
                (2099, 12) => hand.refuses(11),
                _ => hand.gives(&[(1, 2)]),
            }
            if year == 2024 || month == 2 {
                let behind = Date::new(year, month, length + 1);
                let name = format!("month ends: {year}, {month}, a day more");
                hand.add(&name, DAYS, &code, [behind, last, last]);
                hand.refuses(11);
            }
        }
    }
}

/// Dates at the ends of the calendar, of years and of months, as the start of a
/// tape and as a term of one day.
fn ends(hand: &mut Hand) {
    for date in [
        20_000_101, 20_000_228, 20_000_229, 20_000_301, 20_001_231, 20_040_229, 20_230_228,
        20_240_131, 20_240_430, 20_240_731, 20_240_831, 20_960_229, 20_990_228, 20_991_231,
    ] {
        hand.tape(&format!("ends: {date}"), DAYS, b"3", [date, date, date]);
        hand.gives(&[(1, 3)]);
    }
}

/// Each as the start (11), as the first date and as the last date (12).
fn no_dates(hand: &mut Hand) {
    const MOST: u32 = u32::MAX;
    let code = code_of(DAYS.as_bytes(), b"1D2");
    let (early, late) = (Date::FIRST, Date::LAST);
    let good = Date::new(2024, 5, 10);
    for (year, month, day) in [
        (0, 0, 0),
        (2024, 0, 10),
        (2024, 13, 1),
        (2024, 5, 0),
        (2024, 5, 32),
        (2024, 4, 31),
        (2024, 2, 30),
        (2023, 2, 29),
        (2099, 2, 29),
        (1999, 12, 31),
        (2100, 1, 1),
        (2100, 2, 29),
        (24, 5, 10),
        (MOST, 5, 10),
        (2024, MOST, 10),
        (2024, 5, MOST),
        (MOST, MOST, MOST),
        // Dates, if bits were dropped.
        (2024 + 65_536, 5, 10),
        (2024, 256 + 5, 10),
        (2024, 5, 256 + 10),
        // The numbers of a date in another order.
        (10, 5, 2024),
    ] {
        let bad = Date::new(year, month, day);
        for (place, dates, number) in [
            ("start", [bad, early, late], 11),
            ("first", [good, bad, late], 12),
            ("last", [good, early, bad], 12),
        ] {
            let name = format!("no date: {year}, {month}, {day} as {place}");
            hand.add(&name, DAYS, &code, dates);
            hand.refuses(number);
        }
    }
}
