//! The calendar against a count of days that knows no months' table: the
//! formulas of Fliegel and Van Flandern (1968), in numbers without fractions.

use wumbyra_reference::calendar::{all, is_leap_year, month_length, moved, Date};

/// The Julian day number of a day of the Gregorian calendar; divisions drop
/// the rest, towards 0.
fn day_number(date: Date) -> i64 {
    let (year, month, day) = (
        i64::from(date.year),
        i64::from(date.month),
        i64::from(date.day),
    );
    let early = (month - 14) / 12;
    (1_461 * (year + 4_800 + early)) / 4 + (367 * (month - 2 - 12 * early)) / 12
        - (3 * ((year + 4_900 + early) / 100)) / 4
        + day
        - 32_075
}

/// The day of a Julian day number.
fn day_of(number: i64) -> Date {
    let mut left = number + 68_569;
    let centuries = 4 * left / 146_097;
    left -= (146_097 * centuries + 3) / 4;
    let years = 4_000 * (left + 1) / 1_461_001;
    left = left - 1_461 * years / 4 + 31;
    let months = 80 * left / 2_447;
    let day = left - 2_447 * months / 80;
    let late = months / 11;
    let month = months + 2 - 12 * late;
    let year = 100 * (centuries - 49) + years + late;
    Date::new(year as u32, month as u32, day as u32)
}

const FIRST_NUMBER: i64 = 2_451_545;
const DATES: i64 = 36_525;

/// 100 years of 365 days and 25 leap days, each date the day of its number.
#[test]
fn the_dates_are_the_36525_days_of_the_years_2000_to_2099() {
    assert_eq!(all().len() as i64, DATES);
    assert_eq!(all().first(), Some(&Date::new(2000, 1, 1)));
    assert_eq!(all().last(), Some(&Date::new(2099, 12, 31)));
    for (&date, number) in all().iter().zip(FIRST_NUMBER..) {
        assert!(date.is_date(), "{date:?}");
        assert_eq!(day_number(date), number, "{date:?}");
        assert_eq!(day_of(number), date, "{date:?}");
    }
    assert_eq!(day_of(FIRST_NUMBER - 1), Date::new(1999, 12, 31));
    assert_eq!(day_of(FIRST_NUMBER + DATES), Date::new(2100, 1, 1));
}

/// The step of each date but the last is a later date, and none lies between.
#[test]
fn a_step_leads_to_the_next_date() {
    for pair in all().windows(2) {
        assert_eq!(pair[0].next(), Some(pair[1]));
        assert!(pair[0] < pair[1]);
        assert_eq!(day_number(pair[1]), day_number(pair[0]) + 1);
    }
    assert_eq!(Date::LAST.next(), None);
    // All that is a date, found without a step and put in order, is the same
    // list: a step leaves none out.
    let mut found = Vec::new();
    for year in 2000..=2099 {
        for month in 1..=12 {
            found.extend((1..=31).map(|day| Date::new(year, month, day)));
        }
    }
    found.retain(Date::is_date);
    found.sort();
    assert_eq!(found, all());
}

/// Three numbers are a date where the day that they count to is themselves.
#[test]
fn what_is_a_date() {
    for year in (1_890..2_210).chain([2_300, 2_400]) {
        for month in 0..=14 {
            for day in 0..=33 {
                let date = Date::new(year, month, day);
                let in_years = (2000..=2099).contains(&year);
                let counted = day_of(day_number(date)) == date;
                assert_eq!(date.is_date(), in_years && counted, "{date:?}");
            }
        }
    }
    for (year, month, day) in [
        (0, 0, 0),
        (u32::MAX, 1, 1),
        (2024, u32::MAX, 1),
        (2024, 1, u32::MAX),
        (u32::MAX, u32::MAX, u32::MAX),
        // Their lowest bits alone would be a date.
        (2024 + 65_536, 1, 1),
        (2024, 257, 1),
        (2024, 1, 257),
    ] {
        assert!(!Date::new(year, month, day).is_date());
    }
}

#[test]
fn leap_years_and_month_lengths() {
    for (year, days) in [
        (1900, 28),
        (2000, 29),
        (2001, 28),
        (2023, 28),
        (2024, 29),
        (2096, 29),
        (2099, 28),
        (2100, 28),
        (2200, 28),
        (2400, 29),
    ] {
        assert_eq!(is_leap_year(year), days == 29);
        assert_eq!(month_length(year, 2), days);
    }
    let leap = (2000..=2099).filter(|&year| is_leap_year(year)).count();
    assert_eq!(leap, 25);
    for month in [4, 6, 9, 11] {
        assert_eq!(month_length(2024, month), 30);
    }
    for month in [1, 3, 5, 7, 8, 10, 12] {
        assert_eq!(month_length(2024, month), 31);
    }
    for month in [0, 13, 14, u32::MAX] {
        assert_eq!(month_length(2024, month), 0);
    }
}

#[test]
fn dates_are_compared_by_their_day() {
    let some: Vec<Date> = all().iter().copied().step_by(97).collect();
    for one in &some {
        for other in &some {
            assert_eq!(one.cmp(other), day_number(*one).cmp(&day_number(*other)));
        }
    }
}

/// Every number is one date or none.
#[test]
fn numbers_of_dates() {
    assert_eq!(Date::of_number(20_240_229), Date::new(2024, 2, 29));
    assert_eq!(Date::new(2024, 2, 29).number(), Some(20_240_229));
    let found = (0..30_000_000).filter(|&number| Date::of_number(number).is_date());
    assert!(found.map(Date::of_number).eq(all().iter().copied()));
    for number in [
        0,
        1,
        20_000_100,
        20_000_001,
        20_001_301,
        20_000_132,
        u32::MAX,
    ] {
        assert!(!Date::of_number(number).is_date());
        assert_eq!(Date::of_number(number).number(), Some(number));
    }
    // Month 100 has no number of its own: it would be the next year's month 0.
    assert_eq!(Date::new(2024, 100, 1).number(), None);
    assert_eq!(Date::new(2024, 1, 100).number(), None);
    assert_eq!(Date::new(429_497, 1, 1).number(), None);
}

#[test]
fn moving_is_stepping() {
    let leap_day = Date::new(2024, 2, 29);
    assert_eq!(moved(leap_day, 0), Some(leap_day));
    assert_eq!(moved(leap_day, 1), leap_day.next());
    assert_eq!(moved(leap_day, -29), Some(Date::new(2024, 1, 31)));
    assert_eq!(moved(Date::FIRST, DATES - 1), Some(Date::LAST));
    assert_eq!(moved(Date::FIRST, -1), None);
    assert_eq!(moved(Date::LAST, 1), None);
    assert_eq!(moved(Date::new(2023, 2, 29), 0), None);
}
