//! What a pattern cannot say of days: how many there must be, and how many digits each has.

use crate::fields::Reading;

/// The date after a date that the library takes.
fn next_day(date: u32) -> u32 {
    let (year, month, day) = (date / 10_000, date / 100 % 100, date % 100);
    let last = match month {
        2 => 28 + u32::from(year % 4 == 0),
        4 | 6 | 9 | 11 => 30,
        _ => 31,
    };
    match (day < last, month < 12) {
        (true, _) => date + 1,
        (false, true) => year * 10_000 + (month + 1) * 100 + 1,
        (false, false) => (year + 1) * 10_000 + 101,
    }
}

/// Sentences on what does not fit: a `D` is missing or too many, or digits are.
pub fn warnings(tape: &[u8], reading: &Reading) -> Vec<String> {
    let Reading {
        start,
        read,
        digits: due,
    } = *reading;
    let mut days: Vec<&[u8]> = tape.split(|&letter| letter == b'D').collect();
    let unfinished = days.pop().unwrap_or_default(); // no `D` has ended it
    let mut date = start;
    let mut said = Vec::new();
    for day in days {
        let digits = digits_of(day);
        if due > 0 && digits != due {
            said.push(format!("{date:08} has {digits} digits, not {due}"));
        }
        date = next_day(date);
    }
    let digits = digits_of(unfinished);
    if due > 0 && digits > due {
        said.push(format!("{date:08} has {digits} digits so far, over {due}"));
    }
    if date != read {
        said.push(format!(
            "its days lead to {date:08}, but it was read on {read:08}"
        ));
    }
    said
}

fn digits_of(day: &[u8]) -> u32 {
    day.iter().map(|l| u32::from(l.is_ascii_digit())).sum()
}
