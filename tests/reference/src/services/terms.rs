//! Totalling litres within a term (02, Job 1).

use super::totals::{added, judged_entries, put, Entry, Totals};
use crate::calendar::Date;
use crate::table::{Refusal, Table};

/// "`D` on a tape ends a day": byte 68, whatever leaf or account reads it.
pub const DAY_END: u8 = 68;

/// The date of each letter, where the first one's is `start`. A `D` "belongs
/// to the day it ends", so it steps the date of the letters behind it and not
/// its own. None if a letter is dated past 31 December 2099; a `D` on that day
/// is not, as long as no letter is behind it.
pub fn dates(letters: impl IntoIterator<Item = u8>, start: Date) -> Option<Vec<Date>> {
    let mut dates = Vec::new();
    let mut day = Some(start);
    for letter in letters {
        let date = day?;
        dates.push(date);
        if letter == DAY_END {
            day = date.next();
        }
    }
    Some(dates)
}

/// Totalling litres within a term, "first and last date both included": 2, 8,
/// 3, 11, 12, each with 0 beside it. The code is totalled as given, empty
/// rounds included. A caller that needs totals beside a refusal takes
/// `NO_LITRES`.
pub fn term_totals(
    table: &Table,
    code: &[u8],
    bits: u64,
    start: Date,
    first: Date,
    last: Date,
) -> Result<Totals, Refusal> {
    let entries = judged_entries(table, code, bits)?;
    // The start is checked for an empty tape too, on which it dates nothing.
    if !start.is_date() {
        return Err(Refusal::new(11, 0));
    }
    let letters = entries.iter().map(|entry| entry.letter);
    // The whole tape is dated, whatever the term: 11 comes before 12, and a
    // term that ends before the bad letter does not hide it.
    let dates = dates(letters, start).ok_or(Refusal::new(11, 0))?;
    if !first.is_date() || !last.is_date() || last < first {
        return Err(Refusal::new(12, 0));
    }
    let within: Vec<Entry> = entries
        .into_iter()
        .zip(dates)
        .filter(|&(_, date)| first <= date && date <= last)
        .map(|(entry, _)| entry)
        .collect();
    Ok(added(&within))
}

/// The same into lent cells, as totalling does it: 2, 8, 3, 11, 12, 20, and the
/// value is 0. 20 asks for the litres of the term alone.
pub fn term_totals_into(
    table: &Table,
    code: &[u8],
    bits: u64,
    [start, first, last]: [Date; 3],
    litres: &mut [u32],
) -> Result<u64, Refusal> {
    put(term_totals(table, code, bits, start, first, last), litres)
}
