//! "Totals, terms and the listing follow the new rule" (02, Job 5): what was
//! worked out for whole codes, on one day of three.

use super::{Case, Hand};
use crate::calendar::Date;
use crate::codes::Code;
use crate::stale::{text, ROWS};

/// The first day of a tape, and the second, which is a leap day.
const START: u32 = 20_240_228;
const SECOND: u32 = 20_240_229;

/// Each row's pattern under a star of days. On each of three days the row's
/// code is gone through, and the second day is the term. First the `D` has
/// account 9, which is beside the row's nodes and does nothing; then the star
/// of days has it, so that all litres are stale.
pub fn cases() -> Vec<Case> {
    let mut hand = Hand { cases: Vec::new() };
    for row in ROWS {
        for (name, day_end, star) in [("beside 9", "9", "-"), ("under 9", "-", "9")] {
            let root = row.lines.len() - 1;
            let mut lines: Vec<String> = row.lines.iter().map(|line| line.to_string()).collect();
            lines.push(format!("L {day_end} D"));
            lines.push(format!("S - {root} {}", root + 1));
            lines.push(format!("K {star} {}", root + 2));
            let lines: Vec<&str> = lines.iter().map(String::as_str).collect();
            let bits = format!("0{}", row.bits).repeat(3) + "1";
            let name = format!("stale: {name}, {}", row.name);
            let dates = [START, SECOND, SECOND].map(Date::of_number);
            hand.add(&name, text(&lines), &Code::written(&bits), dates);
            match star {
                "9" => hand.gives(&[(9, row.litres.iter().map(|some| some.1).sum())]),
                _ => hand.gives(row.litres),
            }
        }
    }
    hand.cases
}
