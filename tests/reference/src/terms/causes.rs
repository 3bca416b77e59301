//! Causes of refusal, each with each that comes after it; texts that are
//! refused, and bits that are no code.

use super::{code_of_sevens, Case, Hand, SEVENS};
use crate::calendar::Date;
use crate::cases;
use crate::codes::Code;

const GOOD: Date = Date::new(2024, 5, 10);
const NONE: Date = Date::new(2023, 2, 29);

pub fn cases() -> Vec<Case> {
    let mut hand = Hand { cases: Vec::new() };
    order(&mut hand);
    refused_texts(&mut hand);
    no_codes(&mut hand);
    hand.cases
}

/// A name, the dates, and the cause if there is one.
type Start = (&'static str, Date, Option<u64>);
type Term = (&'static str, Date, Date, Option<u64>);

const STARTS: [Start; 3] = [
    ("good", GOOD, None),
    ("no date", NONE, Some(11)),
    // A letter is behind the `D` of this day.
    ("the last date", Date::LAST, Some(11)),
];
const TERMS: [Term; 4] = [
    ("good", GOOD, Date::new(2024, 5, 11), None),
    ("last before first", GOOD, Date::new(2024, 5, 9), Some(12)),
    ("first no date", NONE, GOOD, Some(12)),
    ("last no date", GOOD, NONE, Some(12)),
];

/// "It refuses, after 2, 8 and 3, a start … with 11, then a term … with 12":
/// the first cause in that order is answered, whichever others hold too.
fn order(hand: &mut Hand) {
    combined(hand, SEVENS, &STARTS, &TERMS, None);
    combined(hand, "", &STARTS[..2], &TERMS[..2], Some(2));
}

/// A text with each code, start and term.
fn combined(hand: &mut Hand, text: &str, starts: &[Start], terms: &[Term], tree: Option<u64>) {
    let whole = code_of_sevens("7D7", true);
    let mut not_whole = whole.clone();
    not_whole.count += 1;
    let over = code_of_sevens(&"7".repeat(3_601), true);
    for (code_name, code, cause) in [
        ("whole", &whole, None),
        ("no code", &not_whole, Some(8)),
        ("3,601 letters", &over, Some(3)),
    ] {
        for (start_name, start, dated) in starts {
            for (term_name, first, last, term) in terms {
                let text_name = if tree.is_some() { "refused" } else { "good" };
                let name = format!(
                    "order: text {text_name}, code {code_name}, start {start_name}, \
                     term {term_name}"
                );
                hand.add(&name, text, code, [*start, *first, *last]);
                match tree.or(cause).or(*dated).or(*term) {
                    Some(number) => hand.refuses(number),
                    None => hand.gives(&[(3, 14)]),
                }
            }
        }
    }
}

/// Some of the texts that loading refuses: a table of no lines is 2, with 0.
fn refused_texts(hand: &mut Hand) {
    let refused = cases::refused();
    for (index, case) in refused.iter().step_by(60).enumerate() {
        let code = Code::written(["", "1", "00011", "0100"][index % 4]);
        let start = [GOOD, NONE][index % 2];
        let last = [GOOD, GOOD, NONE][index % 3];
        let name = format!("no table: {}", case.name);
        hand.add(&name, &case.text, &code, [start, GOOD, last]);
        hand.refuses(2);
    }
}

/// Bits, bytes, counts and padding that make no whole code; 7 bits, 0001001,
/// would be that of `7D7`.
fn no_codes(hand: &mut Hand) {
    for (name, bytes, count) in [
        ("no bits", &[][..], 0),
        ("no bytes", &[], 7),
        ("a bit less", &[0x12], 6),
        ("a bit more", &[0x12], 8),
        ("a byte more", &[0x12, 0], 7),
        ("padding", &[0x13], 7),
        ("no end", &[0x10], 6),
        ("a bit behind the end", &[0x12, 0x80], 9),
        ("the end first", &[0x92], 7),
        ("the greatest count", &[0x12], u64::from(u32::MAX)),
    ] {
        let code = Code {
            bytes: bytes.to_vec(),
            count,
        };
        let name = format!("no code: {name}");
        hand.add(&name, SEVENS, &code, [GOOD, GOOD, GOOD]);
        hand.refuses(8);
    }
}
