//! The cases for totalling litres within a term: those set by hand, days, dates
//! and the order of causes, then random codes with dates of every sort.

mod accounts;
mod by_hand;
mod causes;
mod dates;
mod days;
pub mod random;
mod stale;

use crate::calendar::Date;
use crate::code::encode;
use crate::codes::{totals_line, Code};
use crate::hex;
use crate::memo::preferred_reading;
use crate::services::terms::term_totals;
use crate::services::totals::{some_litres, Totals, NO_LITRES};
use crate::table::Table;
use crate::tapes::table_of;

/// The listing's pattern in 01 with a third side, `D`: digits go to account 1,
/// behind `W` to account 9.
pub const DAYS: &str = "0\tR\t-\t0\t9\n1\tL\t-\tW\n2\tS\t9\t1\t0\n3\tR\t1\t0\t9\n4\tA\t-\t2\t3\n\
5\tL\t-\tD\n6\tA\t-\t4\t5\n7\tK\t-\t6\n";
/// (7|D)*, two bits a letter, for long tapes; litres go to account 3.
pub const SEVENS: &str = "0\tL\t3\t7\n1\tL\t-\tD\n2\tA\t-\t0\t1\n3\tK\t-\t2\n";
/// The same under `Z`.
pub const LAZY_SEVENS: &str = "0\tL\t3\t7\n1\tL\t-\tD\n2\tA\t-\t0\t1\n3\tZ\t-\t2\n";

pub struct Case {
    /// What the case is about; all before the colon is its sort.
    pub name: String,
    pub text: Vec<u8>,
    pub code: Code,
    pub start: Date,
    pub first: Date,
    pub last: Date,
    /// Number and totals set by hand, where they were.
    pub expected: Option<(u64, Totals)>,
}

pub fn all() -> Vec<Case> {
    let mut cases = by_hand::cases();
    cases.extend(days::cases());
    cases.extend(dates::cases());
    cases.extend(causes::cases());
    cases.extend(random::cases());
    cases.extend(stale::cases());
    cases.extend(random::stale());
    cases.extend(accounts::cases());
    cases.extend(random::accounts());
    cases
}

impl Case {
    /// The line that the program reads: a date is its three numbers, since no
    /// one number holds each year, month and day there is.
    pub fn line(&self) -> String {
        let (text, code) = (hex::of_bytes(&self.text), hex::of_bytes(&self.code.bytes));
        let dates = [self.start, self.first, self.last];
        let dates = dates.map(|date| format!("{} {} {}", date.year, date.month, date.day));
        format!("t {text} {code} {} {}", self.code.count, dates.join(" "))
    }

    /// Number, value and the totals, as totalling answers them.
    pub fn answer(&self) -> String {
        self.answer_by(&table_of(&self.text))
    }

    /// The same by a table that need not be the text's.
    pub fn answer_by(&self, table: &Table) -> String {
        totals_line(term_totals(
            table,
            &self.code.bytes,
            self.code.count,
            self.start,
            self.first,
            self.last,
        ))
    }
}

/// The settled code of a tape; the pattern reads it.
pub fn code_of(text: &[u8], tape: &[u8]) -> Code {
    let table = table_of(text);
    let reading = preferred_reading(&table, tape).expect("a tape of the pattern");
    Code::of_bits(&encode(&table, &reading))
}

/// The code of a long tape under `SEVENS`, whose stop bit is 1, or under
/// `LAZY_SEVENS`: written down, since finding the reading would take long.
pub fn code_of_sevens(tape: &str, stop_bit: bool) -> Code {
    let rounds = tape.bytes().flat_map(|letter| [!stop_bit, letter == b'D']);
    let bits: Vec<bool> = rounds.chain([stop_bit]).collect();
    Code::of_bits(&bits)
}

/// Collects cases; each call is one. Dates are written as numbers, 20240229.
pub struct Hand {
    pub cases: Vec<Case>,
}

impl Hand {
    /// A code, the date of its first letter, and the term's first and last.
    pub fn add(&mut self, name: &str, text: impl AsRef<[u8]>, code: &Code, dates: [Date; 3]) {
        let [start, first, last] = dates;
        self.cases.push(Case {
            name: name.to_string(),
            text: text.as_ref().to_vec(),
            code: code.clone(),
            start,
            first,
            last,
            expected: None,
        });
    }

    /// A tape, read by the pattern.
    pub fn tape(&mut self, name: &str, text: impl AsRef<[u8]>, tape: &[u8], dates: [u32; 3]) {
        let code = code_of(text.as_ref(), tape);
        self.add(name, text, &code, dates.map(Date::of_number));
    }

    /// Sets the answer of the case added last: a refusal.
    pub fn refuses(&mut self, number: u64) {
        self.expect(number, NO_LITRES);
    }

    /// The same: accounts with litres, the others have none.
    pub fn gives(&mut self, litres: &[(usize, u64)]) {
        self.expect(0, some_litres(litres));
    }

    pub fn expect(&mut self, number: u64, totals: Totals) {
        if let Some(last) = self.cases.last_mut() {
            last.expected = Some((number, totals));
        }
    }
}
