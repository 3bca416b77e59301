//! The cases for showing the piece of a visit: those set by hand, then random
//! codes with empty rounds, damaged codes and codes of another tape.

mod accounts;
mod by_hand;
mod hot;
mod lazy;
mod random;

use crate::codes::Code;
use crate::hex;
use crate::services::visits::{piece, span, Span};
use crate::table::{number_and_value, Table};
use crate::tapes::{shown_code, table_of};

pub struct Case {
    /// What the case is about; all before the colon is its sort.
    pub name: String,
    pub text: Vec<u8>,
    pub tape: Vec<u8>,
    pub code: Code,
    pub node: u64,
    pub visit: u64,
    /// Number, start and length set by hand, where they were.
    pub expected: Option<(u64, u64, u64)>,
}

pub fn all() -> Vec<Case> {
    let mut cases = by_hand::cases();
    cases.extend(random::cases());
    cases.extend(lazy::cases());
    cases.extend(hot::cases());
    cases.extend(random::hot());
    cases.extend(accounts::cases());
    cases
}

impl Case {
    /// The line that the program reads.
    pub fn line(&self) -> String {
        format!(
            "s {} {} {} {} {} {}",
            hex::of_bytes(&self.text),
            hex::of_bytes(&self.tape),
            hex::of_bytes(&self.code.bytes),
            self.code.count,
            self.node,
            self.visit
        )
    }

    /// Number, value, start, length, the length of the piece and the piece.
    pub fn answer(&self) -> String {
        self.answer_by(&table_of(&self.text))
    }

    /// The same by a table that need not be the text's.
    pub fn answer_by(&self, table: &Table) -> String {
        let (code, count) = (&self.code.bytes, self.code.count);
        let found = span(table, &self.tape, code, count, self.node, self.visit);
        let (shown, part) = piece(table, &self.tape, code, count, self.node, self.visit);
        assert_eq!(shown, found.map(|_| ()));
        let (number, value) = number_and_value(&found.map(|_| 0));
        let Span { start, length } = found.unwrap_or(Span {
            start: 0,
            length: 0,
        });
        format!(
            "{number}\t{value}\t{start}\t{length}\t{}\t{}",
            part.len(),
            shown_code(part)
        )
    }
}
