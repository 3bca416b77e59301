//! The cases for locating where a tape breaks: those set by hand, then random
//! patterns with tapes that they read, cut and broken.

pub mod by_hand;
mod random;

use crate::hex;
use crate::services::locate::{locate, Located};
use crate::table::Table;
use crate::tapes::table_of;

pub struct Case {
    /// What the case is about; all before the colon is its sort.
    pub name: String,
    pub text: Vec<u8>,
    pub tape: Vec<u8>,
    /// What was set by hand, where it was.
    pub expected: Option<Expected>,
}

#[derive(Clone, Copy, PartialEq, Eq, Debug)]
pub enum Expected {
    /// Reach and resume.
    Positions(u64, u64),
    /// Number and value.
    Refused(u64, u64),
}

impl Expected {
    /// 0, reach and resume, or number and value.
    pub fn line(self) -> String {
        match self {
            Expected::Positions(reach, resume) => format!("0\t{reach}\t{resume}"),
            Expected::Refused(number, value) => format!("{number}\t{value}"),
        }
    }
}

pub fn all() -> Vec<Case> {
    let mut cases = by_hand::cases();
    cases.extend(random::cases());
    cases
}

impl Case {
    /// The line that the program reads.
    pub fn line(&self) -> String {
        let (text, tape) = (hex::of_bytes(&self.text), hex::of_bytes(&self.tape));
        format!("b {text} {tape}")
    }

    /// 0, reach and resume, or number and value of a refusal.
    pub fn answer(&self) -> String {
        self.answer_by(&table_of(&self.text))
    }

    /// The same by a table that need not be the text's.
    pub fn answer_by(&self, table: &Table) -> String {
        let answer = match locate(table, &self.tape) {
            Ok(Located { reach, resume }) => Expected::Positions(reach, resume),
            Err(refusal) => Expected::Refused(refusal.number, refusal.value),
        };
        answer.line()
    }
}
