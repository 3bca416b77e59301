//! Why a call is refused, with the number and value of the scope's table of causes.

use crate::{breaks, faults, Located};
use std::fmt;

/// Cause 5 in words, without where the tape breaks.
const UNREADABLE: &str = "no parse of the pattern spells the tape";

/// Why a call is refused. As text it is the cause in words.
///
/// A later version may have more causes, so a `match` needs an arm for the rest.
#[derive(Clone, Copy, Debug, PartialEq, Eq, Hash)]
#[non_exhaustive]
pub enum Refusal {
    /// 1: a line of the pattern text has not the form of a line.
    LineForm {
        /// The first such line, from 0; 64 if there is a 65th.
        line: u32,
    },
    /// 2: the lines of the pattern are no tree.
    Tree {
        /// The first line that names a part wrongly; if none does, the lowest that no line names.
        line: u32,
    },
    /// 3: the tape, or what a code spells, has over 3,600 letters.
    TapeTooLong,
    /// 4: a byte of the tape, or of the page that is put on a desk, is no letter, which is 33 to 126 or 161 to 254.
    ///
    /// Before 1.7.0 it had `position` alone: write `Refusal::TapeByte { position, .. }`.
    TapeByte {
        /// The first such position, from 0.
        position: u32,
        /// Whether it is a position in the page that was put, and not in a tape.
        in_page: bool,
    },
    /// 5: no parse of the pattern spells the tape. Both numbers are those of [`Pattern::locate`](crate::Pattern::locate).
    ///
    /// Before 1.7.0 it had no fields: write `Refusal::Unreadable { .. }` where a program has `Refusal::Unreadable`.
    Unreadable {
        /// So many letters begin some tape of the pattern, and no more: the position of the first letter that cannot follow, or the
        /// tape's length if it stops too early.
        reach: usize,
        /// The first position from which on the letters end some tape of the pattern.
        resume: usize,
    },
    /// 6: fewer words are lent than the tape takes.
    WordsTooShort {
        /// Words needed.
        needed: u32,
    },
    /// 7: the lent code buffer is shorter than the code.
    CodeTooShort {
        /// Bytes needed.
        needed: u32,
    },
    /// 8: not a whole code of the pattern; for a span also a code of another tape.
    NotACode,
    /// 9: the lent tape buffer is shorter than what the code spells.
    TapeTooShort {
        /// Letters needed.
        needed: u32,
    },
    /// 10: there is no such node, or it has no visit of this number.
    NoSuchVisit,
    /// 11: the start is no date, or a letter of the tape is dated past 31 December 2099.
    TapeUndated,
    /// 12: the term's first or last date is none, or the last is before the first.
    NotATerm,
    /// 13: a page of no letter or of over 120, or a desk that breaks the limits or holds a byte that is no letter.
    DeskLimits,
    /// 14: the desk holds 30 pages already.
    DeskFull,
    /// 15: the desk holds no page to withdraw.
    DeskEmpty,
    /// 20: an account that has no cell has litres.
    CellsTooFew,
    /// A cause that this wrapper does not know: the library is a later one.
    Unknown {
        /// The cause's number.
        number: u32,
        /// The value beside it.
        value: u32,
    },
}

impl Refusal {
    /// None for number 0, which is success.
    pub(crate) fn of(number: u32, value: u32) -> Option<Refusal> {
        Some(match number {
            0 => return None,
            1 => Refusal::LineForm { line: value },
            2 => Refusal::Tree { line: value },
            3 => Refusal::TapeTooLong,
            4 => Refusal::TapeByte {
                position: value,
                in_page: false,
            },
            // Only a parse answers it, and puts in where the tape breaks.
            5 => Refusal::Unreadable {
                reach: 0,
                resume: 0,
            },
            6 => Refusal::WordsTooShort { needed: value },
            7 => Refusal::CodeTooShort { needed: value },
            8 => Refusal::NotACode,
            9 => Refusal::TapeTooShort { needed: value },
            10 => Refusal::NoSuchVisit,
            11 => Refusal::TapeUndated,
            12 => Refusal::NotATerm,
            13 => Refusal::DeskLimits,
            14 => Refusal::DeskFull,
            15 => Refusal::DeskEmpty,
            20 => Refusal::CellsTooFew,
            _ => Refusal::Unknown { number, value },
        })
    }

    /// The same refusal, of a page that is put: its position is one of the page.
    pub(crate) fn of_page(self) -> Refusal {
        match self {
            Refusal::TapeByte { position, .. } => Refusal::TapeByte {
                position,
                in_page: true,
            },
            other => other,
        }
    }

    /// The same refusal, of a parse: if it is 5, it has where the tape breaks.
    pub(crate) fn located(self, locate: impl FnOnce() -> Result<Located, Refusal>) -> Refusal {
        match self {
            Refusal::Unreadable { .. } => match locate() {
                Ok(Located { reach, resume }) => Refusal::Unreadable { reach, resume },
                Err(_) => self, // does not occur: a parse looks at 3 and 4 first
            },
            other => other,
        }
    }

    /// The refusal in words, with what is wrong with the line if `Pattern::load` refused this text, as the command tapelist says it.
    /// Of any other cause it is what `to_string` gives. The words are for people and may change.
    ///
    /// ```
    /// let text = b"0\tX\t-\n";
    /// let refusal = wumbyra::Pattern::load(text).unwrap_err();
    /// assert_eq!(
    ///     refusal.explain(text),
    ///     "pattern, line 0: the kind \"X\" is none of E, L, R, S, A, K and Z"
    /// );
    /// ```
    #[must_use]
    pub fn explain(self, text: &[u8]) -> String {
        match self {
            Refusal::LineForm { line } => format!("pattern, {}", faults::form(text, line)),
            Refusal::Tree { line } => format!("pattern, {}", faults::tree(text, line)),
            other => other.to_string(),
        }
    }

    /// The refusal in words, with where the tape breaks if a parse refused this tape with 5, as the command tapelist says it. Of any other
    /// cause it is what `to_string` gives. The words are for people and may change.
    ///
    /// ```
    /// let pattern = wumbyra::Pattern::load(b"0\tR\t1\t0\t9\n1\tK\t-\t0\n").unwrap();
    /// let refusal = pattern.parse(b"35x2").unwrap_err();
    /// assert_eq!(
    ///     refusal.explain_tape(b"35x2"),
    ///     "no parse of the pattern spells the tape: the letter x at position 2 cannot follow, in 35[x]2; \
    ///      from position 3 on the rest can be read"
    /// );
    /// ```
    #[must_use]
    pub fn explain_tape(self, tape: &[u8]) -> String {
        match self {
            Refusal::Unreadable { reach, resume } => {
                format!("{UNREADABLE}: {}", breaks::words(tape, reach, resume))
            }
            other => other.to_string(),
        }
    }

    /// The cause's number, 1 to 15, or 20.
    pub fn number(self) -> u32 {
        match self {
            Refusal::LineForm { .. } => 1,
            Refusal::Tree { .. } => 2,
            Refusal::TapeTooLong => 3,
            Refusal::TapeByte { .. } => 4,
            Refusal::Unreadable { .. } => 5,
            Refusal::WordsTooShort { .. } => 6,
            Refusal::CodeTooShort { .. } => 7,
            Refusal::NotACode => 8,
            Refusal::TapeTooShort { .. } => 9,
            Refusal::NoSuchVisit => 10,
            Refusal::TapeUndated => 11,
            Refusal::NotATerm => 12,
            Refusal::DeskLimits => 13,
            Refusal::DeskFull => 14,
            Refusal::DeskEmpty => 15,
            Refusal::CellsTooFew => 20,
            Refusal::Unknown { number, .. } => number,
        }
    }

    /// What is returned beside the number: a line, a position, or how much is needed; 0 where there is nothing to tell.
    pub fn value(self) -> u32 {
        match self {
            Refusal::LineForm { line } | Refusal::Tree { line } => line,
            Refusal::TapeByte { position, .. } => position,
            Refusal::WordsTooShort { needed }
            | Refusal::CodeTooShort { needed }
            | Refusal::TapeTooShort { needed } => needed,
            Refusal::TapeTooLong
            | Refusal::Unreadable { .. }
            | Refusal::NotACode
            | Refusal::NoSuchVisit
            | Refusal::TapeUndated
            | Refusal::NotATerm
            | Refusal::DeskLimits
            | Refusal::DeskFull
            | Refusal::DeskEmpty
            | Refusal::CellsTooFew => 0,
            Refusal::Unknown { value, .. } => value,
        }
    }
}

impl fmt::Display for Refusal {
    fn fmt(&self, f: &mut fmt::Formatter) -> fmt::Result {
        match self {
            Refusal::LineForm { line } => {
                write!(f, "line {line} of the pattern has not the form of a line")
            }
            Refusal::Tree { line } => {
                write!(f, "the lines of the pattern are no tree (line {line})")
            }
            Refusal::TapeTooLong => write!(f, "the tape has over 3,600 letters"),
            Refusal::TapeByte {
                position,
                in_page: false,
            } => write!(
                f,
                "the byte at position {position} of the tape is no letter"
            ),
            Refusal::TapeByte {
                position,
                in_page: true,
            } => write!(
                f,
                "the byte at position {position} of the page is no letter"
            ),
            Refusal::Unreadable { .. } => f.write_str(UNREADABLE),
            Refusal::WordsTooShort { needed } => write!(f, "{needed} words are needed"),
            Refusal::CodeTooShort { needed } => write!(f, "{needed} code bytes are needed"),
            Refusal::NotACode => {
                write!(f, "not a whole code of the pattern, or one of another tape")
            }
            Refusal::TapeTooShort { needed } => write!(f, "{needed} tape cells are needed"),
            Refusal::NoSuchVisit => write!(f, "there is no such node, or no such visit of it"),
            Refusal::TapeUndated => {
                write!(
                    f,
                    "the start is no date, or a letter is dated past 31 December 2099"
                )
            }
            Refusal::NotATerm => {
                write!(
                    f,
                    "the term's first or last date is none, or the last is before the first"
                )
            }
            Refusal::DeskLimits => {
                write!(
                    f,
                    "a page of no letter or over 120, or a desk that breaks its limits"
                )
            }
            Refusal::DeskFull => write!(f, "the desk holds 30 pages already"),
            Refusal::DeskEmpty => write!(f, "the desk holds no page"),
            Refusal::CellsTooFew => write!(f, "an account that has no cell has litres"),
            Refusal::Unknown { number, value } => {
                write!(
                    f,
                    "a cause that this wrapper does not know, number {number} with value {value}"
                )
            }
        }
    }
}

impl std::error::Error for Refusal {}
