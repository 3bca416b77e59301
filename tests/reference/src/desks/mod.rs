//! The cases for the page desk: runs of calls, each on the desk, letters and
//! marks that the one before it left. First those set by hand, the order of
//! causes and the limits, then random runs.

mod by_hand;
mod causes;
mod limits;
mod long;
pub mod random;
mod tables;

use crate::hex;
use crate::services::desk::{open, put, withdraw, Desk, MOST_PAGES};
use crate::services::MOST_LETTERS;
use crate::table::{number_and_value, Refusal, Table};
use crate::tapes::{
    digest_of_bytes, digest_of_words, shown_code, table_of, ALL_WORDS, BYTE_BEFORE, WORD_BEFORE,
};

/// Cells of the array whose start is lent for the letters.
pub const ALL_LETTERS: usize = 3_700;
/// The words of so many letters are shown.
const SHOWN_LETTERS: usize = 4;

/// A run begins with this desk, which is none: an opening has to come first.
pub const DESK_BEFORE: Desk = Desk {
    count: BYTE_BEFORE,
    lengths: [BYTE_BEFORE; MOST_PAGES],
};

/// One step of a run. The last two are no calls and answer nothing.
#[derive(Clone, PartialEq, Eq, Debug)]
pub enum Step {
    /// How many words are lent.
    Open {
        words: usize,
    },
    /// How many cells and words are lent.
    Put {
        page: Vec<u8>,
        cells: usize,
        words: usize,
    },
    Withdraw {
        cells: usize,
    },
    /// A desk, and letters from a cell on, as a caller might write them.
    Hand {
        desk: Desk,
        bytes: Vec<u8>,
        at: usize,
    },
    /// The pattern's text for the calls from here on.
    Text(Vec<u8>),
}

impl Step {
    /// What stands in the line: a letter and its fields. None that may be empty
    /// stands last.
    fn field(&self) -> String {
        match self {
            Step::Open { words } => format!("o {words}"),
            Step::Put { page, cells, words } => {
                format!("p {} {cells} {words}", hex::of_bytes(page))
            }
            Step::Withdraw { cells } => format!("w {cells}"),
            Step::Hand { desk, bytes, at } => {
                let (lengths, bytes) = (hex::of_bytes(&desk.lengths), hex::of_bytes(bytes));
                format!("h {} {lengths} {bytes} {at}", desk.count)
            }
            Step::Text(text) => format!("t {}", hex::of_bytes(text)),
        }
    }
}

/// Desk, letters and marks of a run, and the table of its next call.
pub struct State {
    pub table: Table,
    pub desk: Desk,
    pub letters: Vec<u8>,
    pub marks: Vec<u64>,
}

impl State {
    pub fn before(text: &[u8]) -> State {
        State {
            table: table_of(text),
            desk: DESK_BEFORE,
            letters: vec![BYTE_BEFORE; ALL_LETTERS],
            marks: vec![WORD_BEFORE; ALL_WORDS],
        }
    }

    /// The answer, if the step is a call.
    pub fn take(&mut self, step: &Step) -> Option<Result<u64, Refusal>> {
        let State {
            table,
            desk,
            letters,
            marks,
        } = self;
        match step {
            Step::Open { words } => Some(open(table, desk, &mut marks[..*words])),
            Step::Put { page, cells, words } => {
                let (letters, marks) = (&mut letters[..*cells], &mut marks[..*words]);
                Some(put(table, desk, page, letters, marks))
            }
            Step::Withdraw { cells } => Some(withdraw(table, desk, &letters[..*cells])),
            Step::Hand {
                desk: other,
                bytes,
                at,
            } => {
                *desk = *other;
                letters[*at..*at + bytes.len()].copy_from_slice(bytes);
                None
            }
            Step::Text(text) => {
                *table = table_of(text);
                None
            }
        }
    }

    /// Number, value, count, lengths, digests of all letters' cells and of all
    /// words; behind an accepted call the letters held, and of few the words.
    fn line(&self, answer: Result<u64, Refusal>) -> String {
        let (number, value) = number_and_value(&answer);
        let mut line = format!(
            "{number}\t{value}\t{}\t{}\t{}\t{}",
            self.desk.count,
            hex::of_bytes(&self.desk.lengths),
            digest_of_bytes(1, &self.letters),
            digest_of_words(1, &self.marks)
        );
        if answer.is_ok() {
            let held = value as usize;
            line.push('\t');
            line.push_str(&shown_code(
                &self.letters[MOST_LETTERS - held..MOST_LETTERS],
            ));
            if held <= SHOWN_LETTERS {
                let words = &self.marks[..2 * (held + 1)];
                let words: Vec<String> = words.iter().map(u64::to_string).collect();
                line.push('\t');
                line.push_str(&words.join(","));
            }
        }
        line
    }
}

pub struct Case {
    /// What the case is about; all before the colon is its sort.
    pub name: String,
    pub text: Vec<u8>,
    pub steps: Vec<Step>,
    /// Number and value of each call set by hand, where they were.
    pub expected: Vec<Option<(u64, u64)>>,
}

pub fn all() -> Vec<Case> {
    let mut cases = by_hand::cases();
    cases.extend(causes::cases());
    cases.extend(limits::cases());
    cases.extend(tables::cases());
    cases.extend(long::cases());
    cases.extend(random::cases());
    cases
}

impl Case {
    /// The line that the program reads.
    pub fn line(&self) -> String {
        let steps: Vec<String> = self.steps.iter().map(Step::field).collect();
        format!("d {} {}", hex::of_bytes(&self.text), steps.join(" "))
    }

    /// The answers of the calls, in their order.
    pub fn answered(&self) -> Vec<Result<u64, Refusal>> {
        let mut state = State::before(&self.text);
        let taken = self.steps.iter().map(|step| state.take(step));
        taken.flatten().collect()
    }

    /// A line for each call.
    pub fn answers(&self) -> Vec<String> {
        let mut state = State::before(&self.text);
        let mut lines = Vec::new();
        for step in &self.steps {
            if let Some(answer) = state.take(step) {
                lines.push(state.line(answer));
            }
        }
        lines
    }
}

/// Makes one case: each call is a step, with its answer where it is set by hand.
/// Unless it is said otherwise, buffers are as long as they are ever needed.
pub struct Hand {
    case: Case,
    pub cells: usize,
    pub words: usize,
}

impl Hand {
    pub fn new(name: &str, text: impl AsRef<[u8]>) -> Hand {
        Hand {
            case: Case {
                name: name.to_string(),
                text: text.as_ref().to_vec(),
                steps: Vec::new(),
                expected: Vec::new(),
            },
            cells: MOST_LETTERS,
            words: 2 * (MOST_LETTERS + 1),
        }
    }

    /// A run that begins with an opening.
    pub fn opened(name: &str, text: impl AsRef<[u8]>) -> Hand {
        let mut hand = Hand::new(name, text);
        hand.open();
        hand.answers(0, 0);
        hand
    }

    pub fn open(&mut self) {
        let words = self.words;
        self.call(Step::Open { words });
    }

    pub fn put(&mut self, page: impl AsRef<[u8]>) {
        let (cells, words) = (self.cells, self.words);
        self.call(Step::Put {
            page: page.as_ref().to_vec(),
            cells,
            words,
        });
    }

    pub fn withdraw(&mut self) {
        let cells = self.cells;
        self.call(Step::Withdraw { cells });
    }

    fn call(&mut self, step: Step) {
        self.case.steps.push(step);
        self.case.expected.push(None);
    }

    /// A desk with pages of these lengths, and letters against the end of the
    /// first 3,600 cells.
    pub fn hold(&mut self, lengths: &[u8], letters: impl AsRef<[u8]>) {
        let letters = letters.as_ref();
        self.desk(
            Desk::of_lengths(lengths),
            letters,
            MOST_LETTERS - letters.len(),
        );
    }

    pub fn desk(&mut self, desk: Desk, bytes: impl AsRef<[u8]>, at: usize) {
        let bytes = bytes.as_ref().to_vec();
        self.case.steps.push(Step::Hand { desk, bytes, at });
    }

    pub fn text(&mut self, text: impl AsRef<[u8]>) {
        self.case.steps.push(Step::Text(text.as_ref().to_vec()));
    }

    /// Sets number and value of the last call.
    pub fn answers(&mut self, number: u64, value: u64) {
        if let Some(last) = self.case.expected.last_mut() {
            *last = Some((number, value));
        }
    }

    /// The same for a call that is accepted: the letters held then.
    pub fn holds(&mut self, letters: usize) {
        self.answers(0, letters as u64);
    }

    pub fn done(self) -> Case {
        self.case
    }
}
