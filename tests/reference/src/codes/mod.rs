//! The cases for spelling, totalling and settling a code: those set by hand,
//! then random codes, whole and damaged.

mod accounts;
mod by_hand;
pub mod damaged;
mod full;
mod hot;
mod lazy;
mod long;
pub mod random;
mod stale;

use crate::code::{pack, MOST_CODE_BYTES};
use crate::hex;
use crate::services::reading::parse;
use crate::services::settling::canonicalize;
use crate::services::spelling::flatten;
use crate::services::totals::{totals, Totals, NO_LITRES};
use crate::services::MOST_LETTERS;
use crate::table::{number_and_value, Refusal, Table};
use crate::tapes::{
    digest_of_bytes, digest_of_words, shown_code, table_of, ALL_BYTES, ALL_WORDS, BYTE_BEFORE,
    WORD_BEFORE,
};

/// Cells of the array whose start is lent as a tape.
const ALL_LETTERS: usize = 3_700;

/// A code as it is handed in: bytes and bit count.
#[derive(Clone, PartialEq, Eq, Debug)]
pub struct Code {
    pub bytes: Vec<u8>,
    pub count: u64,
}

impl Code {
    pub fn of_bits(bits: &[bool]) -> Code {
        Code {
            bytes: pack(bits),
            count: bits.len() as u64,
        }
    }

    /// Bits written as 0 and 1.
    pub fn written(bits: &str) -> Code {
        let bits: Vec<bool> = bits.bytes().map(|byte| byte == b'1').collect();
        Code::of_bits(&bits)
    }
}

/// How many tape cells, mark words and code bytes are lent.
#[derive(Clone, Copy, PartialEq, Eq, Debug)]
pub struct Lent {
    pub letters: usize,
    pub words: usize,
    pub bytes: usize,
}

pub struct Case {
    /// What the case is about; all before the colon is its sort.
    pub name: String,
    pub text: Vec<u8>,
    pub code: Code,
    pub lent: Lent,
    /// Number and value of settling set by hand, where they were.
    pub expected: Option<(u64, u64)>,
    /// The totals set by hand, where they were.
    pub litres: Option<Totals>,
}

pub fn all() -> Vec<Case> {
    let mut cases = by_hand::cases();
    cases.extend(long::cases());
    cases.extend(random::cases());
    cases.extend(damaged::cases());
    cases.extend(lazy::cases());
    cases.extend(hot::cases());
    cases.extend(random::hot());
    cases.extend(damaged::hot());
    cases.extend(stale::cases());
    cases.extend(random::stale());
    cases.extend(full::cases());
    cases.extend(accounts::cases());
    cases.extend(random::accounts());
    cases
}

/// Buffers just long enough for settling the code; some cells where it is
/// refused with any buffers.
pub fn just_enough(table: &Table, code: &Code) -> Lent {
    let refused = Lent {
        letters: 8,
        words: 18,
        bytes: 4,
    };
    let mut tape = vec![0; MOST_LETTERS];
    let Ok(letters) = flatten(table, &code.bytes, code.count, &mut tape) else {
        return refused;
    };
    let letters = letters as usize;
    let mut words = vec![0; 2 * (letters + 1)];
    let mut settled = vec![0; MOST_CODE_BYTES];
    match parse(table, &tape[..letters], &mut words, &mut settled) {
        Ok(bits) => Lent {
            letters,
            words: words.len(),
            bytes: bits.div_ceil(8) as usize,
        },
        Err(_) => refused,
    }
}

/// So many totals are always printed: those of accounts 0 to 9, which were all
/// before 02, Job 7.
const ALWAYS_PRINTED: usize = 10;

/// Number, value and the totals, which are parted by commas: the first ten, and
/// behind them as many as there are up to the last that is not 0.
pub fn totals_line(answer: Result<Totals, Refusal>) -> String {
    let (number, value) = number_and_value(&answer.map(|_| 0));
    let totals = answer.unwrap_or(NO_LITRES);
    let last = totals.iter().rposition(|&litres| litres > 0);
    let printed = last.map_or(0, |last| last + 1).max(ALWAYS_PRINTED);
    let litres: Vec<String> = totals[..printed].iter().map(u64::to_string).collect();
    format!("{number}\t{value}\t{}", litres.join(","))
}

impl Case {
    /// The line that the program reads.
    pub fn line(&self) -> String {
        let (text, code) = (hex::of_bytes(&self.text), hex::of_bytes(&self.code.bytes));
        let Lent {
            letters,
            words,
            bytes,
        } = self.lent;
        let count = self.code.count;
        format!("c {text} {code} {count} {letters} {words} {bytes}")
    }

    /// A line for spelling, one for totalling and one for settling.
    pub fn answers(&self) -> [String; 3] {
        self.answers_by(&table_of(&self.text))
    }

    /// The same by a table that need not be the text's.
    pub fn answers_by(&self, table: &Table) -> [String; 3] {
        [
            self.spelling(table),
            self.totalling(table),
            self.settling(table),
        ]
    }

    /// Number, value, digest of the tape lent, digest of the cells past it.
    fn spelling(&self, table: &Table) -> String {
        let mut tape = vec![BYTE_BEFORE; ALL_LETTERS];
        let (lent, rest) = tape.split_at_mut(self.lent.letters);
        let spelled = flatten(table, &self.code.bytes, self.code.count, lent);
        let (number, value) = number_and_value(&spelled);
        let (lent, past) = (digest_of_bytes(1, lent), digest_of_bytes(1, rest));
        format!("{number}\t{value}\t{lent}\t{past}")
    }

    fn totalling(&self, table: &Table) -> String {
        totals_line(totals(table, &self.code.bytes, self.code.count))
    }

    /// Number, value, digests of the tape and the words lent, code bytes
    /// lent, digest of all cells past those lent.
    fn settling(&self, table: &Table) -> String {
        let mut tape = vec![BYTE_BEFORE; ALL_LETTERS];
        let mut words = vec![WORD_BEFORE; ALL_WORDS];
        let mut settled = vec![BYTE_BEFORE; ALL_BYTES];
        let (tape, past_tape) = tape.split_at_mut(self.lent.letters);
        let (words, past_words) = words.split_at_mut(self.lent.words);
        let (settled, past_code) = settled.split_at_mut(self.lent.bytes);
        let (code, count) = (&self.code.bytes, self.code.count);
        let answer = canonicalize(table, code, count, tape, words, settled);
        let (number, value) = number_and_value(&answer);
        let past = digest_of_words(digest_of_bytes(1, past_tape), past_words);
        format!(
            "{number}\t{value}\t{}\t{}\t{}\t{}",
            digest_of_bytes(1, tape),
            digest_of_words(1, words),
            shown_code(settled),
            digest_of_bytes(past, past_code)
        )
    }
}
