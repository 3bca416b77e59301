//! The cases for reading a tape: those set by hand, then random patterns
//! with tapes that they read and tapes that they do not.

mod accounts;
pub mod by_hand;
mod full;
mod hot;
mod lazy;
mod long;
pub mod random;

use crate::code::MOST_CODE_BYTES;
use crate::hex;
use crate::load::load;
use crate::services::reading::parse;
use crate::services::MOST_LETTERS;
use crate::table::{number_and_value, Refusal, Table};

/// Cells of the arrays whose starts are lent, and what they hold before.
pub const ALL_WORDS: usize = 7_210;
pub const ALL_BYTES: usize = 8_192;
pub const WORD_BEFORE: u64 = 0x5555_5555_5555_5555;
pub const BYTE_BEFORE: u8 = 0xaa;

/// What is shown: code buffers up to this size, and for tapes up to this
/// many letters so many of the words.
const SHOWN_BYTES: usize = 64;
const SHOWN_LETTERS: usize = 8;
const SHOWN_WORDS: usize = 20;

pub struct Case {
    /// What the case is about; all before the colon is its sort.
    pub name: String,
    pub text: Vec<u8>,
    pub tape: Vec<u8>,
    /// How many mark words and code bytes are lent.
    pub words: usize,
    pub bytes: usize,
    /// Number and value set by hand, where they were.
    pub expected: Option<(u64, u64)>,
}

pub fn all() -> Vec<Case> {
    let mut cases = by_hand::cases();
    cases.extend(long::cases());
    cases.extend(random::cases());
    cases.extend(lazy::cases());
    cases.extend(hot::cases());
    cases.extend(random::hot());
    cases.extend(full::cases());
    cases.extend(accounts::cases());
    cases
}

/// 2 × (n + 1) words for n letters.
pub fn words_for(tape: &[u8]) -> usize {
    2 * (tape.len() + 1)
}

/// The table of a text, of no lines where the text is refused.
pub fn table_of(text: &[u8]) -> Table {
    load(text).unwrap_or_else(|_| Table::of_no_lines())
}

/// Reading with buffers that suffice for every tape and every code.
pub fn read(table: &Table, tape: &[u8]) -> Result<u64, Refusal> {
    let mut words = vec![0; 2 * (MOST_LETTERS + 1)];
    let mut code = vec![0; MOST_CODE_BYTES];
    parse(table, tape, &mut words, &mut code)
}

/// The bytes of the tape's code; none where it is refused.
fn bytes_for(text: &[u8], tape: &[u8]) -> usize {
    match read(&table_of(text), tape) {
        Ok(bits) => bits.div_ceil(8) as usize,
        Err(_) => 0,
    }
}

impl Case {
    /// The line that the program reads.
    pub fn line(&self) -> String {
        let (text, tape) = (hex::of_bytes(&self.text), hex::of_bytes(&self.tape));
        format!("p {text} {tape} {} {}", self.words, self.bytes)
    }

    /// Number, value, digest of the words lent, code bytes lent, digest of
    /// all cells past those lent, and for short tapes the first words lent.
    pub fn answer(&self) -> String {
        self.answer_by(&table_of(&self.text))
    }

    /// The same by a table that need not be the text's.
    pub fn answer_by(&self, table: &Table) -> String {
        let mut words = vec![WORD_BEFORE; ALL_WORDS];
        let mut code = vec![BYTE_BEFORE; ALL_BYTES];
        let (lent, rest) = words.split_at_mut(self.words);
        let (lent_code, rest_of_code) = code.split_at_mut(self.bytes);
        let read = parse(table, &self.tape, lent, lent_code);
        let (number, value) = number_and_value(&read);
        let past = digest_of_bytes(digest_of_words(1, rest), rest_of_code);
        let mut line = format!(
            "{number}\t{value}\t{}\t{}\t{past}",
            digest_of_words(1, lent),
            shown_code(lent_code)
        );
        if self.tape.len() <= SHOWN_LETTERS && !lent.is_empty() {
            let shown: Vec<String> = lent
                .iter()
                .take(SHOWN_WORDS)
                .map(|word| word.to_string())
                .collect();
            line.push('\t');
            line.push_str(&shown.join(","));
        }
        line
    }
}

pub fn shown_code(code: &[u8]) -> String {
    if code.len() <= SHOWN_BYTES {
        hex::of_bytes(code)
    } else {
        format!("#{}", digest_of_bytes(1, code))
    }
}

/// Each value is added to the digest before it, multiplied by 65,599,
/// modulo the largest prime below 2^32.
fn step(digest: u64, value: u64) -> u64 {
    (digest * 65_599 + value) % 4_294_967_291
}

/// Each word is two values, its low half first.
pub fn digest_of_words(start: u64, words: &[u64]) -> u64 {
    words.iter().fold(start, |digest, word| {
        step(step(digest, word & 0xffff_ffff), word >> 32)
    })
}

pub fn digest_of_bytes(start: u64, bytes: &[u8]) -> u64 {
    bytes
        .iter()
        .fold(start, |digest, &byte| step(digest, u64::from(byte)))
}
