//! Reading a tape, and the open counts of its positions.

use super::{judge_bytes, judge_length};
use crate::automaton;
use crate::code::{encode, pack};
use crate::memo::preferred_reading;
use crate::table::{judge, Refusal, Table};

/// Reading a tape: 2, 3, 4, 6, 5, 7. Gives the bit count, and in the lent
/// buffers marks and code.
pub fn parse(
    table: &Table,
    tape: &[u8],
    marks: &mut [u64],
    code: &mut [u8],
) -> Result<u64, Refusal> {
    judge(table)?;
    judge_length(tape.len())?;
    judge_bytes(tape)?;
    let words = 2 * (tape.len() + 1);
    if marks.len() < words {
        return Err(Refusal::new(6, words as u64));
    }
    // From here on a refusal leaves the marks filled.
    marks[..words].copy_from_slice(&automaton::marks(table, tape));
    let reading = preferred_reading(table, tape);
    // Reading starts at the root with flag 1. The reading was found without
    // the automaton, so this holds the one against the other.
    let accepted = marks[1] >> table.root() & 1 == 1;
    assert_eq!(accepted, reading.is_some(), "marks and reading disagree");
    let Some(reading) = reading else {
        return Err(Refusal::new(5, 0));
    };
    let bits = encode(table, &reading);
    let bytes = pack(&bits);
    if code.len() < bytes.len() {
        return Err(Refusal::new(7, bytes.len() as u64));
    }
    code[..bytes.len()].copy_from_slice(&bytes);
    Ok(bits.len() as u64)
}

/// "each position with the count of ones in its flag 1 word": the open
/// nodes of one position of filled marks, none past them.
pub fn open_count(marks: &[u64], position: usize) -> u64 {
    match marks.get(2 * position + 1) {
        Some(word) => u64::from(word.count_ones()),
        None => 0,
    }
}

/// The open counts of positions 0 to n: 2, 3, 4. A tape that no reading
/// spells has marks too, so 5 is no cause here.
pub fn open_counts(table: &Table, tape: &[u8]) -> Result<Vec<u64>, Refusal> {
    judge(table)?;
    judge_length(tape.len())?;
    judge_bytes(tape)?;
    let marks = automaton::marks(table, tape);
    Ok((0..=tape.len())
        .map(|position| open_count(&marks, position))
        .collect())
}
