//! Spelling a code.

use super::judge_length;
use crate::table::{judge, Refusal, Table};
use crate::walk::{walk, NotWhole, Step};

/// Spelling a code: 2, 8, 3, 9. Gives the letter count, and the letters in
/// the lent tape. Nothing is written before the last check.
pub fn flatten(table: &Table, code: &[u8], bits: u64, tape: &mut [u8]) -> Result<u64, Refusal> {
    judge(table)?;
    let letters = letters_of(table, code, bits).map_err(|NotWhole| Refusal::new(8, 0))?;
    judge_length(letters.len())?;
    if tape.len() < letters.len() {
        return Err(Refusal::new(9, letters.len() as u64));
    }
    tape[..letters.len()].copy_from_slice(&letters);
    Ok(letters.len() as u64)
}

/// What the code spells, if it is a whole code. The whole code is walked,
/// so a code that spells too much is still told from one that is no code.
pub fn letters_of(table: &Table, code: &[u8], bits: u64) -> Result<Vec<u8>, NotWhole> {
    let mut letters = Vec::new();
    walk(table, code, bits, &mut |step| {
        if let Step::Letter(letter) = step {
            letters.push(letter);
        }
    })?;
    Ok(letters)
}
