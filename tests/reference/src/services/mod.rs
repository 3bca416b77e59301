//! The services, each with its checks in the order that 01 or 02 gives them.
//! Lent buffers are slices with their old contents; what a service does not
//! write keeps them.

pub mod desk;
pub mod locate;
pub mod reading;
pub mod settling;
pub mod spelling;
pub mod terms;
pub mod totals;
pub mod visits;

use crate::table::{is_letter, Refusal};

/// "Tapes hold at most 3,600 letters."
pub const MOST_LETTERS: usize = 3_600;

/// Cause 3 counts bytes, letters or not.
fn judge_length(letters: usize) -> Result<(), Refusal> {
    if letters > MOST_LETTERS {
        return Err(Refusal::new(3, 0));
    }
    Ok(())
}

/// Cause 4, read with the letters of 02, Job 3, with the "first such position"
/// beside it.
fn judge_bytes(tape: &[u8]) -> Result<(), Refusal> {
    match tape.iter().position(|&byte| !is_letter(u64::from(byte))) {
        Some(position) => Err(Refusal::new(4, position as u64)),
        None => Ok(()),
    }
}
