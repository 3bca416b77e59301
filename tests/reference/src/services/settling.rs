//! Settling a code.

use super::reading::parse;
use super::spelling::flatten;
use crate::table::{Refusal, Table};

/// "Settling a code spells it and reads the result": 2, 8, 3, 9, 6, 5, 7.
/// What was spelled stands in the tape when reading refuses; the checks 2, 3
/// and 4 of reading cannot hold for it. The code handed in and the code
/// buffer are two slices.
pub fn canonicalize(
    table: &Table,
    code: &[u8],
    bits: u64,
    tape: &mut [u8],
    marks: &mut [u64],
    settled: &mut [u8],
) -> Result<u64, Refusal> {
    let letters = flatten(table, code, bits, tape)? as usize;
    parse(table, &tape[..letters], marks, settled)
}
