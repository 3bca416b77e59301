//! The piece of the tape that one visit of a node covers.

use super::spelling::letters_of;
use super::{judge_bytes, judge_length};
use crate::table::{judge, Refusal, Table};
use crate::walk::{walk, Step};

/// Where a piece starts and how long it is.
#[derive(Clone, Copy, PartialEq, Eq, Debug)]
pub struct Span {
    pub start: u64,
    pub length: u64,
}

/// Start and length of the piece: 2, 3, 4, 8, 10. "Here 8 also covers a code
/// of another tape", a code of over 3,600 letters among them. A caller that
/// needs numbers beside a refusal takes start 0 and length 0.
pub fn span(
    table: &Table,
    tape: &[u8],
    code: &[u8],
    bits: u64,
    node: u64,
    k: u64,
) -> Result<Span, Refusal> {
    judge(table)?;
    judge_length(tape.len())?;
    judge_bytes(tape)?;
    match letters_of(table, code, bits) {
        Ok(letters) if letters == tape => {}
        _ => return Err(Refusal::new(8, 0)),
    }
    // "node outside the table or visited at most k times"
    if node >= table.count {
        return Err(Refusal::new(10, 0));
    }
    match usize::try_from(k)
        .ok()
        .and_then(|k| visits(table, code, bits, node as usize).get(k).copied())
    {
        Some(span) => Ok(span),
        None => Err(Refusal::new(10, 0)),
    }
}

/// All visits of a node, "counted from 0 as the code enters them from
/// above". A node is not inside itself, so its visits do not overlap.
fn visits(table: &Table, code: &[u8], bits: u64, node: usize) -> Vec<Span> {
    let mut found = Vec::new();
    let mut read = 0;
    let mut start = 0;
    let walked = walk(table, code, bits, &mut |step| match step {
        Step::Enter(place) if place == node => start = read,
        Step::Leave(place) if place == node => found.push(Span {
            start,
            length: read - start,
        }),
        Step::Letter(_) => read += 1,
        Step::Enter(_) | Step::Leave(_) => {}
    });
    assert_eq!(walked, Ok(()), "only a whole code is asked for its visits");
    found
}

/// How often a whole code visits a node.
pub fn count_of_visits(table: &Table, code: &[u8], bits: u64, node: usize) -> u64 {
    visits(table, code, bits, node).len() as u64
}

/// "The piece is a part of the caller's tape", with the refusal if there is
/// one; "a refused piece is empty".
pub fn piece<'a>(
    table: &Table,
    tape: &'a [u8],
    code: &[u8],
    bits: u64,
    node: u64,
    k: u64,
) -> (Result<(), Refusal>, &'a [u8]) {
    match span(table, tape, code, bits, node, k) {
        Ok(Span { start, length }) => (Ok(()), &tape[start as usize..(start + length) as usize]),
        Err(refusal) => (Err(refusal), &[]),
    }
}
