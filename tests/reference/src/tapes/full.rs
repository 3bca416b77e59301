//! Full tapes, with buffers just long enough. Where a code does not fit the
//! array that is lent, all of it is lent, and the bytes needed are answered.

use super::by_hand::Hand;
use super::{words_for, Case, ALL_BYTES};
use crate::full;
use crate::services::MOST_LETTERS;

pub fn cases() -> Vec<Case> {
    let mut hand = Hand { cases: Vec::new() };
    for row in full::all() {
        let (words, bytes) = (words_for(&row.tape), row.bytes());
        hand.add(
            &format!("full: {}", row.name),
            row.text.as_bytes(),
            &row.tape,
            words,
            bytes.min(ALL_BYTES),
        );
        if row.tape.len() > MOST_LETTERS {
            hand.gives(3, 0);
        } else if bytes > ALL_BYTES {
            hand.gives(7, bytes as u64);
        } else {
            hand.gives(0, row.settled.len() as u64);
        }
    }
    hand.cases
}
