//! Codes of full tapes. Those of nested stars and of choices are not the
//! settled ones.

use super::by_hand::Hand;
use super::{Case, Code, Lent};
use crate::full;
use crate::services::MOST_LETTERS;
use crate::tapes::{words_for, ALL_BYTES};

pub fn cases() -> Vec<Case> {
    let mut hand = Hand { cases: Vec::new() };
    for row in full::all() {
        let bytes = row.bytes();
        let lent = Lent {
            letters: row.tape.len(),
            words: words_for(&row.tape),
            bytes: bytes.min(ALL_BYTES),
        };
        let (name, code) = (format!("full: {}", row.name), Code::of_bits(&row.code));
        hand.add(&name, row.text.as_bytes(), &code, lent);
        if row.tape.len() > MOST_LETTERS {
            hand.gives(3, 0);
        } else if bytes > ALL_BYTES {
            hand.gives(7, bytes as u64);
        } else {
            hand.gives(0, row.settled.len() as u64);
        }
    }
    hand.cases
}
