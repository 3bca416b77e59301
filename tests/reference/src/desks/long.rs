//! 30 pages of 120 letters: all cells and all words, then withdrawn to empty.

use super::{Case, Hand, ALL_LETTERS};
use crate::hot::{H4, H6};
use crate::lazy::{tower, Z15};
use crate::patterns::{LISTING, P3};

pub fn cases() -> Vec<Case> {
    let deep = tower(64, &['K', 'Z']);
    let mut cases = Vec::new();
    for (name, text, letters) in [
        ("listing", LISTING.as_bytes(), &b"3W2"[..]),
        ("P3", P3.as_bytes(), b"abbab"),
        ("Z15", Z15.as_bytes(), b"aabab"),
        ("H4", H4, b"3W2\xa1\xfe"),
        ("H6", H6, b"!~\xa1\xfe"),
        ("63 stars", deep.as_bytes(), b"a"),
    ] {
        cases.push(full(name, text, letters));
    }
    cases
}

fn full(name: &str, text: &[u8], letters: &[u8]) -> Case {
    let mut hand = Hand::opened(&format!("full: {name}"), text);
    let tape: Vec<u8> = letters.iter().copied().cycle().take(3_600).collect();
    for page in 1..=30 {
        let start = 3_600 - 120 * page;
        if page == 30 {
            hand.words = 7_201;
            hand.put(&tape[start..start + 120]);
            hand.answers(6, 7_202);
            hand.words = 7_202;
            hand.cells = ALL_LETTERS;
        }
        hand.put(&tape[start..start + 120]);
        hand.holds(120 * page);
    }
    hand.put(&tape[..1]);
    hand.answers(14, 0);
    for page in (0..30).rev() {
        hand.withdraw();
        hand.holds(120 * page);
    }
    hand.withdraw();
    hand.answers(15, 0);
    hand.done()
}
