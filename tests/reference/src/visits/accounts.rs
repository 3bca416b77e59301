//! Visits of nodes of a pattern with accounts to 200, which have no part in them.

use super::by_hand::Hand;
use super::Case;
use crate::accounts::GREAT_LISTING;
use crate::codes::Code;

pub fn cases() -> Vec<Case> {
    let mut hand = Hand { cases: Vec::new() };
    let code = Code {
        bytes: vec![0x4c, 0xc3, 0x28],
        count: 21,
    };
    for (node, visit, start, length) in [
        (5, 0, 0, 3),
        (4, 0, 0, 1),
        (4, 1, 1, 2),
        (3, 0, 0, 1),
        (2, 0, 1, 2),
        (1, 0, 1, 1),
        (0, 0, 2, 1),
    ] {
        let text = GREAT_LISTING.as_bytes();
        hand.add("accounts: 3W2", text, b"3W2", &code, node, visit);
        hand.gives(0, start, length);
    }
    let bad = GREAT_LISTING.replace("200", "201");
    hand.add("accounts: 201", bad.as_bytes(), b"3W2", &code, 0, 0);
    hand.gives(2, 0, 0);
    hand.cases
}
