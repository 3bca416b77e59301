//! Tapes of patterns with accounts to 200: accounts have no part in reading, and
//! a text that is refused for its account is no table.

use super::by_hand::Hand;
use super::{words_for, Case};
use crate::accounts::{longest, GREAT_LISTING};

pub fn cases() -> Vec<Case> {
    let mut hand = Hand { cases: Vec::new() };
    hand.exact("accounts: 3W2", GREAT_LISTING, b"3W2");
    hand.gives(0, 21);
    hand.exact("accounts: W without a digit", GREAT_LISTING, b"3W");
    hand.gives(5, 0);
    let (text, round) = (longest(), b"01234567890123456789012345678901");
    for (name, tape, bits) in [
        ("no round", vec![], 1),
        ("a round", round.to_vec(), 258),
        ("two rounds", round.repeat(2), 515),
    ] {
        hand.exact(&format!("accounts: the longest text, {name}"), &text, &tape);
        hand.gives(0, bits);
    }
    hand.exact(
        "accounts: the longest text, a digit short",
        &text,
        &round[1..],
    );
    hand.gives(5, 0);
    for account in ["200", "201", "020", "+9"] {
        let text = GREAT_LISTING.replace("200", account);
        let name = format!("accounts: {account:?} for 200");
        hand.add(&name, text.as_bytes(), b"3W2", words_for(b"3W2"), 3);
        let (number, value) = if account == "200" { (0, 21) } else { (2, 0) };
        hand.gives(number, value);
    }
    hand.cases
}
