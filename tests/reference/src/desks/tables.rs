//! Tables changed between calls, texts that are refused, and marks that are not
//! those of the letters held: answers, desk and letters do not depend on them.

use super::{Case, Hand};
use crate::cases;
use crate::hot::{H4, H7};
use crate::lazy::{Z13, Z15, Z5};
use crate::patterns::{LISTING, P1, P2, P3, P4, P5};

const TEXTS: [(&str, &[u8]); 10] = [
    ("listing", LISTING.as_bytes()),
    ("P1", P1.as_bytes()),
    ("P2", P2.as_bytes()),
    ("P3", P3.as_bytes()),
    ("P4", P4.as_bytes()),
    ("P5", P5.as_bytes()),
    ("Z5", Z5.as_bytes()),
    ("Z13", Z13.as_bytes()),
    ("Z15", Z15.as_bytes()),
    ("H4", H4),
];

pub fn cases() -> Vec<Case> {
    let mut cases = vec![refused_between()];
    for (index, (name, text)) in TEXTS.into_iter().enumerate() {
        let (other_name, other) = TEXTS[(index + 3) % TEXTS.len()];
        cases.push(changed(&format!("{name}, then {other_name}"), text, other));
        cases.push(never_opened(name, text));
    }
    cases.push(refused_texts());
    cases
}

/// Opened and filled under one table, gone on with under another, and then
/// opened under that one.
fn changed(name: &str, text: &[u8], other: &[u8]) -> Case {
    let mut hand = Hand::opened(&format!("tables: {name}"), text);
    hand.put("ab");
    hand.holds(2);
    hand.text(other);
    hand.put("a");
    hand.holds(3);
    hand.put("3");
    hand.holds(4);
    hand.withdraw();
    hand.holds(3);
    hand.text(text);
    hand.put("b");
    hand.holds(4);
    hand.text(other);
    hand.open();
    hand.holds(0);
    hand.text(text);
    // The word of the end is another table's.
    hand.put("ab");
    hand.holds(2);
    hand.done()
}

/// The words are those that the program begins with, and no opening wrote any:
/// with letters held, and with none, where the tape's end lies behind all the
/// same.
fn never_opened(name: &str, text: &[u8]) -> Case {
    let mut hand = Hand::new(&format!("no opening: {name}"), text);
    hand.hold(&[], "");
    hand.put("a");
    hand.holds(1);
    hand.put("ba");
    hand.holds(3);
    hand.hold(&[1], "b");
    hand.put("a");
    hand.holds(2);
    hand.hold(&[2, 3], "3W2ab");
    hand.put("aab");
    hand.holds(8);
    hand.done()
}

/// A refused call leaves all as it was, so the desk goes on behind it.
fn refused_between() -> Case {
    let mut hand = Hand::opened("tables: refused between", P3);
    hand.put("ab");
    hand.holds(2);
    for text in ["", "0\tL\t-\ta\n0\tK\t-\t0\n", "0\tL\t-\ta\n1\tL\t-\tb\n"] {
        hand.text(text);
        hand.open();
        hand.answers(2, 0);
        hand.put("b");
        hand.answers(2, 0);
        hand.withdraw();
        hand.answers(2, 0);
    }
    hand.text(P3);
    hand.put("b");
    hand.holds(3);
    hand.done()
}

/// Some of the texts that loading refuses.
fn refused_texts() -> Case {
    let mut hand = Hand::opened("tables: no table", H7);
    hand.put("ab");
    hand.holds(2);
    for case in cases::refused().iter().step_by(90) {
        if case.text.len() > 200 {
            continue;
        }
        hand.text(&case.text);
        hand.put("b");
        hand.answers(2, 0);
    }
    hand.text(H7);
    hand.withdraw();
    hand.holds(0);
    hand.done()
}
