//! Runs set by hand: pages put and withdrawn, desks opened again, letters of
//! each side, both kinds of rounds.

use super::{Case, Hand};
use crate::hot::{H2, H4, H5};
use crate::lazy::{Z1, Z15, Z5};
use crate::patterns::{LISTING, P1, P3, P4, P5};
use crate::services::desk::{Desk, MOST_PAGES};

pub fn cases() -> Vec<Case> {
    let mut cases = vec![
        before_an_opening(),
        a_page_taken_back(),
        opened_again(),
        withdrawn_to_empty(),
        pages_of_several_letters(),
        put_in_the_place_of_another(),
    ];
    for (name, text, tape) in [
        ("listing", LISTING.as_bytes(), &b"3W2"[..]),
        ("P1", P1.as_bytes(), b"aaa"),
        ("P3", P3.as_bytes(), b"abba"),
        ("P4", P4.as_bytes(), b"abb"),
        ("P4, unreadable", P4.as_bytes(), b"bba"),
        ("P5", P5.as_bytes(), b"aa"),
        ("Z1", Z1.as_bytes(), b"aa"),
        ("Z5", Z5.as_bytes(), b"aa"),
        ("Z15", Z15.as_bytes(), b"baab"),
        ("H2", H2, b"\xe1\xe2\xe1"),
        ("H4", H4, b"3W2\xa1"),
        ("H5", H5, b"~\xa1~"),
    ] {
        cases.push(each_cut(name, text, tape));
    }
    cases
}

/// Without an opening the desk of the run's start is none.
fn before_an_opening() -> Case {
    let mut hand = Hand::new("run: calls before the opening", LISTING);
    hand.put("3");
    hand.answers(13, 0);
    hand.withdraw();
    hand.answers(13, 0);
    hand.open();
    hand.holds(0);
    hand.put("3");
    hand.holds(1);
    hand.withdraw();
    hand.holds(0);
    hand.done()
}

/// A page with a bad radio check is taken back before the next.
fn a_page_taken_back() -> Case {
    let mut hand = Hand::opened("run: a page is taken back", LISTING);
    hand.put("2");
    hand.holds(1);
    hand.put("9W9");
    hand.holds(4);
    hand.withdraw();
    hand.holds(1);
    hand.put("3W");
    hand.holds(3);
    hand.done()
}

fn opened_again() -> Case {
    let mut hand = Hand::opened("run: opened again", P3);
    for (page, letters) in [("ab", 2), ("b", 3)] {
        hand.put(page);
        hand.holds(letters);
    }
    hand.open();
    hand.holds(0);
    hand.withdraw();
    hand.answers(15, 0);
    hand.put("bba");
    hand.holds(3);
    hand.open();
    hand.holds(0);
    hand.open();
    hand.holds(0);
    hand.done()
}

fn withdrawn_to_empty() -> Case {
    let mut hand = Hand::opened("run: withdrawn to empty", P1);
    let pages = ["a", "aa", "aaa", "aaaa"];
    let mut letters = 0;
    for page in pages {
        letters += page.len();
        hand.put(page);
        hand.holds(letters);
    }
    for page in pages.iter().rev() {
        letters -= page.len();
        hand.withdraw();
        hand.holds(letters);
    }
    for _ in 0..2 {
        hand.withdraw();
        hand.answers(15, 0);
    }
    hand.put("aa");
    hand.holds(2);
    hand.done()
}

/// The first page put has the tape's last letters.
fn pages_of_several_letters() -> Case {
    let mut hand = Hand::opened("run: pages of several letters", LISTING);
    for (page, letters) in [("W67", 3), ("45", 5), ("123", 8), ("0", 9)] {
        hand.put(page);
        hand.holds(letters);
    }
    hand.done()
}

/// What a withdrawn page left in cells and words is written over, or stays where
/// the next page is shorter.
fn put_in_the_place_of_another() -> Case {
    let mut hand = Hand::opened("run: put in the place of another", P3);
    hand.put("b");
    hand.holds(1);
    for page in ["abab", "ba", "a", "bbb", "c", "abcab"] {
        hand.put(page);
        hand.holds(1 + page.len());
        hand.withdraw();
        hand.holds(1);
    }
    hand.done()
}

/// A tape in one page, and cut in two at each letter: the words of all letters
/// are the same.
fn each_cut(name: &str, text: &[u8], tape: &[u8]) -> Case {
    let mut hand = Hand::opened(&format!("cuts: {name}"), text);
    hand.put(tape);
    hand.holds(tape.len());
    hand.withdraw();
    hand.holds(0);
    for cut in 1..tape.len() {
        hand.put(&tape[cut..]);
        hand.holds(tape.len() - cut);
        hand.put(&tape[..cut]);
        hand.holds(tape.len());
        hand.withdraw();
        hand.withdraw();
        hand.holds(0);
    }
    // Letters as a caller might have written them, with lengths behind the count
    // that mean nothing.
    let mut desk = Desk {
        count: 1,
        lengths: [255; MOST_PAGES],
    };
    desk.lengths[0] = tape.len() as u8;
    hand.desk(desk, tape, 3_600 - tape.len());
    hand.put(tape);
    hand.holds(2 * tape.len());
    hand.done()
}
