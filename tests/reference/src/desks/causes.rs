//! Causes of refusal, each with each that comes after it. Every call has a desk
//! of its own, so that it does not matter what the one before it did.

use super::{Case, Hand};
use crate::patterns::P3;
use crate::services::desk::Desk;

pub fn cases() -> Vec<Case> {
    let mut cases = Vec::new();
    for (text_name, text, tree) in [("good", P3, None), ("refused", "", Some((2, 0)))] {
        for (desk_name, desk, held) in desks() {
            let name = |call: &str| format!("order: {call}, text {text_name}, desk {desk_name}");
            cases.push(puts(&name("put"), text, tree, &desk, &held));
            cases.push(withdrawals(&name("withdraw"), text, tree, &desk, &held));
            cases.push(openings(&name("open"), text, tree, &desk));
        }
    }
    cases
}

type Cause = Option<(u64, u64)>;

/// A desk with letters, and how many it holds if it keeps the limits.
struct Held {
    letters: Vec<u8>,
    count: Option<usize>,
    pages: usize,
}

fn desks() -> Vec<(&'static str, Desk, Held)> {
    let mut with_bad_length = Desk::of_lengths(&[2, 121, 3]);
    with_bad_length.lengths[29] = 7;
    let mut over = Desk::of_lengths(&[1; 30]);
    over.count = 31;
    let held = |letters: &[u8], count, pages| Held {
        letters: letters.to_vec(),
        count,
        pages,
    };
    vec![
        ("empty", Desk::EMPTY, held(b"", Some(0), 0)),
        (
            "of two pages",
            Desk::of_lengths(&[2, 3]),
            held(b"ababa", Some(5), 2),
        ),
        (
            "full",
            Desk::of_lengths(&[1; 30]),
            held(&[b'a'; 30], Some(30), 30),
        ),
        ("of 31 pages", over, held(&[b'a'; 31], None, 31)),
        (
            "with a long page",
            with_bad_length,
            held(&[b'a'; 126], None, 3),
        ),
        (
            "with a bad byte",
            Desk::of_lengths(&[2, 3]),
            held(b"ab ba", None, 2),
        ),
        (
            "full with a bad byte",
            Desk::of_lengths(&[1; 30]),
            held(&[127; 30], None, 30),
        ),
    ]
}

fn with_desk(hand: &mut Hand, desk: &Desk, held: &Held) {
    hand.desk(*desk, &held.letters, 3_600 - held.letters.len());
}

/// "It refuses, after 2, fewer than 3,600 cells with 9 (needed: 3,600), then a
/// page of a wrong length, or a desk that breaks these limits or holds a byte that
/// is no letter, with 13, a 31st page with 14, then a bad letter with 4 (its
/// position in the page), then marks too few for the letters after the put with
/// 6".
fn puts(name: &str, text: &str, tree: Cause, desk: &Desk, held: &Held) -> Case {
    let mut hand = Hand::new(name, text);
    let long_bad = [&[b'a'; 120][..], b" "].concat();
    for (cells, short) in [(3_600, None), (3_599, Some((9, 3_600)))] {
        for (page, limits, byte) in [
            (&b"ab"[..], None, None),
            (b"a\x7fb ", None, Some((4, 1))),
            (b"", Some((13, 0)), None),
            (&long_bad, Some((13, 0)), Some((4, 120))),
        ] {
            let after = held.count.unwrap_or(0) + page.len();
            let needed = 2 * (after + 1);
            for (words, few) in [(needed, None), (needed - 1, Some((6, needed as u64)))] {
                with_desk(&mut hand, desk, held);
                (hand.cells, hand.words) = (cells, words);
                hand.put(page);
                let broken = held.count.is_none().then_some((13, 0));
                let full = (held.pages == 30).then_some((14, 0));
                let cause = tree
                    .or(short)
                    .or(limits)
                    .or(broken)
                    .or(full)
                    .or(byte)
                    .or(few);
                match cause {
                    Some((number, value)) => hand.answers(number, value),
                    None => hand.holds(after),
                }
            }
        }
    }
    hand.done()
}

/// "withdrawal checks 2, 9 and 13 for the desk, and an empty one gives 15"
fn withdrawals(name: &str, text: &str, tree: Cause, desk: &Desk, held: &Held) -> Case {
    let mut hand = Hand::new(name, text);
    for (cells, short) in [
        (3_600, None),
        (3_601, None),
        (3_599, Some((9, 3_600))),
        (0, Some((9, 3_600))),
    ] {
        with_desk(&mut hand, desk, held);
        hand.cells = cells;
        hand.withdraw();
        let broken = held.count.is_none().then_some((13, 0));
        let empty = (held.pages == 0).then_some((15, 0));
        match tree.or(short).or(broken).or(empty) {
            Some((number, value)) => hand.answers(number, value),
            None => hand.holds(held.count.unwrap_or(0) - usize::from(desk.lengths[held.pages - 1])),
        }
    }
    hand.done()
}

/// "opening an empty desk writes the two of the end (refusing 2, then 6)"
fn openings(name: &str, text: &str, tree: Cause, desk: &Desk) -> Case {
    let mut hand = Hand::new(name, text);
    for (words, few) in [(0, Some((6, 2))), (1, Some((6, 2))), (2, None), (3, None)] {
        hand.desk(*desk, "", 0);
        hand.words = words;
        hand.open();
        match tree.or(few) {
            Some((number, value)) => hand.answers(number, value),
            None => hand.holds(0),
        }
    }
    hand.done()
}
