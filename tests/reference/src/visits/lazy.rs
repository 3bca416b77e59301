//! Visits of nodes of patterns with `Z`: a `Z` with all its rounds is one
//! visit, as a `K` is.

use super::by_hand::Hand;
use super::Case;
use crate::codes::Code;
use crate::lazy::{name_of, Z1, Z13, Z17, Z2, Z5};

pub fn cases() -> Vec<Case> {
    let mut hand = Hand { cases: Vec::new() };
    known(&mut hand);
    every(&mut hand);
    long(&mut hand);
    hand.cases
}

/// A pattern, a tape, the bits of a code, and visits of nodes: node, visit,
/// start and length.
type Known = (
    &'static str,
    &'static str,
    &'static str,
    &'static [(u64, u64, u64, u64)],
);

/// Starts and lengths worked out by hand.
const KNOWN: [Known; 3] = [
    // Two rounds of the `K`, in each of which the `Z` takes one letter.
    (
        Z5,
        "aa",
        "0100101",
        &[(2, 0, 0, 2), (1, 0, 0, 1), (1, 1, 1, 1), (0, 1, 1, 1)],
    ),
    // An empty round before the letter.
    (
        Z2,
        "a",
        "11100",
        &[
            (3, 0, 0, 1),
            (2, 0, 0, 0),
            (2, 1, 0, 1),
            (1, 0, 0, 0),
            (0, 0, 0, 1),
        ],
    ),
    // ab: each letter in a round of its own, and in each round both inner `Z`
    // are visited, also the one that takes nothing.
    (
        Z13,
        "ab",
        "110010100",
        &[
            (5, 0, 0, 2),
            (4, 1, 1, 1),
            (1, 0, 0, 1),
            (3, 0, 1, 0),
            (1, 1, 1, 0),
            (3, 1, 1, 1),
        ],
    ),
];

fn known(hand: &mut Hand) {
    for (text, tape, bits, visits) in KNOWN {
        let code = Code::written(bits);
        for &(node, visit, start, length) in visits {
            let name = format!("lazy: {}", name_of(text));
            hand.add(&name, text.as_bytes(), tape.as_bytes(), &code, node, visit);
            hand.gives(0, start, length);
        }
    }
}

fn every(hand: &mut Hand) {
    for (text, bits) in [
        (Z17, "110011001110001100100"),
        (Z5, "0100101"),
        (Z2, "1110110"),
        (Z1, "0"),
    ] {
        let name = format!("lazy every node: {}", name_of(text));
        hand.every(&name, text, &Code::written(bits));
    }
}

fn long(hand: &mut Hand) {
    let tape = [b'a'; 3_600];
    let code = Code::written(&("1".repeat(3_600) + "0"));
    for (node, visit, answer) in [
        (1, 0, (0, 0, 3_600)),
        (0, 3_599, (0, 3_599, 1)),
        (0, 3_600, (10, 0, 0)),
    ] {
        hand.add(
            "lazy long: 3,600 letters",
            Z1.as_bytes(),
            &tape,
            &code,
            node,
            visit,
        );
        hand.gives(answer.0, answer.1, answer.2);
    }
    hand.add(
        "lazy other tape: a letter less",
        Z1.as_bytes(),
        &tape[1..],
        &code,
        0,
        0,
    );
    hand.gives(8, 0, 0);
}
