//! Tapes of patterns with `Z`: those whose codes were worked out by hand,
//! buffers, and long tapes under the deepest patterns.

use super::by_hand::Hand;
use super::long::repeated;
use super::{bytes_for, words_for, Case};
use crate::lazy::{name_of, tower, CODES, UNREADABLE, Z1, Z10, Z17, Z2, Z6};
use crate::services::MOST_LETTERS;

pub fn cases() -> Vec<Case> {
    let mut hand = Hand { cases: Vec::new() };
    to_try(&mut hand);
    buffers(&mut hand);
    refused(&mut hand);
    long(&mut hand);
    hand.cases
}

fn to_try(hand: &mut Hand) {
    for (text, tape, bits) in CODES {
        let name = format!("lazy: {} on {tape:?}", name_of(text));
        hand.exact(&name, text, tape.as_bytes());
        hand.gives(0, bits.len() as u64);
    }
}

/// Words and bytes one short, just enough and one more, each with each.
fn buffers(hand: &mut Hand) {
    for (text, tape) in [(Z17, &b"3W2"[..]), (Z6, b"aaa"), (Z1, b"aaaaaaa")] {
        let (words, bytes) = (words_for(tape), bytes_for(text.as_bytes(), tape));
        for lent in [words - 1, words, words + 1] {
            for room in [bytes - 1, bytes, bytes + 1] {
                let name = format!(
                    "lazy buffers: {}, {lent} words, {room} bytes",
                    name_of(text)
                );
                hand.add(&name, text.as_bytes(), tape, lent, room);
                if lent < words {
                    hand.gives(6, words as u64);
                } else if room < bytes {
                    hand.gives(7, bytes as u64);
                }
            }
        }
    }
}

fn refused(hand: &mut Hand) {
    for (text, tape) in UNREADABLE {
        let name = format!("lazy unreadable: {} on {tape:?}", name_of(text));
        hand.add(
            &name,
            text.as_bytes(),
            tape.as_bytes(),
            2 * (tape.len() + 1),
            8,
        );
        hand.gives(5, 0);
    }
    hand.add("lazy order: 4 before 6, 5", Z10.as_bytes(), b"b c", 0, 0);
    hand.gives(4, 1);
    hand.add("lazy order: 6 before 5", Z10.as_bytes(), b"b", 3, 9);
    hand.gives(6, 4);
    hand.add("lazy order: 5 before 7", Z10.as_bytes(), b"b", 4, 0);
    hand.gives(5, 0);
}

fn long(hand: &mut Hand) {
    let tape = repeated(b"a", MOST_LETTERS);
    hand.exact("lazy long: Z1", Z1, &tape);
    hand.gives(0, 3_601);
    hand.exact("lazy long: Z2", Z2, &tape);
    hand.gives(0, 7_201);
    hand.add(
        "lazy long: 3,601 letters",
        Z1.as_bytes(),
        &[&tape[..], b"a"].concat(),
        0,
        0,
    );
    hand.gives(3, 0);
    // 63 stars over a range, of one kind and of both. A letter writes 133
    // bits where all stars are lazy.
    let letters: Vec<u8> = (33..=126).collect();
    let lazy = tower(64, &['Z']);
    hand.exact(
        "lazy long: 63 Z, 480 letters",
        &lazy,
        &repeated(&letters, 480),
    );
    hand.gives(0, 133 * 480 + 1);
    let tape = repeated(&letters, MOST_LETTERS);
    hand.add(
        "lazy long: 63 Z, 3,600 letters",
        lazy.as_bytes(),
        &tape,
        words_for(&tape),
        8_192,
    );
    hand.gives(7, 59_851);
    for (name, kinds) in [("KZ", ['K', 'Z']), ("ZK", ['Z', 'K'])] {
        let text = tower(64, &kinds);
        hand.exact(
            &format!("lazy long: 63 stars, {name}"),
            &text,
            &repeated(&letters, 100),
        );
    }
}
