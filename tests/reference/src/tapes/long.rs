//! Tapes of 3,600 letters and of one letter more. Patterns are small: this
//! reader is slow on long tapes under large ones.

use super::by_hand::{Hand, EVERY};
use super::{bytes_for, words_for, Case};
use crate::patterns::{LISTING, P1, P3, P4, P5};
use crate::services::MOST_LETTERS;

pub fn cases() -> Vec<Case> {
    let mut hand = Hand { cases: Vec::new() };
    readable(&mut hand);
    short_buffers(&mut hand);
    refused(&mut hand);
    hand.cases
}

/// So many letters of a piece said again and again.
pub fn repeated(piece: &[u8], letters: usize) -> Vec<u8> {
    piece.iter().copied().cycle().take(letters).collect()
}

fn readable(hand: &mut Hand) {
    let letters: Vec<u8> = (33..=126).collect();
    hand.exact("long: P1", P1, &repeated(b"a", MOST_LETTERS));
    hand.gives(0, 7_201);
    hand.exact("long: P3", P3, &repeated(b"aabbb", MOST_LETTERS));
    hand.exact("long: P5", P5, &repeated(b"a", MOST_LETTERS));
    hand.gives(0, 3_600);
    hand.exact(
        "long: every letter",
        EVERY,
        &repeated(&letters, MOST_LETTERS),
    );
    hand.gives(0, 32_401);
    hand.exact("long: listing", LISTING, &repeated(b"W1W27", MOST_LETTERS));
    hand.exact(
        "long: P1, a letter less",
        P1,
        &repeated(b"a", MOST_LETTERS - 1),
    );
}

fn short_buffers(hand: &mut Hand) {
    let tape = repeated(b"a", MOST_LETTERS);
    let (words, bytes) = (words_for(&tape), bytes_for(P1.as_bytes(), &tape));
    hand.add("long: a word short", P1.as_bytes(), &tape, words - 1, bytes);
    hand.gives(6, 7_202);
    hand.add("long: a byte short", P1.as_bytes(), &tape, words, bytes - 1);
    hand.gives(7, 901);
    hand.add(
        "long: cells left",
        P1.as_bytes(),
        &tape,
        words + 8,
        bytes + 9,
    );
    hand.gives(0, 7_201);
}

fn refused(hand: &mut Hand) {
    let tape = repeated(b"a", MOST_LETTERS);
    let mut other = tape.clone();
    other[MOST_LETTERS - 1] = b'b';
    hand.exact("long: unreadable at its end", P1, &other);
    hand.gives(5, 0);
    hand.exact("long: unreadable from its start", P4, &tape);
    hand.gives(5, 0);
    other[MOST_LETTERS - 1] = 127;
    hand.add("long: bad byte at its end", P1.as_bytes(), &other, 0, 0);
    hand.gives(4, 3_599);
    let longer = repeated(b"a", MOST_LETTERS + 1);
    hand.add("long: 3,601 letters", P1.as_bytes(), &longer, 7_204, 1_000);
    hand.gives(3, 0);
    let bad = repeated(b" ", MOST_LETTERS + 1);
    hand.add("long: 3,601 bad bytes", P1.as_bytes(), &bad, 0, 0);
    hand.gives(3, 0);
    hand.add("long: 3,601 letters, no table", b"", &longer, 0, 0);
    hand.gives(2, 0);
}
