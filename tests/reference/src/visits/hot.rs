//! Visits on tapes with letters of the hot side, and on tapes and codes with
//! bytes that are no letters.

use super::by_hand::Hand;
use super::Case;
use crate::codes::Code;
use crate::hot::{self, name_of, H1, H2, H4, H5, H6, H7, H8, H9};

pub fn cases() -> Vec<Case> {
    let mut hand = Hand { cases: Vec::new() };
    known(&mut hand);
    every(&mut hand);
    letters(&mut hand);
    no_letters(&mut hand);
    no_codes(&mut hand);
    other_tapes(&mut hand);
    order(&mut hand);
    long(&mut hand);
    hand.cases
}

/// Starts and lengths worked out by hand: 3, then 179, then W2.
fn known(hand: &mut Hand) {
    let code = Code::written("001001100110110110011000001100101");
    for (node, visit, start, length) in [
        (7, 0, 0, 4),
        (6, 0, 0, 1),
        (6, 1, 1, 1),
        (6, 2, 2, 2),
        (5, 0, 1, 1),
        (4, 0, 0, 1),
        (4, 1, 2, 2),
        (3, 0, 0, 1),
        (2, 0, 2, 2),
        (1, 0, 2, 1),
        (0, 0, 3, 1),
    ] {
        hand.add("hot: H4", H4, b"3\xb3W2", &code, node, visit);
        hand.gives(0, start, length);
    }
}

fn every(hand: &mut Hand) {
    for (text, bits) in [
        (H1, "01001"),
        (H2, "010100111"),
        (H5, "0011111100101000011"),
        (H6, "1101000011111111100"),
        (H8, ""),
        // An empty round between the letters and one behind them.
        (H9, "0001111110010010100001011"),
    ] {
        let name = format!("hot every node: {}", name_of(text));
        hand.every(&name, text, &Code::written(bits));
    }
}

/// The bits of a `K` that reads each of these letters in a round.
fn rounds(letters: &[u8]) -> Code {
    let mut bits = Vec::new();
    for letter in letters {
        bits.push(false);
        bits.extend((0..8).rev().map(|power| letter >> power & 1 == 1));
    }
    bits.push(true);
    Code::of_bits(&bits)
}

/// All letters on one tape, and visits of those at the ends.
fn letters(hand: &mut Hand) {
    let all = hot::letters();
    let code = rounds(&all);
    for (visit, answer) in [
        (0, (0, 0, 1)),
        (93, (0, 93, 1)),
        (94, (0, 94, 1)),
        (187, (0, 187, 1)),
        (188, (10, 0, 0)),
    ] {
        hand.add("hot letters: all", H7, &all, &code, 0, visit);
        hand.gives(answer.0, answer.1, answer.2);
    }
    hand.add("hot letters: all", H7, &all, &code, 1, 0);
    hand.gives(0, 0, 188);
}

/// Every other byte on the tape, behind none, one or two letters.
fn no_letters(hand: &mut Hand) {
    let code = rounds(b"~\xa1\xfe");
    for (index, byte) in hot::no_letters().into_iter().enumerate() {
        let mut tape = *b"~\xa1\xfe";
        tape[index % 3] = byte;
        hand.add(&format!("hot bytes: {byte}"), H7, &tape, &code, 0, 0);
        hand.gives(4, 0, 0);
    }
}

/// A byte of the gap in the code: "a code naming one is no code", whatever the
/// tape.
fn no_codes(hand: &mut Hand) {
    for byte in [0, 32, 127, 128, 160, 255] {
        let code = rounds(&[b'~', byte]);
        for (node, visit) in [(0, 0), (1, 0), (9, 0)] {
            let name = format!("hot no code: {byte}");
            hand.add(&name, H7, b"~\xa1", &code, node, visit);
            hand.gives(8, 0, 0);
        }
    }
}

/// A letter with its highest bit turned is another letter.
fn other_tapes(hand: &mut Hand) {
    for (code, tape) in [
        (&b"a\xe4"[..], &b"ad"[..]),
        (b"a\xe4", b"\xe1\xe4"),
        (b"~", b"\xfe"),
        (b"\xa1", b"!"),
        (b"9", b"\xb9"),
        (b"\xe4", b"\xc3\xa4"),
    ] {
        let name = format!("hot other tape: {}", tape.escape_ascii());
        hand.add(&name, H7, tape, &rounds(code), 1, 0);
        hand.gives(8, 0, 0);
    }
}

/// Two causes at once: the first in the order 2, 3, 4, 8, 10 is answered.
fn order(hand: &mut Hand) {
    let code = rounds(b"\xa1");
    let faulty = b"0\tR\t-\t~\t\xa0\n1\tK\t-\t0\n";
    hand.add("hot order: 2 before 4", faulty, b"\xa0", &code, 0, 0);
    hand.gives(2, 0, 0);
    hand.add("hot order: 3 before 4", H7, &[128; 3_601], &code, 0, 0);
    hand.gives(3, 0, 0);
    let named = rounds(b"\xa0");
    hand.add("hot order: 4 before 8", H7, b"\xa1\xa0", &named, 0, 0);
    hand.gives(4, 0, 0);
    hand.add("hot order: 4 before 10", H7, b"\xa1\x7f", &code, 9, 0);
    hand.gives(4, 0, 0);
    hand.add("hot order: 8 before 10", H7, b"\xa1", &named, 9, 0);
    hand.gives(8, 0, 0);
}

fn long(hand: &mut Hand) {
    let tape: Vec<u8> = (161..=254).cycle().take(3_600).collect();
    let code = rounds(&tape);
    for (node, visit, answer) in [
        (1, 0, (0, 0, 3_600)),
        (0, 3_599, (0, 3_599, 1)),
        (0, 3_600, (10, 0, 0)),
    ] {
        hand.add("hot long: 3,600 letters", H7, &tape, &code, node, visit);
        hand.gives(answer.0, answer.1, answer.2);
    }
    let mut other = tape.clone();
    other[3_599] ^= 0x80;
    hand.add(
        "hot long: another letter at its end",
        H7,
        &other,
        &code,
        1,
        0,
    );
    hand.gives(8, 0, 0);
    other[3_599] = 255;
    hand.add("hot long: 255 at its end", H7, &other, &code, 1, 0);
    hand.gives(4, 0, 0);
}
