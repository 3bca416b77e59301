//! The cases set by hand. An answer beside a case was read from 01.

use super::{bytes_for, words_for, Case, ALL_BYTES, ALL_WORDS};
use crate::cases;
use crate::code::pack;
use crate::load::load;
use crate::patterns::{LISTING, P1, P2, P3, P4, P5};
use crate::services::spelling::flatten;
use crate::services::MOST_LETTERS;

/// (R from ! to ~)*: reads every tape of letters below the gap.
pub const EVERY: &str = "0\tR\t-\t!\t~\n1\tK\t-\t0\n";
/// One letter, whose code has no bits.
pub const ONE: &str = "0\tL\t-\ta\n";
/// One range, whose code fills a byte.
pub const RANGE: &str = "0\tR\t-\ta\tz\n";
/// Two ranges, whose code fills two bytes.
pub const RANGES: &str = "0\tR\t-\ta\tz\n1\tR\t-\t!\t~\n2\tS\t-\t0\t1\n";
/// A `K` over nothing.
pub const NO_ROUND: &str = "0\tE\t-\n1\tK\t-\t0\n";

/// Collects cases; each call is one.
pub struct Hand {
    pub cases: Vec<Case>,
}

impl Hand {
    pub fn add(&mut self, name: &str, text: &[u8], tape: &[u8], words: usize, bytes: usize) {
        self.cases.push(Case {
            name: name.to_string(),
            text: text.to_vec(),
            tape: tape.to_vec(),
            words,
            bytes,
            expected: None,
        });
    }

    /// Sets the answer of the case added last.
    pub fn gives(&mut self, number: u64, value: u64) {
        if let Some(last) = self.cases.last_mut() {
            last.expected = Some((number, value));
        }
    }

    /// A case with buffers just long enough.
    pub fn exact(&mut self, name: &str, text: impl AsRef<[u8]>, tape: &[u8]) {
        let bytes = bytes_for(text.as_ref(), tape);
        self.add(name, text.as_ref(), tape, words_for(tape), bytes);
    }
}

pub fn cases() -> Vec<Case> {
    let mut hand = Hand { cases: Vec::new() };
    tapes_to_try(&mut hand);
    listing(&mut hand);
    empty(&mut hand);
    buffers(&mut hand);
    bytes(&mut hand);
    order(&mut hand);
    unreadable(&mut hand);
    refused_texts(&mut hand);
    hand.cases
}

/// The tape that a code given in 01 spells.
fn spelled(text: &str, written: &str) -> Vec<u8> {
    let table = load(text.as_bytes()).expect("a good pattern");
    let bits: Vec<bool> = written.bytes().map(|byte| byte == b'1').collect();
    let mut tape = vec![0; MOST_LETTERS];
    let letters = flatten(&table, &pack(&bits), bits.len() as u64, &mut tape).expect("a code");
    tape.truncate(letters as usize);
    tape
}

/// C1 to C11; of the codes to settle, the tapes that they spell.
fn tapes_to_try(hand: &mut Hand) {
    let given: [(&str, &str, Vec<u8>, u64, u64); 12] = [
        ("C1", P1, b"".to_vec(), 0, 1),
        ("C2", P1, b"a".to_vec(), 0, 3),
        ("C3", P2, b"a".to_vec(), 0, 3),
        ("C4", P3, b"ab".to_vec(), 0, 6),
        ("C5", P3, b"ba".to_vec(), 0, 9),
        ("C6", P4, b"ab".to_vec(), 0, 2),
        ("C6, code 11", P4, spelled(P4, "11"), 0, 2),
        ("C7", P4, b"abb".to_vec(), 0, 2),
        ("C8", P5, b"aa".to_vec(), 0, 2),
        ("C9", P5, b"".to_vec(), 5, 0),
        ("C10", P1, spelled(P1, "011"), 0, 1),
        ("C11", P1, spelled(P1, "01001"), 0, 3),
    ];
    for (name, text, tape, number, value) in given {
        hand.exact(&format!("to try: {name}"), text, &tape);
        hand.gives(number, value);
        let name = format!("to try: {name}, long buffers");
        hand.add(&name, text.as_bytes(), &tape, words_for(&tape) + 2, 4);
        hand.gives(number, value);
    }
}

fn listing(hand: &mut Hand) {
    hand.exact("listing: 3W2", LISTING, b"3W2");
    hand.gives(0, 21);
    hand.exact("listing: W without a digit", LISTING, b"3W");
    hand.gives(5, 0);
    hand.exact("listing: more than 64 bytes", LISTING, &b"W12".repeat(30));
    hand.add(
        "listing: all cells",
        LISTING.as_bytes(),
        b"3W2",
        ALL_WORDS,
        ALL_BYTES,
    );
    hand.gives(0, 21);
}

fn empty(hand: &mut Hand) {
    for (name, text) in [
        ("P1", P1),
        ("P2", P2),
        ("P3", P3),
        ("P4", P4),
        ("P5", P5),
        ("listing", LISTING),
        ("one L", ONE),
        ("one R", RANGE),
        ("K over E", NO_ROUND),
        ("one E", "0\tE\t-\n"),
        ("every letter", EVERY),
    ] {
        hand.exact(&format!("empty: {name}"), text, b"");
        hand.add(
            &format!("empty: {name}, no cells"),
            text.as_bytes(),
            b"",
            0,
            0,
        );
        hand.gives(6, 2);
    }
}

/// Each buffer just long enough, one cell short, of no cells, one cell
/// longer and plenty, each with each.
fn buffers(hand: &mut Hand) {
    for (name, text, tape) in [
        ("listing", LISTING, &b"3W2"[..]),
        ("P3", P3, b"ba"),
        ("P1 of 7 bits", P1, b"aaa"),
        ("P1 of 9 bits", P1, b"aaaa"),
        ("no bits", ONE, b"a"),
        ("8 bits", RANGE, b"q"),
        ("16 bits", RANGES, b"q~"),
        ("81 bytes", EVERY, &[b'~'; 71]),
    ] {
        let (words, bytes) = (words_for(tape), bytes_for(text.as_bytes(), tape));
        for lent in [0, words - 1, words, words + 1, words + 30] {
            for room in [0, bytes.saturating_sub(1), bytes, bytes + 1, bytes + 70] {
                let name = format!("buffers: {name}, {lent} words, {room} bytes");
                hand.add(&name, text.as_bytes(), tape, lent, room);
                if lent < words {
                    hand.gives(6, words as u64);
                } else if room < bytes {
                    hand.gives(7, bytes as u64);
                }
            }
        }
    }
}

/// Bytes at the limits of letters, and some far from them, at the first,
/// middle and last position.
fn bytes(hand: &mut Hand) {
    for byte in [32, 33, 126, 127, 0, 9, 10, 128, 255] {
        for position in [0, 2, 4] {
            let mut tape = b"12345".to_vec();
            tape[position] = byte;
            hand.add(
                &format!("bytes: {byte} at {position}"),
                EVERY.as_bytes(),
                &tape,
                12,
                6,
            );
            match byte {
                33 | 126 => hand.gives(0, 46),
                _ => hand.gives(4, position as u64),
            }
        }
        let wanted = matches!(byte, 33 | 126);
        hand.add(
            &format!("bytes: {byte} alone"),
            EVERY.as_bytes(),
            &[byte],
            4,
            2,
        );
        hand.gives(if wanted { 0 } else { 4 }, if wanted { 10 } else { 0 });
    }
    hand.add("bytes: two bad ones", EVERY.as_bytes(), b"1\x7f3 5", 12, 6);
    hand.gives(4, 1);
    // A range without the letter that stands there, at either end.
    for (letter, number) in [(b'/', 5), (b'0', 0), (b'9', 0), (b':', 5)] {
        hand.exact(
            &format!("bytes: digits and {letter}"),
            LISTING,
            &[b'1', letter],
        );
        hand.gives(number, if number == 0 { 21 } else { 0 });
    }
}

/// Two causes at once: the first in the order 2, 3, 4, 6, 5, 7 is answered.
fn order(hand: &mut Hand) {
    hand.add("order: 2 before 4, 6", b"", b"a b", 0, 0);
    hand.gives(2, 0);
    hand.add("order: 4 before 6, 5", P1.as_bytes(), b"b c", 0, 0);
    hand.gives(4, 1);
    hand.add("order: 6 before 5", P1.as_bytes(), b"b", 3, 9);
    hand.gives(6, 4);
    hand.add("order: 6 before 7", P1.as_bytes(), b"a", 3, 0);
    hand.gives(6, 4);
    hand.add("order: 5 before 7", P1.as_bytes(), b"b", 4, 0);
    hand.gives(5, 0);
}

fn unreadable(hand: &mut Hand) {
    for (name, text, tape) in [
        ("P1", P1, &b"ab"[..]),
        ("P2", P2, b"aab"),
        ("P3", P3, b"abc"),
        ("P4 ends late", P4, b"abbb"),
        ("P4 ends early", P4, b"b"),
        ("P5", P5, b"aaab"),
        ("listing", LISTING, b"12W"),
        ("one L", ONE, b"b"),
        ("one L, two letters", ONE, b"aa"),
        ("one E", "0\tE\t-\n", b"a"),
        ("K over E", NO_ROUND, b"a"),
        ("16 bits", RANGES, b"q"),
    ] {
        let name = format!("unreadable: {name}");
        hand.add(&name, text.as_bytes(), tape, words_for(tape), 8);
        hand.gives(5, 0);
    }
}

/// Some of the texts that loading refuses, with tapes of every sort.
fn refused_texts(hand: &mut Hand) {
    let refused = cases::refused();
    for (index, case) in refused.iter().step_by(20).enumerate() {
        let tape: &[u8] = [&b""[..], b"a", b"3W2", b"a b"][index % 4];
        let name = format!("no table: {}", case.name);
        hand.add(&name, &case.text, tape, words_for(tape), 4);
        hand.gives(2, 0);
    }
}
