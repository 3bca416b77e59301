//! The cases set by hand, with their answers.

use super::{Case, Expected};
use crate::hot::{H1, H2, H3, H4, H5, H7, H8};
use crate::lazy::{tower, Z1, Z10, Z13, Z16, Z17, Z4};
use crate::patterns::{LISTING, P1, P2, P3, P4, P5};
use crate::services::MOST_LETTERS;
use crate::tapes::by_hand::EVERY;

/// A pattern, a tape, how far it begins a tape and from where on it ends one.
pub type Row = (&'static [u8], &'static [u8], u64, u64);

pub const ROWS: [Row; 62] = [
    // a*, written with rounds that may be empty
    (P1.as_bytes(), b"", 0, 0),
    (P1.as_bytes(), b"a", 1, 0),
    (P1.as_bytes(), b"b", 0, 1),
    (P1.as_bytes(), b"aab", 2, 3),
    (P1.as_bytes(), b"baa", 0, 1),
    (P1.as_bytes(), b"aabaa", 2, 3),
    (P1.as_bytes(), b"abaca", 1, 4),
    (P2.as_bytes(), b"", 0, 0),
    (P2.as_bytes(), b"aa", 2, 0),
    (P2.as_bytes(), b"aba", 1, 2),
    // Every word of a and b
    (P3.as_bytes(), b"abba", 4, 0),
    (P3.as_bytes(), b"abcba", 2, 3),
    (P3.as_bytes(), b"c", 0, 1),
    // a, ab and abb, and no others
    (P4.as_bytes(), b"", 0, 0),
    (P4.as_bytes(), b"a", 1, 0),
    (P4.as_bytes(), b"ab", 2, 0),
    (P4.as_bytes(), b"abb", 3, 0),
    (P4.as_bytes(), b"b", 0, 0),
    (P4.as_bytes(), b"bb", 0, 0),
    (P4.as_bytes(), b"bbb", 0, 1),
    (P4.as_bytes(), b"abbb", 3, 2),
    (P4.as_bytes(), b"ba", 0, 1),
    (P4.as_bytes(), b"aa", 1, 1),
    (P4.as_bytes(), b"aab", 1, 1),
    (P4.as_bytes(), b"abab", 2, 2),
    (P4.as_bytes(), b"abc", 2, 3),
    // a, once or more often: without a letter a tape stops too early
    (P5.as_bytes(), b"", 0, 0),
    (P5.as_bytes(), b"aa", 2, 0),
    (P5.as_bytes(), b"ab", 1, 2),
    (P5.as_bytes(), b"ba", 0, 1),
    (P5.as_bytes(), b"aba", 1, 2),
    // Digits, and W before one
    (LISTING.as_bytes(), b"", 0, 0),
    (LISTING.as_bytes(), b"3W2", 3, 0),
    (LISTING.as_bytes(), b"W2", 2, 0),
    (LISTING.as_bytes(), b"W", 1, 1),
    (LISTING.as_bytes(), b"3W", 2, 2),
    (LISTING.as_bytes(), b"3W2W", 4, 4),
    (LISTING.as_bytes(), b"3x2", 1, 2),
    (LISTING.as_bytes(), b"WW", 1, 2),
    (LISTING.as_bytes(), b"3WW2", 2, 2),
    (LISTING.as_bytes(), b"3WxW2", 2, 3),
    (LISTING.as_bytes(), b"xW2", 0, 1),
    (LISTING.as_bytes(), b"W2x", 2, 3),
    // A lazy star has the language of the other one.
    (Z1.as_bytes(), b"aab", 2, 3),
    (Z4.as_bytes(), b"aba", 1, 2),
    (Z10.as_bytes(), b"", 0, 0),
    (Z10.as_bytes(), b"ba", 0, 1),
    (Z13.as_bytes(), b"abc", 2, 3),
    (Z16.as_bytes(), b"", 0, 0),
    (Z16.as_bytes(), b"a", 0, 1),
    (Z17.as_bytes(), b"3W", 2, 2),
    (Z17.as_bytes(), b"3WW2", 2, 2),
    // A hot letter is never taken for the cold one with the same low bits.
    (H1, b"\xe4d\xe4", 1, 2),
    (H3, b"a\xfe\xfe", 3, 0),
    (H3, b"a~", 1, 2),
    (H3, b"\xfe", 0, 0),
    (H4, b"3W\xa1", 2, 2),
    (H5, b"~}\xa1", 1, 2),
    (H7, b"!~\xa1\xfe", 4, 0),
    (H8, b"\xc3", 1, 1),
    (H8, b"\xa4\xc3", 0, 2),
    (H8, b"\xc3\xc3\xa4", 1, 1),
];

/// A pattern, a tape that it reads, and a letter that it never reads.
const READ: [(&[u8], &[u8], u8); 9] = [
    (P1.as_bytes(), b"aaaa", b'b'),
    (P3.as_bytes(), b"abbaab", b'c'),
    (P4.as_bytes(), b"abb", b'#'),
    (P5.as_bytes(), b"aaa", b'A'),
    (LISTING.as_bytes(), b"3W2W15", b'x'),
    (Z13.as_bytes(), b"baab", b'#'),
    (Z17.as_bytes(), b"W94W0", b'w'),
    (H2, b"\xe1\xe2\xe2\xe1", b'a'),
    (H4, b"3W2\xa1\xfe7", b'~'),
];

/// aba and no other tape
const ABA: &str = "0\tL\t-\ta\n1\tL\t-\tb\n2\tL\t-\ta\n3\tS\t-\t1\t2\n4\tS\t-\t0\t3\n";

/// Collects cases; each call is one.
struct Hand {
    cases: Vec<Case>,
}

impl Hand {
    fn add(&mut self, name: &str, text: impl AsRef<[u8]>, tape: &[u8], expected: Expected) {
        self.cases.push(Case {
            name: name.to_string(),
            text: text.as_ref().to_vec(),
            tape: tape.to_vec(),
            expected: Some(expected),
        });
    }

    fn at(&mut self, name: &str, text: impl AsRef<[u8]>, tape: &[u8], reach: u64, resume: u64) {
        self.add(name, text, tape, Expected::Positions(reach, resume));
    }

    fn refused(
        &mut self,
        name: &str,
        text: impl AsRef<[u8]>,
        tape: &[u8],
        number: u64,
        value: u64,
    ) {
        self.add(name, text, tape, Expected::Refused(number, value));
    }
}

pub fn cases() -> Vec<Case> {
    let mut hand = Hand { cases: Vec::new() };
    for (row, (text, tape, reach, resume)) in ROWS.into_iter().enumerate() {
        hand.at(&format!("where: row {row}"), text, tape, reach, resume);
    }
    breaks(&mut hand);
    both(&mut hand);
    early(&mut hand);
    bytes(&mut hand);
    order(&mut hand);
    no_tables(&mut hand);
    long(&mut hand);
    hand.cases
}

/// A tape that is read, and each of its letters made one that is not.
fn breaks(hand: &mut Hand) {
    for (text, tape, unread) in READ {
        let length = tape.len() as u64;
        hand.at("break: none", text, tape, length, 0);
        for position in 0..length {
            let mut broken = tape.to_vec();
            broken[position as usize] = unread;
            let name = format!("break: at {position} of {length}");
            hand.at(&name, text, &broken, position, position + 1);
        }
        // Both ends at once: between them nothing begins a tape or ends one.
        let mut broken = tape.to_vec();
        broken[0] = unread;
        broken[tape.len() - 1] = unread;
        hand.at("break: both ends", text, &broken, 0, length);
    }
}

/// Letters that begin a tape and end one, and are none.
fn both(hand: &mut Hand) {
    hand.at("both: a of aba", ABA, b"a", 1, 0);
    hand.at("both: ab of aba", ABA, b"ab", 2, 2);
    hand.at("both: ba of aba", ABA, b"ba", 0, 0);
    hand.at("both: abba of aba", ABA, b"abba", 2, 2);
    hand.at("both: abaa of aba", ABA, b"abaa", 3, 3);
    hand.at("both: aaba of aba", ABA, b"aaba", 1, 1);
}

/// A tape that stops behind each letter. Behind a W there is a digit to come.
fn early(hand: &mut Hand) {
    let tape = b"3W2W15";
    for length in 0..=tape.len() {
        let cut = &tape[..length];
        let resume = match cut.last() {
            Some(b'W') => length as u64,
            _ => 0,
        };
        let name = format!("early: {length} letters");
        hand.at(&name, LISTING, cut, length as u64, resume);
        hand.at(&format!("{name}, Z"), Z17, cut, length as u64, resume);
    }
}

/// Bytes on either side of a limit, behind a letter.
fn bytes(hand: &mut Hand) {
    for byte in [
        0, 9, 10, 32, 33, 47, 48, 57, 58, 86, 87, 88, 126, 127, 128, 160, 161, 176, 185, 215, 254,
        255,
    ] {
        let name = format!("byte: {byte}");
        let tape = [b'1', byte];
        match byte {
            48..=57 => hand.at(&name, LISTING, &tape, 2, 0),
            87 => hand.at(&name, LISTING, &tape, 2, 2),
            33..=126 | 161..=254 => hand.at(&name, LISTING, &tape, 1, 2),
            _ => hand.refused(&name, LISTING, &tape, 4, 1),
        }
    }
}

/// 2, 3, 4, each with all behind it.
fn order(hand: &mut Hand) {
    let (bad, letters) = ([b' '; MOST_LETTERS + 1], [b'3'; MOST_LETTERS + 1]);
    hand.refused("order: 2, 3, 4", "", &bad, 2, 0);
    hand.refused("order: 2, 4", "", b"3 ", 2, 0);
    hand.refused("order: 2", "", b"3", 2, 0);
    hand.refused("order: 3, 4", LISTING, &bad, 3, 0);
    hand.refused("order: 3", LISTING, &letters, 3, 0);
    hand.refused(
        "order: 4, unreadable before it",
        LISTING,
        b"xx\x7f\x80",
        4,
        2,
    );
    hand.refused("order: 4, first of two", LISTING, b"\xff3 ", 4, 0);
    hand.at("order: none", LISTING, &letters[..MOST_LETTERS], 3_600, 0);
}

/// Texts that do not load.
fn no_tables(hand: &mut Hand) {
    for text in [
        "\n",
        "0\tE\t-",
        "0\tE\t201\n",
        "0\tK\t-\t0\n",
        "0\tE\t-\n1\tE\t-\n",
    ] {
        hand.refused("no table: no letters", text, b"", 2, 0);
        hand.refused("no table: a letter", text, b"a", 2, 0);
    }
}

/// 3,600 letters, read and broken near both ends and in the middle, also under 63
/// stars; one letter less and one more.
fn long(hand: &mut Hand) {
    let mut tape = vec![b'7'; MOST_LETTERS];
    let towers = [&['K'][..], &['Z'], &['K', 'Z']].map(|kinds| tower(64, kinds));
    for text in [LISTING, EVERY, &towers[0], &towers[1], &towers[2]] {
        hand.at("long: read", text, &tape, 3_600, 0);
        hand.at("long: a letter less", text, &tape[1..], 3_599, 0);
        for position in [0, 1, 1_800, 3_598, 3_599] {
            tape[position] = 200;
            let name = format!("long: broken at {position}");
            let at = position as u64;
            hand.at(&name, text, &tape, at, at + 1);
            tape[position] = 160;
            let name = format!("long: byte 160 at {position}");
            hand.refused(&name, text, &tape, 4, at);
            tape[position] = b'7';
        }
    }
    let longer = vec![b'7'; MOST_LETTERS + 1];
    hand.refused("long: 3,601 letters", EVERY, &longer, 3, 0);
    hand.refused("long: 3,601 letters, Z", &towers[1], &longer, 3, 0);
    // A tape of three letters at most, and 3,600.
    tape.fill(b'a');
    hand.at("long: P4", P4, &tape, 1, 3_599);
    tape[3_599] = b'W';
    tape[..3_599].fill(b'0');
    hand.at("long: a W last", LISTING, &tape, 3_600, 3_600);
}
