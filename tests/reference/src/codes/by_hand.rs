//! The cases set by hand. An answer beside a case was read from 01.

use super::{just_enough, Case, Code, Lent};
use crate::cases;
use crate::patterns::{LISTING, P1, P2, P3, P4, P5};
use crate::services::totals::Totals;
use crate::tapes::by_hand::{NO_ROUND, ONE, RANGE, RANGES};
use crate::tapes::table_of;

/// Collects cases; each call is one.
pub struct Hand {
    pub cases: Vec<Case>,
}

impl Hand {
    pub fn add(&mut self, name: &str, text: &[u8], code: &Code, lent: Lent) {
        self.cases.push(Case {
            name: name.to_string(),
            text: text.to_vec(),
            code: code.clone(),
            lent,
            expected: None,
            litres: None,
        });
    }

    /// Sets the answer of settling for the case added last.
    pub fn gives(&mut self, number: u64, value: u64) {
        if let Some(last) = self.cases.last_mut() {
            last.expected = Some((number, value));
        }
    }

    /// Sets the totals for the case added last.
    pub fn totals(&mut self, litres: Totals) {
        if let Some(last) = self.cases.last_mut() {
            last.litres = Some(litres);
        }
    }

    /// A case with buffers just long enough.
    pub fn exact(&mut self, name: &str, text: impl AsRef<[u8]>, code: &Code) {
        let lent = just_enough(&table_of(text.as_ref()), code);
        self.add(name, text.as_ref(), code, lent);
    }

    /// Every buffer just long enough and one cell short, each with each.
    pub fn short(&mut self, name: &str, text: impl AsRef<[u8]>, code: &Code) {
        let enough = just_enough(&table_of(text.as_ref()), code);
        for short in 0..8 {
            let lent = Lent {
                letters: enough.letters.saturating_sub(short & 1),
                words: enough.words - (short >> 1 & 1),
                bytes: enough.bytes.saturating_sub(short >> 2),
            };
            let name = format!(
                "{name}, {} cells, {} words, {} bytes",
                lent.letters, lent.words, lent.bytes
            );
            self.add(&name, text.as_ref(), code, lent);
            if lent.letters < enough.letters {
                self.gives(9, enough.letters as u64);
            } else if lent.words < enough.words {
                self.gives(6, enough.words as u64);
            } else if lent.bytes < enough.bytes {
                self.gives(7, enough.bytes as u64);
            }
        }
    }
}

pub fn cases() -> Vec<Case> {
    let mut hand = Hand { cases: Vec::new() };
    tapes_to_try(&mut hand);
    buffers(&mut hand);
    counts(&mut hand);
    padding(&mut hand);
    ranges(&mut hand);
    refused_texts(&mut hand);
    hand.cases
}

/// C1 to C11, of which C9 has no code; the listing, and codes of no bits.
fn tapes_to_try(hand: &mut Hand) {
    for (name, text, bits, value) in [
        ("C1", P1, "1", 1),
        ("C2", P1, "001", 3),
        ("C3", P2, "011", 3),
        ("C4", P3, "001011", 6),
        ("C5", P3, "010100111", 9),
        ("C6", P4, "00", 2),
        ("C6, code 11", P4, "11", 2),
        ("C7", P4, "10", 2),
        ("C8", P5, "01", 2),
        ("C10", P1, "011", 1),
        ("C11", P1, "01001", 3),
        ("listing", LISTING, "010011001100001100101", 21),
        ("one L", ONE, "", 0),
        ("one E", "0\tE\t-\n", "", 0),
        ("K over E", NO_ROUND, "0001", 1),
    ] {
        let code = Code::written(bits);
        hand.exact(&format!("to try: {name}"), text, &code);
        hand.gives(0, value);
        let lent = Lent {
            letters: 9,
            words: 20,
            bytes: 5,
        };
        let name = format!("to try: {name}, long buffers");
        hand.add(&name, text.as_bytes(), &code, lent);
        hand.gives(0, value);
    }
}

fn buffers(hand: &mut Hand) {
    for (name, text, code) in [
        ("listing", LISTING, Code::written("010011001100001100101")),
        ("C5", P3, Code::written("010100111")),
        ("C11", P1, Code::written("01001")),
        (
            "four letters, empty rounds",
            P1,
            Code::written("0100000100001"),
        ),
        ("C6, code 11", P4, Code::written("11")),
        (
            "16 bits",
            RANGES,
            Code {
                bytes: b"q~".to_vec(),
                count: 16,
            },
        ),
    ] {
        hand.short(&format!("buffers: {name}"), text, &code);
    }
}

/// Counts that do not fit the bytes, up to the greatest there is.
fn counts(hand: &mut Hand) {
    let lent = Lent {
        letters: 8,
        words: 18,
        bytes: 4,
    };
    for (name, text, bytes, good) in [
        ("C11", P1, &[0b0100_1000][..], 5),
        ("8 bits", RANGE, b"q", 8),
        ("no bits", ONE, b"", 0),
    ] {
        for count in [
            0,
            1,
            7,
            8,
            9,
            16,
            17,
            65_536,
            524_288,
            524_289,
            4_294_967_288,
        ]
        .into_iter()
        .chain([4_294_967_289, 4_294_967_294, 4_294_967_295])
        .filter(|&count| count != good)
        {
            let code = Code {
                bytes: bytes.to_vec(),
                count,
            };
            let name = format!("counts: {name}, {count}");
            hand.add(&name, text.as_bytes(), &code, lent);
            hand.gives(8, 0);
        }
    }
}

/// Unused bits that are not 0, and bytes that are too many.
fn padding(hand: &mut Hand) {
    let lent = Lent {
        letters: 8,
        words: 18,
        bytes: 4,
    };
    for (name, text, bytes, count) in [
        ("lowest bit", P1, &[0b0010_0001][..], 3),
        ("bit after the last", P1, &[0b0011_0000], 3),
        ("all bits", P1, &[0b0011_1111], 3),
        ("second byte", P3, &[0x53, 0x81], 9),
        ("a byte of zeros more", P1, &[0b0010_0000, 0], 3),
        ("a byte for no bits", ONE, &[0], 0),
        ("no byte", P1, &[], 3),
        ("a byte short", P3, &[0x53], 9),
    ] {
        let code = Code {
            bytes: bytes.to_vec(),
            count,
        };
        hand.add(&format!("padding: {name}"), text.as_bytes(), &code, lent);
        hand.gives(8, 0);
    }
}

/// Letters at the limits of a range and next to them.
fn ranges(hand: &mut Hand) {
    for letter in [b'a' - 1, b'a', b'z', b'z' + 1, 0, 127, 128, 255] {
        let code = Code {
            bytes: vec![letter],
            count: 8,
        };
        hand.exact(&format!("ranges: {letter} of a to z"), RANGE, &code);
        match letter {
            b'a' | b'z' => hand.gives(0, 8),
            _ => hand.gives(8, 0),
        }
    }
    for (first, second, number) in [
        (b'q', 127, 8),
        (b'q', 32, 8),
        (b'A', b'!', 8),
        (b'q', b'!', 0),
    ] {
        let code = Code {
            bytes: vec![first, second],
            count: 16,
        };
        hand.exact(&format!("ranges: {first} and {second}"), RANGES, &code);
        hand.gives(number, if number == 0 { 16 } else { 0 });
    }
}

/// Some of the texts that loading refuses, with codes of every sort.
fn refused_texts(hand: &mut Hand) {
    let refused = cases::refused();
    for (index, case) in refused.iter().step_by(30).enumerate() {
        let mut code = Code::written(["", "1", "01001", "010100111"][index % 4]);
        code.count += index as u64 / 4 % 2;
        let lent = Lent {
            letters: 2 * (index % 2),
            words: 6,
            bytes: 4,
        };
        let name = format!("no table: {}", case.name);
        hand.add(&name, &case.text, &code, lent);
        hand.gives(2, 0);
    }
}
