//! The cases set by hand. An answer beside a case was read from 01.

use super::Case;
use crate::cases;
use crate::codes::Code;
use crate::patterns::{LISTING, P1, P2, P3, P4, P5};
use crate::services::spelling::letters_of;
use crate::services::visits::count_of_visits;
use crate::tapes::by_hand::{NO_ROUND, ONE, RANGE, RANGES};
use crate::tapes::table_of;

/// a*
const LETTERS: &str = "0\tL\t-\ta\n1\tK\t-\t0\n";

/// Collects cases; each call is one.
pub struct Hand {
    pub cases: Vec<Case>,
}

impl Hand {
    pub fn add(
        &mut self,
        name: &str,
        text: &[u8],
        tape: &[u8],
        code: &Code,
        node: u64,
        visit: u64,
    ) {
        self.cases.push(Case {
            name: format!("{name}, node {node}, visit {visit}"),
            text: text.to_vec(),
            tape: tape.to_vec(),
            code: code.clone(),
            node,
            visit,
            expected: None,
        });
    }

    /// Sets number, start and length for the case added last.
    pub fn gives(&mut self, number: u64, start: u64, length: u64) {
        if let Some(last) = self.cases.last_mut() {
            last.expected = Some((number, start, length));
        }
    }

    /// Every node of a code, with the first visits, the last one and the one
    /// past it; and nodes outside the table.
    pub fn every(&mut self, name: &str, text: impl AsRef<[u8]>, code: &Code) {
        let text = text.as_ref();
        let table = table_of(text);
        let (bytes, count) = (&code.bytes, code.count);
        let tape = letters_of(&table, bytes, count).expect("a code");
        for node in 0..table.count {
            let visits = count_of_visits(&table, bytes, count, node as usize);
            let mut asked = vec![0, 1, visits.saturating_sub(1), visits];
            asked.sort_unstable();
            asked.dedup();
            for visit in asked {
                self.add(name, text, &tape, code, node, visit);
                if visit >= visits {
                    self.gives(10, 0, 0);
                }
            }
        }
        for node in [table.count, 64, 4_294_967_295] {
            self.add(name, text, &tape, code, node, 0);
            self.gives(10, 0, 0);
        }
    }
}

pub fn cases() -> Vec<Case> {
    let mut hand = Hand { cases: Vec::new() };
    known(&mut hand);
    to_try(&mut hand);
    bytes(&mut hand);
    long(&mut hand);
    other_tapes(&mut hand);
    order(&mut hand);
    refused_texts(&mut hand);
    hand.cases
}

/// Starts and lengths worked out by hand.
fn known(hand: &mut Hand) {
    // 01's listing: 3, then W2.
    let code = Code::written("010011001100001100101");
    for (node, visit, start, length) in [
        (5, 0, 0, 3),
        (4, 0, 0, 1),
        (4, 1, 1, 2),
        (3, 0, 0, 1),
        (2, 0, 1, 2),
        (1, 0, 1, 1),
        (0, 0, 2, 1),
    ] {
        hand.add(
            "known: listing",
            LISTING.as_bytes(),
            b"3W2",
            &code,
            node,
            visit,
        );
        hand.gives(0, start, length);
    }
    // P1 with an empty round before the letter: two rounds of `A`.
    let code = Code::written("01001");
    for (node, visit, start, length) in [
        (3, 0, 0, 1),
        (2, 0, 0, 0),
        (2, 1, 0, 1),
        (1, 0, 0, 0),
        (0, 0, 0, 1),
    ] {
        hand.add(
            "known: empty round",
            P1.as_bytes(),
            b"a",
            &code,
            node,
            visit,
        );
        hand.gives(0, start, length);
    }
    // P1 with an empty round behind the letter: it starts at the tape's end.
    hand.add(
        "known: empty round last",
        P1.as_bytes(),
        b"a",
        &Code::written("00011"),
        1,
        0,
    );
    hand.gives(0, 1, 0);
    // P3, ba: the first round reads no a and one b, the second one a.
    let code = Code::written("010100111");
    for (node, visit, start, length) in [
        (4, 0, 0, 1),
        (4, 1, 1, 1),
        (1, 0, 0, 0),
        (1, 1, 1, 1),
        (3, 0, 0, 1),
        (3, 1, 2, 0),
        (5, 0, 0, 2),
    ] {
        hand.add("known: ba", P3.as_bytes(), b"ba", &code, node, visit);
        hand.gives(0, start, length);
    }
}

fn to_try(hand: &mut Hand) {
    for (name, text, bits) in [
        ("C1", P1, "1"),
        ("C2", P1, "001"),
        ("C3", P2, "011"),
        ("C4", P3, "001011"),
        ("C5", P3, "010100111"),
        ("C6", P4, "00"),
        ("C6, code 11", P4, "11"),
        ("C7", P4, "10"),
        ("C8", P5, "01"),
        ("C10", P1, "011"),
        ("C11", P1, "01001"),
        ("four letters, empty rounds", P1, "0100000100001"),
        ("listing", LISTING, "010011001100001100101"),
        ("one L", ONE, ""),
        ("one E", "0\tE\t-\n", ""),
        ("K over E", NO_ROUND, "0001"),
        ("a range", RANGE, "01110001"),
        ("empty rounds in rounds", P3, "01101010111"),
    ] {
        hand.every(&format!("every node: {name}"), text, &Code::written(bits));
    }
}

/// Bytes 32, 33, 126 and 127: the outer ones are refused with their first
/// position, before the code is looked at.
fn bytes(hand: &mut Hand) {
    let code = Code {
        bytes: b"q~".to_vec(),
        count: 16,
    };
    hand.every("bytes: 126", RANGES, &code);
    let low = Code {
        bytes: b"q!".to_vec(),
        count: 16,
    };
    hand.every("bytes: 33", RANGES, &low);
    for byte in [0, 9, 10, 31, 32, 127, 128, 255] {
        for tape in [vec![byte], vec![b'q', byte], vec![b'q', b'~', byte, byte]] {
            hand.add(
                &format!("bytes: {byte}"),
                RANGES.as_bytes(),
                &tape,
                &code,
                0,
                0,
            );
            hand.gives(4, 0, 0);
        }
    }
    for byte in [33, 126] {
        hand.add(
            "bytes: not this tape",
            RANGES.as_bytes(),
            &[b'r', byte],
            &code,
            0,
            0,
        );
        hand.gives(8, 0, 0);
    }
}

fn rounds(bits: &str, count: usize) -> Code {
    Code::written(&(bits.repeat(count) + "1"))
}

fn long(hand: &mut Hand) {
    let tape = vec![b'a'; 3_601];
    let text = LETTERS.as_bytes();
    for (node, visit, answer) in [
        (1, 0, (0, 0, 3_600)),
        (0, 0, (0, 0, 1)),
        (0, 3_599, (0, 3_599, 1)),
        (0, 3_600, (10, 0, 0)),
        (0, 4_294_967_295, (10, 0, 0)),
    ] {
        hand.add(
            "long: 3,600 letters",
            text,
            &tape[..3_600],
            &rounds("0", 3_600),
            node,
            visit,
        );
        hand.gives(answer.0, answer.1, answer.2);
    }
    hand.add(
        "long: 3,601 letters",
        text,
        &tape,
        &rounds("0", 3_601),
        1,
        0,
    );
    hand.gives(3, 0, 0);
    hand.add(
        "long: 3,601 letters in the code",
        text,
        &tape[..3_600],
        &rounds("0", 3_601),
        1,
        0,
    );
    hand.gives(8, 0, 0);
    hand.add(
        "long: 27,000 letters in the code",
        text,
        &tape[..3_600],
        &rounds("0", 27_000),
        1,
        0,
    );
    hand.gives(8, 0, 0);
    hand.add(
        "long: 3,599 letters in the code",
        text,
        &tape[..3_600],
        &rounds("0", 3_599),
        1,
        0,
    );
    hand.gives(8, 0, 0);
    let empty = rounds("01", 9_000);
    hand.add(
        "long: 9,000 empty rounds",
        P1.as_bytes(),
        b"",
        &empty,
        1,
        8_999,
    );
    hand.gives(0, 0, 0);
    hand.add(
        "long: 9,000 empty rounds",
        P1.as_bytes(),
        b"",
        &empty,
        1,
        9_000,
    );
    hand.gives(10, 0, 0);
}

/// Codes of the pattern whose tape is another one.
fn other_tapes(hand: &mut Hand) {
    for (name, text, bits, tape) in [
        ("shorter", P1, "00001", &b"a"[..]),
        ("longer", P1, "001", b"aa"),
        ("empty", P1, "1", b"a"),
        ("of an empty tape", P1, "001", b""),
        ("same length", P3, "001011", b"ba"),
        ("last letter", LISTING, "010011001100001100101", b"3W3"),
        ("first letter", LISTING, "010011001100001100101", b"4W2"),
    ] {
        for (node, visit) in [(0, 0), (1, 0), (99, 0), (0, 7)] {
            let code = Code::written(bits);
            hand.add(
                &format!("other tape: {name}"),
                text.as_bytes(),
                tape,
                &code,
                node,
                visit,
            );
            hand.gives(8, 0, 0);
        }
    }
}

/// Two causes at once: the first in the order 2, 3, 4, 8, 10 is answered.
fn order(hand: &mut Hand) {
    let text = LETTERS.as_bytes();
    let mut tape = vec![b'a'; 3_601];
    let code = rounds("0", 3);
    hand.add("order: 2 before 3", b"", &tape, &code, 0, 0);
    hand.gives(2, 0, 0);
    tape[5] = 32;
    hand.add("order: 3 before 4", text, &tape, &code, 0, 0);
    hand.gives(3, 0, 0);
    hand.add("order: 2 before 4", b"", b" ", &code, 0, 0);
    hand.gives(2, 0, 0);
    hand.add("order: 4 before 8", text, b"a a", &code, 0, 0);
    hand.gives(4, 0, 0);
    hand.add("order: 4 before 10", text, b"aa\x7f", &code, 9, 0);
    hand.gives(4, 0, 0);
    for (name, bytes, count) in [
        ("a bit more", &[0x10][..], 5),
        ("a bit less", &[0x10], 3),
        ("padding", &[0x11], 4),
        ("a byte more", &[0x10, 0], 4),
        ("no byte", &[], 4),
        ("the greatest count", &[0x10], 4_294_967_295),
        ("a great count", &[0x10], 4_294_967_290),
    ] {
        let damaged = Code {
            bytes: bytes.to_vec(),
            count,
        };
        for (node, visit) in [(0, 0), (0, 3), (2, 0)] {
            hand.add(
                &format!("order: 8 before 10, {name}"),
                text,
                b"aaa",
                &damaged,
                node,
                visit,
            );
            hand.gives(8, 0, 0);
        }
    }
}

/// Some of the texts that loading refuses.
fn refused_texts(hand: &mut Hand) {
    let refused = cases::refused();
    for case in refused.iter().step_by(40) {
        let name = format!("no table: {}", case.name);
        hand.add(&name, &case.text, b"a", &Code::written("001"), 0, 0);
        hand.gives(2, 0, 0);
    }
}
