//! Codes with letters of the hot side: every byte as the eight bits of a
//! letter under ranges of each sort, codes worked out by hand, with one bit
//! turned, and long ones.

use super::by_hand::Hand;
use super::{Case, Code, Lent};
use crate::hot::{self, name_of, CODES, H1, H4, H5, H6, H7, H9, NO_CODES, SETTLED};
use crate::services::MOST_LETTERS;

/// Some cells of each buffer, for codes that are refused.
const SOME: Lent = Lent {
    letters: 8,
    words: 18,
    bytes: 4,
};

pub fn cases() -> Vec<Case> {
    let mut hand = Hand { cases: Vec::new() };
    letters(&mut hand);
    no_letters(&mut hand);
    to_try(&mut hand);
    buffers(&mut hand);
    digits(&mut hand);
    named_bytes(&mut hand);
    turned_bits(&mut hand);
    long(&mut hand);
    hand.cases
}

fn bits_of(letter: u8) -> impl Iterator<Item = bool> {
    (0..8).rev().map(move |power| letter >> power & 1 == 1)
}

/// The bits of a `K` that reads each of these letters in a round.
fn rounds(letters: &[u8]) -> Code {
    let mut bits = Vec::new();
    for &letter in letters {
        bits.push(false);
        bits.extend(bits_of(letter));
    }
    bits.push(true);
    Code::of_bits(&bits)
}

fn is_in(range: (u8, u8), byte: u8) -> bool {
    (range.0..=range.1).contains(&byte) && hot::letters().contains(&byte)
}

/// All letters of a range in one code, then its ends alone.
fn letters(hand: &mut Hand) {
    for (name, low, high) in hot::RANGES {
        let own = hot::letters().into_iter();
        let own: Vec<u8> = own.filter(|&byte| is_in((low, high), byte)).collect();
        let text = hot::many(low, high);
        hand.exact(&format!("hot letters: those {name}"), &text, &rounds(&own));
        hand.gives(0, 9 * own.len() as u64 + 1);
    }
    for (name, low, high) in hot::RANGES {
        let text = hot::range(low, high);
        for byte in [low, high] {
            let code = Code::of_bits(&bits_of(byte).collect::<Vec<bool>>());
            hand.exact(&format!("hot letters: {byte}, {name}"), &text, &code);
            hand.gives(0, 8);
        }
    }
}

/// Every byte that is no letter of the range, alone.
fn no_letters(hand: &mut Hand) {
    for (name, low, high) in hot::RANGES {
        let text = hot::range(low, high);
        for byte in (0..=255).filter(|&byte| !is_in((low, high), byte)) {
            let code = Code {
                bytes: vec![byte],
                count: 8,
            };
            hand.add(&format!("hot bytes: {byte}, {name}"), &text, &code, SOME);
            hand.gives(8, 0);
        }
    }
}

fn to_try(hand: &mut Hand) {
    for (text, _, bits) in CODES {
        let name = format!("hot: {}, {bits}", name_of(text));
        hand.exact(&name, text, &Code::written(bits));
        hand.gives(0, bits.len() as u64);
    }
    for (text, bits, settled) in SETTLED {
        let name = format!("hot settled: {}, {bits} to {settled}", name_of(text));
        hand.exact(&name, text, &Code::written(bits));
        hand.gives(0, settled.len() as u64);
    }
    for (text, bits, byte) in NO_CODES {
        let name = format!("hot no code: {}, {byte}", name_of(text));
        hand.add(&name, text, &Code::written(bits), SOME);
        hand.gives(8, 0);
    }
}

fn buffers(hand: &mut Hand) {
    for (text, bits) in [
        (H4, "001001100110110110011000001100101"),
        (H9, "0001111110010010100001011"),
        (H6, "1101000011111111100"),
    ] {
        let name = format!("hot buffers: {}", name_of(text));
        hand.short(&name, text, &Code::written(bits));
    }
}

/// "Letters `0` to `9` count 0 to 9 litres, others none": 176 to 185 are
/// others. First these alone, then all letters, with an account each.
fn digits(hand: &mut Hand) {
    let hot_digits: Vec<u8> = (176..=185).collect();
    hand.exact("hot digits: alone", H7, &rounds(&hot_digits));
    hand.gives(0, 91);
    let both: Vec<u8> = (48..=57).chain(176..=185).collect();
    hand.exact("hot digits: behind digits", H7, &rounds(&both));
    hand.gives(0, 181);
    let accounted = b"0\tR\t3\t!\t\xfe\n1\tK\t7\t0\n";
    hand.exact(
        "hot digits: all letters",
        accounted,
        &rounds(&hot::letters()),
    );
    hand.gives(0, 1_693);
    let one = b"0\tL\t5\t\xb9\n1\tL\t-\t9\n2\tS\t6\t0\t1\n";
    hand.exact("hot digits: 185 and 9 as letters", one, &Code::written(""));
    hand.gives(0, 0);
}

/// One byte that is no letter in the place of the first, a middle and the last
/// letter of a code.
fn named_bytes(hand: &mut Hand) {
    for byte in [0, 9, 10, 32, 127, 128, 144, 159, 160, 255] {
        for at in [0, 2, 4] {
            let mut tape = *b"!~5\xa1\xfe";
            tape[at] = byte;
            hand.add(
                &format!("hot bytes: {byte} at {at}"),
                H7,
                &rounds(&tape),
                SOME,
            );
            hand.gives(8, 0);
        }
    }
}

/// Each bit turned alone. Some of these are codes of another tape: with the
/// highest bit of a letter turned, a cold one is a hot one.
fn turned_bits(hand: &mut Hand) {
    for (text, bits) in [
        (H4, "001001100110110110011000001100101"),
        (H5, "0011111100101000011"),
        (H7, "0010001000110001001"),
    ] {
        for position in 0..bits.len() {
            let turned = |(at, bit): (usize, u8)| (bit == b'1') != (at == position);
            let changed: Vec<bool> = bits.bytes().enumerate().map(turned).collect();
            let name = format!("hot bit turned: {}, {position}", name_of(text));
            hand.exact(&name, text, &Code::of_bits(&changed));
        }
    }
}

fn long(hand: &mut Hand) {
    let all: Vec<u8> = hot::letters().into_iter().cycle().take(3_601).collect();
    hand.exact("hot long: every letter", H7, &rounds(&all[..MOST_LETTERS]));
    hand.gives(0, 32_401);
    let above: Vec<u8> = (161..=254).cycle().take(MOST_LETTERS).collect();
    hand.exact("hot long: letters above the gap", H7, &rounds(&above));
    hand.gives(0, 32_401);
    let mut bad = above;
    bad[MOST_LETTERS - 1] = 160;
    hand.add("hot long: 160 at its end", H7, &rounds(&bad), SOME);
    hand.gives(8, 0);
    hand.add("hot long: 3,601 letters", H7, &rounds(&all), SOME);
    hand.gives(3, 0);
    // A letter and an empty round in turn.
    let emptied = Code::written(&("0001".repeat(MOST_LETTERS) + "1"));
    hand.exact("hot long: every other round empty", H1, &emptied);
    hand.gives(0, 7_201);
}
