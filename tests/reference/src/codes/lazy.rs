//! Codes of patterns with `Z`: those worked out by hand, with one bit turned,
//! cut short, and long ones.

use super::by_hand::Hand;
use super::{Case, Code, Lent};
use crate::lazy::{name_of, tower, tower_code, CODES, SETTLED, Z1, Z13, Z17, Z2, Z3, Z5};

pub fn cases() -> Vec<Case> {
    let mut hand = Hand { cases: Vec::new() };
    to_try(&mut hand);
    buffers(&mut hand);
    no_codes(&mut hand);
    turned_bits(&mut hand);
    long(&mut hand);
    deep(&mut hand);
    hand.cases
}

fn to_try(hand: &mut Hand) {
    for (text, _, bits) in CODES {
        let name = format!("lazy: {}, {bits}", name_of(text));
        hand.exact(&name, text, &Code::written(bits));
        hand.gives(0, bits.len() as u64);
    }
    for (text, bits, settled) in SETTLED {
        let name = format!("lazy settled: {}, {bits} to {settled}", name_of(text));
        hand.exact(&name, text, &Code::written(bits));
        hand.gives(0, settled.len() as u64);
    }
}

fn buffers(hand: &mut Hand) {
    for (text, bits) in [(Z17, "110011001110001100100"), (Z3, "10110"), (Z5, "01101")] {
        let name = format!("lazy buffers: {}", name_of(text));
        hand.short(&name, text, &Code::written(bits));
    }
}

/// Bits that end before the rounds do or go on behind them, and the bits of
/// `K` where `Z` is due.
fn no_codes(hand: &mut Hand) {
    for (text, bits) in [
        (Z1, ""),
        (Z1, "1"),
        (Z1, "11"),
        (Z1, "00"),
        (Z1, "01"),
        (Z1, "100"),
        (Z2, "10"),
        (Z2, "11"),
        (Z2, "001"),
        (Z5, "0010"),
        (Z17, "010011001100001100101"),
    ] {
        let name = format!("lazy no code: {}, {bits:?}", name_of(text));
        hand.exact(&name, text, &Code::written(bits));
        hand.gives(8, 0);
    }
    let lent = Lent {
        letters: 8,
        words: 18,
        bytes: 4,
    };
    for (name, bytes, count) in [
        ("a bit more", &[0x80][..], 3),
        ("a bit less", &[0x80], 1),
        ("no byte", &[], 2),
        ("a byte more", &[0x80, 0], 2),
        ("padding", &[0x81], 2),
        ("the greatest count", &[0x80], 4_294_967_295),
    ] {
        let code = Code {
            bytes: bytes.to_vec(),
            count,
        };
        hand.add(
            &format!("lazy no code: Z1, {name}"),
            Z1.as_bytes(),
            &code,
            lent,
        );
        hand.gives(8, 0);
    }
}

/// Each bit turned alone. Some of these are codes of another tape.
fn turned_bits(hand: &mut Hand) {
    for (text, bits) in [
        (Z17, "110011001110001100100"),
        (Z13, "110010100"),
        (Z5, "0100101"),
    ] {
        for position in 0..bits.len() {
            let turned = |(at, bit): (usize, u8)| (bit == b'1') != (at == position);
            let changed: Vec<bool> = bits.bytes().enumerate().map(turned).collect();
            let name = format!("lazy bit turned: {}, {position}", name_of(text));
            hand.exact(&name, text, &Code::of_bits(&changed));
        }
    }
}

/// So many rounds of these bits, and the end of the rounds.
fn rounds(bits: &str, count: usize) -> Code {
    Code::written(&(bits.repeat(count) + "0"))
}

fn long(hand: &mut Hand) {
    hand.short("lazy long: aZ, 3,600 letters", Z1, &rounds("1", 3_600));
    let all = Lent {
        letters: 3_700,
        words: 7_210,
        bytes: 8_192,
    };
    for count in [3_601, 27_000] {
        let name = format!("lazy long: aZ, {count} letters");
        hand.add(&name, Z1.as_bytes(), &rounds("1", count), all);
        hand.gives(3, 0);
    }
    hand.exact("lazy long: 13,000 empty rounds", Z2, &rounds("11", 13_000));
    hand.gives(0, 1);
    hand.exact(
        "lazy long: every other round empty",
        Z2,
        &rounds("1011", 3_600),
    );
    hand.gives(0, 7_201);
}

/// 63 `Z` over a range, 240 letters: the code that settles to itself, and that
/// of the innermost `Z` taking them all.
fn deep(hand: &mut Hand) {
    let text = tower(64, &['Z']);
    let tape: Vec<u8> = (33..=126).cycle().take(240).collect();
    let settled = tower_code(63, &tape);
    hand.exact("lazy long: 63 Z, settled", &text, &Code::of_bits(&settled));
    hand.gives(0, settled.len() as u64);
    let mut bits = vec![true; 62];
    for letter in tape {
        bits.push(true);
        bits.extend((0..8).rev().map(|power| letter >> power & 1 == 1));
    }
    bits.extend([false; 63]);
    hand.exact("lazy long: 63 Z, one round", &text, &Code::of_bits(&bits));
    hand.gives(0, settled.len() as u64);
}
