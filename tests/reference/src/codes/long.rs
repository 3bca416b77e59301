//! Codes that spell 3,600 letters, one letter more, and far more.

use super::by_hand::Hand;
use super::{Case, Code, Lent};
use crate::patterns::P1;

/// a*
const LETTERS: &str = "0\tL\t-\ta\n1\tK\t-\t0\n";
/// (0 | 5)* with an account to each side.
const DIGITS: &str = "0\tL\t3\t0\n1\tL\t7\t5\n2\tA\t-\t0\t1\n3\tK\t-\t2\n";

pub fn cases() -> Vec<Case> {
    let mut hand = Hand { cases: Vec::new() };
    one_bit_a_letter(&mut hand);
    words_of_letters(&mut hand);
    empty_rounds(&mut hand);
    order(&mut hand);
    hand.cases
}

/// So many rounds of these bits, and the end of the rounds.
fn rounds(bits: &str, count: usize) -> Code {
    Code::written(&(bits.repeat(count) + "1"))
}

fn one_bit_a_letter(hand: &mut Hand) {
    hand.short("long: a*, 3,600 letters", LETTERS, &rounds("0", 3_600));
    hand.exact("long: a*, 3,599 letters", LETTERS, &rounds("0", 3_599));
    hand.gives(0, 3_600);
    hand.exact("long: digits, 3,600 letters", DIGITS, &rounds("01", 3_600));
    hand.gives(0, 7_201);
    let all = Lent {
        letters: 3_700,
        words: 7_210,
        bytes: 8_192,
    };
    for (name, text, code) in [
        ("a*, 3,601 letters", LETTERS, rounds("0", 3_601)),
        ("a*, 3,602 letters", LETTERS, rounds("0", 3_602)),
        ("a*, 27,000 letters", LETTERS, rounds("0", 27_000)),
        ("digits, 3,601 letters", DIGITS, rounds("01", 3_601)),
    ] {
        hand.add(&format!("long: {name}"), text.as_bytes(), &code, all);
        hand.gives(3, 0);
    }
}

/// A `K` over 24 letters, and that before one letter more.
fn words_of_letters(hand: &mut Hand) {
    let mut text = "0\tL\t2\t1\n".to_string();
    for letter in 1..24 {
        let line = 2 * letter - 1;
        let before = if letter == 1 { 0 } else { line - 1 };
        text += &format!("{line}\tL\t-\t{}\n", letter % 10);
        text += &format!("{}\tS\t-\t{before}\t{line}\n", line + 1);
    }
    text += "47\tK\t-\t46\n";
    let longer = format!("{text}48\tL\t-\t9\n49\tS\t4\t47\t48\n");
    hand.exact("long: words, 3,600 letters", &text, &rounds("0", 150));
    hand.gives(0, 151);
    let all = Lent {
        letters: 3_700,
        words: 7_210,
        bytes: 8_192,
    };
    for (name, text, count) in [
        ("words, 3,601 letters", &longer, 150),
        ("words, 3,624 letters", &text, 151),
        ("words, 480,000 letters", &text, 20_000),
    ] {
        let name = format!("long: {name}");
        hand.add(&name, text.as_bytes(), &rounds("0", count), all);
        hand.gives(3, 0);
    }
}

fn empty_rounds(hand: &mut Hand) {
    hand.exact("long: 13,000 empty rounds", P1, &rounds("01", 13_000));
    hand.gives(0, 1);
    hand.exact("long: every other round empty", P1, &rounds("0001", 3_600));
    hand.gives(0, 7_201);
}

/// Two causes at once: the first in the order 2, 8, 3, 9 is answered.
fn order(hand: &mut Hand) {
    let none = Lent {
        letters: 0,
        words: 0,
        bytes: 0,
    };
    let code = rounds("0", 3_601);
    hand.add("long: 3 before 9", LETTERS.as_bytes(), &code, none);
    hand.gives(3, 0);
    let mut more = code.clone();
    more.count += 1;
    hand.add("long: 8 before 3", LETTERS.as_bytes(), &more, none);
    hand.gives(8, 0);
    let mut padded = code.clone();
    *padded.bytes.last_mut().expect("a byte") |= 1;
    hand.add(
        "long: 8 before 3, padding",
        LETTERS.as_bytes(),
        &padded,
        none,
    );
    hand.gives(8, 0);
    hand.add("long: 2 before 3", b"", &code, none);
    hand.gives(2, 0);
}
