//! Tapes with letters of the hot side, and with bytes that are none: every
//! byte under ranges of each sort, codes worked out by hand, buffers, and long
//! tapes.

use super::by_hand::Hand;
use super::long::repeated;
use super::{bytes_for, words_for, Case};
use crate::hot::{self, name_of, CODES, H1, H4, H5, H6, H7, H9, UNREADABLE};
use crate::services::MOST_LETTERS;

pub fn cases() -> Vec<Case> {
    let mut hand = Hand { cases: Vec::new() };
    letters(&mut hand);
    no_letters(&mut hand);
    to_try(&mut hand);
    two_bytes(&mut hand);
    order(&mut hand);
    buffers(&mut hand);
    long(&mut hand);
    hand.cases
}

/// All letters on one tape, each with the side that tells whether the range
/// has it; then those of the range alone, and letters next to its ends.
fn letters(hand: &mut Hand) {
    let all = hot::letters();
    for (name, low, high) in hot::RANGES {
        let text = hot::asked(low, high);
        hand.exact(&format!("hot letters: all, {name}"), &text, &all);
        hand.gives(0, 10 * all.len() as u64 + 1);
        let text = hot::many(low, high);
        let inside = |byte: &&u8| (low..=high).contains(*byte);
        let own: Vec<u8> = all.iter().filter(inside).copied().collect();
        hand.exact(&format!("hot letters: those {name}"), &text, &own);
        hand.gives(0, 9 * own.len() as u64 + 1);
        let before = all.iter().rfind(|&&byte| byte < low);
        let after = all.iter().find(|&&byte| byte > high);
        for &letter in before.into_iter().chain(after) {
            let name = format!("hot letters: {letter} is not {name}");
            hand.exact(&name, &text, &[low, letter]);
            hand.gives(5, 0);
        }
    }
}

/// Every other byte, behind none, one or two letters.
fn no_letters(hand: &mut Hand) {
    for (name, low, high) in hot::RANGES {
        let text = hot::many(low, high);
        for (index, byte) in hot::no_letters().into_iter().enumerate() {
            let at = index % 3;
            let mut tape = vec![low, high, high];
            tape[at] = byte;
            hand.add(&format!("hot bytes: {byte}, {name}"), &text, &tape, 8, 4);
            hand.gives(4, at as u64);
        }
    }
}

fn to_try(hand: &mut Hand) {
    for (text, tape, bits) in CODES {
        let tape_shown = tape.escape_ascii();
        let name = format!("hot: {} on {tape_shown}", name_of(text));
        hand.exact(&name, text, tape);
        hand.gives(0, bits.len() as u64);
    }
    for (text, tape) in UNREADABLE {
        let tape_shown = tape.escape_ascii();
        let name = format!("hot unreadable: {} on {tape_shown}", name_of(text));
        hand.add(&name, text, tape, words_for(tape), 8);
        hand.gives(5, 0);
    }
}

/// "A letter is one byte", however many an editor writes: of the bytes that
/// UTF-8 has for some, all are letters, of others not.
fn two_bytes(hand: &mut Hand) {
    for (tape, number, value) in [
        ("ä", 0, 19),
        ("Zähler", 0, 64),
        ("é", 0, 19),
        ("Ö", 4, 1),
        ("aÖ", 4, 2),
        ("€", 4, 1),
        ("\u{feff}a", 0, 37),
    ] {
        hand.exact(&format!("hot: {tape:?} in UTF-8"), H7, tape.as_bytes());
        hand.gives(number, value);
    }
}

/// Two causes at once: the first in the order 2, 3, 4, 6, 5, 7 is answered.
fn order(hand: &mut Hand) {
    hand.add("hot order: 2 before 4", b"0\tL\t-\t\xa0\n", b"\xa0", 4, 4);
    hand.gives(2, 0);
    hand.add("hot order: 4 before 6, 5", H1, b"d\xe4\xa0\x7f", 0, 0);
    hand.gives(4, 2);
    hand.add("hot order: 6 before 5", H1, b"d", 3, 9);
    hand.gives(6, 4);
    hand.add("hot order: 5 before 7", H1, b"d", 4, 0);
    hand.gives(5, 0);
    hand.add(
        "hot order: the first of all bytes",
        H7,
        b"!~\xa1\xfe\xff\x7f",
        14,
        8,
    );
    hand.gives(4, 4);
}

/// Words and bytes one short, just enough and one more, each with each.
fn buffers(hand: &mut Hand) {
    for (text, tape) in [(H4, &b"3\xb3W2"[..]), (H9, b"~\xa1"), (H6, b"\xa1\xfe")] {
        let (words, bytes) = (words_for(tape), bytes_for(text, tape));
        for lent in [words - 1, words, words + 1] {
            for room in [bytes - 1, bytes, bytes + 1] {
                let name = format!("hot buffers: {}, {lent} words, {room} bytes", name_of(text));
                hand.add(&name, text, tape, lent, room);
                if lent < words {
                    hand.gives(6, words as u64);
                } else if room < bytes {
                    hand.gives(7, bytes as u64);
                }
            }
        }
    }
}

fn long(hand: &mut Hand) {
    let all = repeated(&hot::letters(), MOST_LETTERS);
    hand.exact("hot long: every letter", H7, &all);
    hand.gives(0, 32_401);
    hand.exact("hot long: every letter, Z", H6, &all);
    hand.gives(0, 32_401);
    let above: Vec<u8> = (161..=254).collect();
    let mut tape = repeated(&above, MOST_LETTERS);
    hand.exact("hot long: letters above the gap", H4, &tape);
    hand.gives(0, 36_001);
    hand.exact(
        "hot long: two letters",
        H5,
        &repeated(b"~\xa1", MOST_LETTERS),
    );
    hand.gives(0, 32_401);
    hand.exact("hot long: one letter", H1, &repeated(b"\xe4", MOST_LETTERS));
    hand.gives(0, 7_201);
    hand.exact("hot long: unreadable at its end", H1, &{
        let mut tape = repeated(b"\xe4", MOST_LETTERS);
        tape[MOST_LETTERS - 1] = b'd';
        tape
    });
    hand.gives(5, 0);
    for byte in [127, 160, 255] {
        tape[MOST_LETTERS - 1] = byte;
        hand.add(&format!("hot long: {byte} at its end"), H7, &tape, 0, 0);
        hand.gives(4, 3_599);
    }
    let longer = repeated(&above, MOST_LETTERS + 1);
    hand.add("hot long: 3,601 letters", H7, &longer, 7_204, 4_100);
    hand.gives(3, 0);
    let bad = repeated(b"\x80", MOST_LETTERS + 1);
    hand.add("hot long: 3,601 bytes of the gap", H7, &bad, 0, 0);
    hand.gives(3, 0);
    for (name, kinds) in [("K", ['K', 'K']), ("Z", ['Z', 'Z']), ("KZ", ['K', 'Z'])] {
        let text = hot::tower(64, &kinds);
        let tape = repeated(&hot::letters(), 200);
        hand.exact(&format!("hot long: 63 stars, {name}"), &text, &tape);
    }
}
