//! Letters of the hot side in the letter fields of `L` and `R`, and bytes that
//! are no letters there: every byte at each of the three places.

use super::Hand;
use crate::hot;

/// A line of a leaf: its letter, or the two ends of its range.
type Leaf = fn(u8) -> Vec<u8>;

const LEAVES: [(&str, Leaf); 3] = [
    ("letter", |byte| vec![b'L', 9, b'-', 9, byte]),
    ("range to 254 from", |byte| {
        vec![b'R', 9, b'-', 9, byte, 9, 254]
    }),
    ("range from 33 to", |byte| {
        vec![b'R', 9, b'-', 9, 33, 9, byte]
    }),
];

/// Leaves and `A` in turn, as many leaves as bytes.
fn leaves(leaf: Leaf, bytes: &[u8]) -> Vec<u8> {
    let mut lines: Vec<Vec<u8>> = Vec::new();
    for (index, &byte) in bytes.iter().enumerate() {
        let whole = lines.len().wrapping_sub(1);
        lines.push(leaf(byte));
        if index > 0 {
            lines.push(format!("A\t-\t{whole}\t{}", whole + 1).into_bytes());
        }
    }
    text(&lines)
}

/// Lines of their own places.
fn text(lines: &[Vec<u8>]) -> Vec<u8> {
    let mut text = Vec::new();
    for (place, line) in lines.iter().enumerate() {
        text.extend_from_slice(format!("{place}\t").as_bytes());
        text.extend_from_slice(line);
        text.push(10);
    }
    text
}

/// Every letter, 32 in a text.
pub fn letters(hand: &mut Hand) {
    for (name, leaf) in LEAVES {
        for bytes in hot::letters().chunks(32) {
            let name = format!("{name} {} and on", bytes[0]);
            let lines = 2 * bytes.len() as u64 - 1;
            hand.bytes(&name, &leaves(leaf, bytes), 0, lines);
        }
    }
}

/// Every other byte, on the second of three lines.
pub fn no_letters(hand: &mut Hand) {
    for (name, leaf) in LEAVES {
        for byte in hot::no_letters() {
            let lines = [b"E\t-".to_vec(), leaf(byte), b"S\t-\t0\t1".to_vec()];
            hand.bytes(&format!("{name} {byte}"), &text(&lines), 1, 1);
        }
    }
}

/// "A range may run across the gap", between two letters.
pub fn ranges(hand: &mut Hand) {
    for (name, low, high) in hot::RANGES {
        hand.bytes(&format!("range {name}"), &hot::range(low, high), 0, 1);
    }
    for (low, high, good) in [
        (126, 161, true),
        (33, 161, true),
        (126, 254, true),
        (161, 161, true),
        (254, 254, true),
        (161, 254, true),
        (161, 126, false),
        (254, 33, false),
        (254, 161, false),
        (162, 161, false),
        (127, 160, false),
        (126, 160, false),
        (127, 161, false),
        (128, 128, false),
        (254, 255, false),
        (255, 255, false),
        (255, 161, false),
        (32, 161, false),
        (160, 254, false),
    ] {
        let (number, value) = if good { (0, 1) } else { (1, 0) };
        let name = format!("range from {low} to {high}");
        hand.bytes(&name, &hot::range(low, high), number, value);
    }
}

/// Two bytes in a letter field are no letter, even if each alone is one.
pub fn two_bytes(hand: &mut Hand) {
    hand.text("ä in UTF-8 as a letter", "0\tL\t-\tä\n", 1, 0);
    hand.text("ä in UTF-8 on line 1", "0\tE\t-\n1\tL\t-\tä\n", 1, 1);
    hand.text(
        "ä in UTF-8 on line 3",
        "0\tE\t-\n1\tK\t-\t0\n2\tZ\t-\t1\n3\tL\t-\tä\n",
        1,
        3,
    );
    hand.text("ä in UTF-8 as a first end", "0\tR\t-\tä\tö\n", 1, 0);
    hand.bytes(
        "ä in UTF-8 as a second end",
        b"0\tR\t-\ta\t\xc3\xa4\n",
        1,
        0,
    );
    hand.bytes("two hot letters", b"0\tL\t-\t\xa1\xfe\n", 1, 0);
    hand.bytes("a cold and a hot letter", b"0\tL\t-\ta\xe4\n", 1, 0);
    hand.bytes("ä in Latin-1", b"0\tL\t-\t\xe4\n", 0, 1);
    hand.bytes("ä as two lines", hot::H8, 0, 3);
    hand.bytes(
        "byte order mark before a hot letter",
        b"\xef\xbb\xbf0\tL\t-\t\xe4\n",
        1,
        0,
    );
}

/// Hot letters where a digit, a kind, a tab or a line end is due: none of
/// these is read without its highest bit.
pub fn other_fields(hand: &mut Hand) {
    for (name, line) in [
        ("place 0", &b"\xb0\tL\t-\t\xe4\n"[..]),
        ("kind E", b"0\t\xc5\t-\n"),
        ("kind L", b"0\t\xcc\t-\t\xe4\n"),
        ("kind R", b"0\t\xd2\t-\t\xa1\t\xfe\n"),
        ("account -", b"0\tL\t\xad\t\xe4\n"),
        ("account 1", b"0\tL\t\xb1\t\xe4\n"),
        ("account 9", b"0\tL\t\xb9\t\xe4\n"),
        ("tab", b"0\tL\t-\x89\xe4\n"),
        ("line end", b"0\tL\t-\t\xe4\x8a"),
    ] {
        hand.bytes(&format!("{name} with its highest bit"), line, 1, 0);
    }
    for (name, line) in [
        ("K", &b"1\tK\t-\t\xb0\n"[..]),
        ("Z", b"1\tZ\t-\t\xb0\n"),
        ("S", b"1\tS\t-\t0\t\xb0\n"),
        ("A", b"1\tA\t-\t\xb0\t0\n"),
    ] {
        let text = [&b"0\tL\t9\t\xe4\n"[..], line].concat();
        hand.bytes(
            &format!("part 0 of {name} with its highest bit"),
            &text,
            1,
            1,
        );
    }
}

/// Form faults come before tree faults, and a hot letter is no form fault.
pub fn trees(hand: &mut Hand) {
    for (name, text) in hot::ALL {
        let lines = text.iter().filter(|&&byte| byte == 10).count() as u64;
        hand.bytes(name, text, 0, lines);
    }
    hand.bytes("64 lines", &hot::tower(64, &['K', 'Z']), 0, 64);
    hand.bytes("65 lines", &hot::tower(65, &['K', 'Z']), 1, 64);
    hand.bytes("two leaves", b"0\tL\t-\t\xa1\n1\tL\t-\t\xfe\n", 2, 0);
    hand.bytes(
        "named twice",
        b"0\tR\t-\t~\t\xa1\n1\tK\t-\t0\n2\tK\t-\t0\n",
        2,
        2,
    );
    hand.bytes(
        "letter 160 after a tree fault",
        b"0\tK\t-\t0\n1\tL\t-\t\xa0\n",
        1,
        1,
    );
    hand.bytes(
        "letter 161 after a tree fault",
        b"0\tK\t-\t0\n1\tL\t-\t\xa1\n",
        2,
        0,
    );
    hand.bytes(
        "letter 255 before letter 127",
        b"0\tE\t-\n1\tL\t-\t\xff\n2\tL\t-\t\x7f\n",
        1,
        1,
    );
}
