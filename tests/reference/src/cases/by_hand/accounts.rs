//! The account field by 02, Job 7: "1 to 200, one to three digits without
//! leading zeros".

use super::{tower, with_line, Hand};
use crate::accounts::{longest, stack, FIELDS, ODD_FIELDS};

/// A line of each kind, with `?` for its account, and the lines before it.
const KINDS: [(&str, &str, &str); 7] = [
    ("E", "", "E\t?"),
    ("L", "", "L\t?\ta"),
    ("R", "", "R\t?\t0\t9"),
    ("S", "0\tE\t-\n1\tE\t-\n", "S\t?\t0\t1"),
    ("A", "0\tE\t-\n1\tE\t-\n", "A\t?\t0\t1"),
    ("K", "0\tE\t-\n", "K\t?\t0"),
    ("Z", "0\tE\t-\n", "Z\t?\t0"),
];

fn field_of(hand: &mut Hand, field: &str, good: bool, kind: (&str, &str, &str)) {
    let (kind, before, line) = kind;
    let place = before.matches('\n').count();
    let text = format!("{before}{place}\t{}\n", line.replace('?', field));
    let (number, value) = if good { (0, place + 1) } else { (1, place) };
    hand.text(&format!("{field:?} of {kind}"), &text, number, value as u64);
}

/// Every field at every kind of line.
pub fn fields(hand: &mut Hand) {
    for (field, account) in FIELDS {
        for kind in KINDS {
            field_of(hand, field, account.is_some(), kind);
        }
    }
}

/// At a leaf, and at a line that names a part.
pub fn odd_fields(hand: &mut Hand) {
    for field in ODD_FIELDS {
        for kind in [KINDS[0], KINDS[5]] {
            field_of(hand, field, false, kind);
        }
    }
}

/// Form before tree, and the first line at fault.
pub fn orders(hand: &mut Hand) {
    for (name, text, number, value) in [
        ("201 before a tree fault", "0\tE\t201\n1\tK\t-\t1\n", 1, 0),
        ("201 behind a tree fault", "0\tK\t-\t0\n1\tE\t201\n", 1, 1),
        ("200 behind a tree fault", "0\tK\t-\t0\n1\tE\t200\n", 2, 0),
        (
            "200 where the tree is at fault",
            "0\tE\t200\n1\tE\t200\n",
            2,
            0,
        ),
        (
            "201 and its part not below",
            "0\tE\t-\n1\tK\t201\t1\n",
            1,
            1,
        ),
        (
            "200 and its part not below",
            "0\tE\t-\n1\tK\t200\t1\n",
            2,
            1,
        ),
        (
            "201, then 010",
            "0\tE\t-\n1\tK\t201\t0\n2\tK\t010\t1\n",
            1,
            1,
        ),
        ("010, then 201", "0\tE\t010\n1\tK\t201\t0\n", 1, 0),
        ("200 and a bad place", "0\tE\t200\n2\tK\t200\t0\n", 1, 1),
        ("200 and a letter too many", "0\tL\t200\tab\n", 1, 0),
        ("200 and no letter", "0\tL\t200\n", 1, 0),
        ("200 and a tab more", "0\tE\t200\t\n", 1, 0),
        ("a tab in 200", "0\tE\t20\t0\n", 1, 0),
        ("a tab before 200", "0\tE\t\t200\n", 1, 0),
        ("byte 10 in 200", "0\tE\t20\n0\n", 1, 1),
        ("cut behind 2", "0\tE\t2", 1, 0),
        ("cut behind 20", "0\tE\t20", 1, 0),
        ("cut behind 200", "0\tE\t200", 1, 0),
        ("the kind for the account", "0\t200\tE\n", 1, 0),
        ("the place for the account", "200\tE\t0\n", 1, 0),
    ] {
        hand.text(name, text, number, value);
    }
    let last = |account: &str| with_line(&tower(64), 63, &format!("63\tK\t{account}\t62\n"));
    hand.text("64 lines, 200 on the last", &last("200"), 0, 64);
    hand.text("64 lines, 201 on the last", &last("201"), 1, 63);
    let more = tower(64) + "64\tK\t201\t63\n";
    hand.text("64 lines, 201 on a 65th", &more, 1, 64);
}

/// Fields of thousands of bytes.
pub fn long(hand: &mut Hand) {
    for (name, field) in [
        ("zeros", "0".repeat(2_900)),
        ("ones", "1".repeat(2_900)),
        ("zeros and 9", "0".repeat(2_900) + "9"),
        ("200 and zeros", "200".to_string() + &"0".repeat(2_900)),
        ("200 and spaces", "200".to_string() + &" ".repeat(2_900)),
        ("dashes", "-".repeat(2_900)),
    ] {
        let text = format!("0\tE\t-\n1\tK\t{field}\t0\n");
        hand.text(&format!("thousands of bytes, {name}"), &text, 1, 1);
        let text = format!("0\tE\t{field}");
        hand.text(&format!("thousands of bytes, {name}, cut"), &text, 1, 0);
    }
}

/// Each account once: what a table keeps of 1 to 200; and the longest texts.
pub fn all(hand: &mut Hand) {
    let accounts: Vec<u64> = (1..=200).collect();
    for part in accounts.chunks(64) {
        let name = format!("{} to {}", part[0], part[part.len() - 1]);
        hand.bytes(&name, &stack(part), 0, part.len() as u64);
    }
    hand.bytes("200 on each line", &stack(&[200; 64]), 0, 64);
    let text = longest();
    hand.bytes("the longest text", &text, 0, 64);
    let cut = &text[..text.len() - 1];
    hand.bytes("the longest text without its end", cut, 1, 63);
    let more = [&text[..], b"64\tK\t200\t63\n"].concat();
    hand.bytes("the longest text and a line", &more, 1, 64);
}
