//! Kind `Z`: a line `place Z account place`, and what is none.

use super::{tower, with_line, Hand};
use crate::lazy::ALL;

/// `E`, then one `Z` over the other.
fn lazy_tower(count: usize) -> String {
    tower(count).replace('K', "Z")
}

pub fn good(hand: &mut Hand) {
    for (name, text) in ALL {
        hand.text(name, text, 0, text.lines().count() as u64);
    }
    hand.text("letter Z", "0\tL\t-\tZ\n1\tZ\t-\t0\n", 0, 2);
    hand.text("63 lines of Z", &lazy_tower(63), 0, 63);
    hand.text("64 lines of Z", &lazy_tower(64), 0, 64);
    hand.text("65 lines of Z", &lazy_tower(65), 1, 64);
    hand.text(
        "64 lines, K and Z in turn",
        &crate::lazy::tower(64, &['K', 'Z']),
        0,
        64,
    );
}

pub fn fields(hand: &mut Hand) {
    for (name, line) in [
        ("no place", "1\tZ\t-\n"),
        ("an empty place", "1\tZ\t-\t\n"),
        ("two places", "1\tZ\t-\t0\t0\n"),
        ("a trailing tab", "1\tZ\t-\t0\t\n"),
        ("a double tab", "1\tZ\t-\t\t0\n"),
        ("a letter for a place", "1\tZ\t-\ta\n"),
        ("two letters", "1\tZ\t-\ta\tb\n"),
        ("no account", "1\tZ\t0\n"),
        ("an empty account", "1\tZ\t\t0\n"),
        ("account 0", "1\tZ\t0\t0\n"),
        ("account 10", "1\tZ\t10\t0\n"),
        ("another line's place", "2\tZ\t-\t0\n"),
        ("place 00", "1\tZ\t-\t00\n"),
        ("place +0", "1\tZ\t-\t+0\n"),
        ("place 64", "1\tZ\t-\t64\n"),
        ("place 256", "1\tZ\t-\t256\n"),
        ("a space behind", "1\tZ\t-\t0 \n"),
        ("CR LF", "1\tZ\t-\t0\r\n"),
        ("no line end", "1\tZ\t-\t0"),
    ] {
        // This one was refused before 02, Job 7.
        let (number, value) = match name {
            "account 10" => (0, 2),
            _ => (1, 1),
        };
        let text = format!("0\tE\t-\n{line}");
        hand.text(&format!("Z with {name}"), &text, number, value);
    }
    hand.text("Z with account 1", "0\tE\t-\n1\tZ\t1\t0\n", 0, 2);
    hand.text("Z with account 9", "0\tE\t-\n1\tZ\t9\t0\n", 0, 2);
}

/// What looks like `Z` and is none, with the fields that `Z` has.
pub fn kinds(hand: &mut Hand) {
    for kind in [
        "z", "ZZ", "Z ", " Z", "KZ", "ZK", "Y", "[", "J", "\u{396}", "Z\0",
    ] {
        let text = format!("0\tE\t-\n1\t{kind}\t-\t0\n");
        hand.text(&format!("kind {kind:?} with a place"), &text, 1, 1);
    }
    hand.text("lower-case z alone", "0\tz\t-\n", 1, 0);
}

pub fn trees(hand: &mut Hand) {
    hand.text("Z on line 0", "0\tZ\t-\t0\n", 2, 0);
    hand.text("Z on line 0 naming 63", "0\tZ\t-\t63\n", 2, 0);
    hand.text("Z naming its own line", "0\tE\t-\n1\tZ\t-\t1\n", 2, 1);
    hand.text(
        "Z naming the line after it",
        "0\tE\t-\n1\tZ\t-\t2\n2\tE\t-\n",
        2,
        1,
    );
    hand.text(
        "named by K, then by Z",
        "0\tE\t-\n1\tK\t-\t0\n2\tZ\t-\t0\n",
        2,
        2,
    );
    hand.text(
        "named by Z, then by K",
        "0\tE\t-\n1\tZ\t-\t0\n2\tK\t-\t0\n",
        2,
        2,
    );
    hand.text(
        "place 1 unnamed beside Z",
        "0\tE\t-\n1\tE\t-\n2\tZ\t-\t0\n",
        2,
        1,
    );
    hand.text(
        "64 lines of Z, line 63 naming 61",
        &with_line(&lazy_tower(64), 63, "63\tZ\t-\t61\n"),
        2,
        63,
    );
    hand.text(
        "lower-case z after a tree fault",
        "0\tZ\t-\t0\n1\tz\t-\t0\n",
        1,
        1,
    );
    hand.text(
        "Z of no place after a tree fault",
        "0\tZ\t-\t0\n1\tZ\t-\n",
        1,
        1,
    );
}
