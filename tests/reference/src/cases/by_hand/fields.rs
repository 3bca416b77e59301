//! Each field of a line, and their number.

use super::{tower, with_line, Hand};

pub fn letters(hand: &mut Hand) {
    for (byte, good) in [
        (0, false),
        (31, false),
        (32, false),
        (33, true),
        (34, true),
        (48, true),
        (125, true),
        (126, true),
        (127, false),
        (128, false),
        (160, false),
        (255, false),
        (13, false),
    ] {
        let (number, value) = if good { (0, 1) } else { (1, 0) };
        let letter = [b"0\tL\t-\t".as_slice(), &[byte], b"\n"].concat();
        hand.bytes(&format!("letter {byte}"), &letter, number, value);
        let low = [b"0\tR\t-\t".as_slice(), &[byte], b"\t~\n"].concat();
        hand.bytes(&format!("range from {byte} to 126"), &low, number, value);
        let high = [b"0\tR\t-\t!\t".as_slice(), &[byte], b"\n"].concat();
        hand.bytes(&format!("range from 33 to {byte}"), &high, number, value);
    }
    hand.text("reversed range", "0\tR\t-\t9\t0\n", 1, 0);
    hand.text("range reversed by one", "0\tR\t-\tb\ta\n", 1, 0);
    hand.text("widest range reversed", "0\tR\t-\t~\t!\n", 1, 0);
    hand.text("equal range", "0\tR\t-\ta\ta\n", 0, 1);
    hand.text("equal range at 33", "0\tR\t-\t!\t!\n", 0, 1);
    hand.text("equal range at 126", "0\tR\t-\t~\t~\n", 0, 1);
    hand.text("widest range", "0\tR\t-\t!\t~\n", 0, 1);
    hand.text("a tab as a letter", "0\tL\t-\t\t\n", 1, 0);
    hand.text("a tab as the first of a range", "0\tR\t-\t\t\ta\n", 1, 0);
    hand.text("byte 10 as a letter", "0\tL\t-\t\n\n", 1, 0);
    hand.text("two letters in one field", "0\tL\t-\tab\n", 1, 0);
    hand.text("a letter and a space", "0\tL\t-\ta \n", 1, 0);
    hand.text("a letter of two bytes", "0\tL\t-\té\n", 1, 0);
    hand.text("range with a dash", "0\tR\t-\ta-z\n", 1, 0);
}

pub fn fields(hand: &mut Hand) {
    hand.text("place alone", "0\n", 1, 0);
    hand.text("place and kind alone", "0\tE\n", 1, 0);
    hand.text("place, kind, empty account", "0\tE\t\n", 1, 0);
    hand.text("place empty", "\tE\t-\n", 1, 0);
    hand.text("kind empty", "0\t\t-\n", 1, 0);
    hand.text("three empty fields", "\t\t\n", 1, 0);
    hand.text("L without a letter", "0\tL\t-\n", 1, 0);
    hand.text("L with an empty letter", "0\tL\t-\t\n", 1, 0);
    hand.text("R with one letter", "0\tR\t-\ta\n", 1, 0);
    hand.text("R with an empty second", "0\tR\t-\ta\t\n", 1, 0);
    hand.text("R with an empty first", "0\tR\t-\t\ta\n", 1, 0);
    hand.text("S with one place", "0\tE\t-\n1\tS\t-\t0\n", 1, 1);
    hand.text("S with an empty place", "0\tE\t-\n1\tS\t-\t0\t\n", 1, 1);
    hand.text("A with no place", "0\tE\t-\n1\tA\t-\n", 1, 1);
    hand.text("K without a place", "0\tE\t-\n1\tK\t-\n", 1, 1);
    hand.text("K with an empty place", "0\tE\t-\n1\tK\t-\t\n", 1, 1);
    hand.text("E with a field more", "0\tE\t-\ta\n", 1, 0);
    hand.text("E with a place more", "0\tE\t-\n1\tE\t-\t0\n", 1, 1);
    hand.text("L with a field more", "0\tL\t-\ta\tb\n", 1, 0);
    hand.text("R with a field more", "0\tR\t-\ta\tb\tc\n", 1, 0);
    hand.text(
        "S with a field more",
        "0\tE\t-\n1\tE\t-\n2\tS\t-\t0\t1\t1\n",
        1,
        2,
    );
    hand.text(
        "A with a field more",
        "0\tE\t-\n1\tE\t-\n2\tA\t-\t0\t1\t0\n",
        1,
        2,
    );
    hand.text("K with a field more", "0\tE\t-\n1\tK\t-\t0\t0\n", 1, 1);
    hand.text("trailing tab after E", "0\tE\t-\t\n", 1, 0);
    hand.text("trailing tab after L", "0\tL\t-\ta\t\n", 1, 0);
    hand.text("trailing tab after R", "0\tR\t-\ta\tb\t\n", 1, 0);
    hand.text(
        "trailing tab after S",
        "0\tE\t-\n1\tE\t-\n2\tS\t-\t0\t1\t\n",
        1,
        2,
    );
    hand.text("trailing tab after K", "0\tE\t-\n1\tK\t-\t0\t\n", 1, 1);
    hand.text("double tab after the place", "0\t\tE\t-\n", 1, 0);
    hand.text("double tab after the kind", "0\tE\t\t-\n", 1, 0);
    hand.text("double tab after the account", "0\tL\t-\t\ta\n", 1, 0);
    hand.text(
        "double tab between places",
        "0\tE\t-\n1\tE\t-\n2\tS\t-\t0\t\t1\n",
        1,
        2,
    );
    hand.text("leading tab", "\t0\tE\t-\n", 1, 0);
    hand.text("spaces for tabs", "0 E -\n", 1, 0);
    hand.text("space before a tab", "0 \tE\t-\n", 1, 0);
    hand.text("space after the account", "0\tE\t- \n", 1, 0);
    hand.text("space as the whole line", " \n", 1, 0);
}

pub fn places(hand: &mut Hand) {
    hand.text("own place 00", "00\tE\t-\n", 1, 0);
    hand.text("own place 01", "0\tE\t-\n01\tK\t-\t0\n", 1, 1);
    hand.text(
        "own place 007",
        &with_line(&tower(8), 7, "007\tK\t-\t6\n"),
        1,
        7,
    );
    hand.text("own place +0", "+0\tE\t-\n", 1, 0);
    hand.text("own place -0", "-0\tE\t-\n", 1, 0);
    hand.text("own place 1 on line 0", "1\tE\t-\n", 1, 0);
    hand.text("own place 0 on line 1", "0\tE\t-\n0\tK\t-\t0\n", 1, 1);
    hand.text("own place 2 on line 1", "0\tE\t-\n2\tK\t-\t0\n", 1, 1);
    hand.text("own place a letter", "a\tE\t-\n", 1, 0);
    hand.text("own place 0x0", "0x0\tE\t-\n", 1, 0);
    hand.text("own place 64 on line 0", "64\tE\t-\n", 1, 0);
    hand.text("own place 256 on line 0", "256\tE\t-\n", 1, 0);
    hand.text(
        "own place past 64 bits",
        "18446744073709551616\tE\t-\n",
        1,
        0,
    );
    hand.text("two lines changed round", "1\tK\t-\t0\n0\tE\t-\n", 1, 0);
    for part in [
        "00", "01", "007", "000", "+0", "-0", "0 ", " 0", "", "a", "-", "0x0", "0.0",
    ] {
        let text = format!("0\tE\t-\n1\tK\t-\t{part}\n");
        hand.text(&format!("part written {part:?}"), &text, 1, 1);
    }
    for (part, number) in [
        ("1", 2),
        ("2", 2),
        ("62", 2),
        ("63", 2),
        ("64", 1),
        ("65", 1),
        ("70", 1),
        ("99", 1),
        ("100", 1),
        ("256", 1),
        ("4294967296", 1),
        ("18446744073709551616", 1),
    ] {
        let text = format!("0\tE\t-\n1\tK\t-\t{part}\n");
        hand.text(
            &format!("part {part} named by K on line 1"),
            &text,
            number,
            1,
        );
        let text = format!("0\tE\t-\n1\tS\t-\t0\t{part}\n");
        hand.text(
            &format!("second part {part} named by S on line 1"),
            &text,
            number,
            1,
        );
        let text = format!("0\tE\t-\n1\tA\t-\t{part}\t0\n");
        hand.text(
            &format!("left part {part} named by A on line 1"),
            &text,
            number,
            1,
        );
    }
    let text = "0\tE\t-\n1\tE\t-\n2\tS\t-\t0\t01\n";
    hand.text("second part with a leading zero", text, 1, 2);
    hand.text("part 62 on line 63", &tower(64), 0, 64);
}

/// 10, 11 and 99 were refused before 02, Job 7; `accounts` has more.
pub fn accounts(hand: &mut Hand) {
    for (account, good) in [
        ("-", true),
        ("1", true),
        ("2", true),
        ("8", true),
        ("9", true),
        ("0", false),
        ("10", true),
        ("01", false),
        ("", false),
        ("+", false),
        ("+1", false),
        ("-1", false),
        ("--", false),
        ("a", false),
        (" 1", false),
        ("1 ", false),
        (":", false),
        ("/", false),
        ("11", true),
        ("99", true),
        ("*", false),
        ("\u{b9}", false),
    ] {
        let (number, value) = if good { (0, 1) } else { (1, 0) };
        hand.text(
            &format!("account {account:?} of E"),
            &format!("0\tE\t{account}\n"),
            number,
            value,
        );
        let (number, value) = if good { (0, 2) } else { (1, 1) };
        let text = format!("0\tL\t-\ta\n1\tK\t{account}\t0\n");
        hand.text(&format!("account {account:?} of K"), &text, number, value);
    }
}

/// Each line has three fields, so a kind that needs more is at fault too.
pub fn kinds(hand: &mut Hand) {
    for kind in [
        "B", "C", "D", "F", "G", "J", "M", "Q", "T", "X", "Z", "e", "l", "r", "s", "a", "k", "EE",
        "E ", " E", "EL", "LE", "0", "-", "*", "\u{395}", "\0",
    ] {
        hand.text(&format!("kind {kind:?}"), &format!("0\t{kind}\t-\n"), 1, 0);
    }
    hand.text("lower-case l with its letter", "0\tl\t-\ta\n", 1, 0);
    hand.text("lower-case k with its place", "0\tE\t-\n1\tk\t-\t0\n", 1, 1);
    hand.text(
        "lower-case s with its places",
        "0\tE\t-\n1\tE\t-\n2\ts\t-\t0\t1\n",
        1,
        2,
    );
    hand.text("kind LL with its letter", "0\tLL\t-\ta\n", 1, 0);
    hand.text("kind KK with its place", "0\tE\t-\n1\tKK\t-\t0\n", 1, 1);
    hand.text("kind and account changed round", "0\t-\tE\n", 1, 0);
}
