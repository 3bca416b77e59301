//! Line ends, line counts and long lines.

use super::{comb, tower, with_line, Hand};

pub fn line_ends(hand: &mut Hand) {
    hand.text("empty text", "", 1, 0);
    hand.bytes("single byte 10", &[10], 1, 0);
    hand.bytes("single byte 9", &[9], 1, 0);
    hand.bytes("single byte 48", &[48], 1, 0);
    hand.bytes("single byte 0", &[0], 1, 0);
    hand.bytes("single byte 255", &[255], 1, 0);
    hand.text("two bytes 10", "\n\n", 1, 0);
    hand.text("only line unclosed", "0\tE\t-", 1, 0);
    hand.text("last line unclosed", "0\tE\t-\n1\tK\t-\t0", 1, 1);
    hand.text(
        "last line unclosed, in a faulty tree",
        "0\tE\t-\n1\tE\t-\n2\tK\t-\t0",
        1,
        2,
    );
    hand.text("only a place after the last byte 10", "0\tE\t-\n1", 1, 1);
    hand.text("CR LF", "0\tE\t-\r\n", 1, 0);
    hand.text("CR LF after a letter", "0\tL\t-\ta\r\n", 1, 0);
    hand.text("CR LF on the second line", "0\tE\t-\n1\tK\t-\t0\r\n", 1, 1);
    hand.text("CR alone", "0\tE\t-\r", 1, 0);
    hand.text("empty line first", "\n0\tE\t-\n", 1, 0);
    hand.text("empty line between", "0\tE\t-\n\n1\tK\t-\t0\n", 1, 1);
    hand.text(
        "one more byte 10 at the end",
        "0\tE\t-\n1\tK\t-\t0\n\n",
        1,
        2,
    );
    hand.text("two more bytes 10 at the end", "0\tE\t-\n\n\n", 1, 1);
    hand.text(
        "one more byte 10 after a faulty tree",
        "0\tE\t-\n1\tE\t-\n\n",
        1,
        2,
    );
    hand.text("a space after the last byte 10", "0\tE\t-\n ", 1, 1);
    hand.bytes("byte 0 in place of byte 10", b"0\tE\t-\0", 1, 0);
    hand.bytes("byte 11 in place of byte 10", b"0\tE\t-\x0b", 1, 0);
    hand.bytes("byte order mark first", b"\xef\xbb\xbf0\tE\t-\n", 1, 0);
}

pub fn counts(hand: &mut Hand) {
    hand.text("2 lines", &tower(2), 0, 2);
    hand.text("10 lines", &tower(10), 0, 10);
    hand.text("11 lines", &tower(11), 0, 11);
    hand.text("63 lines", &tower(63), 0, 63);
    hand.text("64 lines", &tower(64), 0, 64);
    hand.text("65 lines", &tower(65), 1, 64);
    hand.text("66 lines", &tower(66), 1, 64);
    hand.text("100 lines", &tower(100), 1, 64);
    hand.text("63 lines, leaves and S", &comb(63), 0, 63);
    hand.text(
        "64 lines with the last unclosed",
        tower(64).trim_end(),
        1,
        63,
    );
    hand.text("64 lines and an empty one", &(tower(64) + "\n"), 1, 64);
    hand.text("64 lines and one byte", &(tower(64) + "6"), 1, 64);
    hand.text("64 lines and a line E", &(tower(64) + "64\tE\t-\n"), 1, 64);
    hand.text("64 lines, the 65th unclosed", tower(65).trim_end(), 1, 64);
    hand.text(
        "65 lines, line 10 bad",
        &with_line(&tower(65), 10, "10\tQ\t-\n"),
        1,
        10,
    );
    hand.text(
        "65 lines, line 63 bad",
        &with_line(&tower(65), 63, "63\tK\t-\n"),
        1,
        63,
    );
    hand.text(
        "65 lines, line 5 a tree fault",
        &with_line(&tower(65), 5, "5\tK\t-\t5\n"),
        1,
        64,
    );
    hand.text(
        "64 lines, line 63 a tree fault",
        &with_line(&tower(64), 63, "63\tK\t-\t61\n"),
        2,
        63,
    );
    hand.text(
        "64 lines, line 63 naming 63",
        &with_line(&tower(64), 63, "63\tK\t-\t63\n"),
        2,
        63,
    );
    hand.text(
        "64 lines, line 63 naming 64",
        &with_line(&tower(64), 63, "63\tK\t-\t64\n"),
        1,
        63,
    );
    hand.text(
        "64 lines, last a leaf",
        &with_line(&tower(64), 63, "63\tE\t-\n"),
        2,
        62,
    );
    hand.text("65 empty lines", &"\n".repeat(65), 1, 0);
    hand.text(
        "64 lines E",
        &(0..64)
            .map(|line| format!("{line}\tE\t-\n"))
            .collect::<String>(),
        2,
        0,
    );
}

pub fn long(hand: &mut Hand) {
    hand.text("3,000 bytes 10", &"\n".repeat(3000), 1, 0);
    hand.text("3,000 tabs", &"\t".repeat(3000), 1, 0);
    hand.text("3,000 digits 0, unclosed", &"0".repeat(3000), 1, 0);
    hand.text(
        "a letter field of thousands of bytes",
        &format!("0\tL\t-\t{}\n", "a".repeat(2990)),
        1,
        0,
    );
    hand.text(
        "a place of thousands of zeros",
        &format!("{}\tE\t-\n", "0".repeat(2990)),
        1,
        0,
    );
    hand.text(
        "a part of thousands of digits",
        &format!("0\tE\t-\n1\tK\t-\t{}\n", "1".repeat(2900)),
        1,
        1,
    );
    hand.text(
        "thousands of tabs after E",
        &format!("0\tE\t-{}\n", "\t".repeat(2990)),
        1,
        0,
    );
    hand.text(
        "thousands of fields",
        &format!("0\tE\t-{}\n", "\ta".repeat(1490)),
        1,
        0,
    );
    hand.text(
        "long line 1 after a good line",
        &format!("0\tE\t-\n1\tK\t-\t0{}\n", " ".repeat(2900)),
        1,
        1,
    );
    hand.text(
        "long line unclosed",
        &format!("0\tE\t-{}", "-".repeat(2990)),
        1,
        0,
    );
    hand.text(
        "long 65th line",
        &format!("{}{}\n", tower(64), "x".repeat(2000)),
        1,
        64,
    );
    hand.text(
        "long line 2 after a tree fault",
        &format!("0\tE\t-\n1\tE\t-\n{}\n", "2".repeat(2900)),
        1,
        2,
    );
}
