//! Letters of the hot side, 161 to 254 (02, Job 3): ranges and patterns with
//! them, and answers that were worked out by hand. A hot letter is a cold one
//! with its highest bit set. Patterns are written short as in 01, a range by
//! its ends in brackets.

use crate::table::is_letter;

/// A range of each sort, by name and ends.
pub const RANGES: [(&str, u8, u8); 5] = [
    ("below the gap", b'0', 126),
    ("above the gap", 161, 200),
    ("across the gap", b'd', 176),
    ("end to end", 33, 254),
    ("one letter", 196, 196),
];

/// All letters, rising.
pub fn letters() -> Vec<u8> {
    (0..=255)
        .filter(|&byte| is_letter(u64::from(byte)))
        .collect()
}

/// All other bytes, rising.
pub fn no_letters() -> Vec<u8> {
    (0..=255)
        .filter(|&byte| !is_letter(u64::from(byte)))
        .collect()
}

/// One range.
pub fn range(low: u8, high: u8) -> Vec<u8> {
    [&b"0\tR\t-\t"[..], &[low, 9, high, 10]].concat()
}

/// Any number of letters of a range.
pub fn many(low: u8, high: u8) -> Vec<u8> {
    [&range(low, high)[..], b"1\tK\t-\t0\n"].concat()
}

/// ([low high]|[33 254])*: reads every tape, and each letter's side tells
/// whether the range has it.
pub fn asked(low: u8, high: u8) -> Vec<u8> {
    let rest = b"1\tR\t-\t!\t\xfe\n2\tA\t-\t0\t1\n3\tK\t-\t2\n";
    [&range(low, high)[..], rest].concat()
}

/// (h|e)*, P1 with letter 228
pub const H1: &[u8] = b"0\tL\t-\t\xe4\n1\tE\t-\n2\tA\t-\t0\t1\n3\tK\t-\t2\n";
/// (g*h*)*, P3 with letters 225 and 226
pub const H2: &[u8] =
    b"0\tL\t-\t\xe1\n1\tK\t-\t0\n2\tL\t-\t\xe2\n3\tK\t-\t2\n4\tS\t-\t1\t3\n5\tK\t-\t4\n";
/// (a|ah)(h|e), P4 with letter 254 for b
pub const H3: &[u8] = b"0\tL\t-\ta\n1\tL\t-\ta\n2\tL\t-\t\xfe\n3\tS\t-\t1\t2\n4\tA\t-\t0\t3\n\
5\tL\t-\t\xfe\n6\tE\t-\n7\tA\t-\t5\t6\n8\tS\t-\t4\t7\n";
/// The listing's pattern in 01 with a third side, [161 254] of account 2.
pub const H4: &[u8] = b"0\tR\t-\t0\t9\n1\tL\t-\tW\n2\tS\t9\t1\t0\n3\tR\t1\t0\t9\n4\tA\t-\t2\t3\n\
5\tR\t2\t\xa1\t\xfe\n6\tA\t-\t4\t5\n7\tK\t-\t6\n";
/// [126 161]*: a range of two letters
pub const H5: &[u8] = b"0\tR\t-\t~\t\xa1\n1\tK\t-\t0\n";
/// [33 254] under `Z`
pub const H6: &[u8] = b"0\tR\t-\t!\t\xfe\n1\tZ\t-\t0\n";
/// [33 254]*: reads every tape of letters.
pub const H7: &[u8] = b"0\tR\t-\t!\t\xfe\n1\tK\t-\t0\n";
/// Letters 195 and 164, the two bytes that UTF-8 has for one letter.
pub const H8: &[u8] = b"0\tL\t-\t\xc3\n1\tL\t-\t\xa4\n2\tS\t-\t0\t1\n";
/// ([126 161]|e)*
pub const H9: &[u8] = b"0\tR\t-\t~\t\xa1\n1\tE\t-\n2\tA\t-\t0\t1\n3\tK\t-\t2\n";

pub const ALL: [(&str, &[u8]); 9] = [
    ("H1", H1),
    ("H2", H2),
    ("H3", H3),
    ("H4", H4),
    ("H5", H5),
    ("H6", H6),
    ("H7", H7),
    ("H8", H8),
    ("H9", H9),
];

/// The name of a pattern above.
pub fn name_of(text: &[u8]) -> &'static str {
    let found = ALL.iter().find(|(_, known)| *known == text);
    found.expect("a pattern with a name").0
}

/// A pattern, a tape, and the bits of its code.
pub type Row = (&'static [u8], &'static [u8], &'static str);

pub const CODES: [Row; 23] = [
    // C1, C2, C4 to C7 of 01 with hot letters: the same bits.
    (H1, b"", "1"),
    (H1, b"\xe4", "001"),
    (H2, b"\xe1\xe2", "001011"),
    (H2, b"\xe2\xe1", "010100111"),
    (H3, b"a\xfe", "00"),
    (H3, b"a\xfe\xfe", "10"),
    // 179 is `3` with its highest bit set, and no digit.
    (H4, b"3\xb3W2", "001001100110110110011000001100101"),
    (H4, b"\xa1\xfe", "011010000101111111101"),
    (H4, b"", "1"),
    (H5, b"", "1"),
    (H5, b"~", "0011111101"),
    (H5, b"\xa1", "0101000011"),
    (H5, b"~\xa1", "0011111100101000011"),
    (H6, b"", "0"),
    (H6, b"\xa1\xfe", "1101000011111111100"),
    (H6, b"!~", "1001000011011111100"),
    (H7, b"!", "0001000011"),
    (H7, b"\xfe", "0111111101"),
    (H7, b"D\xc4", "0010001000110001001"),
    // Two letters on a tape, and no bits for either.
    (H8, b"\xc3\xa4", ""),
    (H9, b"", "1"),
    (H9, b"\xa1", "00101000011"),
    (H9, b"~\xa1", "000111111000101000011"),
];

/// A pattern, the bits of a code, and those of the code that it settles to.
pub const SETTLED: [(&[u8], &str, &str); 8] = [
    // C6, C10 and C11 of 01.
    (H1, "011", "1"),
    (H1, "01001", "001"),
    (H3, "11", "00"),
    // Two rounds where one takes both letters.
    (H2, "001101011", "001011"),
    // Empty rounds before the letter, between letters and behind them.
    (H9, "0100101000011", "00101000011"),
    (H9, "0001111110010010100001011", "000111111000101000011"),
    (
        H4,
        "001001100110110110011000001100101",
        "001001100110110110011000001100101",
    ),
    (H6, "1101000011111111100", "1101000011111111100"),
];

/// Bits that would be a code if the byte that they name were a letter of the
/// range: "a code naming one is no code".
pub const NO_CODES: [(&[u8], &str, u8); 12] = [
    (H5, "0011111111", 127),
    (H5, "0100000001", 128),
    (H5, "0101000001", 160),
    (H5, "0011111011", 125),
    (H5, "0101000101", 162),
    (H7, "0001000001", 32),
    (H7, "0011111111", 127),
    (H7, "0100000001", 128),
    (H7, "0101000001", 160),
    (H7, "0111111111", 255),
    (H6, "1100100000", 144),
    (H9, "00011111111", 127),
];

/// Tapes of letters that no reading spells; most have a letter whose highest
/// bit alone is another.
pub const UNREADABLE: [(&[u8], &[u8]); 13] = [
    (H1, b"d"),
    (H1, b"\xe3"),
    (H1, b"\xe4\xe5"),
    (H2, b"a"),
    (H3, b"a~"),
    (H4, b"A"),
    (H4, b"\xb3W"),
    (H5, b"}"),
    (H5, b"\xa2"),
    (H5, b"!"),
    (H5, b"\xfe"),
    (H8, b"\xc3"),
    (H8, b"C$"),
];

/// So many lines: [33 254] under stars, one over the other, of kinds that take
/// turns from the inside on.
pub fn tower(lines: usize, kinds: &[char]) -> Vec<u8> {
    let mut text = b"0\tR\t3\t!\t\xfe\n".to_vec();
    for (line, kind) in (1..lines).zip(kinds.iter().cycle()) {
        text.extend_from_slice(format!("{line}\t{kind}\t-\t{}\n", line - 1).as_bytes());
    }
    text
}
