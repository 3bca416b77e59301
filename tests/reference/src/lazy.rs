//! Patterns with `Z`, the lazy star, and answers for them that were worked out
//! by hand from 01, 02 (job 2) and 001. Patterns are written short as in 01,
//! with * for `K` and Z for `Z`.

/// aZ
pub const Z1: &str = "0\tL\t-\ta\n1\tZ\t-\t0\n";
/// (a|e)Z
pub const Z2: &str = "0\tL\t-\ta\n1\tE\t-\n2\tA\t-\t0\t1\n3\tZ\t-\t2\n";
/// (e|a)Z
pub const Z3: &str = "0\tE\t-\n1\tL\t-\ta\n2\tA\t-\t0\t1\n3\tZ\t-\t2\n";
/// (a|aa)Z
pub const Z4: &str =
    "0\tL\t-\ta\n1\tL\t-\ta\n2\tL\t-\ta\n3\tS\t-\t1\t2\n4\tA\t-\t0\t3\n5\tZ\t-\t4\n";
/// (aZ)*
pub const Z5: &str = "0\tL\t-\ta\n1\tZ\t-\t0\n2\tK\t-\t1\n";
/// (aZ)Z
pub const Z6: &str = "0\tL\t-\ta\n1\tZ\t-\t0\n2\tZ\t-\t1\n";
/// (a*)Z
pub const Z7: &str = "0\tL\t-\ta\n1\tK\t-\t0\n2\tZ\t-\t1\n";
/// aZa*
pub const Z8: &str = "0\tL\t-\ta\n1\tZ\t-\t0\n2\tL\t-\ta\n3\tK\t-\t2\n4\tS\t-\t1\t3\n";
/// a*aZ
pub const Z9: &str = "0\tL\t-\ta\n1\tK\t-\t0\n2\tL\t-\ta\n3\tZ\t-\t2\n4\tS\t-\t1\t3\n";
/// aZa
pub const Z10: &str = "0\tL\t-\ta\n1\tZ\t-\t0\n2\tL\t-\ta\n3\tS\t-\t1\t2\n";
/// ((a|e)Z)*
pub const Z11: &str = "0\tL\t-\ta\n1\tE\t-\n2\tA\t-\t0\t1\n3\tZ\t-\t2\n4\tK\t-\t3\n";
/// ((a|e)*)Z
pub const Z12: &str = "0\tL\t-\ta\n1\tE\t-\n2\tA\t-\t0\t1\n3\tK\t-\t2\n4\tZ\t-\t3\n";
/// (aZbZ)Z
pub const Z13: &str = "0\tL\t-\ta\n1\tZ\t-\t0\n2\tL\t-\tb\n3\tZ\t-\t2\n4\tS\t-\t1\t3\n5\tZ\t-\t4\n";
/// (a*bZ)Z
pub const Z14: &str = "0\tL\t-\ta\n1\tK\t-\t0\n2\tL\t-\tb\n3\tZ\t-\t2\n4\tS\t-\t1\t3\n5\tZ\t-\t4\n";
/// (aZb*)*
pub const Z15: &str = "0\tL\t-\ta\n1\tZ\t-\t0\n2\tL\t-\tb\n3\tK\t-\t2\n4\tS\t-\t1\t3\n5\tK\t-\t4\n";
/// eZ
pub const Z16: &str = "0\tE\t-\n1\tZ\t-\t0\n";
/// The listing's pattern in 01 with `Z` for `K`.
pub const Z17: &str =
    "0\tR\t-\t0\t9\n1\tL\t-\tW\n2\tS\t9\t1\t0\n3\tR\t1\t0\t9\n4\tA\t-\t2\t3\n5\tZ\t-\t4\n";
/// (aZ(b|e))*
pub const Z18: &str =
    "0\tL\t-\ta\n1\tZ\t-\t0\n2\tL\t-\tb\n3\tE\t-\n4\tA\t-\t2\t3\n5\tS\t-\t1\t4\n6\tK\t-\t5\n";

pub const ALL: [(&str, &str); 18] = [
    ("Z1", Z1),
    ("Z2", Z2),
    ("Z3", Z3),
    ("Z4", Z4),
    ("Z5", Z5),
    ("Z6", Z6),
    ("Z7", Z7),
    ("Z8", Z8),
    ("Z9", Z9),
    ("Z10", Z10),
    ("Z11", Z11),
    ("Z12", Z12),
    ("Z13", Z13),
    ("Z14", Z14),
    ("Z15", Z15),
    ("Z16", Z16),
    ("Z17", Z17),
    ("Z18", Z18),
];

/// The name of a pattern above.
pub fn name_of(text: &str) -> &'static str {
    let found = ALL.iter().find(|(_, known)| *known == text);
    found.expect("a pattern with a name").0
}

/// A pattern, a tape, and the bits of its code.
pub type Row = (&'static str, &'static str, &'static str);

pub const CODES: [Row; 45] = [
    // An empty `Z` writes its one bit, the 0 that stops.
    (Z1, "", "0"),
    (Z1, "a", "10"),
    (Z1, "aa", "110"),
    (Z2, "", "0"),
    (Z2, "a", "100"),
    (Z2, "aa", "10100"),
    // The left side would make the round empty.
    (Z3, "", "0"),
    (Z3, "a", "110"),
    (Z3, "aa", "11110"),
    // Not the fewest rounds: of two lists that go on, the first rounds decide.
    (Z4, "", "0"),
    (Z4, "a", "100"),
    (Z4, "aa", "10100"),
    (Z4, "aaa", "1010100"),
    // In a round of the `K` the `Z` cannot stop before its first letter, and
    // stops after it, since the `K` can take the rest in rounds of its own.
    (Z5, "", "1"),
    (Z5, "a", "0101"),
    (Z5, "aa", "0100101"),
    (Z6, "", "0"),
    (Z6, "a", "1100"),
    (Z6, "aa", "1101100"),
    // The one round that must be takes all there is.
    (Z7, "", "0"),
    (Z7, "a", "1010"),
    (Z7, "aa", "10010"),
    // What follows the `Z` takes the letters, and what follows the `K` gets
    // none.
    (Z8, "", "01"),
    (Z8, "aa", "0001"),
    (Z9, "", "10"),
    (Z9, "aa", "0010"),
    // It goes on where the end is not reached yet.
    (Z10, "a", "0"),
    (Z10, "aa", "10"),
    (Z10, "aaa", "110"),
    (Z11, "", "1"),
    (Z11, "a", "01001"),
    (Z11, "aa", "010001001"),
    (Z12, "", "0"),
    (Z12, "a", "10010"),
    (Z12, "aa", "1000010"),
    // After a the second `Z` stops: the outer one can take b in a new round,
    // in which the first `Z` may be empty and the second may not.
    (Z13, "ab", "110010100"),
    (Z13, "ba", "101011000"),
    (Z14, "ab", "101011100"),
    // Before a the `Z` cannot stop, for the round would be empty then: what
    // follows is asked with flag 0.
    (Z15, "ab", "010011"),
    (Z16, "", "0"),
    (Z17, "3W2", "110011001110001100100"),
    (Z18, "", "1"),
    (Z18, "b", "0001"),
    (Z18, "a", "01011"),
    (Z18, "ab", "01001"),
];

/// A pattern, the bits of a code, and those of the code that it settles to.
pub const SETTLED: [Row; 19] = [
    // Empty rounds alone, before the letter and behind it.
    (Z2, "110", "0"),
    (Z2, "11100", "100"),
    (Z2, "10110", "100"),
    (Z2, "1110110", "100"),
    // The code with the empty round is the earlier one: the settled code is
    // the earliest of those without.
    (Z3, "100", "0"),
    (Z3, "10110", "110"),
    // One round of two letters.
    (Z4, "110", "10100"),
    // An empty round of the `K`, and one round of two letters.
    (Z5, "001", "1"),
    (Z5, "01101", "0100101"),
    (Z6, "100", "0"),
    (Z6, "11100", "1101100"),
    (Z7, "110", "0"),
    (Z7, "1011010", "10010"),
    // The `Z` has gone on where it could stop.
    (Z8, "1001", "0001"),
    (Z8, "1101", "0001"),
    (Z9, "110", "010"),
    (Z13, "110100", "110010100"),
    (Z16, "1110", "0"),
    (Z17, "110011001110001100100", "110011001110001100100"),
];

/// Tapes that no reading spells.
pub const UNREADABLE: [(&str, &str); 8] = [
    (Z1, "b"),
    (Z1, "aab"),
    (Z4, "aba"),
    (Z5, "ab"),
    (Z10, ""),
    (Z13, "abc"),
    (Z16, "a"),
    (Z17, "3W"),
];

/// So many lines: a range under stars, one over the other. The kinds of the
/// stars take turns from the inside on.
pub fn tower(lines: usize, kinds: &[char]) -> String {
    let mut text = String::from("0\tR\t3\t!\t~\n");
    for (line, kind) in (1..lines).zip(kinds.iter().cycle()) {
        text.push_str(&format!("{line}\t{kind}\t-\t{}\n", line - 1));
    }
    text
}

/// The code of a tape under so many `Z` over a range: each `Z` goes on until
/// its round has a letter and then stops, down to the outermost, which takes
/// a round for each letter.
pub fn tower_code(stars: usize, tape: &[u8]) -> Vec<bool> {
    let mut bits = Vec::new();
    for letter in tape {
        bits.extend(vec![true; stars]);
        bits.extend((0..8).rev().map(|power| letter >> power & 1 == 1));
        bits.extend(vec![false; stars - 1]);
    }
    bits.push(false);
    bits
}
