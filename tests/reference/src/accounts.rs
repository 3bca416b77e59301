//! Accounts to 200 (02, Job 7): fields that say one and fields that say none,
//! and patterns with such accounts whose litres were worked out by hand.

use crate::stale::{row, text, Row};

/// Account fields near the limits of their form, each with the account that it
/// says, 0 for `-`; none if the line that has it is at fault.
#[rustfmt::skip]
pub const FIELDS: &[(&str, Option<u64>)] = &[
    ("-", Some(0)), ("1", Some(1)), ("2", Some(2)), ("8", Some(8)), ("9", Some(9)), ("10", Some(10)), ("11", Some(11)),
    ("19", Some(19)), ("20", Some(20)), ("90", Some(90)), ("99", Some(99)), ("100", Some(100)), ("101", Some(101)),
    ("109", Some(109)), ("110", Some(110)), ("190", Some(190)), ("199", Some(199)), ("200", Some(200)),
    ("201", None), ("202", None), ("209", None), ("210", None), ("255", None),
    // A byte has no room for these, but for their lowest eight bits it has: 0, 9 and 200.
    ("256", None), ("265", None), ("456", None),
    ("299", None), ("300", None), ("900", None), ("999", None), ("1000", None), ("1001", None), ("2000", None), ("9999", None),
    ("0", None), ("00", None), ("000", None), ("01", None), ("09", None), ("001", None), ("009", None), ("010", None),
    ("020", None), ("099", None), ("0100", None), ("0200", None),
    ("", None), ("--", None), ("-1", None), ("-9", None), ("1-", None), ("9-", None), ("-10", None), ("10-", None),
    ("+9", None), ("+10", None), (" 9", None), ("9 ", None), (" 20", None), ("2 0", None), ("20 ", None),
];

/// Fields that are no accounts for what they are made of, or for their length.
#[rustfmt::skip]
pub const ODD_FIELDS: &[&str] = &[
    "a", "1a", "a1", "9a", "1a0", "10a", "1e2", "0x9", "1.0", "1,0", "*",
    // The bytes on either side of the digits.
    "/", ":", "1/", "1:", "/1", ":1", "10/", "10:", "1/0", "1:0",
    // Other signs and digits than those of ASCII.
    "\u{2212}", "\u{b9}", "\u{b2}00", "1\u{b9}", "\u{661}", "\u{ff19}",
    "\u{a0}9", "\r", "9\r", "20\r", "\0", "1\0", "10\0", "9\u{b}",
    "00000", "00009", "00200", "10000", "20000",
    // 9 and 200 again, where a number has 16, 32 or 64 bits.
    "65545", "65736", "4294967305", "4294967496", "18446744073709551625",
    "18446744073709551816",
];

/// Accounts next to each other in the listing or in what they are written with.
pub const NEAR: [u64; 15] = [0, 1, 2, 8, 9, 10, 19, 20, 90, 99, 100, 109, 190, 199, 200];

/// The listing's pattern in 01 with accounts above 9, of which none is stale.
pub const GREAT_LISTING: &str =
    "0\tR\t-\t0\t9\n1\tL\t-\tW\n2\tS\t99\t1\t0\n3\tR\t200\t0\t9\n4\tA\t100\t2\t3\n5\tK\t10\t4\n";

/// As a line writes it.
pub fn written(account: u64) -> String {
    match account {
        0 => "-".to_string(),
        _ => account.to_string(),
    }
}

/// Accounts on one way are named from the root to the leaf.
#[rustfmt::skip]
pub const ROWS: &[Row] = &[
    // Beside each other.
    row("2, 20 and 200", &["L 2 1", "L 20 2", "S - 0 1", "L 200 4", "S - 2 3"], "", "124", &[(2, 1), (20, 2), (200, 4)]),
    row("1, 10 and 100", &["L 1 1", "L 10 2", "S - 0 1", "L 100 4", "S - 2 3"], "", "124", &[(1, 1), (10, 2), (100, 4)]),
    row("9, 90 and 99", &["L 9 1", "L 90 2", "S - 0 1", "L 99 4", "S - 2 3"], "", "124", &[(9, 1), (90, 2), (99, 4)]),
    row("19, 109 and 199", &["L 19 1", "L 109 2", "S - 0 1", "L 199 4", "S - 2 3"], "", "124", &[(19, 1), (109, 2), (199, 4)]),
    row("none, 9, 10 and 200", &["L - 1", "L 9 2", "S - 0 1", "L 10 4", "S - 2 3", "L 200 8", "S - 4 5"], "", "1248",
        &[(0, 1), (9, 2), (10, 4), (200, 8)]),
    row("200, 10, 9 and none", &["L 200 1", "L 10 2", "S - 0 1", "L 9 4", "S - 2 3", "L - 8", "S - 4 5"], "", "1248",
        &[(0, 8), (9, 4), (10, 2), (200, 1)]),
    row("200 twice", &["L 200 3", "L 199 4", "S - 0 1", "L 200 5", "S - 2 3"], "", "345", &[(199, 4), (200, 8)]),
    // One in the other: the innermost has the litres.
    row("200-1", &["L 1 5", "L - 7", "S 200 0 1"], "", "57", &[(1, 5), (200, 7)]),
    row("1-200", &["L 200 5", "L - 7", "S 1 0 1"], "", "57", &[(1, 7), (200, 5)]),
    row("200-none", &["L - 5", "L - 7", "S 200 0 1"], "", "57", &[(200, 12)]),
    row("none-200", &["L 200 5", "L - 7", "S - 0 1"], "", "57", &[(0, 7), (200, 5)]),
    row("100-200-10", &["L 10 5", "L - 7", "S 200 0 1", "L - 2", "S 100 2 3"], "", "572", &[(10, 5), (100, 2), (200, 7)]),
    row("199-none-198", &["L 198 5", "L - 7", "S - 0 1", "L - 2", "S 199 2 3"], "", "572", &[(198, 5), (199, 9)]),
    // Account 9 is stale, among three digits too.
    row("9-200", &["L 200 5", "L - 7", "S 9 0 1"], "", "57", &[(9, 12)]),
    row("200-9", &["L 9 5", "L - 7", "S 200 0 1"], "", "57", &[(9, 5), (200, 7)]),
    row("200-9-100", &["L 100 5", "L - 7", "S 9 0 1", "L - 2", "S 200 2 3"], "", "572", &[(9, 12), (200, 2)]),
    row("9-99-90", &["L 90 5", "L - 7", "S 99 0 1", "L - 2", "S 9 2 3"], "", "572", &[(9, 14)]),
    row("E of 9 beside 200", &["E 9", "L 200 5", "S - 0 1"], "", "5", &[(200, 5)]),
    // No account that is written with a 9, or whose lowest bits are those of 9, is.
    row("90-3", &["L 3 5", "L - 7", "S 90 0 1"], "", "57", &[(3, 5), (90, 7)]),
    row("99-3", &["L 3 5", "L - 7", "S 99 0 1"], "", "57", &[(3, 5), (99, 7)]),
    row("109-3", &["L 3 5", "L - 7", "S 109 0 1"], "", "57", &[(3, 5), (109, 7)]),
    row("19-3", &["L 3 5", "L - 7", "S 19 0 1"], "", "57", &[(3, 5), (19, 7)]),
    row("190-3", &["L 3 5", "L - 7", "S 190 0 1"], "", "57", &[(3, 5), (190, 7)]),
    row("199-3", &["L 3 5", "L - 7", "S 199 0 1"], "", "57", &[(3, 5), (199, 7)]),
    row("25-3", &["L 3 5", "L - 7", "S 25 0 1"], "", "57", &[(3, 5), (25, 7)]),
    row("73-3", &["L 3 5", "L - 7", "S 73 0 1"], "", "57", &[(3, 5), (73, 7)]),
    row("137-3", &["L 3 5", "L - 7", "S 137 0 1"], "", "57", &[(3, 5), (137, 7)]),
    row("200-3", &["L 3 5", "L - 7", "S 200 0 1"], "", "57", &[(3, 5), (200, 7)]),
    row("3-99-4", &["L 4 5", "L - 7", "S 99 0 1", "L - 2", "S 3 2 3"], "", "572", &[(3, 2), (4, 5), (99, 7)]),
    // In `A`, `K` and `Z`, and in codes with empty rounds.
    row("in A", &["L 101 5", "L 102 7", "A 103 0 1", "K - 2"], "0001001", "575", &[(101, 10), (102, 7)]),
    row("in a side of A", &["L - 5", "K 150 0", "L - 7", "A 160 1 2", "K 170 3"],
        concat!("00", "001", "01", "1"), "557", &[(150, 10), (160, 7)]),
    row("in K", &["L 150 5", "K 200 0"], "001", "55", &[(150, 10)]),
    row("in K of none", &["L - 5", "K 200 0"], "001", "55", &[(200, 10)]),
    row("in Z", &["L - 5", "Z 200 0"], "110", "55", &[(200, 10)]),
    row("in Z in K", &["L - 5", "Z 40 0", "K 140 1"], "0100101", "55", &[(40, 10)]),
    row("in K of 9", &["R 200 0 9", "K 9 0"], concat!("0", "00110111", "1"), "7", &[(9, 7)]),
    row("in K of 99", &["R 200 0 9", "K 99 0"], concat!("0", "00110111", "1"), "7", &[(200, 7)]),
    row("empty rounds", &["L 100 5", "E 200", "A - 0 1", "K 99 2"], "0100011", "5", &[(100, 5)]),
    row("empty rounds, Z", &["L 100 5", "E 200", "A - 0 1", "Z 99 2"], "1110110", "5", &[(100, 5)]),
    row("9 in empty rounds", &["E 9", "L - 5", "A - 0 1", "K 200 2"], "0001001", "5", &[(200, 5)]),
    // Letters that are no litres, and the digit 0.
    row("no litres", &["L 200 x", "L 100 0", "S 10 0 1"], "", "x0", &[]),
];

/// The digit that a leaf of this account reads in `comb`: 1 to 9.
pub fn digit_of(account: u64) -> u64 {
    account % 9 + 1
}

/// Leaves of these accounts, 1 to 32 of them, one after the other: each reads its
/// digit. The code has no bits.
pub fn comb(accounts: &[u64]) -> Vec<u8> {
    let leaf = |account: u64| format!("L {} {}", written(account), digit_of(account));
    let mut lines = vec![leaf(accounts[0])];
    for &account in &accounts[1..] {
        let whole = lines.len() - 1;
        lines.push(leaf(account));
        lines.push(format!("S - {whole} {}", whole + 1));
    }
    let lines: Vec<&str> = lines.iter().map(String::as_str).collect();
    text(&lines)
}

/// `E`, then one star over the other, of kinds `K` and `Z` in turn: a line for
/// each of these accounts, 1 to 64 of them.
pub fn stack(accounts: &[u64]) -> Vec<u8> {
    let mut lines = Vec::new();
    for (place, &account) in accounts.iter().enumerate() {
        let account = written(account);
        lines.push(match place {
            0 => format!("E {account}"),
            _ => format!("{} {account} {}", ["K", "Z"][place % 2], place - 1),
        });
    }
    let lines: Vec<&str> = lines.iter().map(String::as_str).collect();
    text(&lines)
}

/// A text as long as one that loads can be, 873 bytes: 32 ranges, 31 sequences
/// and a star, each of account 200. Every place but the last is named once,
/// whatever the tree.
pub fn longest() -> Vec<u8> {
    let mut lines = vec!["R 200 0 9".to_string(); 32];
    for place in 32..63 {
        let first = if place == 32 { 0 } else { place - 1 };
        lines.push(format!("S 200 {first} {}", place - 31));
    }
    lines.push("K 200 62".to_string());
    let lines: Vec<&str> = lines.iter().map(String::as_str).collect();
    text(&lines)
}
