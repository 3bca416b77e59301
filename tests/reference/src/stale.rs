//! Stale litres (02, Job 5): account 9 above other accounts, below them and
//! beside them. Patterns with codes whose litres were worked out by hand, and
//! the rule once more, said of the whole way from the root to a leaf.

use crate::table::{Table, STALE_ACCOUNT};
use crate::value::Value;

/// The accounts on the way from the root to a leaf, both included; 0 for a node
/// that has none.
pub type Way = Vec<u64>;

/// Each letter of a reading with the way to its leaf.
pub fn ways(table: &Table, value: &Value) -> Vec<(u8, Way)> {
    let mut found = Vec::new();
    add_ways(table, table.root(), value, &[], &mut found);
    found
}

fn add_ways(table: &Table, place: usize, value: &Value, above: &[u64], found: &mut Vec<(u8, Way)>) {
    let node = table.node(place);
    let way = [above, &[node.account]].concat();
    let mut add = |part: u64, value: &Value| add_ways(table, part as usize, value, &way, found);
    match value {
        Value::Nothing => {}
        Value::Letter(letter) => found.push((*letter, way)),
        Value::Pair(pair) => {
            add(node.x, &pair.0);
            add(node.y, &pair.1);
        }
        Value::Left(side) => add(node.x, side),
        Value::Right(side) => add(node.y, side),
        Value::Rounds(_, rounds) => rounds.iter().for_each(|round| add(node.x, round)),
    }
}

/// 01 alone: "the account of the innermost node, the leaf included, that has
/// one; without one, to account 0".
pub fn innermost(way: &[u64]) -> u64 {
    let accounts = way.iter().rev();
    accounts.copied().find(|&account| account != 0).unwrap_or(0)
}

/// The account that a letter's litres go to: 9 if it is anywhere on the way.
pub fn by_way(way: &[u64]) -> u64 {
    if way.contains(&STALE_ACCOUNT) {
        STALE_ACCOUNT
    } else {
        innermost(way)
    }
}

/// Whether the reading has litres that 01 alone would give to another account.
pub fn moves_litres(table: &Table, value: &Value) -> bool {
    let moved =
        |(letter, way): &(u8, Way)| (b'1'..=b'9').contains(letter) && by_way(way) != innermost(way);
    ways(table, value).iter().any(moved)
}

/// A text of these lines. Their places are put before them, and a space stands
/// for a tab.
pub fn text(lines: &[&str]) -> Vec<u8> {
    let mut text = String::new();
    for (place, line) in lines.iter().enumerate() {
        text.push_str(&format!("{place}\t{}\n", line.replace(' ', "\t")));
    }
    text.into_bytes()
}

/// What is shown, the lines of a pattern, the bits of a code of it, the letters
/// that it spells, and the litres of the accounts that have some.
pub struct Row {
    pub name: &'static str,
    pub lines: &'static [&'static str],
    pub bits: &'static str,
    pub tape: &'static str,
    pub litres: &'static [(usize, u64)],
}

pub const fn row(
    name: &'static str,
    lines: &'static [&'static str],
    bits: &'static str,
    tape: &'static str,
    litres: &'static [(usize, u64)],
) -> Row {
    Row {
        name,
        lines,
        bits,
        tape,
        litres,
    }
}

/// Accounts on one way are named from the root to the leaf.
#[rustfmt::skip]
pub const ROWS: &[Row] = &[
    // One in the other. Beside the leaf there is a second one, of the outer node alone.
    row("9 at the only leaf", &["L 9 5"], "", "5", &[(9, 5)]),
    row("9-3", &["L 3 5", "L - 7", "S 9 0 1"], "", "57", &[(9, 12)]),
    row("3-9", &["L 9 5", "L - 7", "S 3 0 1"], "", "57", &[(3, 7), (9, 5)]),
    row("9-none", &["L - 5", "L - 7", "S 9 0 1"], "", "57", &[(9, 12)]),
    row("none-9", &["L 9 5", "L - 7", "S - 0 1"], "", "57", &[(0, 7), (9, 5)]),
    row("9-9", &["L 9 5", "L - 7", "S 9 0 1"], "", "57", &[(9, 12)]),
    row("3-9-4", &["L 4 5", "L - 7", "S 9 0 1", "L - 2", "S 3 2 3"], "", "572", &[(3, 2), (9, 12)]),
    row("3-9-none", &["L - 5", "L - 7", "S 9 0 1", "L - 2", "S 3 2 3"], "", "572", &[(3, 2), (9, 12)]),
    row("4-9-9", &["L 9 5", "K 9 0", "L - 7", "S 4 1 2"], "01", "57", &[(4, 7), (9, 5)]),
    row("none-9-3", &["L 3 5", "K 9 0", "L - 7", "S - 1 2"], "001", "557", &[(0, 7), (9, 10)]),
    row("9-none-3", &["L 3 5", "K - 0", "K 9 1"], "00011", "55", &[(9, 10)]),
    row("9-3-4-none", &["R - 0 9", "K 4 0", "K 3 1", "K 9 2"], concat!("000", "00110110", "111"), "6", &[(9, 6)]),
    row("1-2-3-9", &["L 9 5", "K 3 0", "L - 7", "S 2 1 2", "L - 2", "S 1 3 4"], "01", "572", &[(1, 2), (2, 7), (9, 5)]),
    // No other account outranks one that is further in.
    row("8-3", &["L 3 5", "L - 7", "S 8 0 1"], "", "57", &[(3, 5), (8, 7)]),
    row("3-8", &["L 8 5", "L - 7", "S 3 0 1"], "", "57", &[(3, 7), (8, 5)]),
    row("9-8", &["L 8 5", "L - 7", "S 9 0 1"], "", "57", &[(9, 12)]),
    row("8-9", &["L 9 5", "L - 7", "S 8 0 1"], "", "57", &[(8, 7), (9, 5)]),
    row("none", &["L - 5", "L - 7", "S - 0 1"], "", "57", &[(0, 12)]),
    // A sibling's 9 does nothing: an `E`, another part, a star, another side, another round.
    row("E of 9 before a leaf", &["E 9", "L 3 5", "S - 0 1"], "", "5", &[(3, 5)]),
    row("E of 9 behind a leaf", &["L 3 5", "E 9", "S - 0 1"], "", "5", &[(3, 5)]),
    row("E of 9 beside a leaf of none", &["E 9", "L - 5", "S - 0 1"], "", "5", &[(0, 5)]),
    row("E of 9 beside a leaf under 3", &["E 9", "L - 5", "S 3 0 1"], "", "5", &[(3, 5)]),
    row("E of 9 on the other side", &["E 9", "L - 5", "A - 0 1", "K 4 2"], "011", "5", &[(4, 5)]),
    row("9 in the part before", &["L 9 5", "L 3 7", "S 4 0 1"], "", "57", &[(3, 7), (9, 5)]),
    row("9 in the part behind", &["L 3 7", "L 9 5", "S 4 0 1"], "", "75", &[(3, 7), (9, 5)]),
    row("K of 9 before a leaf", &["L 3 5", "K 9 0", "L 3 7", "S - 1 2"], "001", "557", &[(3, 7), (9, 10)]),
    row("K of 9 without a round", &["L 3 5", "K 9 0", "L 3 7", "S - 1 2"], "1", "7", &[(3, 7)]),
    row("9 on the other side", &["L 9 5", "L 3 7", "A - 0 1", "K - 2"], "011", "7", &[(3, 7)]),
    row("9 in the round before", &["L 9 5", "L 3 7", "A - 0 1", "K - 2"], "0001001", "575", &[(3, 7), (9, 10)]),
    row("9 in the round before, Z", &["L 9 5", "L 3 7", "A - 0 1", "Z - 2"], "1011100", "575", &[(3, 7), (9, 10)]),
    row("9 in a star of the round before", &["L - 5", "K 9 0", "L - 7", "K 3 2", "S - 1 3", "K - 4"],
        concat!("0", "01", "01", "0", "1", "001", "1"), "5777", &[(3, 21), (9, 5)]),
    // In `A`, `K` and `Z`.
    row("in A", &["L 3 5", "L 4 7", "A 9 0 1", "K 2 2"], "00011", "57", &[(9, 12)]),
    row("in a side of A", &["L 3 5", "K 9 0", "L 4 7", "A - 1 2", "K 2 3"],
        concat!("00", "001", "01", "01", "1"), "5577", &[(4, 14), (9, 10)]),
    row("in K", &["L 3 5", "K 9 0"], "001", "55", &[(9, 10)]),
    row("in Z", &["L 3 5", "Z 9 0"], "110", "55", &[(9, 10)]),
    row("in Z in K", &["L 3 5", "Z 4 0", "K 9 1"], "0100101", "55", &[(9, 10)]),
    row("in K in Z", &["L 3 5", "K 4 0", "Z 9 1"], "10010", "55", &[(9, 10)]),
    row("in Z under K of 3", &["L 4 5", "Z 9 0", "L - 7", "S - 1 2", "K 3 3"], "0100101", "5757", &[(3, 14), (9, 10)]),
    // Codes with empty rounds, totalled as they are.
    row("empty rounds of 9", &["L 3 5", "E 4", "A - 0 1", "K 9 2"], "0100011", "5", &[(9, 5)]),
    row("empty rounds of 9, Z", &["L 3 5", "E 4", "A - 0 1", "Z 9 2"], "1110110", "5", &[(9, 5)]),
    row("9 in empty rounds", &["E 9", "L - 5", "A - 0 1", "K 3 2"], "0001001", "5", &[(3, 5)]),
    row("empty rounds between 9 and 3", &["L 3 5", "K 4 0", "K 9 1"], concat!("01", "0001", "01", "1"), "55", &[(9, 10)]),
    row("an empty K of 9 in rounds", &["L 4 5", "K 9 0", "L - 7", "K - 2", "S - 1 3", "K 3 4"],
        concat!("011", "0101", "0011", "00101", "1"), "7557", &[(3, 14), (9, 10)]),
    // Two stretches of stale litres with an account of their own, and litres of account 1.
    row("two stretches", &["L - W", "R 3 0 9", "S 9 0 1", "R - 0 9", "A - 2 3", "K 1 4"],
        concat!("0100110100", "0000110010", "0000110110", "0100110101", "1"), "4W2W65", &[(1, 9), (9, 8)]),
];

/// Three accounts on one way, from the root to the leaf, in nodes of one kind,
/// with a code, and each of its letters with the way to it. Under `S` and `A`
/// letters stand at each depth: 1 at the leaf of the third account, 2 beside it
/// and 4 beside both. Under `K` and `Z` the leaf is read three times, with empty
/// rounds between.
pub fn chain(kind: char, [outer, inner, leaf]: [u64; 3]) -> (Vec<u8>, String, Vec<(u8, Way)>) {
    let written = |account: u64| match account {
        0 => "-".to_string(),
        _ => account.to_string(),
    };
    let (root, node, at) = (written(outer), written(inner), written(leaf));
    let mut lines = vec![format!("L {at} 1")];
    let bits = match kind {
        'K' | 'Z' => {
            lines.push(format!("{kind} {node} 0"));
            lines.push(format!("{kind} {root} 1"));
            // An empty round, one of two letters, an empty one, one of a letter.
            let greedy = concat!("01", "0001", "01", "001", "1");
            match kind {
                'K' => greedy.to_string(),
                _ => greedy.chars().map(other_bit).collect(),
            }
        }
        _ => {
            lines.push("L - 2".to_string());
            lines.push(format!("{kind} {node} 0 1"));
            lines.push("L - 4".to_string());
            lines.push(format!("{kind} {root} 2 3"));
            if kind == 'A' {
                lines.push("K - 4".to_string());
                concat!("000", "001", "01", "1").to_string()
            } else {
                String::new()
            }
        }
    };
    let ways = match kind {
        'K' | 'Z' => vec![(b'1', vec![outer, inner, leaf]); 3],
        _ => vec![
            (b'1', vec![outer, inner, leaf]),
            (b'2', vec![outer, inner]),
            (b'4', vec![outer]),
        ],
    };
    let lines: Vec<&str> = lines.iter().map(String::as_str).collect();
    (text(&lines), bits, ways)
}

fn other_bit(bit: char) -> char {
    match bit {
        '0' => '1',
        _ => '0',
    }
}

/// 64 lines: a range of account 3 under 63 stars, of kinds `K` and `Z` in turn
/// and of accounts 1 to 8 in turn, but for one line, which has account 9.
pub fn tower(stale: Option<usize>) -> Vec<u8> {
    match stale {
        Some(place) => tower_of(place, STALE_ACCOUNT),
        None => tower_of(0, 3),
    }
}

/// The same with any account on that line.
pub fn tower_of(place: usize, account: u64) -> Vec<u8> {
    let mut lines = vec!["R 3 0 9".to_string()];
    for place in 1..64 {
        let kind = ["K", "Z"][place % 2];
        lines.push(format!("{kind} {} {}", 1 + place % 8, place - 1));
    }
    let account = account.to_string();
    let mut fields: Vec<&str> = lines[place].split(' ').collect();
    fields[1] = &account;
    lines[place] = fields.join(" ");
    let lines: Vec<&str> = lines.iter().map(String::as_str).collect();
    text(&lines)
}

/// The bits of these letters under `tower`, all in one round of each star but
/// the innermost.
pub fn tower_bits(letters: &[u8]) -> String {
    let go_on = |place: usize| ["0", "1"][place % 2];
    let stop = |place: usize| ["1", "0"][place % 2];
    let mut bits: String = (2..64).rev().map(go_on).collect();
    for letter in letters {
        bits.push_str(&format!("{}{letter:08b}", go_on(1)));
    }
    bits.extend((1..64).map(stop));
    bits
}
