//! Random cases with a fixed seed: good texts with a few bytes or lines
//! changed, and good patterns of 1 to 64 nodes. First of patterns that have
//! no `Z`, then of such as mix `K` and `Z`, and apart from them of such as have
//! letters of the hot side too, and of such as have accounts to 200.

use super::Case;
use crate::accounts::{FIELDS, ODD_FIELDS};
use crate::lazy;
use crate::patterns::{random, text_of, with_great_accounts, Taste, LISTING, P1, P2, P3, P4, P5};
use crate::prng::Prng;
use crate::table::Kind;

/// Bytes that turn one field into another more often than any byte would.
const LIKELY_BYTES: &[u8] = b"0123456789012345\t\n\t\nELRSAKe-ab +\r~!";
/// The same where patterns may have `Z`.
pub const LIKELY_MIXED_BYTES: &[u8] = b"0123456789012345\t\n\t\nELRSAKZZKez-ab +\r~!";

/// The same with bytes next to the gap, some of the hot side, and the two bytes
/// that an editor may write for one letter.
pub const LIKELY_HOT_BYTES: &[u8] =
    b"012345678901234\t\n\t\nELRSAKZ-ab~!\x7f\x80\xa0\xa1\xfe\xff\xa1\xfe\xb0\xb9\xc4\xc3\xa4";

const ANY_PATTERN: Taste = Taste {
    leaves: &[Kind::Nothing, Kind::Letter, Kind::Letter, Kind::Range],
    inner: &[
        Kind::Sequence,
        Kind::Sequence,
        Kind::Either,
        Kind::GREEDY_STAR,
    ],
    letters: b"!0123456789AWabz~",
    accounts: true,
};

const ANY_MIXED_PATTERN: Taste = Taste {
    inner: &[
        Kind::Sequence,
        Kind::Sequence,
        Kind::Either,
        Kind::GREEDY_STAR,
        Kind::LAZY_STAR,
    ],
    letters: b"!0123456789AWZabz~",
    ..ANY_PATTERN
};

const ANY_HOT_PATTERN: Taste = Taste {
    letters: b"!09AWZaz~\xa1\xa2\xb0\xb9\xc4\xd7\xe4\xfd\xfe",
    ..ANY_MIXED_PATTERN
};

pub fn mutations() -> Vec<Case> {
    let mut rng = Prng::new(0x0001_1093);
    let mut cases = Vec::new();
    for index in 0..160 {
        let base = good_text(&mut rng, index);
        let changes = 1 + rng.below(3);
        let mut text = base;
        for _ in 0..changes {
            text = change(&mut rng, text, LIKELY_BYTES);
        }
        cases.push(Case {
            name: format!("mutation {index}"),
            text,
            expected: None,
        });
    }
    cases
}

/// Good patterns of which some named places were changed. The form stays
/// good, so these try the order among tree faults.
pub fn changed_trees() -> Vec<Case> {
    drawn_trees(Prng::new(0x0003_0064), "", &ANY_PATTERN, 60)
}

fn drawn_trees(mut rng: Prng, sort: &str, taste: &Taste, cases_wanted: usize) -> Vec<Case> {
    let mut cases = Vec::new();
    for index in 0..cases_wanted {
        let count = 3 + rng.below(if index % 3 == 0 { 62 } else { 10 });
        let mut table = random(&mut rng, count, taste);
        for _ in 0..1 + rng.below(3) {
            let node = &mut table.nodes[rng.below(count)];
            let place = match rng.below(4) {
                0 => rng.below(64) as u64,
                _ => rng.below(count) as u64,
            };
            match (node.kind, rng.below(2)) {
                (Kind::Sequence | Kind::Either, 0) => node.y = place,
                (Kind::Sequence | Kind::Either | Kind::Rounds(_), _) => node.x = place,
                // A leaf becomes a star: its line now names a place.
                (Kind::Nothing | Kind::Letter | Kind::Range, _) => {
                    node.kind = *taste.inner.last().expect("a kind of star");
                    node.x = place;
                }
            }
        }
        cases.push(Case {
            name: format!("{sort}changed tree {index}"),
            text: text_of(&table),
            expected: None,
        });
    }
    cases
}

pub fn good_patterns() -> Vec<Case> {
    let mut rng = Prng::new(0x0002_3600);
    let mut cases = Vec::new();
    for index in 0..44 {
        let count = match index {
            0..=3 => index + 1,
            40..=43 => index + 21,
            _ => 1 + rng.below(64),
        };
        let text = text_of(&random(&mut rng, count, &ANY_PATTERN));
        let expected = Some((0, count as u64));
        cases.push(Case {
            name: format!("good pattern {index}"),
            text,
            expected,
        });
    }
    cases
}

/// The same three sorts with patterns that mix `K` and `Z`.
pub fn mixed() -> Vec<Case> {
    let mut rng = Prng::new(0x0011_1093);
    let mut cases = Vec::new();
    for index in 0..60 {
        let mut text: Vec<u8> = match index % 3 {
            0 => rng.pick(&lazy::ALL).1.into(),
            _ => {
                let count = 2 + rng.below(14);
                text_of(&random(&mut rng, count, &ANY_MIXED_PATTERN))
            }
        };
        for _ in 0..1 + rng.below(3) {
            text = change(&mut rng, text, LIKELY_MIXED_BYTES);
        }
        cases.push(Case {
            name: format!("mixed mutation {index}"),
            text,
            expected: None,
        });
    }
    let seed = Prng::new(0x0013_0064);
    cases.extend(drawn_trees(seed, "mixed ", &ANY_MIXED_PATTERN, 24));
    for (index, count) in [2, 3, 5, 8, 13, 21, 34, 55, 63, 64].into_iter().enumerate() {
        cases.push(Case {
            name: format!("mixed good pattern {index}"),
            text: text_of(&random(&mut rng, count, &ANY_MIXED_PATTERN)),
            expected: Some((0, count as u64)),
        });
    }
    cases
}

/// Mutations and good patterns with letters of the hot side.
pub fn hot() -> Vec<Case> {
    let mut rng = Prng::new(0x0021_1093);
    let mut cases = Vec::new();
    for index in 0..60 {
        let count = 1 + rng.below(12);
        let mut text = text_of(&random(&mut rng, count, &ANY_HOT_PATTERN));
        for _ in 0..1 + rng.below(3) {
            text = change(&mut rng, text, LIKELY_HOT_BYTES);
        }
        cases.push(Case {
            name: format!("hot mutation {index}"),
            text,
            expected: None,
        });
    }
    for (index, count) in [1, 2, 3, 8, 21, 55, 63, 64].into_iter().enumerate() {
        cases.push(Case {
            name: format!("hot good pattern {index}"),
            text: text_of(&random(&mut rng, count, &ANY_HOT_PATTERN)),
            expected: Some((0, count as u64)),
        });
    }
    cases
}

/// Mutations and good patterns with accounts to 200. Of the mutations half have
/// another account field, the others any change.
pub fn accounts() -> Vec<Case> {
    let mut rng = Prng::new(0x0071_1093);
    let rng = &mut rng;
    let mut cases = Vec::new();
    for index in 0..120 {
        let count = 1 + rng.below(12);
        let table = random(rng, count, &ANY_MIXED_PATTERN);
        let mut text = text_of(&with_great_accounts(rng, &table));
        for _ in 0..1 + rng.below(3) {
            text = match index % 2 {
                0 => change_account(rng, text),
                _ => change(rng, text, LIKELY_MIXED_BYTES),
            };
        }
        cases.push(Case {
            name: format!("accounts: mutation {index}"),
            text,
            expected: None,
        });
    }
    for (index, count) in [1, 2, 3, 5, 8, 13, 21, 34, 55, 62, 63, 64]
        .into_iter()
        .enumerate()
    {
        let table = random(rng, count, &ANY_HOT_PATTERN);
        cases.push(Case {
            name: format!("accounts: good pattern {index}"),
            text: text_of(&with_great_accounts(rng, &table)),
            expected: Some((0, count as u64)),
        });
    }
    cases
}

/// A text with another account field in one of its lines; as it is if it has no
/// line with three fields.
pub fn change_account(rng: &mut Prng, text: Vec<u8>) -> Vec<u8> {
    if text.is_empty() {
        return text;
    }
    let field = match rng.below(4) {
        0 => rng.below(300).to_string(),
        1 => format!("{:03}", rng.below(260)),
        2 => rng.pick(ODD_FIELDS).to_string(),
        _ => rng.pick(FIELDS).0.to_string(),
    };
    with_lines(rng, text, |rng, lines| {
        let line = rng.below(lines.len());
        let mut fields: Vec<&[u8]> = lines[line].split(|&byte| byte == 9).collect();
        if fields.len() < 3 {
            return;
        }
        let account = [field.as_bytes(), line_end(fields[2])].concat();
        fields[2] = &account;
        lines[line] = fields.join(&9);
    })
}

/// The byte 10 that a last field ends with, if it is the last.
fn line_end(field: &[u8]) -> &[u8] {
    match field.ends_with(b"\n") {
        true => b"\n",
        false => b"",
    }
}

fn good_text(rng: &mut Prng, index: usize) -> Vec<u8> {
    match index % 8 {
        0 => LISTING.into(),
        1 => (*rng.pick(&[P1, P2, P3, P4, P5])).into(),
        2 => text_of(&random(rng, 64, &ANY_PATTERN)),
        3 => text_of(&random(rng, 63, &ANY_PATTERN)),
        _ => {
            let count = 2 + rng.below(14);
            text_of(&random(rng, count, &ANY_PATTERN))
        }
    }
}

/// A text with one change; new bytes are mostly of the likely ones.
pub fn change(rng: &mut Prng, mut text: Vec<u8>, likely: &[u8]) -> Vec<u8> {
    if text.is_empty() {
        return vec![*rng.pick(likely)];
    }
    let at = rng.below(text.len());
    match rng.below(9) {
        // One bit of one byte.
        0 => text[at] ^= 1 << rng.below(8),
        1 => text[at] = *rng.pick(likely),
        2 => {
            text.remove(at);
        }
        3 => text.insert(at, *rng.pick(likely)),
        4 => {
            return with_lines(rng, text, |rng, lines| {
                let (one, other) = (rng.below(lines.len()), rng.below(lines.len()));
                lines.swap(one, other);
            })
        }
        5 => {
            return with_lines(rng, text, |rng, lines| {
                let copied = lines[rng.below(lines.len())].clone();
                let index = rng.below(lines.len() + 1);
                lines.insert(index, copied);
            })
        }
        6 => {
            return with_lines(rng, text, |rng, lines| {
                // The last lines fall away: what they named is named no more.
                let kept = 1 + rng.below(lines.len());
                lines.truncate(kept);
            });
        }
        // A digit for a digit: the form often stays good, the tree does not.
        _ => {
            let digits: Vec<usize> = (0..text.len())
                .filter(|&index| text[index].is_ascii_digit())
                .collect();
            if !digits.is_empty() {
                let index = *rng.pick(&digits);
                text[index] = b'0' + rng.below(10) as u8;
            }
        }
    }
    text
}

fn with_lines(
    rng: &mut Prng,
    text: Vec<u8>,
    change: impl Fn(&mut Prng, &mut Vec<Vec<u8>>),
) -> Vec<u8> {
    let mut lines: Vec<Vec<u8>> = text
        .split_inclusive(|&byte| byte == 10)
        .map(<[u8]>::to_vec)
        .collect();
    change(rng, &mut lines);
    lines.concat()
}
