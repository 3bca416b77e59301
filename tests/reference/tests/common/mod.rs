//! What several tests use.
#![allow(dead_code)]

use wumbyra_reference::load::load;
use wumbyra_reference::patterns::{random, Taste};
use wumbyra_reference::prng::Prng;
use wumbyra_reference::table::{Kind, Table};

/// Small patterns full of `K` over parts that can spell nothing.
pub const NULLABLE: Taste = Taste {
    leaves: &[Kind::Nothing, Kind::Letter, Kind::Letter, Kind::Range],
    inner: &[
        Kind::GREEDY_STAR,
        Kind::GREEDY_STAR,
        Kind::Either,
        Kind::Either,
        Kind::Sequence,
        Kind::Sequence,
    ],
    letters: b"ab",
    accounts: false,
};

/// The same with both kinds of stars.
pub const MIXED: Taste = Taste {
    inner: &[
        Kind::GREEDY_STAR,
        Kind::LAZY_STAR,
        Kind::LAZY_STAR,
        Kind::Either,
        Kind::Either,
        Kind::Sequence,
        Kind::Sequence,
    ],
    ..NULLABLE
};

/// Patterns with digits, accounts, ranges and both kinds of stars.
pub const METER: Taste = Taste {
    leaves: &[Kind::Nothing, Kind::Letter, Kind::Range, Kind::Range],
    inner: &[
        Kind::GREEDY_STAR,
        Kind::LAZY_STAR,
        Kind::Either,
        Kind::Sequence,
    ],
    letters: b"012379W",
    accounts: true,
};

pub fn table(text: &str) -> Table {
    load(text.as_bytes()).expect("a good pattern")
}

/// One pattern in three has no `Z`, the others mix both kinds.
pub fn small(rng: &mut Prng, most: usize) -> Table {
    let count = 1 + rng.below(most);
    let taste = *rng.pick(&[&NULLABLE, &MIXED, &MIXED]);
    random(rng, count, taste)
}

/// All tapes over some letters with at most `most` letters.
pub fn tapes(letters: &[u8], most: usize) -> Vec<Vec<u8>> {
    let mut all = vec![vec![]];
    let mut longest: Vec<Vec<u8>> = vec![vec![]];
    for _ in 0..most {
        longest = longest
            .iter()
            .flat_map(|tape| {
                letters
                    .iter()
                    .map(move |&letter| [tape.as_slice(), &[letter]].concat())
            })
            .collect();
        all.extend(longest.iter().cloned());
    }
    all
}

/// Bits written as 0 and 1.
pub fn bits(written: &str) -> Vec<bool> {
    written.bytes().map(|byte| byte == b'1').collect()
}

pub fn written(bits: &[bool]) -> String {
    bits.iter()
        .map(|&bit| if bit { '1' } else { '0' })
        .collect()
}

/// The letters of a random value of a node, added to `letters`.
pub fn sample(rng: &mut Prng, table: &Table, place: usize, letters: &mut Vec<u8>) {
    let node = table.node(place);
    let (x, y) = (node.x as usize, node.y as usize);
    match node.kind {
        Kind::Nothing => {}
        Kind::Letter => letters.push(node.x as u8),
        Kind::Range => letters.push(*rng.pick(&node.letters())),
        Kind::Sequence => {
            sample(rng, table, x, letters);
            sample(rng, table, y, letters);
        }
        Kind::Either => {
            let side = if rng.below(2) == 0 { x } else { y };
            sample(rng, table, side, letters);
        }
        Kind::Rounds(_) => {
            while rng.below(5) < 2 {
                sample(rng, table, x, letters);
            }
        }
    }
}
