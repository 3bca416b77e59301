//! Random patterns full of stars over parts that can spell nothing, and of
//! ranges, with tapes that they read and tapes that they do not: first those
//! that have no `Z`, then such as mix `K` and `Z`, and apart from them such as
//! have letters of the hot side too.

use super::{bytes_for, read, words_for, Case};
use crate::patterns::{random, text_of, Taste};
use crate::prng::Prng;
use crate::table::{Kind, Table};

const MOST_SAMPLED: usize = 40;

pub const NULLABLE: Taste = Taste {
    leaves: &[Kind::Nothing, Kind::Letter, Kind::Letter, Kind::Range],
    inner: &[
        Kind::GREEDY_STAR,
        Kind::GREEDY_STAR,
        Kind::Either,
        Kind::Either,
        Kind::Sequence,
        Kind::Sequence,
    ],
    letters: b"ab",
    accounts: false,
};

pub const METER: Taste = Taste {
    leaves: &[Kind::Nothing, Kind::Letter, Kind::Range, Kind::Range],
    inner: &[Kind::GREEDY_STAR, Kind::Either, Kind::Sequence],
    letters: b"!01379W~",
    accounts: true,
};

pub const MIXED_NULLABLE: Taste = Taste {
    inner: &[
        Kind::GREEDY_STAR,
        Kind::LAZY_STAR,
        Kind::LAZY_STAR,
        Kind::Either,
        Kind::Either,
        Kind::Sequence,
        Kind::Sequence,
    ],
    ..NULLABLE
};

pub const MIXED_METER: Taste = Taste {
    inner: &[
        Kind::GREEDY_STAR,
        Kind::LAZY_STAR,
        Kind::Either,
        Kind::Sequence,
    ],
    ..METER
};

/// The two letters next to the gap: a range of both runs across it.
pub const HOT_NULLABLE: Taste = Taste {
    letters: &[126, 161],
    ..MIXED_NULLABLE
};

/// Letters of both sides. A hot letter is a cold one with its highest bit set:
/// beside `0`, `9` and `D` there are those that must not be taken for them.
pub const HOT_METER: Taste = Taste {
    letters: b"!09DW~\xa1\xb0\xb9\xc4\xd7\xfe",
    ..MIXED_METER
};

/// What patterns without `Z` are made of, in turn, what those that mix `K` and
/// `Z` are made of, and what those with letters of the hot side are made of.
pub type Tastes = [&'static Taste<'static>; 3];
pub const WITHOUT_Z: Tastes = [&NULLABLE, &NULLABLE, &METER];
pub const MIXED: Tastes = [&MIXED_NULLABLE, &MIXED_NULLABLE, &MIXED_METER];
pub const HOT: Tastes = [&HOT_NULLABLE, &HOT_METER, &HOT_METER];

pub fn cases() -> Vec<Case> {
    let mut cases = drawn(Prng::new(6), "random", &WITHOUT_Z, 300, 20);
    cases.extend(drawn(Prng::new(106), "mixed", &MIXED, 150, 10));
    cases
}

pub fn hot() -> Vec<Case> {
    drawn(Prng::new(206), "hot", &HOT, 90, 6)
}

/// So many cases of patterns of up to 24 lines, and so many of all 64.
fn drawn(mut rng: Prng, sort: &str, tastes: &Tastes, some: usize, full: usize) -> Vec<Case> {
    let mut cases = Vec::new();
    for index in 0..some + full {
        let taste = tastes[index % 3];
        let count = if index < some { 1 + rng.below(24) } else { 64 };
        let table = random(&mut rng, count, taste);
        let wanted = index % 2 == 0;
        let tape = if wanted {
            readable(&mut rng, &table)
        } else {
            unreadable(&mut rng, &table, taste.letters)
        };
        cases.push(case(&mut rng, sort, index, &table, tape));
    }
    cases
}

/// Code buffers just long enough, a byte short and longer in turn.
fn case(rng: &mut Prng, sort: &str, index: usize, table: &Table, tape: Vec<u8>) -> Case {
    let text = text_of(table);
    let found = if read(table, &tape).is_ok() {
        "readable"
    } else {
        "unreadable"
    };
    let bytes = bytes_for(&text, &tape);
    let (room, bytes) = match index / 6 % 3 {
        0 => ("exact", bytes),
        1 => ("a byte short", bytes.saturating_sub(1)),
        _ => ("plenty", bytes + 1 + rng.below(9)),
    };
    Case {
        name: format!("{sort} {found}: {index}, {room}"),
        words: words_for(&tape) + rng.below(3),
        text,
        tape,
        bytes,
        expected: None,
    }
}

/// The longest of some tapes that random values spell.
fn readable(rng: &mut Prng, table: &Table) -> Vec<u8> {
    let mut longest = Vec::new();
    let mut found = false;
    let mut left = 1 + rng.below(60);
    while left > 0 || !found {
        let mut letters = Vec::new();
        sample(rng, table, table.root(), &mut letters);
        if letters.len() <= MOST_SAMPLED && (!found || letters.len() > longest.len()) {
            found = true;
            longest = letters;
        }
        left = left.saturating_sub(1);
    }
    longest
}

/// A readable tape with a letter changed, put in or taken out until no
/// reading spells it; patterns that read nearly everything keep theirs.
fn unreadable(rng: &mut Prng, table: &Table, letters: &[u8]) -> Vec<u8> {
    let mut tape = readable(rng, table);
    for _ in 0..20 {
        if read(table, &tape).is_err() {
            break;
        }
        let letter = *rng.pick(letters);
        let position = rng.below(tape.len() + 1);
        match rng.below(3) {
            0 if position < tape.len() => tape[position] = letter,
            1 if position < tape.len() => drop(tape.remove(position)),
            _ if tape.len() < MOST_SAMPLED => tape.insert(position, letter),
            _ => {}
        }
    }
    tape
}

/// The letters of a random value of a node, added to `letters`. Rounds stop
/// once there are too many of them.
fn sample(rng: &mut Prng, table: &Table, place: usize, letters: &mut Vec<u8>) {
    let node = table.node(place);
    let (x, y) = (node.x as usize, node.y as usize);
    match node.kind {
        Kind::Nothing => {}
        Kind::Letter => letters.push(node.x as u8),
        Kind::Range => letters.push(*rng.pick(&node.letters())),
        Kind::Sequence => {
            sample(rng, table, x, letters);
            sample(rng, table, y, letters);
        }
        Kind::Either => {
            let side = if rng.below(2) == 0 { x } else { y };
            sample(rng, table, side, letters);
        }
        Kind::Rounds(_) => {
            while letters.len() <= MOST_SAMPLED && rng.below(5) < 3 {
                sample(rng, table, x, letters);
            }
        }
    }
}
