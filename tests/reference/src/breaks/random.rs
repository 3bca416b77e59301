//! Random patterns of each sort, each with a tape that it reads and with four
//! others: cut behind a letter, without its first letters, with a letter
//! exchanged, and with one twice.

use super::Case;
use crate::codes::random::sample;
use crate::memo::preferred_reading;
use crate::patterns::{random, text_of};
use crate::prng::Prng;
use crate::table::Table;
use crate::tapes::random::{Tastes, HOT, MIXED, WITHOUT_Z};
use crate::value::spell;

const MOST_SAMPLED: usize = 40;

pub fn cases() -> Vec<Case> {
    let mut cases = drawn(Prng::new(310), "random", &WITHOUT_Z, 40);
    cases.extend(drawn(Prng::new(311), "mixed random", &MIXED, 40));
    cases.extend(drawn(Prng::new(312), "hot random", &HOT, 40));
    cases
}

/// Of eight patterns one has 64 lines, the others have up to 24. Most random
/// patterns read nearly every tape of their letters: only such are taken as do
/// not read one of the changed tapes.
fn drawn(mut rng: Prng, sort: &str, tastes: &Tastes, count: usize) -> Vec<Case> {
    let mut cases = Vec::new();
    let mut index = 0;
    while index < count {
        let taste = tastes[index % 3];
        let lines = match index % 8 {
            0 => 64,
            _ => 1 + rng.below(24),
        };
        let table = random(&mut rng, lines, taste);
        let tapes = tapes(&mut rng, &table, taste.letters);
        let read = |tape: &Vec<u8>| preferred_reading(&table, tape).is_some();
        if tapes.iter().all(|(_, tape)| read(tape)) {
            continue;
        }
        for (what, tape) in tapes {
            cases.push(Case {
                name: format!("{sort}: {index}, {what}"),
                text: text_of(&table),
                tape,
                expected: None,
            });
        }
        index += 1;
    }
    cases
}

/// A tape that the pattern reads, and others made of it; none if it has no letters.
fn tapes(rng: &mut Prng, table: &Table, letters: &[u8]) -> Vec<(&'static str, Vec<u8>)> {
    // The longest of some, as far as it is not too long.
    let tapes = (0..12).map(|_| spell(&sample(rng, table, table.root(), &mut 0)));
    let short = tapes.filter(|tape| tape.len() <= MOST_SAMPLED);
    let tape = short.max_by_key(Vec::len).unwrap_or_default();
    if tape.is_empty() {
        return vec![];
    }
    let at = rng.below(tape.len());
    let mut other = tape.clone();
    other[at] = *rng.pick(letters);
    vec![
        ("read", tape.clone()),
        ("cut", tape[..at].to_vec()),
        ("without its first", tape[at + 1..].to_vec()),
        ("a letter exchanged", other),
        (
            "a letter twice",
            [&tape[..at], &tape[at..=at], &tape[at..]].concat(),
        ),
    ]
}
