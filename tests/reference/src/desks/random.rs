//! Random runs: a tape that the pattern reads, or one with letters changed, in
//! pages from the last letters to the first, with withdrawals, refused calls,
//! other tables and desks by hand in between.

use super::{Case, Step, ALL_LETTERS};
use crate::patterns::{random, text_of};
use crate::prng::Prng;
use crate::services::desk::{Desk, MOST_PAGES};
use crate::services::MOST_LETTERS;
use crate::table::Table;
use crate::tapes::random::{Tastes, HOT, MIXED, WITHOUT_Z};
use crate::tapes::ALL_WORDS;

pub fn cases() -> Vec<Case> {
    let mut cases = drawn(Prng::new(661), "random", &WITHOUT_Z, 60);
    cases.extend(drawn(Prng::new(662), "mixed random", &MIXED, 60));
    cases.extend(drawn(Prng::new(663), "hot random", &HOT, 60));
    cases
}

fn drawn(mut rng: Prng, sort: &str, tastes: &Tastes, count: usize) -> Vec<Case> {
    let rng = &mut rng;
    (0..count)
        .map(|index| {
            let wild = index % 3 == 2;
            let (text, steps) = run(rng, tastes, index, wild);
            let calls = steps.len();
            Case {
                name: format!("{sort}{}: {index}", if wild { " wild" } else { "" }),
                text,
                steps,
                expected: vec![None; calls],
            }
        })
        .collect()
}

/// A text and a run. A wild one also has tables and desks by hand in between.
pub fn run(rng: &mut Prng, tastes: &Tastes, index: usize, wild: bool) -> (Vec<u8>, Vec<Step>) {
    let letters = tastes[index % 3].letters;
    let text = text_of(&pattern(rng, tastes, index));
    let mut steps = vec![Step::Open {
        words: 2 + rng.below(3),
    }];
    // What a stack would hold, as far as the calls are accepted.
    let mut held: Vec<usize> = Vec::new();
    // One run in six begins with nearly as many pages as a desk holds.
    while index % 6 == 4 && held.len() < MOST_PAGES - 2 {
        steps.push(put(rng, letters, &mut held));
    }
    for _ in 0..4 + rng.below(12) {
        match rng.below(12) {
            0 if wild => steps.push(hand(rng, letters, &mut held)),
            1 if wild => steps.push(Step::Text(other_text(rng, tastes, &text))),
            2 => {
                steps.push(Step::Open {
                    words: rng.below(4),
                });
                if matches!(steps.last(), Some(Step::Open { words: 2.. })) {
                    held.clear();
                }
            }
            3..=5 => {
                let cells = cells(rng);
                steps.push(Step::Withdraw { cells });
                if cells >= MOST_LETTERS {
                    held.pop();
                }
            }
            _ => steps.push(put(rng, letters, &mut held)),
        }
    }
    // The last step is a call, so that what stands before it shows.
    steps.push(Step::Withdraw {
        cells: MOST_LETTERS,
    });
    (text, steps)
}

fn pattern(rng: &mut Prng, tastes: &Tastes, index: usize) -> Table {
    let count = match index % 10 {
        9 => 64,
        _ => 1 + rng.below(20),
    };
    random(rng, count, tastes[index % 3])
}

fn other_text(rng: &mut Prng, tastes: &Tastes, text: &[u8]) -> Vec<u8> {
    match rng.below(4) {
        0 => text[..rng.below(text.len())].to_vec(),
        1 => text.to_vec(),
        index => text_of(&pattern(rng, tastes, index)),
    }
}

/// One in eight is too few.
fn cells(rng: &mut Prng) -> usize {
    match rng.below(8) {
        0 => *rng.pick(&[0, 1, 120, 3_599]),
        1 => MOST_LETTERS + rng.below(ALL_LETTERS - MOST_LETTERS + 1),
        _ => MOST_LETTERS,
    }
}

/// A page, with as many words as it needs, or about as many.
fn put(rng: &mut Prng, letters: &[u8], held: &mut Vec<usize>) -> Step {
    let length = match rng.below(16) {
        0 => *rng.pick(&[0, 119, 120, 121]),
        1 => rng.below(123),
        _ => 1 + rng.below(9),
    };
    let mut page: Vec<u8> = (0..length).map(|_| *rng.pick(letters)).collect();
    let mut good = (1..=120).contains(&length) && held.len() < MOST_PAGES;
    if length > 0 && rng.below(10) == 0 {
        page[rng.below(length)] = *rng.pick(&[0, 9, 10, 32, 127, 128, 160, 255]);
        good = false;
    }
    let needed = 2 * (held.iter().sum::<usize>() + length + 1);
    let words = match rng.below(8) {
        0 => rng.below(needed),
        1 => needed - 1,
        2 => needed + rng.below(20),
        3 => ALL_WORDS,
        _ => needed,
    };
    let words = words.min(ALL_WORDS);
    let cells = cells(rng);
    if good && cells >= MOST_LETTERS && words >= needed {
        held.push(length);
    }
    Step::Put { page, cells, words }
}

/// A desk as a caller might write it: mostly one that can be gone on with.
fn hand(rng: &mut Prng, letters: &[u8], held: &mut Vec<usize>) -> Step {
    let pages = match rng.below(4) {
        0 => MOST_PAGES - rng.below(2),
        _ => rng.below(5),
    };
    let mut desk = Desk {
        count: pages as u8,
        lengths: [0; MOST_PAGES],
    };
    for cell in &mut desk.lengths {
        *cell = 1 + rng.below(4) as u8;
    }
    match rng.below(6) {
        0 => desk.lengths[rng.below(MOST_PAGES)] = *rng.pick(&[0, 120, 121, 255]),
        1 => desk.count = *rng.pick(&[31, 32, 255]),
        _ => {}
    }
    let length = desk.letters().min(MOST_LETTERS);
    let mut bytes: Vec<u8> = (0..length).map(|_| *rng.pick(letters)).collect();
    if length > 0 && rng.below(6) == 0 {
        bytes[rng.below(length)] = *rng.pick(&[32, 127, 255]);
    }
    let at = MOST_LETTERS - length;
    let counted = usize::from(desk.count).min(MOST_PAGES);
    *held = desk.lengths[..counted]
        .iter()
        .map(|&n| usize::from(n))
        .collect();
    Step::Hand { desk, bytes, at }
}
