//! Codes of random values of random patterns: with empty rounds, damaged, and
//! of another tape. First of patterns that have no `Z`, then of such as mix
//! `K` and `Z`.

use super::Case;
use crate::code::encode;
use crate::codes::damaged::damage;
use crate::codes::random::{other_tape, pattern, sample, with_empty_round};
use crate::codes::Code;
use crate::patterns::text_of;
use crate::prng::Prng;
use crate::services::visits::count_of_visits;
use crate::table::Table;
use crate::tapes::random::{Tastes, HOT, MIXED, WITHOUT_Z};
use crate::value::spell;

pub fn cases() -> Vec<Case> {
    let mut cases = drawn(Prng::new(83), "", &WITHOUT_Z, [30, 20, 48]);
    cases.extend(drawn(Prng::new(183), "mixed ", &MIXED, [12, 8, 16]));
    cases
}

/// The same with letters of the hot side.
pub fn hot() -> Vec<Case> {
    drawn(Prng::new(283), "hot ", &HOT, [10, 8, 16])
}

/// So many codes with empty rounds, of another tape and damaged.
fn drawn(mut rng: Prng, sort: &str, tastes: &Tastes, counts: [usize; 3]) -> Vec<Case> {
    let mut cases = Vec::new();
    for index in 0..counts[0] {
        let (table, value) = with_empty_round(&mut rng, tastes, index);
        let code = Code::of_bits(&encode(&table, &value));
        let tape = spell(&value);
        for _ in 0..3 {
            let (node, visits) = visited(&mut rng, &table, &code);
            for visit in [rng.below(visits as usize) as u64, visits] {
                cases.push(case(
                    &format!("{sort}empty rounds"),
                    index,
                    &table,
                    &tape,
                    &code,
                    node,
                    visit,
                ));
            }
        }
    }
    for index in 0..counts[1] {
        let (table, one) = with_empty_round(&mut rng, tastes, index);
        let other = other_tape(&mut rng, &table, &one);
        let code = Code::of_bits(&encode(&table, &one));
        let (node, _) = visited(&mut rng, &table, &code);
        cases.push(case(
            &format!("{sort}another tape"),
            index,
            &table,
            &spell(&other),
            &code,
            node,
            0,
        ));
    }
    let mut index = 0;
    while index < counts[2] {
        let table = pattern(&mut rng, tastes, index / 8);
        let value = sample(&mut rng, &table, table.root(), &mut 0);
        let bits = encode(&table, &value);
        if bits.len() < 6 {
            continue;
        }
        let code = damage(&mut rng, index % 8, &bits);
        let node = table.root() as u64;
        cases.push(case(
            &format!("{sort}damaged"),
            index,
            &table,
            &spell(&value),
            &code,
            node,
            0,
        ));
        index += 1;
    }
    cases
}

fn case(
    sort: &str,
    index: usize,
    table: &Table,
    tape: &[u8],
    code: &Code,
    node: u64,
    visit: u64,
) -> Case {
    Case {
        name: format!("{sort}: {index}, node {node}, visit {visit}"),
        text: text_of(table),
        tape: tape.to_vec(),
        code: code.clone(),
        node,
        visit,
        expected: None,
    }
}

/// A random node that the code visits, and how often.
fn visited(rng: &mut Prng, table: &Table, code: &Code) -> (u64, u64) {
    loop {
        let node = rng.below(table.count as usize);
        let visits = count_of_visits(table, &code.bytes, code.count, node);
        if visits > 0 {
            return (node as u64, visits);
        }
    }
}
