//! Codes of random values of random patterns, with empty rounds put in, and
//! pairs of codes of one pattern: of the same tape and of different tapes.
//! First of patterns that have no `Z`, then of such as mix `K` and `Z`.

use super::{just_enough, Case, Code, Lent};
use crate::code::encode;
use crate::patterns::{random, text_of, with_great_accounts, with_stale_part};
use crate::prng::Prng;
use crate::stale::{by_way, moves_litres, ways, Way};
use crate::table::{Kind, Table};
use crate::tapes::random::{Tastes, HOT, HOT_METER, METER, MIXED, MIXED_METER, WITHOUT_Z};
use crate::value::{has_empty_round, spell, Value};

/// Rounds of a random value.
const MOST_ROUNDS: usize = 30;

pub fn cases() -> Vec<Case> {
    let mut cases = drawn(Prng::new(47), "", &WITHOUT_Z, [70, 30, 20]);
    cases.extend(drawn(Prng::new(147), "mixed ", &MIXED, [40, 16, 8]));
    cases
}

/// The same with letters of the hot side.
pub fn hot() -> Vec<Case> {
    drawn(Prng::new(247), "hot ", &HOT, [30, 12, 8])
}

/// Patterns with digits and accounts of each sort.
const WITH_ACCOUNTS: Tastes = [&METER, &MIXED_METER, &HOT_METER];

/// Codes with empty rounds, of patterns with account 9 above other accounts.
/// Each has litres that are stale, and that their innermost account would get
/// otherwise.
pub fn stale() -> Vec<Case> {
    let mut rng = Prng::new(547);
    let rng = &mut rng;
    let mut cases = Vec::new();
    while cases.len() < 90 {
        let index = cases.len();
        let (table, value) = with_empty_round(rng, &WITH_ACCOUNTS, index);
        let table = with_stale_part(rng, &table);
        if moves_litres(&table, &value) {
            cases.push(case(rng, "stale random", index, &table, &value));
        }
    }
    cases
}

/// Codes with empty rounds, of patterns with accounts to 200, every third with
/// account 9 above others. Each has litres of an account above 9.
pub fn accounts() -> Vec<Case> {
    let mut rng = Prng::new(747);
    let rng = &mut rng;
    let mut cases = Vec::new();
    while cases.len() < 90 {
        let index = cases.len();
        let (table, value) = with_empty_round(rng, &WITH_ACCOUNTS, index);
        let table = drawn_accounts(rng, index, &table);
        if has_great_litres(&table, &value) {
            cases.push(case(rng, "accounts random", index, &table, &value));
        }
    }
    cases
}

/// The table with accounts to 200, every third with account 9 above others.
pub fn drawn_accounts(rng: &mut Prng, index: usize, table: &Table) -> Table {
    let table = match index % 3 {
        0 => with_stale_part(rng, table),
        _ => table.clone(),
    };
    with_great_accounts(rng, &table)
}

/// Whether the reading has litres of an account above 9.
pub fn has_great_litres(table: &Table, value: &Value) -> bool {
    let great = |(letter, way): &(u8, Way)| (b'1'..=b'9').contains(letter) && by_way(way) > 9;
    ways(table, value).iter().any(great)
}

/// So many codes with empty rounds, pairs of one tape and pairs of two tapes.
fn drawn(mut rng: Prng, sort: &str, tastes: &Tastes, counts: [usize; 3]) -> Vec<Case> {
    let rng = &mut rng;
    let mut cases = Vec::new();
    for index in 0..counts[0] {
        let (table, value) = with_empty_round(rng, tastes, index);
        let name = format!("{sort}empty rounds");
        cases.push(case(rng, &name, index, &table, &value));
    }
    for index in 0..counts[1] {
        let (table, one) = with_empty_round(rng, tastes, index);
        let other = same_tape(rng, &table, &one);
        let name = format!("{sort}pair of one tape");
        cases.push(case(rng, &name, index, &table, &one));
        cases.push(case(rng, &name, index, &table, &other));
    }
    for index in 0..counts[2] {
        let (table, one) = with_empty_round(rng, tastes, index);
        let other = other_tape(rng, &table, &one);
        let name = format!("{sort}pair of two tapes");
        cases.push(case(rng, &name, index, &table, &one));
        cases.push(case(rng, &name, index, &table, &other));
    }
    cases
}

pub fn pattern(rng: &mut Prng, tastes: &Tastes, index: usize) -> Table {
    let taste = tastes[index % 3];
    // Every tenth has all 64 lines.
    let count = if index % 10 == 9 {
        64
    } else {
        4 + rng.below(24)
    };
    random(rng, count, taste)
}

/// Buffers just long enough, a cell longer and plenty in turn.
fn case(rng: &mut Prng, sort: &str, index: usize, table: &Table, value: &Value) -> Case {
    let code = Code::of_bits(&encode(table, value));
    let enough = just_enough(table, &code);
    let lent = match index % 3 {
        0 => enough,
        1 => Lent {
            letters: enough.letters + 1,
            words: enough.words + 1,
            bytes: enough.bytes + 1,
        },
        _ => Lent {
            letters: enough.letters + rng.below(30),
            words: enough.words + rng.below(30),
            bytes: enough.bytes + rng.below(30),
        },
    };
    Case {
        name: format!("{sort}: {index}"),
        text: text_of(table),
        code,
        lent,
        expected: None,
        litres: None,
    }
}

/// A pattern and a value of it that holds an empty round.
pub fn with_empty_round(rng: &mut Prng, tastes: &Tastes, index: usize) -> (Table, Value) {
    loop {
        let table = pattern(rng, tastes, index);
        for _ in 0..20 {
            let value = sample(rng, &table, table.root(), &mut 0);
            let value = put_in(rng, &table, table.root(), &value);
            // One that spells something, if it can be had.
            let long = spell(&value).len() > index % 4;
            if long && has_empty_round(&value) {
                return (table, value);
            }
        }
    }
}

/// Another value of the same tape: a sampled one, else one with more rounds.
fn same_tape(rng: &mut Prng, table: &Table, one: &Value) -> Value {
    let letters = spell(one);
    for _ in 0..200 {
        let other = sample(rng, table, table.root(), &mut 0);
        if other != *one && spell(&other) == letters {
            return other;
        }
    }
    loop {
        let other = put_in(rng, table, table.root(), one);
        if other != *one {
            return other;
        }
    }
}

/// A value of another tape; patterns of one tape keep theirs.
pub fn other_tape(rng: &mut Prng, table: &Table, one: &Value) -> Value {
    let letters = spell(one);
    let mut other = one.clone();
    for _ in 0..200 {
        let value = sample(rng, table, table.root(), &mut 0);
        other = put_in(rng, table, table.root(), &value);
        if spell(&other) != letters {
            break;
        }
    }
    other
}

/// A random value of a node. Rounds stop once there are too many of them.
pub fn sample(rng: &mut Prng, table: &Table, place: usize, rounds: &mut usize) -> Value {
    let node = table.node(place);
    let (x, y) = (node.x as usize, node.y as usize);
    match node.kind {
        Kind::Nothing => Value::Nothing,
        Kind::Letter => Value::Letter(node.x as u8),
        Kind::Range => Value::Letter(*rng.pick(&node.letters())),
        Kind::Sequence => {
            let first = sample(rng, table, x, rounds);
            Value::pair(first, sample(rng, table, y, rounds))
        }
        Kind::Either if rng.below(2) == 0 => Value::Left(Box::new(sample(rng, table, x, rounds))),
        Kind::Either => Value::Right(Box::new(sample(rng, table, y, rounds))),
        Kind::Rounds(star) => {
            let mut list = Vec::new();
            while *rounds < MOST_ROUNDS && rng.below(5) < 3 {
                *rounds += 1;
                list.push(sample(rng, table, x, rounds));
            }
            Value::Rounds(star, list)
        }
    }
}

/// A random value of a node that spells nothing, if it has one.
fn empty(rng: &mut Prng, table: &Table, place: usize) -> Option<Value> {
    let node = table.node(place);
    let (x, y) = (node.x as usize, node.y as usize);
    match node.kind {
        Kind::Nothing => Some(Value::Nothing),
        Kind::Letter | Kind::Range => None,
        Kind::Sequence => Some(Value::pair(empty(rng, table, x)?, empty(rng, table, y)?)),
        Kind::Either => {
            let left = empty(rng, table, x).map(|side| Value::Left(Box::new(side)));
            let right = empty(rng, table, y).map(|side| Value::Right(Box::new(side)));
            if rng.below(2) == 0 {
                left.or(right)
            } else {
                right.or(left)
            }
        }
        Kind::Rounds(star) => {
            let mut list = Vec::new();
            if rng.below(3) == 0 {
                list.extend(empty(rng, table, x));
            }
            Some(Value::Rounds(star, list))
        }
    }
}

/// The value with empty rounds put in; it spells the same.
pub fn put_in(rng: &mut Prng, table: &Table, place: usize, value: &Value) -> Value {
    let node = table.node(place);
    let (x, y) = (node.x as usize, node.y as usize);
    match value {
        Value::Nothing => Value::Nothing,
        Value::Letter(letter) => Value::Letter(*letter),
        Value::Pair(pair) => {
            let first = put_in(rng, table, x, &pair.0);
            Value::pair(first, put_in(rng, table, y, &pair.1))
        }
        Value::Left(side) => Value::Left(Box::new(put_in(rng, table, x, side))),
        Value::Right(side) => Value::Right(Box::new(put_in(rng, table, y, side))),
        Value::Rounds(star, rounds) => {
            let mut list = Vec::new();
            for round in rounds {
                if rng.below(3) == 0 {
                    list.extend(empty(rng, table, x));
                }
                list.push(put_in(rng, table, x, round));
            }
            if rng.below(2) == 0 {
                list.extend(empty(rng, table, x));
            }
            Value::Rounds(*star, list)
        }
    }
}
