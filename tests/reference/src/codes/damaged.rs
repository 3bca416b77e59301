//! Codes of random values with one damage each. Some are whole codes still.
//! First of patterns that have no `Z`, then of such as mix `K` and `Z`, and
//! apart from them of such as have letters of the hot side too.

use super::random::{pattern, sample};
use super::{just_enough, Case, Code};
use crate::code::encode;
use crate::patterns::text_of;
use crate::prng::Prng;
use crate::table::{Kind, Table};
use crate::tapes::random::{Tastes, HOT, MIXED, WITHOUT_Z};
use crate::value::Value;

/// What is done to a code; the index picks it.
const DAMAGES: [&str; 8] = [
    "bit turned",
    "two bits turned",
    "bit more in the count",
    "bit less in the count",
    "padding",
    "byte too many",
    "byte too few",
    "bit taken out",
];

pub fn cases() -> Vec<Case> {
    let mut cases = drawn(Prng::new(11), "damaged", &WITHOUT_Z, 96);
    cases.extend(drawn(Prng::new(111), "mixed damaged", &MIXED, 64));
    cases
}

/// The same with letters of the hot side, and codes in which the eight bits of
/// one letter are another byte.
pub fn hot() -> Vec<Case> {
    let mut cases = drawn(Prng::new(211), "hot damaged", &HOT, 48);
    cases.extend(drawn_letters(Prng::new(212), 64));
    cases
}

fn drawn_letters(mut rng: Prng, count: usize) -> Vec<Case> {
    let mut cases = Vec::new();
    while cases.len() < count {
        let index = cases.len();
        let table = pattern(&mut rng, &HOT, index);
        let value = sample(&mut rng, &table, table.root(), &mut 0);
        let byte = other_byte(&mut rng);
        let Some(code) = damage_letter(&mut rng, &table, &value, byte) else {
            continue;
        };
        cases.push(Case {
            name: format!("hot damaged letter: {index}, {byte}"),
            text: text_of(&table),
            lent: just_enough(&table, &code),
            code,
            expected: None,
            litres: None,
        });
    }
    cases
}

/// A byte at an end of the letters or next to one, half of the time any byte.
pub fn other_byte(rng: &mut Prng) -> u8 {
    match rng.below(2) {
        0 => *rng.pick(&[32, 33, 126, 127, 128, 160, 161, 254, 255]),
        _ => rng.below(256) as u8,
    }
}

/// The code of the value with this byte for one of the letters that ranges
/// read; none if they read no letter.
pub fn damage_letter(rng: &mut Prng, table: &Table, value: &Value, byte: u8) -> Option<Code> {
    let letters = range_letters(table, table.root(), value);
    if letters == 0 {
        return None;
    }
    let mut left = rng.below(letters);
    let changed = with_byte(table, table.root(), value, &mut left, byte);
    Some(Code::of_bits(&encode(table, &changed)))
}

fn range_letters(table: &Table, place: usize, value: &Value) -> usize {
    let node = table.node(place);
    let of = |part: u64, value: &Value| range_letters(table, part as usize, value);
    match value {
        Value::Nothing => 0,
        Value::Letter(_) => usize::from(node.kind == Kind::Range),
        Value::Pair(pair) => of(node.x, &pair.0) + of(node.y, &pair.1),
        Value::Left(side) => of(node.x, side),
        Value::Right(side) => of(node.y, side),
        Value::Rounds(_, rounds) => rounds.iter().map(|round| of(node.x, round)).sum(),
    }
}

/// The byte for the letter of a range that has `left` such letters before it.
fn with_byte(table: &Table, place: usize, value: &Value, left: &mut usize, byte: u8) -> Value {
    let node = table.node(place);
    let mut of = |part: u64, value: &Value| with_byte(table, part as usize, value, left, byte);
    match value {
        Value::Nothing => Value::Nothing,
        Value::Letter(letter) => {
            let here = node.kind == Kind::Range && *left == 0;
            // Past 0 it wraps: no later letter is changed.
            *left = left.wrapping_sub(usize::from(node.kind == Kind::Range));
            Value::Letter(if here { byte } else { *letter })
        }
        Value::Pair(pair) => {
            let first = of(node.x, &pair.0);
            Value::pair(first, of(node.y, &pair.1))
        }
        Value::Left(side) => Value::Left(Box::new(of(node.x, side))),
        Value::Right(side) => Value::Right(Box::new(of(node.y, side))),
        Value::Rounds(star, rounds) => {
            let rounds = rounds.iter().map(|round| of(node.x, round));
            Value::Rounds(*star, rounds.collect())
        }
    }
}

fn drawn(mut rng: Prng, sort: &str, tastes: &Tastes, count: usize) -> Vec<Case> {
    let mut cases = Vec::new();
    while cases.len() < count {
        let index = cases.len();
        let table = pattern(&mut rng, tastes, index / 8);
        let value = sample(&mut rng, &table, table.root(), &mut 0);
        let bits = encode(&table, &value);
        if bits.len() < 6 {
            continue;
        }
        let code = damage(&mut rng, index % 8, &bits);
        let mut lent = just_enough(&table, &Code::of_bits(&bits));
        // Where it is a code of another tape still, there is room for it.
        lent.letters += 3;
        lent.words += 6;
        lent.bytes += 6;
        cases.push(Case {
            name: format!("{sort}: {index}, {}", DAMAGES[index % 8]),
            text: text_of(&table),
            code,
            lent,
            expected: None,
            litres: None,
        });
    }
    cases
}

pub fn damage(rng: &mut Prng, which: usize, bits: &[bool]) -> Code {
    let mut changed = bits.to_vec();
    let position = rng.below(bits.len());
    match which {
        0 => changed[position] = !changed[position],
        1 => {
            let other = (position + 1 + rng.below(bits.len() - 1)) % bits.len();
            changed[position] = !changed[position];
            changed[other] = !changed[other];
        }
        7 => drop(changed.remove(position)),
        _ => {}
    }
    let mut code = Code::of_bits(&changed);
    match which {
        2 => code.count += 1,
        3 => code.count -= 1,
        4 => pad(rng, &mut code),
        5 => code.bytes.push(0),
        6 => drop(code.bytes.pop()),
        _ => {}
    }
    code
}

/// One of the unused bits set; where there is none, a byte of ones more.
fn pad(rng: &mut Prng, code: &mut Code) {
    let unused = 8 * code.bytes.len() - code.count as usize;
    match code.bytes.last_mut() {
        Some(last) if unused > 0 => *last |= 1 << rng.below(unused),
        _ => code.bytes.push(255),
    }
}
