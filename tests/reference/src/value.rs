//! Values of 001, section 2: what they spell, whether they hold an empty
//! round, and the preferred order: the greedy order of section 4, in which a
//! list of `Z` is greater where it stops (section 6, "ungreedy").

use crate::table::Star;
use std::cmp::Ordering;

/// "`E` reads no letter, `L` its letter, `R` a letter of the range, `S` a
/// pair, `A` a marked side, `K` a list of rounds", and `Z` one too. A list
/// says whose it is: the order asks for that.
#[derive(Clone, PartialEq, Eq, Debug)]
pub enum Value {
    Nothing,
    Letter(u8),
    Pair(Box<(Value, Value)>),
    Left(Box<Value>),
    Right(Box<Value>),
    Rounds(Star, Vec<Value>),
}

impl Value {
    pub fn pair(first: Value, second: Value) -> Value {
        Value::Pair(Box::new((first, second)))
    }
}

/// "Spelling joins the letters."
pub fn spell(value: &Value) -> Vec<u8> {
    let mut letters = Vec::new();
    spell_onto(value, &mut letters);
    letters
}

fn spell_onto(value: &Value, letters: &mut Vec<u8>) {
    match value {
        Value::Nothing => {}
        Value::Letter(letter) => letters.push(*letter),
        Value::Pair(pair) => {
            spell_onto(&pair.0, letters);
            spell_onto(&pair.1, letters);
        }
        Value::Left(side) | Value::Right(side) => spell_onto(side, letters),
        Value::Rounds(_, rounds) => {
            for round in rounds {
                spell_onto(round, letters);
            }
        }
    }
}

/// "An empty round is a round of `K` that spells nothing; 001 calls readings
/// holding one problematic." `Z` "follows every rule for `K`" here.
pub fn has_empty_round(value: &Value) -> bool {
    match value {
        Value::Nothing | Value::Letter(_) => false,
        Value::Pair(pair) => has_empty_round(&pair.0) || has_empty_round(&pair.1),
        Value::Left(side) | Value::Right(side) => has_empty_round(side),
        Value::Rounds(_, rounds) => rounds
            .iter()
            .any(|round| spell(round).is_empty() || has_empty_round(round)),
    }
}

/// The order between two values of one type; `Greater` is preferred.
pub fn preferred(one: &Value, other: &Value) -> Ordering {
    match (one, other) {
        (Value::Nothing, Value::Nothing) => Ordering::Equal,
        // 001 has no ranges. Two values of one tape never part here, since
        // what comes before has read the same letters. The lower letter is
        // taken as the greater, as if the range were its letters in an `A`.
        (Value::Letter(one), Value::Letter(other)) => other.cmp(one),
        // (v1, v2) < (v1', v2') if v1 < v1', or v1 = v1' and v2 < v2'
        (Value::Pair(one), Value::Pair(other)) => {
            preferred(&one.0, &other.0).then_with(|| preferred(&one.1, &other.1))
        }
        // (e : v) < (e' : v') if e > e', or e = e' and v < v'
        (Value::Left(one), Value::Left(other)) => preferred(one, other),
        (Value::Right(one), Value::Right(other)) => preferred(one, other),
        (Value::Left(_), Value::Right(_)) => Ordering::Greater,
        (Value::Right(_), Value::Left(_)) => Ordering::Less,
        (Value::Rounds(star, one), Value::Rounds(same, other)) if star == same => {
            preferred_list(*star, one, other)
        }
        _ => panic!("values of two types have no order"),
    }
}

/// "within pairs and lists the first difference": the first rounds that
/// differ decide, whichever the star. If one list is where the other begins,
/// `K` prefers another round to stopping, and `Z` stopping to another round.
fn preferred_list(star: Star, one: &[Value], other: &[Value]) -> Ordering {
    for (one, other) in one.iter().zip(other) {
        let order = preferred(one, other);
        if order != Ordering::Equal {
            return order;
        }
    }
    let longer = one.len().cmp(&other.len());
    match star {
        Star::Greedy => longer,
        Star::Lazy => longer.reverse(),
    }
}
