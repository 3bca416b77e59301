//! Readings by enumeration, for short tapes only. Two ways: all values of
//! the pattern with at most so many rounds in each list, kept if they spell
//! the tape without an empty round (the definition itself); and the sets of
//! 001, proposition 2, which hold no empty round from the start.

use crate::table::{Kind, Table};
use crate::value::{has_empty_round, preferred, spell, Value};

/// The enumeration met more values than the caller allowed.
#[derive(Debug, PartialEq, Eq)]
pub struct TooMany;

/// All values of a node with at most `rounds` rounds in each list, spelling
/// at most `letters` letters. The letters of a range are taken from `alphabet`.
pub fn all_values(
    table: &Table,
    place: usize,
    alphabet: &[u8],
    rounds: usize,
    letters: usize,
    limit: usize,
) -> Result<Vec<Value>, TooMany> {
    let node = table.node(place);
    let of = |part: u64| all_values(table, part as usize, alphabet, rounds, letters, limit);
    let mut found = Vec::new();
    match node.kind {
        Kind::Nothing => found.push(Value::Nothing),
        Kind::Letter => found.push(Value::Letter(node.x as u8)),
        Kind::Range => {
            for &letter in alphabet {
                if node.reads(u64::from(letter)) {
                    found.push(Value::Letter(letter));
                }
            }
        }
        Kind::Sequence => {
            let (firsts, seconds) = (of(node.x)?, of(node.y)?);
            for first in &firsts {
                for second in &seconds {
                    found.push(Value::pair(first.clone(), second.clone()));
                    within(&found, limit)?;
                }
            }
        }
        Kind::Either => {
            found.extend(
                of(node.x)?
                    .into_iter()
                    .map(|side| Value::Left(Box::new(side))),
            );
            found.extend(
                of(node.y)?
                    .into_iter()
                    .map(|side| Value::Right(Box::new(side))),
            );
        }
        Kind::Rounds(star) => {
            let choices = of(node.x)?;
            let mut longest = vec![vec![]];
            found.push(Value::Rounds(star, vec![]));
            for _ in 0..rounds {
                longest = with_one_more(&longest, &choices, letters, limit)?;
                let lists = longest.iter().cloned();
                found.extend(lists.map(|list| Value::Rounds(star, list)));
                within(&found, limit)?;
            }
        }
    }
    found.retain(|value| spell(value).len() <= letters);
    within(&found, limit)?;
    Ok(found)
}

/// Every list with every choice after it, unless that spells too much.
fn with_one_more(
    lists: &[Vec<Value>],
    choices: &[Value],
    letters: usize,
    limit: usize,
) -> Result<Vec<Vec<Value>>, TooMany> {
    let mut longer = Vec::new();
    for list in lists {
        for choice in choices {
            let more = [list.as_slice(), std::slice::from_ref(choice)].concat();
            if more.iter().map(|round| spell(round).len()).sum::<usize>() <= letters {
                longer.push(more);
            }
            within(&longer, limit)?;
        }
    }
    Ok(longer)
}

fn within<T>(found: &[T], limit: usize) -> Result<(), TooMany> {
    if found.len() > limit {
        return Err(TooMany);
    }
    Ok(())
}

/// The preferred reading straight from its definition: "the greatest among
/// those of the tape without empty rounds". Without empty rounds a list has
/// at most as many rounds as the tape has letters.
pub fn preferred_by_definition(
    table: &Table,
    tape: &[u8],
    limit: usize,
) -> Result<Option<Value>, TooMany> {
    let mut alphabet = tape.to_vec();
    alphabet.sort_unstable();
    alphabet.dedup();
    let values = all_values(
        table,
        table.root(),
        &alphabet,
        tape.len(),
        tape.len(),
        limit,
    )?;
    Ok(greatest(values.into_iter().filter(|value| {
        spell(value) == tape && !has_empty_round(value)
    })))
}

/// The greatest of some values of one type.
fn greatest(values: impl Iterator<Item = Value>) -> Option<Value> {
    values.max_by(preferred)
}

/// All non-problematic values of a node that spell a first piece of `rest`,
/// as in 001, proposition 2, each with the length of its piece.
fn matches(
    table: &Table,
    place: usize,
    rest: &[u8],
    limit: usize,
) -> Result<Vec<(Value, usize)>, TooMany> {
    let node = table.node(place);
    let of = |part: u64, rest: &[u8]| matches(table, part as usize, rest, limit);
    let mut found = Vec::new();
    match node.kind {
        Kind::Nothing => found.push((Value::Nothing, 0)),
        Kind::Letter | Kind::Range => match rest.first() {
            Some(&letter) if node.reads(u64::from(letter)) => {
                found.push((Value::Letter(letter), 1));
            }
            _ => {}
        },
        Kind::Sequence => {
            for (first, length) in of(node.x, rest)? {
                for (second, more) in of(node.y, &rest[length..])? {
                    found.push((Value::pair(first.clone(), second), length + more));
                    within(&found, limit)?;
                }
            }
        }
        Kind::Either => {
            for (side, length) in of(node.x, rest)? {
                found.push((Value::Left(Box::new(side)), length));
            }
            for (side, length) in of(node.y, rest)? {
                found.push((Value::Right(Box::new(side)), length));
            }
        }
        Kind::Rounds(star) => {
            for (round, length) in of(node.x, rest)? {
                // flat(v) is not []: the round is not empty.
                if length == 0 {
                    continue;
                }
                for (value, more) in matches(table, place, &rest[length..], limit)? {
                    let Value::Rounds(_, tail) = value else {
                        unreachable!("a value of K or Z is a list");
                    };
                    let list = [vec![round.clone()], tail].concat();
                    found.push((Value::Rounds(star, list), length + more));
                    within(&found, limit)?;
                }
            }
            found.push((Value::Rounds(star, vec![]), 0));
        }
    }
    within(&found, limit)?;
    Ok(found)
}

/// The naive algorithm of 001, section 4: all prefix matches, of those the
/// whole ones, of those the greatest.
pub fn preferred_by_matches(
    table: &Table,
    tape: &[u8],
    limit: usize,
) -> Result<Option<Value>, TooMany> {
    let found = matches(table, table.root(), tape, limit)?;
    Ok(greatest(
        found
            .into_iter()
            .filter(|(_, length)| *length == tape.len())
            .map(|(value, _)| value),
    ))
}

/// Every non-problematic value that spells the whole tape.
pub fn all_readings(table: &Table, tape: &[u8], limit: usize) -> Result<Vec<Value>, TooMany> {
    let found = matches(table, table.root(), tape, limit)?;
    Ok(found
        .into_iter()
        .filter(|(_, length)| *length == tape.len())
        .map(|(value, _)| value)
        .collect())
}
