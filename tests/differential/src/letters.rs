//! Plainer letters for a failing case: cold ones for hot ones, and narrower ranges.

use crate::case::Case;
use wumbyra_reference::code::{decode, encode, pack, unpack};
use wumbyra_reference::load::load;
use wumbyra_reference::patterns::text_of;
use wumbyra_reference::table::{Kind, Node};
use wumbyra_reference::value::Value;

/// Each letter of the hot side made a cold one, in the pattern, on the tape and in a whole code: a fault that needs no hot letter
/// is shown without one.
pub fn cool(case: &mut Case) {
    for byte in &mut case.tape {
        *byte = cooled(*byte);
    }
    let Ok(table) = load(&case.text) else {
        return;
    };
    let mut cold = table.clone();
    for node in &mut cold.nodes[..table.lines().len()] {
        match node.kind {
            Kind::Letter => node.x = u64::from(cooled(node.x as u8)),
            // The letters of a range across the gap lie anywhere among the cold ones then.
            Kind::Range if node.x < 161 && node.y >= 161 => (node.x, node.y) = (33, 126),
            Kind::Range => {
                node.x = u64::from(cooled(node.x as u8));
                node.y = u64::from(cooled(node.y as u8));
            }
            _ => {}
        }
    }
    case.text = text_of(&cold);
    let bits = unpack(&case.code, u64::from(case.count));
    if let Some(value) = bits.and_then(|bits| decode(&table, &bits)) {
        let bits = encode(&cold, &cooled_value(&value));
        case.count = bits.len() as u32;
        case.code = pack(&bits);
    }
}

/// A hot letter without its highest bit; other bytes as they are.
fn cooled(byte: u8) -> u8 {
    match byte {
        161..=254 => byte - 128,
        _ => byte,
    }
}

fn cooled_value(value: &Value) -> Value {
    match value {
        Value::Nothing => Value::Nothing,
        Value::Letter(letter) => Value::Letter(cooled(*letter)),
        Value::Pair(pair) => Value::pair(cooled_value(&pair.0), cooled_value(&pair.1)),
        Value::Left(side) => Value::Left(Box::new(cooled_value(side))),
        Value::Right(side) => Value::Right(Box::new(cooled_value(side))),
        Value::Rounds(star, list) => Value::Rounds(*star, list.iter().map(cooled_value).collect()),
    }
}

/// Narrower ranges, the narrowest first: one end alone, half of it, a letter less at either end.
pub fn narrower(node: Node) -> Vec<(u64, u64)> {
    let letters: Vec<u64> = node.letters().into_iter().map(u64::from).collect();
    if letters.len() < 2 {
        return vec![];
    }
    let last = letters.len() - 1;
    let (before, after) = (letters[last / 2], letters[last / 2 + 1]);
    vec![
        (node.x, node.x),
        (node.y, node.y),
        (node.x, before),
        (after, node.y),
        (letters[1], node.y),
        (node.x, letters[last - 1]),
    ]
}
