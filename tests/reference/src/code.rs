//! Codes: the bits a reading writes, and the reading that bits fix. A code
//! is given as bytes and a bit count.

use crate::table::{Kind, Table};
use crate::value::Value;

/// "at most 65,536 bytes"
pub const MOST_CODE_BYTES: usize = 65_536;

/// The bits that this reading of the whole pattern writes.
pub fn encode(table: &Table, value: &Value) -> Vec<bool> {
    let mut bits = Vec::new();
    write(table, table.root(), value, &mut bits);
    bits
}

fn write(table: &Table, place: usize, value: &Value, bits: &mut Vec<bool>) {
    let node = table.node(place);
    let (x, y) = (node.x as usize, node.y as usize);
    match (node.kind, value) {
        // "`E` and `L` write none."
        (Kind::Nothing, Value::Nothing) | (Kind::Letter, Value::Letter(_)) => {}
        // "`R` writes its letter in 8 bits, highest first."
        (Kind::Range, Value::Letter(letter)) => {
            bits.extend((0..8).rev().map(|power| letter >> power & 1 == 1));
        }
        // "`S` writes its parts in order."
        (Kind::Sequence, Value::Pair(pair)) => {
            write(table, x, &pair.0, bits);
            write(table, y, &pair.1, bits);
        }
        // "`A` writes 0 for left, 1 for right, then that side."
        (Kind::Either, Value::Left(side)) => {
            bits.push(false);
            write(table, x, side, bits);
        }
        (Kind::Either, Value::Right(side)) => {
            bits.push(true);
            write(table, y, side, bits);
        }
        // "`K` writes 0 and a round, again and again, then 1." `Z` "writes 0
        // to stop and 1 before a round".
        (Kind::Rounds(star), Value::Rounds(same, rounds)) if star == *same => {
            for round in rounds {
                bits.push(!star.stop_bit());
                write(table, x, round, bits);
            }
            bits.push(star.stop_bit());
        }
        _ => panic!("not a value of this node"),
    }
}

/// The reading whose bits these are, all of them and no more.
pub fn decode(table: &Table, bits: &[bool]) -> Option<Value> {
    let (value, rest) = read(table, table.root(), bits)?;
    rest.is_empty().then_some(value)
}

/// The value that the first bits fix, and the bits after them.
fn read<'a>(table: &Table, place: usize, bits: &'a [bool]) -> Option<(Value, &'a [bool])> {
    let node = table.node(place);
    let (x, y) = (node.x as usize, node.y as usize);
    match node.kind {
        Kind::Nothing => Some((Value::Nothing, bits)),
        Kind::Letter => Some((Value::Letter(node.x as u8), bits)),
        Kind::Range => {
            if bits.len() < 8 {
                return None;
            }
            let (eight, rest) = bits.split_at(8);
            let letter = eight
                .iter()
                .fold(0_u64, |number, &bit| 2 * number + u64::from(bit));
            node.reads(letter)
                .then_some((Value::Letter(letter as u8), rest))
        }
        Kind::Sequence => {
            let (first, rest) = read(table, x, bits)?;
            let (second, rest) = read(table, y, rest)?;
            Some((Value::pair(first, second), rest))
        }
        Kind::Either => {
            let (right, rest) = bits.split_first()?;
            if *right {
                let (side, rest) = read(table, y, rest)?;
                Some((Value::Right(Box::new(side)), rest))
            } else {
                let (side, rest) = read(table, x, rest)?;
                Some((Value::Left(Box::new(side)), rest))
            }
        }
        Kind::Rounds(star) => {
            let mut rounds = Vec::new();
            let mut left = bits;
            loop {
                let (bit, rest) = left.split_first()?;
                if *bit == star.stop_bit() {
                    return Some((Value::Rounds(star, rounds), rest));
                }
                let (round, rest) = read(table, x, rest)?;
                rounds.push(round);
                left = rest;
            }
        }
    }
}

/// "Codes fill bytes from the highest bit", unused bits 0.
pub fn pack(bits: &[bool]) -> Vec<u8> {
    let mut bytes = vec![0; bits.len().div_ceil(8)];
    for (index, _) in bits.iter().enumerate().filter(|(_, &bit)| bit) {
        bytes[index / 8] |= 0x80 >> (index % 8);
    }
    bytes
}

/// The bits of a code as handed in, if "the bytes are exactly enough, unused
/// bits 0, at most 65,536 bytes".
pub fn unpack(bytes: &[u8], count: u64) -> Option<Vec<bool>> {
    if bytes.len() > MOST_CODE_BYTES || bytes.len() as u64 != count.div_ceil(8) {
        return None;
    }
    let mut bits: Vec<bool> = Vec::with_capacity(8 * bytes.len());
    for byte in bytes {
        bits.extend((0..8).map(|place| byte & (0x80 >> place) != 0));
    }
    let unused = bits.split_off(count as usize);
    (!unused.contains(&true)).then_some(bits)
}
