//! What one changed bit does to a stored code.

use crate::stored::{crc32, Stored};
use wumbyra::{Pattern, Refusal};

/// Counts, over all bits of a stored code: what the library refuses, what it takes, and what the checksum finds.
pub fn flips(mut stored: Stored) -> Result<String, Refusal> {
    let pattern = Pattern::load(&stored.pattern)?;
    let right = pattern.totals(&stored.code)?;
    let checksum = crc32(&stored.body());
    let (mut refused, mut other, mut same, mut found) = (0, 0, 0, 0);
    for bit in 0..stored.code.bits {
        let (byte, mask) = (bit as usize / 8, 128 >> (bit % 8));
        stored.code.bytes[byte] ^= mask;
        found += u32::from(crc32(&stored.body()) != checksum);
        match pattern.totals(&stored.code) {
            Err(_) => refused += 1,
            Ok(litres) if litres == right => same += 1,
            Ok(_) => other += 1,
        }
        stored.code.bytes[byte] ^= mask;
    }
    Ok([
        ("bits flipped, one at a time", stored.code.bits),
        ("refused", refused),
        ("taken, with other litres", other),
        ("taken, with the same litres", same),
        ("found by the checksum", found),
    ]
    .map(|(words, count)| format!("{words}\t{count}\n"))
    .concat())
}
