//! What `tapelist` prints.

use crate::code::MOST_CODE_BYTES;
use crate::hex;
use crate::load::load;
use crate::services::reading::{open_count, parse};
use crate::services::totals::totals;
use crate::services::MOST_LETTERS;
use crate::table::Refusal;

/// The listing of a pattern text and the content of a tape file, of which
/// "one closing byte 10 is dropped".
pub fn listing(pattern: &[u8], tape_file: &[u8]) -> String {
    let tape = tape_file.strip_suffix(b"\n").unwrap_or(tape_file);
    match lines(pattern, tape) {
        Ok(text) => text,
        // "A refusal prints `refused`, number and returned number,
        // tab-parted, and no more."
        Err(refusal) => format!("refused\t{}\t{}\n", refusal.number, refusal.value),
    }
}

fn lines(pattern: &[u8], tape: &[u8]) -> Result<String, Refusal> {
    let table = load(pattern)?;
    // Buffers that suffice for every tape and every code.
    let mut marks = vec![0; 2 * (MOST_LETTERS + 1)];
    let mut code = vec![0; MOST_CODE_BYTES];
    let bits = parse(&table, tape, &mut marks, &mut code)?;
    let code = &code[..bits.div_ceil(8) as usize];
    let totals = totals(&table, code, bits)?;
    // "First line: letters, bits, code in hexadecimal."
    let mut text = format!("tape\t{}\t{bits}\t{}\n", tape.len(), hex::of_bytes(code));
    // "Then each account with litres above 0, rising"
    for (account, litres) in totals.iter().enumerate().filter(|(_, &litres)| litres > 0) {
        text.push_str(&format!("account\t{account}\t{litres}\n"));
    }
    // "then each position with the count of ones in its flag 1 word"
    for position in 0..=tape.len() {
        text.push_str(&format!(
            "open\t{position}\t{}\n",
            open_count(&marks, position)
        ));
    }
    Ok(text)
}
