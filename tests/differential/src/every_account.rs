//! Every account field of one to four digits, and every account above every account, through the C interface at the start of each
//! run: random cases meet few of them.

use crate::calls;
use wumbyra_reference::accounts::{written, FIELDS, ODD_FIELDS};
use wumbyra_reference::load::load;
use wumbyra_reference::services::totals::{put, totals, Totals, ACCOUNTS};
use wumbyra_reference::stale::text;
use wumbyra_reference::table::number_and_value;

/// Cells behind the last account that no call may touch, and what they hold.
const BEHIND: usize = 3;
const BEFORE: u32 = 0xaaaa_aaaa;

/// The numbers of fields, of pairs and of calls, or what differs.
pub fn calls() -> Result<(u64, u64, u64), String> {
    let mut asked = 0;
    let fields = every_field(&mut asked)?;
    let pairs = every_pair(&mut asked)?;
    Ok((fields, pairs, asked))
}

/// Lines of each kind, with `?` for an account, and the lines before them.
const LINES: [&[&str]; 7] = [
    &["E ?"],
    &["L ? a"],
    &["R ? 0 9"],
    &["E -", "E -", "S ? 0 1"],
    &["E -", "E -", "A ? 0 1"],
    &["E -", "K ? 0"],
    &["E -", "Z ? 0"],
];

/// Each field of one to four digits at a line of each kind, and others that are none.
fn every_field(asked: &mut u64) -> Result<u64, String> {
    let digits = (1..=4).flat_map(|width| {
        (0..10_u32.pow(width))
            .map(move |number| format!("{number:0width$}", width = width as usize))
    });
    let others = FIELDS
        .iter()
        .map(|(field, _)| *field)
        .chain(ODD_FIELDS.iter().copied());
    let mut fields = 0;
    for field in digits.chain(others.map(str::to_string)) {
        fields += 1;
        for lines in LINES {
            *asked += 1;
            // A space stands for a tab here, so the field is put in afterwards.
            let text = String::from_utf8(text(lines))
                .expect("a text of ASCII")
                .replace('?', &field);
            let (number, value) = number_and_value(&load(text.as_bytes()).map(|table| table.count));
            let answer = calls::load(text.as_bytes());
            if answer != number << 32 | value {
                return Err(format!(
                    "load, {text:?}: answered {} and {}, expected {number} and {value}",
                    answer >> 32,
                    answer as u32
                ));
            }
        }
    }
    Ok(fields)
}

/// 5 litres under both accounts and 7 under the outer one alone: all totals, in as many cells as they need, in one fewer (20) and in
/// more, and that of each account that is named, of the first that is none and of one whose lowest eight bits are an account's.
fn every_pair(asked: &mut u64) -> Result<u64, String> {
    let mut pairs = 0;
    for outer in 0..ACCOUNTS as u64 {
        for inner in 0..ACCOUNTS as u64 {
            pairs += 1;
            let leaf = format!("L {} 5", written(inner));
            let root = format!("S {} 0 1", written(outer));
            let text = text(&[&leaf, "L - 7", &root]);
            let table = load(&text).expect("a good pattern");
            let right = totals(&table, &[], 0).expect("a whole code");
            // All cells, and such that the greater account with litres has none, or has the last one.
            let last = right.iter().rposition(|&litres| litres > 0);
            let last = last.expect("12 litres");
            for cells in [last, last + 1, ACCOUNTS + BEHIND] {
                expect_totals(&text, &right, cells)?;
                *asked += 1;
            }
            for account in [
                0,
                9,
                200,
                201,
                outer as u32,
                inner as u32,
                256 + outer as u32,
            ] {
                *asked += 1;
                let due = right.get(account as usize).copied().unwrap_or(0);
                let answer = calls::total(&text, &[], 0, account);
                if answer != due {
                    return Err(format!(
                        "total of account {account}, {outer} above {inner}: {answer} for {due}"
                    ));
                }
            }
        }
    }
    Ok(pairs)
}

fn expect_totals(text: &[u8], right: &Totals, cells: usize) -> Result<(), String> {
    let mut litres = [BEFORE; ACCOUNTS + BEHIND];
    let answer = calls::totals(text, &[], 0, &mut litres[..cells]);
    let mut due = [BEFORE; ACCOUNTS + BEHIND];
    let (number, value) = number_and_value(&put(Ok(*right), &mut due[..cells]));
    let differs = (0..due.len()).find(|&cell| litres[cell] != due[cell]);
    if answer == number << 32 | value && differs.is_none() {
        return Ok(());
    }
    let cell = differs.map_or(String::new(), |at| {
        format!(", cell {at} holds {} for {}", litres[at], due[at])
    });
    Err(format!(
        "totals, {:?}, {cells} cells: answered {} and {}, expected {number} and {value}{cell}",
        String::from_utf8_lossy(text),
        answer >> 32,
        answer as u32
    ))
}
