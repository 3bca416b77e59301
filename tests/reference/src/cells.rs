//! The cases of totals by the calls from C, which write into lent cells: all
//! litres, and those of a term. An account with litres and without a cell is 20.

use crate::calendar::Date;
use crate::code::encode;
use crate::codes::Code;
use crate::hex;
use crate::memo::preferred_reading;
use crate::patterns::LISTING;
use crate::services::terms::term_totals_into;
use crate::services::totals::{totals_into, ACCOUNTS};
use crate::stale::text;
use crate::table::{number_and_value, Refusal};
use crate::tapes::table_of;
use crate::terms::DAYS;

/// Cells of the array whose start is lent, and what each holds before.
pub const ALL_CELLS: usize = ACCOUNTS + 3;
pub const CELL_BEFORE: u32 = 7_777;

pub struct Case {
    /// What the case is about; all before the colon is its sort.
    pub name: String,
    pub text: Vec<u8>,
    pub code: Code,
    /// How many cells are lent.
    pub cells: usize,
    /// Start, first and last, as callers from C write them.
    pub dates: [u32; 3],
    /// The numbers of both answers, by hand.
    pub expected: [u64; 2],
}

impl Case {
    /// The line that the program reads.
    pub fn line(&self) -> String {
        let (text, code) = (hex::of_bytes(&self.text), hex::of_bytes(&self.code.bytes));
        let [start, first, last] = self.dates;
        let (count, cells) = (self.code.count, self.cells);
        format!("f {text} {code} {count} {cells} {start} {first} {last}")
    }

    /// Of all litres and of those of the term: number, value, and each cell.
    pub fn answers(&self) -> [String; 2] {
        let table = table_of(&self.text);
        let (bytes, count) = (&self.code.bytes, self.code.count);
        let dates = self.dates.map(Date::of_number);
        let mut all = [CELL_BEFORE; ALL_CELLS];
        let of_all = totals_into(&table, bytes, count, &mut all[..self.cells]);
        let mut dated = [CELL_BEFORE; ALL_CELLS];
        let of_term = term_totals_into(&table, bytes, count, dates, &mut dated[..self.cells]);
        [shown(&of_all, &all), shown(&of_term, &dated)]
    }
}

fn shown(answer: &Result<u64, Refusal>, cells: &[u32]) -> String {
    let (number, value) = number_and_value(answer);
    let cells: Vec<String> = cells.iter().map(u32::to_string).collect();
    format!("{number}\t{value}\t{}", cells.join(","))
}

const DAY: u32 = 20_240_229;
const NEXT: u32 = 20_240_301;
/// A term with the first day of the tape alone, and one that has no letters.
const FIRST_DAY: [u32; 3] = [DAY, DAY, DAY];
const FAR: [u32; 3] = [DAY, 20_500_101, 20_501_231];

pub fn all() -> Vec<Case> {
    let mut hand = Hand { cases: Vec::new() };
    one_letter(&mut hand);
    listing(&mut hand);
    days(&mut hand);
    before_20(&mut hand);
    hand.cases
}

/// Collects cases; each call is one.
struct Hand {
    cases: Vec<Case>,
}

/// A text and a code of it.
type Coded<'a> = (&'a [u8], &'a Code);

impl Hand {
    fn add(&mut self, name: &str, coded: Coded, cells: usize, dates: [u32; 3], expected: [u64; 2]) {
        self.cases.push(Case {
            name: format!("cells: {name}"),
            text: coded.0.to_vec(),
            code: coded.1.clone(),
            cells,
            dates,
            expected,
        });
    }
}

/// The number due if so many cells are lent and so many are needed.
fn number(cells: usize, needed: usize) -> u64 {
    if cells < needed {
        20
    } else {
        0
    }
}

/// One letter of each of these accounts, with litres and without, in no cells, in
/// all but its own, in just enough, and in more than there are accounts.
fn one_letter(hand: &mut Hand) {
    let nothing = Code::of_bits(&[]);
    for account in [0_usize, 1, 8, 9, 10, 11, 99, 100, 199, 200] {
        for letter in ["5", "0", "x"] {
            let field = match account {
                0 => "-".to_string(),
                _ => account.to_string(),
            };
            let leaf = text(&[&format!("L {field} {letter}")]);
            let needed = if letter == "5" { account + 1 } else { 0 };
            for cells in [0, account, account + 1, ACCOUNTS, ALL_CELLS] {
                let name = format!("{letter} of account {account} in {cells}");
                let number = number(cells, needed);
                hand.add(&name, (&leaf, &nothing), cells, FIRST_DAY, [number; 2]);
                hand.add(&name, (&leaf, &nothing), cells, FAR, [number, 0]);
            }
        }
    }
}

/// 3 litres of account 1 and 2 of account 9: ten cells suffice.
fn listing(hand: &mut Hand) {
    let text = LISTING.as_bytes();
    let code = code_of(text, b"3W2");
    for cells in [0, 1, 2, 8, 9, 10, 11, 200, 201, 202] {
        let name = format!("listing in {cells}");
        let numbers = [number(cells, 10); 2];
        hand.add(&name, (text, &code), cells, FIRST_DAY, numbers);
    }
}

/// 1 litre of account 1 on the first day, 2 of account 9 on the next: each term
/// needs its own.
fn days(hand: &mut Hand) {
    let text = DAYS.as_bytes();
    let code = code_of(text, b"1DW2");
    for cells in 0..12 {
        for (name, term, needed) in [
            ("both days", [DAY, DAY, NEXT], 10),
            ("the first day", FIRST_DAY, 2),
            ("the next day", [DAY, NEXT, NEXT], 10),
            ("no day", FAR, 0),
        ] {
            let name = format!("{name} in {cells}");
            let numbers = [number(cells, 10), number(cells, needed)];
            hand.add(&name, (text, &code), cells, term, numbers);
        }
    }
}

/// Every other cause comes first, with litres of account 9 in no cells.
fn before_20(hand: &mut Hand) {
    let days = DAYS.as_bytes();
    let code = code_of(days, b"1DW2");
    let no_code = Code::written("0");
    let many = text(&["L 200 7", "K - 0"]);
    let long = Code::written(&format!("{}1", "0".repeat(3_601)));
    for cells in [0, 5, ALL_CELLS] {
        let number = number(cells, 10);
        hand.add("no table", (b"", &code), cells, FIRST_DAY, [2, 2]);
        hand.add("no code", (days, &no_code), cells, [0; 3], [8, 8]);
        hand.add("too long", (&many, &long), cells, [0; 3], [3, 3]);
        for (name, dates, cause) in [
            ("no start", [20_230_229, 0, 0], 11),
            ("past the last date", [20_991_231, DAY, DAY], 11),
            ("no term", [DAY, NEXT, DAY], 12),
            ("no date", [DAY, DAY, 20_230_229], 12),
        ] {
            hand.add(name, (days, &code), cells, dates, [number, cause]);
        }
    }
}

/// The code of a tape.
fn code_of(text: &[u8], tape: &[u8]) -> Code {
    let table = table_of(text);
    let reading = preferred_reading(&table, tape).expect("a tape that is read");
    Code::of_bits(&encode(&table, &reading))
}
