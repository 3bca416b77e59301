//! The cases set by hand. The answer beside each was read from 01 and from
//! the answers taken where two careful implementers differ.

mod accounts;
mod fields;
mod hot;
mod lazy;
mod lines;
mod trees;

use super::Case;
use crate::patterns::{LISTING, P1, P2, P3, P4, P5};

/// Collects cases; each call is one.
struct Hand {
    cases: Vec<Case>,
}

impl Hand {
    fn bytes(&mut self, name: &str, text: &[u8], number: u64, value: u64) {
        self.cases.push(Case {
            name: name.to_string(),
            text: text.to_vec(),
            expected: Some((number, value)),
        });
    }

    fn text(&mut self, name: &str, text: &str, number: u64, value: u64) {
        self.bytes(name, text.as_bytes(), number, value);
    }
}

pub fn cases() -> Vec<Case> {
    let mut hand = Hand { cases: Vec::new() };
    good(&mut hand);
    lines::line_ends(&mut hand);
    lines::counts(&mut hand);
    fields::letters(&mut hand);
    fields::fields(&mut hand);
    fields::places(&mut hand);
    fields::accounts(&mut hand);
    fields::kinds(&mut hand);
    trees::trees(&mut hand);
    trees::mixed(&mut hand);
    lines::long(&mut hand);
    hand.cases
}

/// Those about kind `Z`.
pub fn lazy_cases() -> Vec<Case> {
    let mut hand = Hand { cases: Vec::new() };
    lazy::good(&mut hand);
    lazy::fields(&mut hand);
    lazy::kinds(&mut hand);
    lazy::trees(&mut hand);
    for case in &mut hand.cases {
        case.name.insert_str(0, "lazy: ");
    }
    hand.cases
}

/// Those about the letters of the hot side.
pub fn hot_cases() -> Vec<Case> {
    let mut hand = Hand { cases: Vec::new() };
    hot::letters(&mut hand);
    hot::no_letters(&mut hand);
    hot::ranges(&mut hand);
    hot::two_bytes(&mut hand);
    hot::other_fields(&mut hand);
    hot::trees(&mut hand);
    for case in &mut hand.cases {
        case.name.insert_str(0, "hot: ");
    }
    hand.cases
}

/// Those about accounts to 200.
pub fn account_cases() -> Vec<Case> {
    let mut hand = Hand { cases: Vec::new() };
    accounts::fields(&mut hand);
    accounts::odd_fields(&mut hand);
    accounts::orders(&mut hand);
    accounts::long(&mut hand);
    accounts::all(&mut hand);
    for case in &mut hand.cases {
        case.name.insert_str(0, "accounts: ");
    }
    hand.cases
}

/// 0 to 260 as the account of a line: 1 to 200 is one.
pub fn account_numbers() -> Vec<Case> {
    let mut hand = Hand { cases: Vec::new() };
    for account in 0..=260 {
        let name = format!("account numbers: {account}");
        let good = (1..=200).contains(&account);
        let (number, value) = if good { (0, 1) } else { (1, 0) };
        hand.text(&name, &format!("0\tE\t{account}\n"), number, value);
    }
    hand.cases
}

fn good(hand: &mut Hand) {
    hand.text("example of the listing", LISTING, 0, 6);
    hand.text("P1", P1, 0, 4);
    hand.text("P2", P2, 0, 4);
    hand.text("P3", P3, 0, 6);
    hand.text("P4", P4, 0, 9);
    hand.text("P5", P5, 0, 4);
    hand.text("one E", "0\tE\t-\n", 0, 1);
    hand.text("one L", "0\tL\t9\ta\n", 0, 1);
    hand.text("one R", "0\tR\t1\ta\tz\n", 0, 1);
    hand.text("one K over E", "0\tE\t-\n1\tK\t-\t0\n", 0, 2);
    hand.text(
        "parts in falling order",
        "0\tL\t-\ta\n1\tL\t-\tb\n2\tS\t-\t1\t0\n",
        0,
        3,
    );
    hand.text(
        "digit letters",
        "0\tL\t-\t0\n1\tL\t-\t9\n2\tA\t-\t0\t1\n",
        0,
        3,
    );
    hand.text("letter -", "0\tL\t-\t-\n", 0, 1);
}

/// `E`, then one `K` over the other, of `count` lines in all.
fn tower(count: usize) -> String {
    let mut text = String::from("0\tE\t-\n");
    for line in 1..count {
        text.push_str(&format!("{line}\tK\t-\t{}\n", line - 1));
    }
    text
}

/// Leaves and `S` in turn: 0, 1, S 0 1, 3, S 2 3 and so on; `count` is odd.
fn comb(count: usize) -> String {
    let mut text = String::from("0\tL\t-\ta\n");
    for line in 1..count {
        match line % 2 {
            1 => text.push_str(&format!("{line}\tL\t{}\tb\n", 1 + line % 9)),
            _ => text.push_str(&format!("{line}\tS\t-\t{}\t{}\n", line - 2, line - 1)),
        }
    }
    text
}

fn with_line(text: &str, line: usize, new: &str) -> String {
    let mut lines: Vec<&str> = text.split_inclusive('\n').collect();
    lines[line] = new;
    lines.concat()
}
