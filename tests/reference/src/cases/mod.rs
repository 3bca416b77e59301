//! The cases for loading: those set by hand, each with the answer read from
//! the documents, then mutated good texts, good texts with
//! changed trees, and random good patterns; behind them the same with kind
//! `Z`, then with letters of the hot side, then with accounts to 200. Other cases
//! take every so many-th text that is refused, so new cases come last.

mod by_hand;
pub mod mutated;

use crate::hex;
use crate::load::load;
use crate::one_digit;

pub struct Case {
    pub name: String,
    pub text: Vec<u8>,
    /// Number and value set by hand, where they were.
    pub expected: Option<(u64, u64)>,
}

pub fn all() -> Vec<Case> {
    let mut cases = before_accounts();
    cases.extend(accounts());
    cases
}

/// The texts that loading refuses, for cases of other kinds. Of those from before
/// 02, Job 7 they are the ones that were refused then, so that every so many-th
/// of them is still the same.
pub fn refused() -> Vec<Case> {
    let mut refused = before_accounts();
    refused.retain(|case| one_digit::load(&case.text).is_err());
    let mut new = accounts();
    new.retain(|case| load(&case.text).is_err());
    refused.extend(new);
    refused
}

/// Those about accounts to 200.
fn accounts() -> Vec<Case> {
    let mut cases = by_hand::account_cases();
    cases.extend(mutated::accounts());
    cases.extend(by_hand::account_numbers());
    cases
}

fn before_accounts() -> Vec<Case> {
    let mut cases = by_hand::cases();
    cases.extend(mutated::mutations());
    cases.extend(mutated::changed_trees());
    cases.extend(mutated::good_patterns());
    cases.extend(by_hand::lazy_cases());
    cases.extend(mutated::mixed());
    cases.extend(by_hand::hot_cases());
    cases.extend(mutated::hot());
    cases
}

impl Case {
    /// The line that the program reads.
    pub fn line(&self) -> String {
        format!("l {}", hex::of_bytes(&self.text))
    }

    /// Number and value, and after a success the nodes, a line each.
    pub fn answer(&self) -> Vec<String> {
        match load(&self.text) {
            Err(refusal) => vec![format!("{}\t{}", refusal.number, refusal.value)],
            Ok(table) => {
                let mut lines = vec![format!("0\t{}", table.count)];
                for node in table.lines() {
                    let kind = node.kind.letter();
                    lines.push(format!("{kind}\t{}\t{}\t{}", node.account, node.x, node.y));
                }
                lines
            }
        }
    }
}
