//! The account field as it was before 02, Job 7. No service answers by this
//! rule. A test says by it what an old text still gives, and the stored cases
//! from before are chosen by it, so that they are what they were.

use crate::load::load_by;
use crate::table::{Refusal, Table};

/// 01: "Account is `-` or a digit 1 to 9."
pub fn account(field: &[u8]) -> Option<u64> {
    match field {
        b"-" => Some(0),
        [digit @ b'1'..=b'9'] => Some(u64::from(digit - b'0')),
        _ => None,
    }
}

/// Loading by that rule.
pub fn load(text: &[u8]) -> Result<Table, Refusal> {
    load_by(text, account)
}
