//! Codes of patterns with account 9 above other accounts, below them and beside
//! them (02, Job 5). The litres of each were worked out without totalling: by
//! hand, or from the way to each letter.

use super::by_hand::Hand;
use super::{Case, Code};
use crate::services::totals::{some_litres, Totals, NO_LITRES};
use crate::stale::{by_way, chain, text, tower, tower_bits, Way, ROWS};

pub fn cases() -> Vec<Case> {
    let mut hand = Hand { cases: Vec::new() };
    rows(&mut hand);
    pairs(&mut hand);
    chains(&mut hand);
    towers(&mut hand);
    hand.cases
}

/// The litres of digits, each with the way to its leaf.
pub fn litres_by_way(letters: &[(u8, Way)]) -> Totals {
    let mut totals = NO_LITRES;
    for (digit, way) in letters {
        totals[by_way(way) as usize] += u64::from(digit - b'0');
    }
    totals
}

fn rows(hand: &mut Hand) {
    for row in ROWS {
        let name = format!("stale: {}", row.name);
        hand.exact(&name, text(row.lines), &Code::written(row.bits));
        hand.totals(some_litres(row.litres));
    }
}

/// Every account of one digit above every one, none included.
fn pairs(hand: &mut Hand) {
    let written = |account: usize| match account {
        0 => "-".to_string(),
        _ => account.to_string(),
    };
    for outer in 0..10 {
        for inner in 0..10 {
            let leaf = format!("L {} 5", written(inner));
            let both = format!("S {} 0 1", written(outer));
            let name = format!("stale pairs: {outer} above {inner}");
            hand.exact(&name, text(&[&leaf, "L - 7", &both]), &Code::written(""));
            let ways = [
                (b'5', vec![outer as u64, inner as u64]),
                (b'7', vec![outer as u64]),
            ];
            hand.totals(litres_by_way(&ways));
        }
    }
}

/// None, 3 and 9 in each of three nodes on one way.
fn chains(hand: &mut Hand) {
    for kind in ['S', 'A', 'K', 'Z'] {
        for number in 0..27 {
            let account = |power: usize| [0, 3, 9][number / power % 3];
            let way = [account(9), account(3), account(1)];
            let (text, bits, letters) = chain(kind, way);
            let name = format!("stale chains: {kind}, {way:?}");
            hand.exact(&name, text, &Code::written(&bits));
            hand.totals(litres_by_way(&letters));
        }
    }
}

/// 64 lines deep, with account 9 at the root, at its part, half way down, above
/// the leaf, at the leaf and nowhere.
fn towers(hand: &mut Hand) {
    let digits = b"1234567890";
    for stale in [Some(63), Some(62), Some(31), Some(1), Some(0), None] {
        let name = format!("stale depths: {stale:?}");
        let code = Code::written(&tower_bits(digits));
        hand.exact(&name, tower(stale), &code);
        let account = if stale.is_some() { 9 } else { 3 };
        hand.totals(some_litres(&[(account, 45)]));
    }
}
