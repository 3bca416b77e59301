//! Codes of patterns with accounts to 200 (02, Job 7). The litres of each were
//! worked out without totalling: by hand, or from the way to each letter.

use super::by_hand::Hand;
use super::stale::litres_by_way;
use super::{Case, Code, Lent};
use crate::accounts::{comb, digit_of, longest, written, NEAR, ROWS};
use crate::services::totals::{some_litres, NO_LITRES};
use crate::services::MOST_LETTERS;
use crate::stale::{chain, text, tower_bits, tower_of};

pub fn cases() -> Vec<Case> {
    let mut hand = Hand { cases: Vec::new() };
    rows(&mut hand);
    pairs(&mut hand);
    chains(&mut hand);
    towers(&mut hand);
    all(&mut hand);
    long(&mut hand);
    refused(&mut hand);
    hand.cases
}

fn rows(hand: &mut Hand) {
    for row in ROWS {
        let name = format!("accounts: {}", row.name);
        hand.exact(&name, text(row.lines), &Code::written(row.bits));
        hand.totals(some_litres(row.litres));
    }
}

/// Every account near a limit above every one, none included.
fn pairs(hand: &mut Hand) {
    for outer in NEAR {
        for inner in NEAR {
            let leaf = format!("L {} 5", written(inner));
            let both = format!("S {} 0 1", written(outer));
            let name = format!("account pairs: {outer} above {inner}");
            hand.exact(&name, text(&[&leaf, "L - 7", &both]), &Code::written(""));
            let ways = [(b'5', vec![outer, inner]), (b'7', vec![outer])];
            hand.totals(litres_by_way(&ways));
        }
    }
}

/// None, 9, and an account that is written with a 9 but is not stale, in each of
/// three nodes on one way.
fn chains(hand: &mut Hand) {
    for (kind, great) in [('S', 99), ('A', 199), ('K', 90), ('Z', 109)] {
        for number in 0..27 {
            let account = |power: usize| [0, 9, great][number / power % 3];
            let way = [account(9), account(3), account(1)];
            let (text, bits, letters) = chain(kind, way);
            let name = format!("account chains: {kind}, {way:?}");
            hand.exact(&name, text, &Code::written(&bits));
            hand.totals(litres_by_way(&letters));
        }
    }
}

/// 64 lines deep, with one account at the root, half way down, above the leaf and
/// at the leaf, where the leaf has account 3: only 9 takes its litres away.
fn towers(hand: &mut Hand) {
    let digits = b"1234567890";
    for account in [9, 90, 99, 109, 200] {
        for place in [63, 31, 1, 0] {
            let name = format!("account depths: {account} on line {place}");
            let code = Code::written(&tower_bits(digits));
            hand.exact(&name, tower_of(place, account), &code);
            let owner = match (account, place) {
                (9, _) | (_, 0) => account,
                _ => 3,
            };
            hand.totals(some_litres(&[(owner as usize, 45)]));
        }
    }
}

/// Each of the 201 accounts, with litres of its own.
fn all(hand: &mut Hand) {
    let accounts: Vec<u64> = (0..=200).collect();
    for part in accounts.chunks(32) {
        let name = format!("all accounts: {} to {}", part[0], part[part.len() - 1]);
        hand.exact(&name, comb(part), &Code::written(""));
        let mut litres = NO_LITRES;
        for &account in part {
            litres[account as usize] = digit_of(account);
        }
        hand.totals(litres);
    }
}

/// 3,600 letters and one more, all of one account: as many litres as it can have,
/// and none.
fn long(hand: &mut Hand) {
    for account in [9, 10, 99, 100, 199, 200] {
        let text = text(&[&format!("L {account} 9"), "K - 0"]);
        let rounds = |letters: usize| Code::written(&("0".repeat(letters) + "1"));
        let full = rounds(MOST_LETTERS);
        let name = format!("many litres: {account}");
        hand.exact(&name, &text, &full);
        hand.totals(some_litres(&[(account, 32_400)]));
        let more = rounds(MOST_LETTERS + 1);
        hand.exact(&format!("{name}, a letter more"), &text, &more);
        hand.gives(3, 0);
    }
    // The longest text that loads: a round has 32 letters.
    let digits: String = (0..32)
        .map(|digit| format!("{:08b}", b'0' + digit % 10))
        .collect();
    let code = Code::written(&format!("0{digits}1"));
    hand.exact("many litres: the longest text", longest(), &code);
    let sum: u64 = (0..32).map(|digit| digit % 10).sum();
    hand.totals(some_litres(&[(200, sum)]));
}

/// Refused, all 201 are 0: bits that are no code, and a text that does not load
/// for its account alone.
fn refused(hand: &mut Hand) {
    let good = text(&["L 200 7", "K 100 0"]);
    for bits in ["", "0", "00", "011", "0010"] {
        let name = format!("no code: account 200, {bits:?}");
        hand.exact(&name, &good, &Code::written(bits));
        hand.gives(8, 0);
    }
    let lent = Lent {
        letters: 2,
        words: 6,
        bytes: 1,
    };
    for account in ["201", "0", "010", "256", "+9", ""] {
        let bad = text(&[&format!("L {account} 7"), "K 100 0"]);
        let name = format!("no table: account {account:?}");
        hand.add(&name, &bad, &Code::written("001"), lent);
        hand.gives(2, 0);
    }
}
