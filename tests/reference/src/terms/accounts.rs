//! "There are 201 totals" (02, Job 7), within terms too: what was worked out for
//! whole codes, on one day of three; and each cause of refusal with accounts
//! above 9.

use super::{code_of, Case, Hand};
use crate::accounts::{digit_of, written, ROWS};
use crate::calendar::Date;
use crate::codes::Code;
use crate::services::totals::{some_litres, Totals, ACCOUNTS, NO_LITRES};
use crate::stale::text;

/// The first day of a tape, and the second, which is a leap day.
const START: u32 = 20_240_228;
const SECOND: u32 = 20_240_229;
const THIRD: u32 = 20_240_301;

pub fn cases() -> Vec<Case> {
    let mut hand = Hand { cases: Vec::new() };
    rows(&mut hand);
    days(&mut hand);
    causes(&mut hand);
    hand.cases
}

/// Each row's pattern under a star of days. On each of three days the row's code
/// is gone through, and the second day is the term. First the `D` has account
/// 200, which is no litre; then the star of days has account 99, which gets what
/// has no account further in; then account 9, which gets everything.
fn rows(hand: &mut Hand) {
    for row in ROWS {
        for (name, day_end, star) in [
            ("beside 200", "200", "-"),
            ("under 99", "-", "99"),
            ("under 9", "-", "9"),
        ] {
            let root = row.lines.len() - 1;
            let mut lines: Vec<String> = row.lines.iter().map(|line| line.to_string()).collect();
            lines.push(format!("L {day_end} D"));
            lines.push(format!("S - {root} {}", root + 1));
            lines.push(format!("K {star} {}", root + 2));
            let lines: Vec<&str> = lines.iter().map(String::as_str).collect();
            let bits = format!("0{}", row.bits).repeat(3) + "1";
            let name = format!("accounts: {name}, {}", row.name);
            let dates = [START, SECOND, SECOND].map(Date::of_number);
            hand.add(&name, text(&lines), &Code::written(&bits), dates);
            let litres = some_litres(row.litres);
            hand.expect(0, moved(litres, star));
        }
    }
}

/// The litres where the star around all has this account.
fn moved(mut litres: Totals, star: &str) -> Totals {
    match star {
        "99" => litres[99] += std::mem::take(&mut litres[0]),
        "9" => {
            let sum = litres.iter().sum();
            litres = NO_LITRES;
            litres[9] = sum;
        }
        _ => {}
    }
    litres
}

/// Days on each of which other accounts have litres: terms of one day, of two and
/// of all.
fn days(hand: &mut Hand) {
    let all: Vec<u64> = (0..ACCOUNTS as u64).collect();
    // Ten accounts a day; places for twenty leaves and what joins them.
    for part in all.chunks(20) {
        let mut lines: Vec<String> = Vec::new();
        let (mut whole, mut tape) = (0, String::new());
        for (index, &account) in part.iter().enumerate() {
            lines.push(format!("L {} {}", written(account), digit_of(account)));
            tape.push_str(&digit_of(account).to_string());
            if index > 0 {
                lines.push(format!("S - {whole} {}", lines.len() - 1));
            }
            whole = lines.len() - 1;
            if index == 9 {
                lines.push("L - D".to_string());
                lines.push(format!("S - {whole} {}", whole + 1));
                tape.push('D');
                whole = lines.len() - 1;
            }
        }
        let lines: Vec<&str> = lines.iter().map(String::as_str).collect();
        let (text, tape) = (text(&lines), tape.into_bytes());
        let code = code_of(&text, &tape);
        let (first, second) = part.split_at(part.len().min(10));
        for (name, term, accounts) in [
            ("first day", [START, START], first),
            ("second day", [SECOND, SECOND], second),
            ("all days", [START, THIRD], part),
            ("no day", [THIRD, THIRD], &[]),
        ] {
            let name = format!("account days: from {}, {name}", part[0]);
            let dates = [START, term[0], term[1]].map(Date::of_number);
            hand.add(&name, &text, &code, dates);
            let mut litres = NO_LITRES;
            for &account in accounts {
                litres[account as usize] = digit_of(account);
            }
            hand.expect(0, litres);
        }
    }
}

/// Refused, all 201 are 0.
fn causes(hand: &mut Hand) {
    let good = text(&["L 200 7", "L 100 D", "A 99 0 1", "K 10 2"]);
    let bad = text(&["L 201 7", "L 100 D", "A 99 0 1", "K 10 2"]);
    // 7D7, and the same without its last bit.
    let (whole, cut) = (Code::written("0001001"), Code::written("000100"));
    let (last, none) = (20_991_231, 20_230_229);
    for (name, text, code, dates, number) in [
        ("2", &bad, &whole, [START, START, START], 2),
        ("8", &good, &cut, [START, START, START], 8),
        ("11, no date", &good, &whole, [none, START, START], 11),
        ("11, past 2099", &good, &whole, [last, START, START], 11),
        ("12, no date", &good, &whole, [START, none, START], 12),
        ("12, backwards", &good, &whole, [START, SECOND, START], 12),
    ] {
        let name = format!("account causes: {name}");
        hand.add(&name, text, code, dates.map(Date::of_number));
        hand.refuses(number);
    }
    let name = "account causes: none";
    let dates = [START, SECOND, SECOND].map(Date::of_number);
    hand.add(name, &good, &whole, dates);
    hand.gives(&[(200, 7)]);
}
