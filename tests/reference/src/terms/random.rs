//! Codes of random values of random patterns that read digits and `D`, with
//! random dates: near month ends, leap days and the last date, and such as are
//! none; terms inside the tape, across its ends, outside it, and bad ones.

use super::Case;
use crate::calendar::{all, month_length, moved, Date};
use crate::code::encode;
use crate::codes::damaged::damage;
use crate::codes::random::{drawn_accounts, has_great_litres, pattern, put_in, sample};
use crate::codes::Code;
use crate::patterns::{random, text_of, with_stale_part, Taste};
use crate::prng::Prng;
use crate::services::terms::DAY_END;
use crate::services::MOST_LETTERS;
use crate::stale::moves_litres;
use crate::table::{Kind, Node, Star, Table};
use crate::tapes::random::Tastes;
use crate::value::{spell, Value};

/// Letters in rounds of days.
const MOST_SAMPLED: usize = 60;

const DAY_METER: Taste = Taste {
    leaves: &[Kind::Nothing, Kind::Letter, Kind::Letter, Kind::Range],
    inner: &[Kind::GREEDY_STAR, Kind::Either, Kind::Sequence],
    letters: b"DDD0259W",
    accounts: true,
};

const MIXED_DAY_METER: Taste = Taste {
    inner: &[
        Kind::GREEDY_STAR,
        Kind::LAZY_STAR,
        Kind::Either,
        Kind::Sequence,
    ],
    ..DAY_METER
};

/// Beside `D` and `9` the letters that are these with the highest bit set.
const HOT_DAY_METER: Taste = Taste {
    letters: b"DDD059d\xb9\xc4",
    ..MIXED_DAY_METER
};

/// Patterns with days and without `Z`, such as mix `K` and `Z`, and such as
/// have letters of the hot side too.
pub const WITH_DAYS: Tastes = [&DAY_METER, &DAY_METER, &DAY_METER];
pub const MIXED_DAYS: Tastes = [&MIXED_DAY_METER, &MIXED_DAY_METER, &MIXED_DAY_METER];
pub const HOT_DAYS: Tastes = [&HOT_DAY_METER, &HOT_DAY_METER, &HOT_DAY_METER];

pub fn cases() -> Vec<Case> {
    let mut cases = drawn(Prng::new(361), "random", &WITH_DAYS, 80);
    cases.extend(drawn(Prng::new(362), "mixed random", &MIXED_DAYS, 80));
    cases.extend(drawn(Prng::new(363), "hot random", &HOT_DAYS, 80));
    cases.extend(drawn_damaged(Prng::new(364), 32));
    cases
}

/// Patterns with account 9 above other accounts, as in the random codes.
pub fn stale() -> Vec<Case> {
    let mut rng = Prng::new(365);
    let rng = &mut rng;
    let mut cases = Vec::new();
    while cases.len() < 60 {
        let index = cases.len();
        let tastes = [&WITH_DAYS, &MIXED_DAYS, &HOT_DAYS][index / 2 % 3];
        let (table, value) = with_days(rng, tastes, index / 2);
        let table = with_stale_part(rng, &table);
        if !moves_litres(&table, &value) {
            continue;
        }
        let code = Code::of_bits(&encode(&table, &value));
        let days = day_ends(&spell(&value));
        for _ in 0..2 {
            let dates = random_dates(rng, days);
            cases.push(case("stale random", cases.len(), &table, &code, dates));
        }
    }
    cases
}

/// Patterns with accounts to 200, as in the random codes.
pub fn accounts() -> Vec<Case> {
    let mut rng = Prng::new(367);
    let rng = &mut rng;
    let mut cases = Vec::new();
    while cases.len() < 80 {
        let index = cases.len() / 2;
        let tastes = [&WITH_DAYS, &MIXED_DAYS, &HOT_DAYS][index % 3];
        let (table, value) = with_days(rng, tastes, index);
        let table = drawn_accounts(rng, index / 3, &table);
        if !has_great_litres(&table, &value) {
            continue;
        }
        let code = Code::of_bits(&encode(&table, &value));
        let days = day_ends(&spell(&value));
        for _ in 0..2 {
            let dates = random_dates(rng, days);
            cases.push(case("accounts random", cases.len(), &table, &code, dates));
        }
    }
    cases
}

/// Two terms in turn of each code.
fn drawn(mut rng: Prng, sort: &str, tastes: &Tastes, count: usize) -> Vec<Case> {
    let rng = &mut rng;
    let mut cases = Vec::new();
    while cases.len() < count {
        let (table, value) = with_days(rng, tastes, cases.len() / 2);
        let code = Code::of_bits(&encode(&table, &value));
        let days = day_ends(&spell(&value));
        for _ in 0..2 {
            let dates = random_dates(rng, days);
            cases.push(case(sort, cases.len(), &table, &code, dates));
        }
    }
    cases
}

fn drawn_damaged(mut rng: Prng, count: usize) -> Vec<Case> {
    let rng = &mut rng;
    let mut cases = Vec::new();
    while cases.len() < count {
        let index = cases.len();
        let (table, value) = with_days(rng, &MIXED_DAYS, index);
        let bits = encode(&table, &value);
        if bits.len() < 6 {
            continue;
        }
        let code = damage(rng, index % 8, &bits);
        let dates = random_dates(rng, day_ends(&spell(&value)));
        cases.push(case("damaged", index, &table, &code, dates));
    }
    cases
}

fn case(sort: &str, index: usize, table: &Table, code: &Code, dates: [Date; 3]) -> Case {
    let [start, first, last] = dates;
    Case {
        name: format!("{sort}: {index}"),
        text: text_of(table),
        code: code.clone(),
        start,
        first,
        last,
        expected: None,
    }
}

/// A pattern and a value with a `D` and a digit, one in three with more of the
/// first; with empty rounds put in half of the time. Every other pattern has
/// rounds of days.
fn with_days(rng: &mut Prng, tastes: &Tastes, index: usize) -> (Table, Value) {
    loop {
        let table = pattern(rng, tastes, index);
        let (table, value) = match index % 2 {
            0 => rounds_of_days(rng, tastes[0], table.lines().len()),
            _ => {
                let value = sample(rng, &table, table.root(), &mut 0);
                (table, value)
            }
        };
        let letters = spell(&value);
        if has_litres(&letters) && day_ends(&letters) > index % 3 {
            let value = match rng.below(2) {
                0 => value,
                _ => put_in(rng, &table, table.root(), &value),
            };
            return (table, value);
        }
    }
}

/// A star over a random pattern, in so many lines, at least two, and a value
/// of more rounds than a sampled one has: litres on several days.
pub fn rounds_of_days(rng: &mut Prng, taste: &Taste, lines: usize) -> (Table, Value) {
    let part = random(rng, lines - 1, taste);
    let star = match taste.inner.contains(&Kind::LAZY_STAR) && rng.below(2) == 0 {
        true => Star::Lazy,
        false => Star::Greedy,
    };
    let mut nodes = part.lines().to_vec();
    nodes.push(Node::new(Kind::Rounds(star), 0, part.root() as u64, 0));
    let mut rounds = Vec::new();
    let mut letters = 0;
    for _ in 0..2 + rng.below(20) {
        let round = sample(rng, &part, part.root(), &mut 0);
        letters += spell(&round).len();
        if letters > MOST_SAMPLED {
            break;
        }
        rounds.push(round);
    }
    (Table::of_nodes(&nodes), Value::Rounds(star, rounds))
}

/// Whether a tape of these letters has litres.
pub fn has_litres(letters: &[u8]) -> bool {
    letters.iter().any(|letter| (b'1'..=b'9').contains(letter))
}

/// So many days end on a tape of these letters; more than a tape has letters
/// count as many as that.
pub fn day_ends(letters: &[u8]) -> usize {
    let ends = letters.iter().filter(|&&letter| letter == DAY_END);
    ends.count().min(MOST_LETTERS)
}

/// Start, first and last for a tape on which so many days end.
pub fn random_dates(rng: &mut Prng, days: usize) -> [Date; 3] {
    let start = random_start(rng, days);
    let [first, last] = random_term(rng, start, days);
    [start, first, last]
}

/// One in twelve is no date. Of one more the tape goes past the last date, or
/// nearly; of one it ends there, just before or just behind it; most have the
/// end of a month on the tape.
fn random_start(rng: &mut Prng, days: usize) -> Date {
    let back = -(rng.below(days + 3) as i64);
    let just = -((days.saturating_sub(2) + rng.below(4)) as i64);
    match rng.below(12) {
        0 => no_date(rng),
        1 => moved(Date::LAST, back).expect("a century is longer than a tape"),
        2 => moved(Date::LAST, just).expect("a century is longer than a tape"),
        3 => *rng.pick(all()),
        _ => {
            let end = month_end(rng);
            moved(end, back).unwrap_or(end)
        }
    }
}

/// The last day of a month, half of the time of a February.
fn month_end(rng: &mut Prng) -> Date {
    let any = 2000 + rng.below(100) as u32;
    let year = *rng.pick(&[2000, 2023, 2024, 2096, 2099, any, any]);
    let month = match rng.below(2) {
        0 => 2,
        _ => 1 + rng.below(12) as u32,
    };
    Date::new(year, month, month_length(year, month))
}

/// A date with one number changed so that it is none.
fn no_date(rng: &mut Prng) -> Date {
    loop {
        let mut date = month_end(rng);
        let number = match rng.below(3) {
            0 => &mut date.year,
            1 => &mut date.month,
            _ => &mut date.day,
        };
        let any = rng.number() as u32;
        *number = match rng.below(4) {
            0 => *rng.pick(&[0, 13, 29, 30, 31, 32, 1999, 2100, u32::MAX, any]),
            1 => number.wrapping_sub(1 + rng.below(100) as u32),
            // Its lowest bits are those of a date still.
            2 => *number + *rng.pick(&[256, 65_536, 1 << 31]),
            _ => *number + 1 + rng.below(100) as u32,
        };
        if !date.is_date() {
            return date;
        }
    }
}

/// A term by where it lies: its ends are days counted from the start. Two in
/// twelve have an end that is no date, one ends before it begins.
fn random_term(rng: &mut Prng, start: Date, days: usize) -> [Date; 2] {
    let around = if start.is_date() {
        start
    } else {
        month_end(rng)
    };
    let (one, other) = (rng.below(days + 1) as i64, rng.below(days + 1) as i64);
    let (early, late) = (one.min(other), one.max(other));
    let (near, far) = (1 + rng.below(3) as i64, rng.below(500) as i64);
    let behind = days as i64 + near;
    let day = |count: i64| match moved(around, count) {
        Some(date) => date,
        None if count < 0 => Date::FIRST,
        None => Date::LAST,
    };
    match rng.below(12) {
        0 => [no_date(rng), day(late)],
        1 => [day(early), no_date(rng)],
        // On a last date both ends are that date.
        2 => [day(late + near), day(early)],
        3 => [day(-near - far), day(-near)],
        4 => [day(behind), day(behind + far)],
        5 => [day(-near), day(behind)],
        6 => [day(-far), day(late)],
        7 => [day(early), day(behind + far)],
        8 => [day(late), day(late)],
        _ => [day(early), day(late)],
    }
}
