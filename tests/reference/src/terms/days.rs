//! A tape of five days under every term from the day before it to the day
//! after it, across month ends, leap days and years' ends. The days are written
//! down, not stepped.

use super::{Case, Hand, DAYS};

/// On each day litres of its own, so that sums tell which days they are of.
const TAPE: &[u8] = b"1D2D4D8DW5";
/// The litres of accounts 1 and 9 on the day before the tape, its days, and the
/// day after it.
const LITRES: [(u64, u64); 7] = [(0, 0), (1, 0), (2, 0), (4, 0), (8, 0), (0, 5), (0, 0)];

const LEAP: [u32; 7] = [
    20_240_226, 20_240_227, 20_240_228, 20_240_229, 20_240_301, 20_240_302, 20_240_303,
];
const YEARS_END: [u32; 7] = [
    20_231_228, 20_231_229, 20_231_230, 20_231_231, 20_240_101, 20_240_102, 20_240_103,
];
/// Looked at day by day.
const OTHERS: [[u32; 7]; 5] = [
    // A year without a leap day, the leap day of a full century, and the last.
    [
        20_230_226, 20_230_227, 20_230_228, 20_230_301, 20_230_302, 20_230_303, 20_230_304,
    ],
    [
        20_000_226, 20_000_227, 20_000_228, 20_000_229, 20_000_301, 20_000_302, 20_000_303,
    ],
    [
        20_960_226, 20_960_227, 20_960_228, 20_960_229, 20_960_301, 20_960_302, 20_960_303,
    ],
    // 31 days, and 30.
    [
        20_240_729, 20_240_730, 20_240_731, 20_240_801, 20_240_802, 20_240_803, 20_240_804,
    ],
    [
        20_240_428, 20_240_429, 20_240_430, 20_240_501, 20_240_502, 20_240_503, 20_240_504,
    ],
];

pub fn cases() -> Vec<Case> {
    let mut hand = Hand { cases: Vec::new() };
    for first in 0..7 {
        for last in 0..7 {
            term(&mut hand, "leap days", &LEAP, first, last);
        }
    }
    for first in 0..7 {
        for last in first..7 {
            term(&mut hand, "year's end", &YEARS_END, first, last);
        }
    }
    for days in &OTHERS {
        for day in 0..7 {
            term(&mut hand, "day by day", days, day, day);
        }
    }
    far(&mut hand);
    hand.cases
}

fn term(hand: &mut Hand, sort: &str, days: &[u32; 7], first: usize, last: usize) {
    let name = format!("{sort}: {} to {}", days[first], days[last]);
    hand.tape(&name, DAYS, TAPE, [days[1], days[first], days[last]]);
    if last < first {
        return hand.refuses(12);
    }
    let within = &LITRES[first..=last];
    let own = within.iter().map(|litres| litres.0).sum();
    let stale = within.iter().map(|litres| litres.1).sum();
    hand.gives(&[(1, own), (9, stale)]);
}

/// Terms that lie far from the tape, or far around it.
fn far(hand: &mut Hand) {
    for (first, last, litres) in [
        (20_000_101, 20_991_231, [(1, 15), (9, 5)]),
        (20_000_101, 20_240_228, [(1, 3), (9, 0)]),
        (20_240_229, 20_991_231, [(1, 12), (9, 5)]),
        (20_000_101, 20_000_101, [(1, 0), (9, 0)]),
        (20_000_101, 20_240_226, [(1, 0), (9, 0)]),
        (20_240_303, 20_991_231, [(1, 0), (9, 0)]),
        (20_991_231, 20_991_231, [(1, 0), (9, 0)]),
        // The same days of another year, and of another month.
        (20_230_227, 20_230_303, [(1, 0), (9, 0)]),
        (20_250_227, 20_250_303, [(1, 0), (9, 0)]),
        (20_240_127, 20_240_129, [(1, 0), (9, 0)]),
        (20_240_327, 20_240_329, [(1, 0), (9, 0)]),
    ] {
        let name = format!("far: {first} to {last}");
        hand.tape(&name, DAYS, TAPE, [LEAP[1], first, last]);
        hand.gives(&litres);
    }
}
