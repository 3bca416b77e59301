//! What 02, Job 1 says and what was decided about it, sentence by sentence. The
//! answer beside a case was worked out by hand.

use super::{code_of_sevens, Case, Hand, DAYS, LAZY_SEVENS, SEVENS};
use crate::calendar::Date;
use crate::codes::Code;
use crate::hot::H7;
use crate::services::totals::NO_LITRES;

const MAY_10: u32 = 20_240_510;
const MAY_11: u32 = 20_240_511;
const MAY_12: u32 = 20_240_512;
const LAST: u32 = 20_991_231;

pub fn cases() -> Vec<Case> {
    let mut hand = Hand { cases: Vec::new() };
    day_ends(&mut hand);
    empty_tapes(&mut hand);
    last_date(&mut hand);
    what_is_a_day_end(&mut hand);
    as_given(&mut hand);
    long(&mut hand);
    hand.cases
}

/// "`D` on a tape ends a day and belongs to the day it ends."
fn day_ends(hand: &mut Hand) {
    for (tape, day, litres) in [
        ("1", MAY_10, 1),
        ("1", MAY_11, 0),
        ("1D", MAY_10, 1),
        ("1D", MAY_11, 0),
        ("D1", MAY_10, 0),
        ("D1", MAY_11, 1),
        ("1D2", MAY_10, 1),
        ("1D2", MAY_11, 2),
        ("DD3", MAY_10, 0),
        ("DD3", MAY_11, 0),
        ("DD3", MAY_12, 3),
        ("12D34DD", MAY_10, 3),
        ("12D34DD", MAY_11, 7),
        ("12D34DD", MAY_12, 0),
    ] {
        let name = format!("day ends: {tape} on {day}");
        hand.tape(&name, DAYS, tape.as_bytes(), [MAY_10, day, day]);
        hand.gives(&[(1, litres)]);
    }
    hand.tape(
        "day ends: two accounts on one day",
        DAYS,
        b"1W2D3W4D5W6",
        [MAY_10, MAY_11, MAY_11],
    );
    hand.gives(&[(1, 3), (9, 4)]);
}

/// The start is checked where there is no letter to date; any date will do.
fn empty_tapes(hand: &mut Hand) {
    for (start, first, last, number) in [
        (MAY_10, MAY_10, MAY_10, 0),
        (20_000_101, MAY_10, MAY_11, 0),
        (LAST, MAY_10, MAY_11, 0),
        (LAST, LAST, LAST, 0),
        (0, MAY_10, MAY_11, 11),
        (20_230_229, MAY_10, MAY_11, 11),
        (19_991_231, MAY_10, MAY_11, 11),
        (21_000_101, MAY_10, MAY_11, 11),
        (20_230_229, MAY_11, MAY_10, 11),
        (MAY_10, 0, MAY_10, 12),
        (MAY_10, MAY_11, MAY_10, 12),
    ] {
        let name = format!("empty tape: {start}, {first} to {last}");
        hand.tape(&name, DAYS, b"", [start, first, last]);
        hand.expect(number, NO_LITRES);
    }
}

/// A last `D` on 31 December 2099 is good; any letter behind it is 11, even if
/// the term ends before it or is bad itself.
fn last_date(hand: &mut Hand) {
    let day_before = LAST - 1;
    for (tape, start, first, last, answer) in [
        ("1", LAST, LAST, LAST, Ok(1)),
        ("D", LAST, LAST, LAST, Ok(0)),
        ("1D", LAST, LAST, LAST, Ok(1)),
        ("12D", LAST, LAST, LAST, Ok(3)),
        ("1D2D", day_before, LAST, LAST, Ok(2)),
        ("1D2D", day_before, day_before, LAST, Ok(3)),
        ("1D2D", day_before, day_before, day_before, Ok(1)),
        ("D1D2D4D", 20_991_228, 20_991_229, LAST, Ok(7)),
        ("DD", LAST, LAST, LAST, Err(11)),
        ("1D2", LAST, LAST, LAST, Err(11)),
        ("1DW2", LAST, LAST, LAST, Err(11)),
        ("1D2D3", day_before, LAST, LAST, Err(11)),
        ("1D2DD", day_before, LAST, LAST, Err(11)),
        // The term ends before the letter, or has nothing of the tape.
        ("1D2D3", day_before, day_before, day_before, Err(11)),
        ("1D2D3", day_before, MAY_10, MAY_11, Err(11)),
        // The term is bad itself.
        ("1D2", LAST, MAY_11, MAY_10, Err(11)),
        ("1D2", LAST, 0, LAST, Err(11)),
        ("1D2", LAST, LAST, 21_000_101, Err(11)),
        ("1D", LAST, LAST, 21_000_101, Err(12)),
        ("1D", LAST, LAST, day_before, Err(12)),
    ] {
        let name = format!("last date: {tape} from {start}, {first} to {last}");
        hand.tape(&name, DAYS, tape.as_bytes(), [start, first, last]);
        match answer {
            Ok(litres) => hand.gives(&[(1, litres)]),
            Err(number) => hand.refuses(number),
        }
    }
}

/// `D` is byte 68, whatever leaf or account reads it, and no other byte is.
fn what_is_a_day_end(hand: &mut Hand) {
    // Each tape ends with a 2, whose account is here too. Before it there is a
    // `D`, or another byte that ends no day.
    let rows: [(&str, &[u8], &[u8], usize, bool); 12] = [
        (
            "L",
            b"0\tL\t-\tD\n1\tL\t-\t2\n2\tS\t-\t0\t1\n",
            b"D2",
            0,
            true,
        ),
        (
            "L of account 5",
            b"0\tL\t5\tD\n1\tL\t-\t2\n2\tS\t4\t0\t1\n",
            b"D2",
            4,
            true,
        ),
        (
            "L of account 9",
            b"0\tL\t9\tD\n1\tL\t9\t2\n2\tS\t-\t0\t1\n",
            b"D2",
            9,
            true,
        ),
        (
            "R of D alone",
            b"0\tR\t-\tD\tD\n1\tL\t-\t2\n2\tS\t7\t0\t1\n",
            b"D2",
            7,
            true,
        ),
        (
            "R of digits and letters",
            b"0\tR\t3\t0\tZ\n1\tK\t-\t0\n",
            b"0D2",
            3,
            true,
        ),
        ("R of all letters", H7, b"\xc4D2", 0, true),
        (
            "R under Z",
            b"0\tR\t2\t!\t\xfe\n1\tZ\t-\t0\n",
            b"D2",
            2,
            true,
        ),
        ("not C", H7, b"C2", 0, false),
        ("not E", H7, b"E2", 0, false),
        ("not d", H7, b"d2", 0, false),
        // `D` with its highest bit set.
        ("not 196", H7, b"\xc42", 0, false),
        (
            "not 196 as L",
            b"0\tL\t-\t\xc4\n1\tL\t-\t2\n2\tS\t-\t0\t1\n",
            b"\xc42",
            0,
            false,
        ),
    ];
    for (name, text, tape, account, ends) in rows {
        for day in [MAY_10, MAY_11] {
            let has = ends == (day == MAY_11);
            let name = format!("day end: {name}, on {day}");
            hand.tape(&name, text, tape, [MAY_10, day, day]);
            hand.gives(&[(account, if has { 2 } else { 0 })]);
        }
    }
}

/// The code is totalled as given, empty rounds included; nothing is settled.
fn as_given(hand: &mut Hand) {
    // ((7|7)|(D|e))*, the first 7 of account 1, the second of account 2.
    const TWO_WAYS: &str = "0\tL\t1\t7\n1\tL\t2\t7\n2\tA\t-\t0\t1\n3\tL\t-\tD\n4\tE\t-\n\
5\tA\t-\t3\t4\n6\tA\t-\t2\t5\n7\tK\t-\t6\n";
    let lazy = TWO_WAYS.replace("7\tK", "7\tZ");
    // A round's bits: 00 and 01 read 7, 10 reads `D`, 11 is empty.
    for (rounds, day, litres) in [
        (&["00", "10", "00"][..], MAY_11, (1, 7)),
        (&["00", "10", "01"], MAY_11, (2, 7)),
        (&["01", "10", "00"], MAY_10, (2, 7)),
        (&["11", "00", "11", "10", "11", "01", "11"], MAY_11, (2, 7)),
        (&["11", "00", "11", "10", "11", "01", "11"], MAY_10, (1, 7)),
        (&["10", "11", "10", "11", "11", "01"], MAY_12, (2, 7)),
        (&["11", "11", "11"], MAY_10, (0, 0)),
        (&["10", "11"], MAY_11, (0, 0)),
    ] {
        for (name, text, go_on, stop) in [("K", TWO_WAYS, "0", "1"), ("Z", &lazy, "1", "0")] {
            let mut bits: String = rounds
                .iter()
                .map(|round| format!("{go_on}{round}"))
                .collect();
            bits.push_str(stop);
            let name = format!("as given: {name}, {} on {day}", rounds.join(" "));
            let dates = [MAY_10, day, day].map(Date::of_number);
            hand.add(&name, text, &Code::written(&bits), dates);
            hand.gives(&[litres]);
        }
    }
}

/// 3,600 letters, and 3,601. From 22 February 2090 to 31 December 2099 there
/// are 3,600 days: ten years with two leap days, without 31 and 21 days.
fn long(hand: &mut Hand) {
    let days = "D".repeat(3_600);
    let sevens = "7".repeat(3_600);
    let seven_last = "D".repeat(3_599) + "7";
    let by_turns = "7D".repeat(1_800);
    for (name, tape, dates, answer) in [
        ("all days", &days, [20_900_222, LAST, LAST], Ok(0)),
        (
            "all days, one late",
            &days,
            [20_900_223, LAST, LAST],
            Err(11),
        ),
        (
            "7 on the last date",
            &seven_last,
            [20_900_222, LAST, LAST],
            Ok(7),
        ),
        (
            "7 behind it",
            &seven_last,
            [20_900_223, MAY_10, LAST],
            Err(11),
        ),
        // 1 January 2010 is 3,653 days after 1 January 2000.
        (
            "7 on its day",
            &seven_last,
            [20_000_101, 20_091_108, 20_091_108],
            Ok(7),
        ),
        (
            "7 a day late",
            &seven_last,
            [20_000_101, 20_000_101, 20_091_107],
            Ok(0),
        ),
        ("one day", &sevens, [MAY_10, MAY_10, MAY_10], Ok(7 * 3_600)),
        ("another day", &sevens, [MAY_10, MAY_11, LAST], Ok(0)),
        // January and the leap February, then a February without.
        (
            "by turns",
            &by_turns,
            [20_240_101, 20_240_101, 20_240_229],
            Ok(7 * 60),
        ),
        (
            "by turns, 2023",
            &by_turns,
            [20_230_101, 20_230_201, 20_230_228],
            Ok(7 * 28),
        ),
        (
            "by turns, all",
            &by_turns,
            [20_240_101, 20_000_101, LAST],
            Ok(7 * 1_800),
        ),
    ] {
        for (kind, text, stop_bit) in [("K", SEVENS, true), ("Z", LAZY_SEVENS, false)] {
            let name = format!("long: {kind}, {name}");
            let code = code_of_sevens(tape, stop_bit);
            hand.add(&name, text, &code, dates.map(Date::of_number));
            match answer {
                Ok(litres) => hand.gives(&[(3, litres)]),
                Err(number) => hand.refuses(number),
            }
        }
    }
    let code = code_of_sevens(&(by_turns + "7"), true);
    for (name, dates) in [
        ("good dates", [MAY_10, MAY_10, MAY_11]),
        ("a bad start", [20_230_229, MAY_10, MAY_11]),
        ("a letter past the last date", [LAST, MAY_10, MAY_11]),
        ("a bad term", [MAY_10, MAY_11, MAY_10]),
        ("no date at all", [0, 0, 0]),
    ] {
        let name = format!("long: 3,601 letters, {name}");
        hand.add(&name, SEVENS, &code, dates.map(Date::of_number));
        hand.refuses(3);
    }
}
