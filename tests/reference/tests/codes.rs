//! Codes: that they fix their readings, that their order is the preferred
//! order backwards, that none begins another, and what is no code.

mod common;

use common::{small, table, tapes, written, METER, MIXED};
use std::cmp::Ordering;
use wumbyra_reference::brute::{all_readings, all_values};
use wumbyra_reference::code::{decode, encode, pack, unpack};
use wumbyra_reference::memo::preferred_reading;
use wumbyra_reference::patterns::random;
use wumbyra_reference::prng::Prng;
use wumbyra_reference::services::spelling::letters_of;
use wumbyra_reference::table::{Kind, Table};
use wumbyra_reference::value::{preferred, spell, Value};

/// The first bit at which both codes have a bit and differ.
fn first_difference(one: &[bool], other: &[bool]) -> Option<usize> {
    one.iter().zip(other).position(|(one, other)| one != other)
}

fn check_pairs(table: &Table, values: &[Value]) {
    let codes: Vec<Vec<bool>> = values.iter().map(|value| encode(table, value)).collect();
    for (value, code) in values.iter().zip(&codes) {
        assert_eq!(decode(table, code).as_ref(), Some(value));
        for (other, other_code) in values.iter().zip(&codes) {
            // 0 at the first differing bit comes before, and the greater
            // reading has the earlier code.
            let order = match first_difference(code, other_code) {
                None => {
                    assert_eq!(code, other_code, "one code begins the other");
                    Ordering::Equal
                }
                Some(index) if code[index] => Ordering::Less,
                Some(_) => Ordering::Greater,
            };
            assert_eq!(
                preferred(value, other),
                order,
                "{} {}",
                written(code),
                written(other_code)
            );
        }
    }
}

#[test]
fn readings_of_one_tape_are_ordered_as_their_codes() {
    let mut rng = Prng::new(4);
    let mut many = 0;
    for _ in 0..500 {
        let table = small(&mut rng, 12);
        for tape in tapes(b"ab", 3) {
            if let Ok(readings) = all_readings(&table, &tape, 60) {
                check_pairs(&table, &readings);
                many += usize::from(readings.len() > 1);
            }
        }
    }
    assert!(many > 500, "{many}");
}

#[test]
fn values_of_all_tapes_with_empty_rounds_are_ordered_as_their_codes() {
    let mut rng = Prng::new(5);
    let mut many = 0;
    for _ in 0..500 {
        let table = small(&mut rng, 7);
        if let Ok(values) = all_values(&table, table.root(), b"ab", 2, 4, 60) {
            check_pairs(&table, &values);
            many += usize::from(values.len() > 4);
        }
    }
    assert!(many > 100, "{many}");
}

/// "The settled code is still the earliest without an empty round."
#[test]
fn the_preferred_reading_has_the_earliest_code_without_an_empty_round() {
    let mut rng = Prng::new(14);
    let mut many = 0;
    for _ in 0..800 {
        let table = small(&mut rng, 14);
        for tape in tapes(b"ab", 4) {
            let Ok(readings) = all_readings(&table, &tape, 300) else {
                continue;
            };
            // No code begins another, so the order of lists is that of codes.
            let codes = readings.iter().map(|reading| encode(&table, reading));
            let found = preferred_reading(&table, &tape);
            assert_eq!(codes.min(), found.map(|reading| encode(&table, &reading)));
            many += usize::from(readings.len() > 1);
        }
    }
    assert!(many > 1_000, "{many}");
}

/// a counts `A`, `K` and `Z` nodes alike.
#[test]
fn codes_without_empty_rounds_keep_the_bound() {
    let mut rng = Prng::new(6);
    for _ in 0..1000 {
        let table = small(&mut rng, 20);
        let kinds = table.lines().iter().map(|node| node.kind);
        let a = kinds
            .filter(|kind| matches!(kind, Kind::Either | Kind::Rounds(_)))
            .count();
        for tape in tapes(b"ab", 4) {
            if let Some(reading) = preferred_reading(&table, &tape) {
                let n = tape.len();
                let bound = if n == 0 { a } else { 2 * a * n + 8 * n };
                assert!(encode(&table, &reading).len() <= bound);
            }
        }
    }
}

#[test]
fn walking_and_decoding_agree_on_any_bits() {
    let mut rng = Prng::new(7);
    let mut whole = 0;
    for round in 0..400 {
        let count = 1 + rng.below(9);
        let taste = if round % 2 == 0 { &METER } else { &MIXED };
        let table = random(&mut rng, count, taste);
        for length in 0..=9 {
            for number in 0..1_u32 << length {
                let bits: Vec<bool> = (0..length).map(|bit| number >> bit & 1 == 1).collect();
                check_any(&table, &bits, &mut whole);
            }
        }
    }
    assert!(whole > 2_000, "{whole}");
}

fn check_any(table: &Table, bits: &[bool], whole: &mut usize) {
    let walked = letters_of(table, &pack(bits), bits.len() as u64);
    match decode(table, bits) {
        Some(value) => {
            assert_eq!(walked.as_deref(), Ok(spell(&value).as_slice()));
            assert_eq!(encode(table, &value), bits);
            *whole += 1;
        }
        None => assert!(walked.is_err()),
    }
}

#[test]
fn packing_fills_bytes_from_the_highest_bit() {
    assert_eq!(pack(&[]), Vec::<u8>::new());
    assert_eq!(pack(&common::bits("1")), [0x80]);
    assert_eq!(pack(&common::bits("000000011")), [0x01, 0x80]);
    assert_eq!(unpack(&[], 0), Some(vec![]));
    assert_eq!(unpack(&[0x01, 0x80], 9), Some(common::bits("000000011")));
    assert_eq!(unpack(&[0], 0), None);
    assert_eq!(unpack(&[0x80, 0], 1), None);
    assert_eq!(unpack(&[0x81], 7), None);
    assert_eq!(unpack(&[0x80], 9), None);
    assert_eq!(unpack(&[], 1), None);
    assert_eq!(unpack(&[0x80], u64::MAX), None);
    assert!(unpack(&[0; 65_536], 524_288).is_some());
    assert!(unpack(&[0; 65_537], 524_296).is_none());
}

#[test]
fn range_letters_outside_their_range_are_no_code() {
    let table = table("0\tR\t-\tb\td\n");
    for byte in 0..=255_u8 {
        let good = (b'b'..=b'd').contains(&byte);
        assert_eq!(letters_of(&table, &[byte], 8).is_ok(), good, "{byte}");
    }
}

#[test]
fn the_longest_code_is_walked_to_its_end() {
    let star = table("0\tE\t-\n1\tK\t-\t0\n");
    let mut code = vec![0; 65_536];
    assert!(letters_of(&star, &code, 524_288).is_err());
    code[65_535] = 1;
    assert_eq!(letters_of(&star, &code, 524_288), Ok(vec![]));
    let lazy = table("0\tE\t-\n1\tZ\t-\t0\n");
    let mut code = vec![255; 65_536];
    assert!(letters_of(&lazy, &code, 524_288).is_err());
    code[65_535] = 254;
    assert_eq!(letters_of(&lazy, &code, 524_288), Ok(vec![]));
}
