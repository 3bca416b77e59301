//! Full tapes: the codes that were written down are the codes that are read.

use wumbyra_reference::code::pack;
use wumbyra_reference::full;
use wumbyra_reference::load::load;
use wumbyra_reference::services::reading::parse;
use wumbyra_reference::services::settling::canonicalize;
use wumbyra_reference::services::spelling::letters_of;
use wumbyra_reference::services::MOST_LETTERS;
use wumbyra_reference::table::Refusal;

/// 63 stars over 3,600 letters take this reader long; the stored cases have
/// them.
fn quick() -> Vec<full::Full> {
    let rows = full::all().into_iter();
    rows.filter(|row| !row.name.starts_with("63 ")).collect()
}

#[test]
fn tapes_are_read_as_written_down() {
    for row in quick() {
        let table = load(row.text.as_bytes()).expect("a good pattern");
        let mut words = vec![0; 2 * (row.tape.len() + 1)];
        let mut code = vec![0; row.bytes()];
        let read = parse(&table, &row.tape, &mut words, &mut code);
        if row.tape.len() > MOST_LETTERS {
            assert_eq!(read, Err(Refusal::new(3, 0)), "{}", row.name);
        } else {
            assert_eq!(read, Ok(row.settled.len() as u64), "{}", row.name);
            assert!(code == pack(&row.settled), "{}", row.name);
        }
    }
}

#[test]
fn codes_settle_as_written_down() {
    for row in quick() {
        let table = load(row.text.as_bytes()).expect("a good pattern");
        let (given, count) = (pack(&row.code), row.code.len() as u64);
        let mut tape = vec![0; row.tape.len()];
        let mut words = vec![0; 2 * (row.tape.len() + 1)];
        let mut code = vec![0; row.bytes()];
        let settled = canonicalize(&table, &given, count, &mut tape, &mut words, &mut code);
        if row.tape.len() > MOST_LETTERS {
            assert_eq!(settled, Err(Refusal::new(3, 0)), "{}", row.name);
        } else {
            assert_eq!(settled, Ok(row.settled.len() as u64), "{}", row.name);
            assert!(tape == row.tape, "{}", row.name);
            assert!(code == pack(&row.settled), "{}", row.name);
        }
    }
}

/// Both codes spell the tape, of 63 stars too.
#[test]
fn both_codes_spell_the_tape() {
    for row in full::all() {
        let table = load(row.text.as_bytes()).expect("a good pattern");
        for bits in [&row.code, &row.settled] {
            let letters = letters_of(&table, &pack(bits), bits.len() as u64);
            assert!(letters.as_ref() == Ok(&row.tape), "{}", row.name);
        }
    }
}

/// Sizes on both sides of 3,600 letters, and bits on both sides of 65,535.
#[test]
fn sizes_and_bits_that_there_are() {
    let rows = full::all();
    for size in full::SIZES {
        let of_size = |row: &&full::Full| row.tape.len() == size;
        assert!(rows.iter().filter(of_size).count() >= 9, "{size}");
    }
    for bits in [65_535, 65_536, 65_537, 478_801] {
        let found = rows.iter().filter(|row| row.settled.len() == bits).count();
        assert!(found > 0, "{bits}");
    }
}
