//! The preferred reading found in four ways: from its definition, by the sets
//! of 001 (proposition 2), by memoised sets of ends, and by the two passes
//! of section 5. Most of the patterns mix `K` and `Z`.

mod common;

use common::{sample, small, tapes, METER, MIXED};
use wumbyra_reference::automaton::marks;
use wumbyra_reference::brute::{preferred_by_definition, preferred_by_matches};
use wumbyra_reference::memo::preferred_reading;
use wumbyra_reference::patterns::random;
use wumbyra_reference::prng::Prng;
use wumbyra_reference::table::{Kind, Node, Table};
use wumbyra_reference::two_pass::build;
use wumbyra_reference::value::{has_empty_round, spell};

#[test]
fn by_definition_and_by_sets_agree_on_very_small_patterns() {
    let mut rng = Prng::new(1);
    let (mut compared, mut read) = (0, 0);
    for _ in 0..1500 {
        let table = small(&mut rng, 8);
        for tape in tapes(b"ab", 3) {
            let Ok(by_definition) = preferred_by_definition(&table, &tape, 1000) else {
                continue;
            };
            assert_eq!(
                Ok(&by_definition),
                preferred_by_matches(&table, &tape, 100_000).as_ref()
            );
            assert_eq!(
                by_definition,
                preferred_reading(&table, &tape),
                "{table:?} {tape:?}"
            );
            compared += 1;
            read += usize::from(by_definition.is_some());
        }
    }
    assert!(compared > 8_000 && read > 1_000, "{compared} {read}");
}

#[test]
fn by_sets_memoised_and_in_two_passes_agree_on_small_patterns() {
    let mut rng = Prng::new(2);
    let (mut compared, mut read) = (0, 0);
    for _ in 0..1000 {
        let table = small(&mut rng, 16);
        for tape in tapes(b"ab", 5) {
            let memoised = preferred_reading(&table, &tape);
            assert_eq!(
                memoised,
                build(&table, &tape, &marks(&table, &tape)),
                "{table:?} {tape:?}"
            );
            if let Some(reading) = &memoised {
                assert_eq!(spell(reading), tape);
                assert!(!has_empty_round(reading));
                read += 1;
            }
            if let Ok(by_sets) = preferred_by_matches(&table, &tape, 2000) {
                assert_eq!(by_sets, memoised, "{table:?} {tape:?}");
                compared += 1;
            }
        }
    }
    assert!(compared > 40_000 && read > 8_000, "{compared} {read}");
}

#[test]
fn memoised_and_in_two_passes_agree_on_large_patterns() {
    let mut rng = Prng::new(3);
    let mut read = 0;
    for _ in 0..300 {
        let table = small(&mut rng, 64);
        for _ in 0..10 {
            let length = rng.below(200);
            let tape: Vec<u8> = (0..length).map(|_| b'a' + rng.below(2) as u8).collect();
            let memoised = preferred_reading(&table, &tape);
            assert_eq!(memoised, build(&table, &tape, &marks(&table, &tape)));
            read += usize::from(memoised.is_some());
        }
    }
    assert!(read > 100, "{read}");
}

/// A star over a random pattern of 63 lines, and a tape of rounds of it as
/// long as a tape may be, or nearly.
#[test]
fn memoised_and_in_two_passes_agree_on_the_longest_tapes() {
    let mut rng = Prng::new(13);
    for round in 0..10 {
        let taste = if round % 2 == 0 { &MIXED } else { &METER };
        let inner = random(&mut rng, 63, taste);
        let star = [Kind::GREEDY_STAR, Kind::LAZY_STAR][round / 2 % 2];
        let root = Node::new(star, 0, 62, 0);
        let table = Table::of_nodes(&[inner.lines(), &[root]].concat());
        let mut tape = Vec::new();
        for _ in 0..20_000 {
            let mut piece = Vec::new();
            sample(&mut rng, &table, 62, &mut piece);
            if tape.len() + piece.len() <= 3_600 {
                tape.extend(piece);
            }
        }
        let reading = preferred_reading(&table, &tape).expect("rounds of the pattern");
        assert_eq!(spell(&reading), tape);
        assert!(!has_empty_round(&reading));
        assert_eq!(Some(reading), build(&table, &tape, &marks(&table, &tape)));
    }
}
