//! Kind `Z`, the lazy star: the rows worked out by hand, that the order is
//! 001's own where a pattern has no `Z`, and the longest code that is written.

mod common;

use common::{bits, table, written, NULLABLE};
use std::cmp::Ordering;
use wumbyra_reference::automaton::marks;
use wumbyra_reference::brute::{all_values, preferred_by_definition, preferred_by_matches};
use wumbyra_reference::code::{encode, pack, unpack};
use wumbyra_reference::lazy::{name_of, tower, tower_code, CODES, SETTLED, UNREADABLE, Z17};
use wumbyra_reference::listing::listing;
use wumbyra_reference::load::load;
use wumbyra_reference::patterns::random;
use wumbyra_reference::prng::Prng;
use wumbyra_reference::services::reading::parse;
use wumbyra_reference::services::settling::canonicalize;
use wumbyra_reference::services::spelling::flatten;
use wumbyra_reference::services::totals::totals;
use wumbyra_reference::table::{Refusal, Star};
use wumbyra_reference::two_pass::build;
use wumbyra_reference::value::{preferred, Value};

#[test]
fn codes_worked_out_by_hand() {
    for (text, tape, expected) in CODES {
        let (name, table, tape) = (name_of(text), table(text), tape.as_bytes());
        let (mut words, mut code) = ([7; 20], [7; 20]);
        let count = parse(&table, tape, &mut words, &mut code).expect(name);
        let read = unpack(&code[..count.div_ceil(8) as usize], count).expect(name);
        assert_eq!(written(&read), expected, "{name} on {tape:?}");
        let found = Some(read);
        let code_of = |reading: Option<Value>| reading.map(|value| encode(&table, &value));
        let by_definition = preferred_by_definition(&table, tape, 1_000).expect(name);
        assert_eq!(code_of(by_definition), found, "{name} on {tape:?}");
        let by_matches = preferred_by_matches(&table, tape, 1_000).expect(name);
        assert_eq!(code_of(by_matches), found, "{name} on {tape:?}");
        let in_two_passes = build(&table, tape, &marks(&table, tape));
        assert_eq!(code_of(in_two_passes), found, "{name} on {tape:?}");
    }
}

#[test]
fn codes_settled_by_hand() {
    for (text, code, expected) in SETTLED {
        let name = name_of(text);
        let (mut tape, mut words, mut settled) = ([7; 20], [7; 20], [7; 20]);
        let count = canonicalize(
            &table(text),
            &pack(&bits(code)),
            code.len() as u64,
            &mut tape,
            &mut words,
            &mut settled,
        )
        .expect(name);
        let read = unpack(&settled[..count.div_ceil(8) as usize], count).expect(name);
        assert_eq!(written(&read), expected, "{name}, {code}");
    }
}

#[test]
fn tapes_that_no_reading_spells() {
    for (text, tape) in UNREADABLE {
        let answer = parse(&table(text), tape.as_bytes(), &mut [7; 20], &mut [7; 20]);
        assert_eq!(
            answer,
            Err(Refusal::new(5, 0)),
            "{} on {tape}",
            name_of(text)
        );
    }
}

#[test]
fn lines_that_are_no_lazy_star() {
    let line =
        |rest: &str| load(format!("0\tE\t-\n1\t{rest}\n").as_bytes()).map(|found| found.count);
    assert_eq!(line("Z\t-\t0"), Ok(2));
    for rest in [
        "z\t-\t0",
        "Z\t-",
        "Z\t-\t0\t0",
        "Z\t-\ta",
        "Z\t0\t0",
        "ZZ\t-\t0",
    ] {
        assert_eq!(line(rest), Err(Refusal::new(1, 1)), "{rest:?}");
    }
    assert_eq!(line("Z\t-\t1"), Err(Refusal::new(2, 1)));
}

#[test]
fn the_listing_with_a_lazy_star() {
    let expected = "tape\t3\t21\tcce320\naccount\t1\t3\naccount\t9\t2\n\
                    open\t0\t4\nopen\t1\t4\nopen\t2\t4\nopen\t3\t1\n";
    assert_eq!(listing(Z17.as_bytes(), b"3W2\n"), expected);
}

/// The order of 001, section 4, as it stands there: it knows no `Z`.
fn greedy(one: &Value, other: &Value) -> Ordering {
    match (one, other) {
        (Value::Nothing, Value::Nothing) => Ordering::Equal,
        (Value::Letter(one), Value::Letter(other)) => other.cmp(one),
        (Value::Pair(one), Value::Pair(other)) => {
            greedy(&one.0, &other.0).then_with(|| greedy(&one.1, &other.1))
        }
        (Value::Left(one), Value::Left(other)) => greedy(one, other),
        (Value::Right(one), Value::Right(other)) => greedy(one, other),
        (Value::Left(_), Value::Right(_)) => Ordering::Greater,
        (Value::Right(_), Value::Left(_)) => Ordering::Less,
        (Value::Rounds(_, one), Value::Rounds(_, other)) => greedy_list(one, other),
        _ => panic!("values of two types have no order"),
    }
}

fn greedy_list(one: &[Value], other: &[Value]) -> Ordering {
    match (one, other) {
        ([], []) => Ordering::Equal,
        ([], _) => Ordering::Less,
        (_, []) => Ordering::Greater,
        ([one, rest @ ..], [other, others @ ..]) => {
            greedy(one, other).then_with(|| greedy_list(rest, others))
        }
    }
}

/// "Both are 001's own where a pattern has no `Z`."
#[test]
fn without_lazy_stars_the_order_is_that_of_001() {
    let mut rng = Prng::new(16);
    let mut many = 0;
    for _ in 0..600 {
        let count = 1 + rng.below(8);
        let table = random(&mut rng, count, &NULLABLE);
        let Ok(values) = all_values(&table, table.root(), b"ab", 2, 4, 60) else {
            continue;
        };
        for one in &values {
            for other in &values {
                assert_eq!(preferred(one, other), greedy(one, other));
            }
        }
        many += usize::from(values.len() > 4);
    }
    assert!(many > 100, "{many}");
}

/// For `Z` the empty list is greater than any other; of two others the first
/// rounds decide, then the rests.
#[test]
fn the_order_of_lists_of_a_lazy_star() {
    let round = |right: bool| match right {
        false => Value::Left(Box::new(Value::Nothing)),
        true => Value::Right(Box::new(Value::Nothing)),
    };
    let list = |rounds: &[bool]| {
        Value::Rounds(
            Star::Lazy,
            rounds.iter().map(|&right| round(right)).collect(),
        )
    };
    // Falling.
    let lists: [&[bool]; 7] = [
        &[],
        &[false],
        &[false, false],
        &[false, true],
        &[true],
        &[true, false],
        &[true, true],
    ];
    for (index, one) in lists.iter().enumerate() {
        for (other_index, other) in lists.iter().enumerate() {
            let order = other_index.cmp(&index);
            assert_eq!(
                preferred(&list(one), &list(other)),
                order,
                "{one:?} {other:?}"
            );
        }
    }
}

/// 63 `Z` over a range, as many letters as a tape may have.
#[test]
fn the_deepest_pattern_of_lazy_stars_and_the_longest_tape() {
    let table = table(&tower(64, &['Z']));
    let tape: Vec<u8> = (33..=126).cycle().take(3_600).collect();
    let bits = tower_code(63, &tape);
    let (bytes, count) = (pack(&bits), bits.len() as u64);
    assert_eq!((count, bytes.len()), (478_801, 59_851));
    let in_two_passes = build(&table, &tape, &marks(&table, &tape)).expect("a reading");
    assert_eq!(encode(&table, &in_two_passes), bits);
    let (mut words, mut code) = (vec![7; 7_202], vec![7; 59_851]);
    assert_eq!(parse(&table, &tape, &mut words, &mut code), Ok(count));
    assert_eq!(code, bytes);
    let mut spelled = vec![7; 3_600];
    assert_eq!(flatten(&table, &code, count, &mut spelled), Ok(3_600));
    assert_eq!(spelled, tape);
    let litres = tape.iter().filter(|letter| letter.is_ascii_digit());
    let litres: u64 = litres.map(|letter| u64::from(letter - b'0')).sum();
    let found = totals(&table, &code, count).expect("a whole code");
    assert_eq!((found[3], found.iter().sum::<u64>()), (litres, litres));
    let (mut spelled, mut settled) = (vec![7; 3_600], vec![7; 59_851]);
    let answer = canonicalize(&table, &code, count, &mut spelled, &mut words, &mut settled);
    assert_eq!((answer, &settled, &spelled), (Ok(count), &bytes, &tape));
}
