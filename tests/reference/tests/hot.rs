//! Letters of the hot side (02, Job 3): which bytes are letters, in texts,
//! tables, tapes and codes; ranges across the gap, read in four ways; the rows
//! worked out by hand; and what is still no digit.

mod common;

use common::{bits, tapes, written, MIXED};
use wumbyra_reference::automaton::marks;
use wumbyra_reference::brute::{preferred_by_definition, preferred_by_matches};
use wumbyra_reference::code::{decode, encode, pack, unpack};
use wumbyra_reference::hot::{
    name_of, range, CODES, H4, H5, H7, H8, H9, NO_CODES, RANGES, SETTLED, UNREADABLE,
};
use wumbyra_reference::listing::listing;
use wumbyra_reference::load::load;
use wumbyra_reference::memo::preferred_reading;
use wumbyra_reference::patterns::{random, Taste};
use wumbyra_reference::prng::Prng;
use wumbyra_reference::services::reading::parse;
use wumbyra_reference::services::settling::canonicalize;
use wumbyra_reference::services::spelling::{flatten, letters_of};
use wumbyra_reference::services::totals::{some_litres, totals, NO_LITRES};
use wumbyra_reference::services::visits::{piece, span, Span};
use wumbyra_reference::table::{is_letter, judge, Kind, Node, Refusal, Table};
use wumbyra_reference::two_pass::build;
use wumbyra_reference::value::Value;
use wumbyra_reference::{codes, hot};

fn table(text: &[u8]) -> Table {
    load(text).expect("a good pattern")
}

/// Bytes at the ends of the letters and next to them.
const ENDS: [u8; 10] = [32, 33, 126, 127, 128, 160, 161, 254, 255, 0];

/// 01: "bytes 33 and 126 against 32 and 127"; 02: bytes 161 to 254 beside them.
#[test]
fn the_letters_are_33_to_126_and_161_to_254() {
    let mut found = 0;
    for number in 0..1_000 {
        let cold = 32 < number && number < 127;
        let hot = 160 < number && number < 255;
        assert_eq!(is_letter(number), cold || hot, "{number}");
        found += usize::from(is_letter(number));
    }
    assert_eq!(found, 94 + 94);
    assert!(!is_letter(u64::MAX));
    assert_eq!((hot::letters().len(), hot::no_letters().len()), (188, 68));
}

/// A text and a table with the same leaf: both are good, or the text has a form
/// fault (1, with its line) and the table departs from the rules (2, with 0).
fn check_leaf(node: Node, good: bool) {
    let table = Table::of_nodes(&[node]);
    let text = wumbyra_reference::patterns::text_of(&table);
    let (loaded, judged) = (load(&text), judge(&table));
    if good {
        assert_eq!(judged, Ok(()), "{node:?}");
        assert_eq!(loaded.map(|table| table.node(0)), Ok(node));
    } else {
        assert_eq!(judged, Err(Refusal::new(2, 0)), "{node:?}");
        assert_eq!(loaded, Err(Refusal::new(1, 0)), "{node:?}");
    }
}

#[test]
fn every_byte_as_a_letter_and_as_an_end() {
    for byte in 0..=255 {
        check_leaf(Node::new(Kind::Letter, 0, byte, 0), is_letter(byte));
        for other in ENDS.map(u64::from) {
            let ends = is_letter(byte) && is_letter(other);
            let rising = Node::new(Kind::Range, 0, byte, other);
            check_leaf(rising, ends && byte <= other);
            let falling = Node::new(Kind::Range, 0, other, byte);
            check_leaf(falling, ends && other <= byte);
        }
    }
}

#[test]
fn a_range_across_the_gap_has_letters_alone() {
    let across = Node::new(Kind::Range, 0, 125, 162);
    assert_eq!(across.letters(), [125, 126, 161, 162]);
    assert_eq!(Node::new(Kind::Range, 0, 126, 161).letters(), [126, 161]);
    assert_eq!(Node::new(Kind::Range, 0, 33, 254).letters(), hot::letters());
    assert_eq!(Node::new(Kind::Letter, 0, 228, 0).letters(), [228]);
    assert_eq!(Node::unused().letters(), []);
}

/// Every byte as a tape, and as the eight bits of a code.
#[test]
fn every_byte_on_a_tape_and_in_a_code() {
    let edges = [(126, 161), (33, 161), (126, 254), (126, 126), (161, 161)];
    let ranges = RANGES.map(|(_, low, high)| (low, high));
    for (low, high) in ranges.into_iter().chain(edges) {
        let table = table(&range(low, high));
        for byte in 0..=255_u8 {
            let letter = is_letter(u64::from(byte));
            let inside = letter && low <= byte && byte <= high;
            let (mut words, mut code) = ([7; 4], [7; 1]);
            let read = parse(&table, &[byte], &mut words, &mut code);
            let spelled = letters_of(&table, &[byte], 8);
            if inside {
                assert_eq!((read, code), (Ok(8), [byte]), "{low} {high}");
                assert_eq!(spelled, Ok(vec![byte]));
            } else {
                let number = if letter { 5 } else { 4 };
                assert_eq!(read, Err(Refusal::new(number, 0)), "{low} {high} {byte}");
                assert!(spelled.is_err(), "{low} {high} {byte}");
            }
            assert_eq!(decode(&table, &bits_of(byte)).is_some(), inside);
        }
    }
}

fn bits_of(byte: u8) -> Vec<bool> {
    (0..8).rev().map(|power| byte >> power & 1 == 1).collect()
}

/// "any letter of that range": a range is what its letters in `A` are.
#[test]
fn a_range_reads_what_its_letters_do() {
    let ranged = table(&range(125, 162));
    let sides = table(
        b"0\tL\t-\t}\n1\tL\t-\t~\n2\tL\t-\t\xa1\n3\tL\t-\t\xa2\n\
4\tA\t-\t0\t1\n5\tA\t-\t2\t3\n6\tA\t-\t4\t5\n",
    );
    for byte in 0..=255 {
        let one = preferred_reading(&ranged, &[byte]).is_some();
        let other = preferred_reading(&sides, &[byte]).is_some();
        assert_eq!(one, other, "{byte}");
        let accepted = |table: &Table| marks(table, &[byte])[1] >> table.root() & 1 == 1;
        assert_eq!((accepted(&ranged), accepted(&sides)), (one, one), "{byte}");
    }
}

#[test]
fn codes_worked_out_by_hand() {
    for (text, tape, expected) in CODES {
        let (name, table) = (name_of(text), table(text));
        let (mut words, mut code) = ([7; 20], [7; 20]);
        let count = parse(&table, tape, &mut words, &mut code).expect(name);
        let read = unpack(&code[..count.div_ceil(8) as usize], count).expect(name);
        assert_eq!(written(&read), expected, "{name} on {tape:?}");
        let found = Some(read);
        let code_of = |reading: Option<Value>| reading.map(|value| encode(&table, &value));
        let by_definition = preferred_by_definition(&table, tape, 10_000).expect(name);
        assert_eq!(code_of(by_definition), found, "{name} on {tape:?}");
        let by_matches = preferred_by_matches(&table, tape, 10_000).expect(name);
        assert_eq!(code_of(by_matches), found, "{name} on {tape:?}");
        let in_two_passes = build(&table, tape, &marks(&table, tape));
        assert_eq!(code_of(in_two_passes), found, "{name} on {tape:?}");
        let mut spelled = [7; 20];
        let letters = flatten(
            &table,
            &code[..count.div_ceil(8) as usize],
            count,
            &mut spelled,
        );
        assert_eq!(letters, Ok(tape.len() as u64), "{name}");
        assert_eq!(&spelled[..tape.len()], tape, "{name}");
    }
}

#[test]
fn codes_settled_by_hand() {
    for (text, code, expected) in SETTLED {
        let name = name_of(text);
        let (mut tape, mut words, mut settled) = ([7; 20], [7; 20], [7; 20]);
        let count = canonicalize(
            &table(text),
            &pack(&bits(code)),
            code.len() as u64,
            &mut tape,
            &mut words,
            &mut settled,
        )
        .expect(name);
        let read = unpack(&settled[..count.div_ceil(8) as usize], count).expect(name);
        assert_eq!(written(&read), expected, "{name}, {code}");
    }
}

/// Cause 8 in every service that takes a code.
#[test]
fn a_code_naming_a_byte_of_the_gap_is_no_code() {
    for (text, code, byte) in NO_CODES {
        let (table, bytes, count) = (table(text), pack(&bits(code)), code.len() as u64);
        let refused = Refusal::new(8, 0);
        let mut tape = [7; 9];
        let spelled = flatten(&table, &bytes, count, &mut tape);
        assert_eq!((spelled, tape), (Err(refused), [7; 9]), "{byte}");
        assert_eq!(totals(&table, &bytes, count), Err(refused), "{byte}");
        let (mut words, mut settled) = ([7; 9], [7; 9]);
        let answer = canonicalize(&table, &bytes, count, &mut tape, &mut words, &mut settled);
        assert_eq!(answer, Err(refused), "{byte}");
        assert_eq!((tape, words, settled), ([7; 9], [7; 9], [7; 9]));
        assert_eq!(span(&table, b"~", &bytes, count, 0, 0), Err(refused));
        // A tape with the byte itself is refused before its code is.
        if !is_letter(u64::from(byte)) {
            let found = span(&table, &[byte], &bytes, count, 0, 0);
            assert_eq!(found, Err(Refusal::new(4, 0)), "{byte}");
        }
    }
}

#[test]
fn tapes_that_no_reading_spells() {
    for (text, tape) in UNREADABLE {
        let answer = parse(&table(text), tape, &mut [7; 20], &mut [7; 20]);
        assert_eq!(answer, Err(Refusal::new(5, 0)), "{tape:?}");
    }
}

/// Small patterns, rich in ranges, with the two letters next to the gap, and
/// with those at either end too.
fn small(rng: &mut Prng, round: usize, most: usize) -> Table {
    let letters: &[u8] = [&[126, 161][..], &[33, 126, 161, 254]][round % 2];
    let count = 1 + rng.below(most);
    let taste = Taste {
        leaves: &[Kind::Nothing, Kind::Letter, Kind::Range, Kind::Range],
        letters,
        ..MIXED
    };
    random(rng, count, &taste)
}

/// Tapes may have a byte of the gap here: no reading spells it, in any way.
#[test]
fn ranges_across_the_gap_are_read_alike_in_four_ways() {
    let mut rng = Prng::new(21);
    let (mut compared, mut read, mut across) = (0, 0, 0);
    for round in 0..500 {
        let table = small(&mut rng, round, 8);
        let gap = *rng.pick(&[127, 128, 160]);
        for tape in tapes(&[126, 161, gap], 3) {
            let memoised = preferred_reading(&table, &tape);
            assert_eq!(memoised, build(&table, &tape, &marks(&table, &tape)));
            if tape.contains(&gap) {
                assert_eq!(memoised, None, "{table:?} {tape:?}");
            }
            if let Ok(by_sets) = preferred_by_matches(&table, &tape, 2_000) {
                assert_eq!(by_sets, memoised, "{table:?} {tape:?}");
            }
            let Ok(by_definition) = preferred_by_definition(&table, &tape, 1_000) else {
                continue;
            };
            assert_eq!(by_definition, memoised, "{table:?} {tape:?}");
            compared += 1;
            read += usize::from(memoised.is_some());
        }
        let wide = |node: &Node| node.kind == Kind::Range && node.x < 127 && node.y > 160;
        across += usize::from(table.lines().iter().any(wide));
    }
    assert!(compared > 8_000 && read > 1_000, "{compared} {read}");
    assert!(across > 150, "{across}");
}

/// Walking and decoding take the same bits for a code, whatever byte the bits
/// of a letter name.
#[test]
fn any_bits_of_letters_are_walked_as_they_are_decoded() {
    let mut rng = Prng::new(22);
    let (mut whole, mut refused) = (0, 0);
    for round in 0..150 {
        let table = small(&mut rng, round, 6);
        for byte in 0..=255 {
            for front in ["", "0", "00", "1", "10"] {
                for end in ["", "1", "0", "11", "00"] {
                    let code = [bits(front), bits_of(byte), bits(end)].concat();
                    let walked = letters_of(&table, &pack(&code), code.len() as u64);
                    let decoded = decode(&table, &code);
                    assert_eq!(walked.is_ok(), decoded.is_some());
                    if let (Ok(letters), Some(value)) = (&walked, &decoded) {
                        assert!(letters.iter().all(|&letter| is_letter(u64::from(letter))));
                        assert_eq!(&encode(&table, value), &code);
                        whole += 1;
                    } else {
                        refused += 1;
                    }
                }
            }
        }
    }
    assert!(whole > 2_000 && refused > 2_000, "{whole} {refused}");
}

/// "Letters `0` to `9` count 0 to 9 litres, others none."
#[test]
fn hot_letters_count_no_litres() {
    let star = table(b"0\tR\t3\t!\t\xfe\n1\tK\t7\t0\n");
    let total = |tape: &[u8]| {
        let reading = preferred_reading(&star, tape).expect("letters");
        let code = encode(&star, &reading);
        totals(&star, &pack(&code), code.len() as u64).expect("a whole code")
    };
    let digits: Vec<u8> = (176..=185).collect();
    assert_eq!(total(&digits), NO_LITRES);
    assert_eq!(total(b"0123456789")[3], 45);
    assert_eq!(total(&hot::letters()), some_litres(&[(3, 45)]));
    assert_eq!(total(b"9\xb99"), some_litres(&[(3, 18)]));
}

/// The same in the stored cases: the second line is that of totalling.
#[test]
fn stored_cases_of_hot_digits() {
    let litres = |name: &str| {
        let found = codes::all().into_iter().find(|case| case.name == name);
        found.expect("a stored case").answers()[1].clone()
    };
    assert_eq!(litres("hot digits: alone"), "0\t0\t0,0,0,0,0,0,0,0,0,0");
    assert_eq!(
        litres("hot digits: behind digits"),
        "0\t0\t45,0,0,0,0,0,0,0,0,0"
    );
    assert_eq!(
        litres("hot digits: all letters"),
        "0\t0\t0,0,0,45,0,0,0,0,0,0"
    );
    let one = litres("hot digits: 185 and 9 as letters");
    assert_eq!(one, "0\t0\t0,0,0,0,0,0,9,0,0,0");
}

#[test]
fn pieces_of_hot_letters() {
    let (table, tape) = (table(H4), b"3\xb3W2");
    let code = bits("001001100110110110011000001100101");
    let (bytes, count) = (pack(&code), code.len() as u64);
    let at = |node, visit| piece(&table, tape, &bytes, count, node, visit);
    assert_eq!(at(5, 0), (Ok(()), &b"\xb3"[..]));
    assert_eq!(at(6, 2), (Ok(()), &b"W2"[..]));
    assert_eq!(at(5, 1), (Err(Refusal::new(10, 0)), &b""[..]));
    assert_eq!(at(5, 0).1.as_ptr(), tape[1..].as_ptr());
    let found = span(&table, tape, &bytes, count, 7, 0);
    assert_eq!(
        found,
        Ok(Span {
            start: 0,
            length: 4
        })
    );
    // 51 is 179 without its highest bit: another tape.
    let other = span(&table, b"33W2", &bytes, count, 7, 0);
    assert_eq!(other, Err(Refusal::new(8, 0)));
    let gap = span(&table, b"3\xa0W2", &bytes, count, 7, 0);
    assert_eq!(gap, Err(Refusal::new(4, 1)));
}

/// Files are bytes: two of them are two letters on a tape, and none in a letter
/// field.
#[test]
fn two_bytes_are_two_letters() {
    let line = |text: &str| load(text.as_bytes()).map(|table| table.count);
    assert_eq!(line("0\tL\t-\tä\n"), Err(Refusal::new(1, 0)));
    assert_eq!(line("0\tE\t-\n1\tR\t-\ta\tä\n"), Err(Refusal::new(1, 1)));
    let read =
        |text: &[u8], tape: &str| parse(&table(text), tape.as_bytes(), &mut [7; 20], &mut [7; 20]);
    assert_eq!(read(H8, "ä"), Ok(0));
    assert_eq!(read(H7, "ä"), Ok(19));
    assert_eq!(read(H7, "Ö"), Err(Refusal::new(4, 1)));
    assert_eq!(read(H5, "ä"), Err(Refusal::new(5, 0)));
}

#[test]
fn the_listing_with_hot_letters() {
    let expected = "tape\t4\t33\t266d983280\naccount\t1\t3\naccount\t9\t2\n\
                    open\t0\t5\nopen\t1\t3\nopen\t2\t5\nopen\t3\t5\nopen\t4\t1\n";
    assert_eq!(listing(H4, b"3\xb3W2\n"), expected);
    assert_eq!(listing(H4, b"3\xb3\xa0W2\n"), "refused\t4\t2\n");
    assert_eq!(listing(H4, b"3\xb3\x7f\n"), "refused\t4\t2\n");
    assert_eq!(listing(b"0\tR\t-\t!\t\x80\n", b"!"), "refused\t1\t0\n");
}

#[test]
fn the_longest_tape_of_hot_letters() {
    let tape: Vec<u8> = hot::letters()
        .into_iter()
        .rev()
        .cycle()
        .take(3_600)
        .collect();
    let table = table(H9);
    let two: Vec<u8> = [126, 161].into_iter().cycle().take(3_600).collect();
    let (mut words, mut code) = (vec![7; 7_202], vec![7; 9_000]);
    assert_eq!(parse(&table, &two, &mut words, &mut code), Ok(36_001));
    assert_eq!(
        parse(&table, &tape, &mut words, &mut code),
        Err(Refusal::new(5, 0))
    );
    let every = self::table(H7);
    assert_eq!(parse(&every, &tape, &mut words, &mut code), Ok(32_401));
    let (mut spelled, mut settled) = (vec![7; 3_600], vec![7; 4_051]);
    let code = &code[..4_051];
    let answer = canonicalize(&every, code, 32_401, &mut spelled, &mut words, &mut settled);
    assert_eq!((answer, &spelled, &settled[..]), (Ok(32_401), &tape, code));
    let longer = [&tape[..], b"\xff"].concat();
    assert_eq!(
        parse(&every, &longer, &mut words, &mut settled),
        Err(Refusal::new(3, 0))
    );
}
