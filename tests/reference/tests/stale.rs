//! 02, Job 5: "Litres at or under a node of account 9 are stale and go to
//! account 9, however deep they stand, even if an inner node has another
//! account. Totals, terms and the listing follow the new rule; the sum over
//! accounts is still the tape's digits."

mod common;

use common::table;
use wumbyra_reference::calendar::{moved, Date};
use wumbyra_reference::code::encode;
use wumbyra_reference::codes::random::{pattern, put_in, sample};
use wumbyra_reference::codes::Code;
use wumbyra_reference::listing::listing;
use wumbyra_reference::load::load;
use wumbyra_reference::patterns::{with_stale_part, LISTING};
use wumbyra_reference::prng::Prng;
use wumbyra_reference::services::reading::parse;
use wumbyra_reference::services::spelling::letters_of;
use wumbyra_reference::services::terms::{dates, term_totals};
use wumbyra_reference::services::totals::{
    entries, some_litres as litres, totals, Totals, NO_LITRES,
};
use wumbyra_reference::services::visits::span;
use wumbyra_reference::stale::{by_way, chain, innermost, moves_litres, text, ways, ROWS};
use wumbyra_reference::table::{Kind, Node, Table, STALE_ACCOUNT};
use wumbyra_reference::tapes::random::{Tastes, HOT_METER, METER, MIXED_METER};
use wumbyra_reference::tapes::table_of;
use wumbyra_reference::terms::random::{day_ends, random_dates, HOT_DAYS, MIXED_DAYS, WITH_DAYS};
use wumbyra_reference::value::{has_empty_round, spell, Value};

const TASTES: Tastes = [&METER, &MIXED_METER, &HOT_METER];

fn totals_of(lines: &[&str], bits: &str) -> Totals {
    let code = Code::written(bits);
    totals(&table_of(&text(lines)), &code.bytes, code.count).expect("a whole code")
}

fn digits<'a>(letters: impl IntoIterator<Item = &'a u8>) -> u64 {
    let litres = |&letter: &u8| match letter {
        b'0'..=b'9' => u64::from(letter - b'0'),
        _ => 0,
    };
    letters.into_iter().map(litres).sum()
}

/// Calls `each` for readings of random patterns, two in three of which have
/// account 9 above other accounts; two readings in three have empty rounds put
/// in where the pattern has any.
fn for_each_reading(seed: u64, tastes: &Tastes, mut each: impl FnMut(&mut Prng, &Table, &Value)) {
    let mut rng = Prng::new(seed);
    let (mut with_empty, mut with_moved) = (0, 0);
    for index in 0..3_000 {
        let mut table = pattern(&mut rng, tastes, index);
        for _ in 0..index % 3 {
            table = with_stale_part(&mut rng, &table);
        }
        let mut value = sample(&mut rng, &table, table.root(), &mut 0);
        for _ in 0..rng.below(3) {
            value = put_in(&mut rng, &table, table.root(), &value);
        }
        with_empty += usize::from(has_empty_round(&value));
        with_moved += usize::from(moves_litres(&table, &value));
        each(&mut rng, &table, &value);
    }
    assert!(with_empty > 300, "{with_empty}");
    assert!(with_moved > 300, "{with_moved}");
}

fn code_of(table: &Table, value: &Value) -> Code {
    Code::of_bits(&encode(table, value))
}

#[test]
fn the_account_is_9() {
    assert_eq!(STALE_ACCOUNT, 9);
}

/// The rows that the documents decide, each written out.
#[test]
fn accounts_one_in_the_other() {
    let three = |outer: &str, inner: &str, leaf: &str| {
        let (leaf, inner) = (format!("R {leaf} 0 9"), format!("K {inner} 0"));
        // 0, 0, the eight bits of `6`, 1, 1
        let lines = [&leaf, &inner, &format!("K {outer} 1")];
        totals_of(&lines.map(String::as_str), "000011011011")
    };
    // Outer 3, inner 9, innermost 4; outer 9, inner none.
    assert_eq!(three("3", "9", "4"), litres(&[(9, 6)]));
    assert_eq!(three("9", "-", "-"), litres(&[(9, 6)]));
    assert_eq!(three("9", "3", "4"), litres(&[(9, 6)]));
    assert_eq!(three("9", "3", "-"), litres(&[(9, 6)]));
    assert_eq!(three("-", "9", "3"), litres(&[(9, 6)]));
    assert_eq!(three("3", "4", "9"), litres(&[(9, 6)]));
    assert_eq!(three("3", "-", "9"), litres(&[(9, 6)]));
    // Without a 9 the innermost account has them: 8 is like any other.
    assert_eq!(three("8", "3", "4"), litres(&[(4, 6)]));
    assert_eq!(three("8", "3", "-"), litres(&[(3, 6)]));
    assert_eq!(three("8", "-", "-"), litres(&[(8, 6)]));
    assert_eq!(three("3", "8", "4"), litres(&[(4, 6)]));
    assert_eq!(three("-", "-", "-"), litres(&[(0, 6)]));
}

/// 9-3 and 3-9, with 9 at the root and at a leaf.
#[test]
fn at_the_root_and_at_a_leaf() {
    let pair = |outer: &str, inner: &str| {
        let (leaf, root) = (format!("L {inner} 5"), format!("S {outer} 0 1"));
        totals_of(&[&leaf, "L - 7", &root], "")
    };
    assert_eq!(pair("9", "3"), litres(&[(9, 12)]));
    assert_eq!(pair("3", "9"), litres(&[(3, 7), (9, 5)]));
    assert_eq!(pair("-", "9"), litres(&[(0, 7), (9, 5)]));
    assert_eq!(totals_of(&["L 9 5"], ""), litres(&[(9, 5)]));
}

#[test]
fn a_siblings_9_does_nothing() {
    // An `E` of account 9 beside a leaf, before it and behind it.
    for lines in [
        ["E 9", "L 3 5", "S - 0 1"],
        ["E 9", "L 3 5", "S - 1 0"],
        ["E 9", "L - 5", "S 3 0 1"],
    ] {
        assert_eq!(totals_of(&lines, ""), litres(&[(3, 5)]));
    }
    assert_eq!(
        totals_of(&["E 9", "L - 5", "S - 0 1"], ""),
        litres(&[(0, 5)])
    );
    // The other side of an `A`, and the round before.
    let sides = ["L 9 5", "L 3 7", "A - 0 1", "K - 2"];
    assert_eq!(totals_of(&sides, "011"), litres(&[(3, 7)]));
    assert_eq!(totals_of(&sides, "00011"), litres(&[(3, 7), (9, 5)]));
    assert_eq!(totals_of(&sides, "0001011"), litres(&[(3, 14), (9, 5)]));
    // The part before, which is left before the second part is entered.
    let parts = ["L 9 5", "L - 7", "S - 0 1"];
    assert_eq!(totals_of(&parts, ""), litres(&[(0, 7), (9, 5)]));
}

/// In `K` and `Z`, and in codes with empty rounds.
#[test]
fn in_rounds() {
    let of = |star: &str, bits: &str| totals_of(&["L 3 5", "E 4", "A - 0 1", star], bits);
    // One letter, and one with an empty round on each side. The bits of a `Z` are
    // the other way round.
    for (star, bits) in [
        ("K", "001"),
        ("K", "0100011"),
        ("Z", "100"),
        ("Z", "1110110"),
    ] {
        assert_eq!(of(&format!("{star} 9 2"), bits), litres(&[(9, 5)]));
        assert_eq!(of(&format!("{star} 2 2"), bits), litres(&[(3, 5)]));
    }
    // Account 9 in the empty rounds alone.
    let empty = ["E 9", "L - 5", "A - 0 1", "K 3 2"];
    assert_eq!(totals_of(&empty, "0001001"), litres(&[(3, 5)]));
}

#[test]
fn rows_worked_out_by_hand() {
    for row in ROWS {
        let code = Code::written(row.bits);
        let table = load(&text(row.lines)).expect(row.name);
        let spelled = letters_of(&table, &code.bytes, code.count);
        assert_eq!(spelled, Ok(row.tape.as_bytes().to_vec()), "{}", row.name);
        let found = totals(&table, &code.bytes, code.count);
        assert_eq!(found, Ok(litres(row.litres)), "{}", row.name);
        let sum: u64 = row.litres.iter().map(|some| some.1).sum();
        assert_eq!(sum, digits(row.tape.as_bytes()), "{}", row.name);
    }
}

/// What a chain is said to read is what its code reads.
#[test]
fn chains_have_the_ways_that_they_say() {
    for kind in ['S', 'A', 'K', 'Z'] {
        let (text, bits, said) = chain(kind, [3, 9, 4]);
        let (table, code) = (table_of(&text), Code::written(&bits));
        let found = entries(&table, &code.bytes, code.count).expect("a whole code");
        let expected = said.iter().map(|(letter, way)| (*letter, by_way(way)));
        let found = found.iter().map(|entry| (entry.letter, entry.account));
        assert!(found.eq(expected), "{kind}");
    }
}

/// On random codes: the account is 9 if one on the way is, else the innermost.
#[test]
fn entries_have_the_account_of_their_way() {
    for_each_reading(1, &TASTES, |_, table, value| {
        let code = code_of(table, value);
        let found = entries(table, &code.bytes, code.count).expect("a whole code");
        let ways = ways(table, value);
        assert_eq!(found.len(), ways.len());
        for (entry, (letter, way)) in found.iter().zip(&ways) {
            assert_eq!((entry.letter, entry.account), (*letter, by_way(way)));
        }
    });
}

#[test]
fn totals_still_add_up_to_the_digits() {
    for_each_reading(2, &TASTES, |_, table, value| {
        let code = code_of(table, value);
        let found = totals(table, &code.bytes, code.count).expect("a whole code");
        assert_eq!(found.iter().sum::<u64>(), digits(&spell(value)));
    });
}

/// A table without a 9 has the litres of 01's rule. With 9 at the root all
/// litres are stale, whatever is below it.
#[test]
fn without_a_9_and_under_9() {
    for_each_reading(3, &TASTES, |rng, table, value| {
        let mut without = table.clone();
        for node in &mut without.nodes {
            if node.account == 9 {
                node.account = rng.below(9) as u64;
            }
        }
        let mut old = NO_LITRES;
        for (letter, way) in ways(&without, value) {
            old[innermost(&way) as usize] += digits(&[letter]);
        }
        let code = code_of(table, value);
        assert_eq!(totals(&without, &code.bytes, code.count), Ok(old));
        let mut under = table.clone();
        under.nodes[table.root()].account = 9;
        let all = litres(&[(9, digits(&spell(value)))]);
        assert_eq!(totals(&under, &code.bytes, code.count), Ok(all));
    });
}

/// Accounts beside the way to a letter do nothing to it: every node that is not
/// on it may get account 9.
#[test]
fn only_the_way_counts() {
    for_each_reading(4, &TASTES, |rng, table, value| {
        let code = code_of(table, value);
        let found = entries(table, &code.bytes, code.count).expect("a whole code");
        if found.is_empty() {
            return;
        }
        let chosen = rng.below(found.len());
        let on_way = places(table, table.root(), value, &mut (chosen as i64)).expect("a letter");
        let mut others = table.clone();
        for place in (0..table.lines().len()).filter(|place| !on_way.contains(place)) {
            others.nodes[place].account = 9;
        }
        let after = entries(&others, &code.bytes, code.count).expect("a whole code");
        assert_eq!(after[chosen], found[chosen]);
    });
}

/// The places on the way to the letter that has `left` letters before it.
fn places(table: &Table, place: usize, value: &Value, left: &mut i64) -> Option<Vec<usize>> {
    let node = table.node(place);
    let mut part = |part: u64, value: &Value| places(table, part as usize, value, left);
    let found = match value {
        Value::Nothing => None,
        Value::Letter(_) => {
            *left -= 1;
            (*left == -1).then(Vec::new)
        }
        Value::Pair(pair) => part(node.x, &pair.0).or_else(|| part(node.y, &pair.1)),
        Value::Left(side) => part(node.x, side),
        Value::Right(side) => part(node.y, side),
        Value::Rounds(_, rounds) => rounds.iter().find_map(|round| part(node.x, round)),
    };
    found.map(|mut places| {
        places.push(place);
        places
    })
}

/// Marks, codes, pieces and refusals have nothing to do with accounts.
#[test]
fn nothing_but_litres_moves() {
    for_each_reading(5, &TASTES, |rng, table, value| {
        let stale = with_stale_part(rng, table);
        let tape = spell(value);
        if tape.len() > 30 {
            return;
        }
        let read = |table: &Table| {
            let (mut marks, mut code) = (vec![7; 2 * tape.len() + 3], vec![7; 700]);
            let answer = parse(table, &tape, &mut marks, &mut code);
            (answer, marks, code)
        };
        assert_eq!(read(table), read(&stale));
        let code = code_of(table, value);
        assert_eq!(code, code_of(&stale, value));
        let (node, visit) = (rng.below(table.lines().len()) as u64, rng.below(3) as u64);
        let shown = |table| span(table, &tape, &code.bytes, code.count, node, visit);
        assert_eq!(shown(table), shown(&stale));
    });
}

/// Within a term, each letter has the account that it has in the whole tape.
#[test]
fn terms_follow() {
    let mut seen = 0;
    for (seed, tastes) in [(6, &WITH_DAYS), (7, &MIXED_DAYS), (8, &HOT_DAYS)] {
        for_each_reading(seed, tastes, |rng, table, value| {
            let code = code_of(table, value);
            let letters = spell(value);
            let [start, first, last] = random_dates(rng, day_ends(&letters));
            let answer = term_totals(table, &code.bytes, code.count, start, first, last);
            let Ok(found) = answer else {
                return;
            };
            let dates = dates(letters.iter().copied(), start).expect("dates of all letters");
            let mut expected = NO_LITRES;
            for ((letter, way), date) in ways(table, value).into_iter().zip(dates) {
                if first <= date && date <= last {
                    expected[by_way(&way) as usize] += digits(&[letter]);
                }
            }
            assert_eq!(found, expected);
            seen += usize::from(found[9] > 0 && moves_litres(table, value));
        });
    }
    assert!(seen > 300, "{seen}");
}

/// A day on which the stretch of account 9 goes on, and the days around it.
#[test]
fn a_stretch_across_days() {
    // Days with digits of account 1; then `!` and a stretch of account 9, with
    // digits of account 1 and days that end.
    let lines = [
        "R 1 0 9", "L - D", "A - 0 1", "K 4 2", "L - !", "R 1 0 9", "L 2 D", "A - 5 6", "K - 7",
        "S 9 4 8", "S - 3 9",
    ];
    let table = table_of(&text(&lines));
    let tape = b"12D3!4D5D6";
    let (mut marks, mut bytes) = (vec![0; 22], vec![0; 200]);
    let bits = parse(&table, tape, &mut marks, &mut bytes).expect("it is read");
    let code = &bytes[..bits.div_ceil(8) as usize];
    let day = |count| moved(Date::new(2024, 2, 27), count).expect("a date");
    for (at, expected) in [
        litres(&[(1, 3)]),
        litres(&[(1, 3), (9, 4)]),
        litres(&[(9, 5)]),
        litres(&[(9, 6)]),
    ]
    .into_iter()
    .enumerate()
    {
        let date = day(at as i64);
        let found = term_totals(&table, code, bits, day(0), date, date);
        assert_eq!(found, Ok(expected), "{at}");
    }
    let all = term_totals(&table, code, bits, day(0), Date::FIRST, Date::LAST);
    assert_eq!(all, Ok(litres(&[(1, 6), (9, 15)])));
}

/// "A piece's own totals are not the whole's": cut at the range, the litres are
/// those of account 3, and in the whole they are stale.
#[test]
fn a_piece_has_totals_of_its_own() {
    let piece = totals_of(&["R 3 0 9"], "00110101");
    assert_eq!(piece, litres(&[(3, 5)]));
    let whole = totals_of(&["R 3 0 9", "K 9 0"], "0001101011");
    assert_eq!(whole, litres(&[(9, 5)]));
}

#[test]
fn the_listing_follows() {
    // The listing of 01 prints the same: account 9 has no account below it.
    assert_eq!(
        listing(LISTING.as_bytes(), b"3W2\n"),
        "tape\t3\t21\t4cc328\naccount\t1\t3\naccount\t9\t2\nopen\t0\t4\nopen\t1\t4\nopen\t2\t4\nopen\t3\t1\n"
    );
    // Nor does it change where the digit behind `W` gets an account of its own.
    let own = LISTING.replace("0\tR\t-\t0\t9", "0\tR\t1\t0\t9");
    assert_ne!(own, LISTING);
    assert_eq!(
        listing(own.as_bytes(), b"3W2\n"),
        listing(LISTING.as_bytes(), b"3W2\n")
    );
    // With 8 for 9 it does.
    let eight = own.replace("2\tS\t9", "2\tS\t8");
    assert!(listing(eight.as_bytes(), b"3W2\n").contains("account\t1\t5\nopen"));
}

/// What the generator says: a node of account 9 above one of another account.
#[test]
fn stale_parts_are_put_where_there_are_letters() {
    let mut rng = Prng::new(9);
    for index in 0..500 {
        let table = pattern(&mut rng, &TASTES, index);
        let changed = with_stale_part(&mut rng, &table);
        let kinds = |table: &Table| {
            table
                .lines()
                .iter()
                .map(|node| node.kind)
                .collect::<Vec<_>>()
        };
        assert_eq!(kinds(&table), kinds(&changed));
        let reads = |node: &Node| matches!(node.kind, Kind::Letter | Kind::Range);
        let inner = |node: &Node| !node.parts().is_empty();
        let possible = table.lines().iter().any(reads) && table.lines().iter().any(inner);
        assert_eq!(has_nested(&changed, changed.root(), false), possible);
    }
    // One leaf alone stays as it is.
    let leaf = table("0\tL\t3\t5\n");
    assert_eq!(with_stale_part(&mut rng, &leaf), leaf);
}

/// Whether a node of account 9 is above one that reads letters for another.
fn has_nested(table: &Table, place: usize, stale: bool) -> bool {
    let node = table.node(place);
    let reads = matches!(node.kind, Kind::Letter | Kind::Range);
    if stale && reads && node.account != 0 && node.account != 9 {
        return true;
    }
    let stale = stale || node.account == 9;
    let mut parts = node.parts().into_iter();
    parts.any(|part| has_nested(table, part as usize, stale))
}
