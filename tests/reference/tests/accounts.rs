//! 02, Job 7: "The account field grows to 1 to 200, one to three digits without
//! leading zeros, and each node's stored number, however it is held now, has room
//! for it. There are 201 totals. An old pattern text loads to the same nodes with
//! the same accounts, and its totals are the old ten followed by zeros. Account 9
//! keeps Job 5's meaning. Line form in cause 1 and the table's test in cause 2
//! follow."

mod common;

use common::table;
use wumbyra_reference::accounts::{
    longest, written, FIELDS, GREAT_LISTING, NEAR, ODD_FIELDS, ROWS,
};
use wumbyra_reference::cases::mutated::{change, change_account, LIKELY_HOT_BYTES};
use wumbyra_reference::code::encode;
use wumbyra_reference::codes::random::{drawn_accounts, has_great_litres, pattern, put_in, sample};
use wumbyra_reference::codes::{totals_line, Code};
use wumbyra_reference::listing::listing;
use wumbyra_reference::load::{account, load};
use wumbyra_reference::patterns::{text_of, with_great_accounts, with_stale_part, LISTING};
use wumbyra_reference::prng::Prng;
use wumbyra_reference::services::reading::parse;
use wumbyra_reference::services::spelling::{flatten, letters_of};
use wumbyra_reference::services::terms::{dates, term_totals};
use wumbyra_reference::services::totals::{
    some_litres as litres, totals, totals_into, Totals, ACCOUNTS, NO_LITRES,
};
use wumbyra_reference::services::visits::span;
use wumbyra_reference::stale::{by_way, text, ways};
use wumbyra_reference::table::{judge, number_and_value, Node, Refusal, Table, MOST_ACCOUNT};
use wumbyra_reference::tapes::random::{Tastes, HOT_METER, METER, MIXED_METER};
use wumbyra_reference::tapes::table_of;
use wumbyra_reference::terms::random::{day_ends, random_dates, MIXED_DAYS};
use wumbyra_reference::value::{spell, Value};
use wumbyra_reference::{cases, one_digit};

const TASTES: Tastes = [&METER, &MIXED_METER, &HOT_METER];

fn totals_of(lines: &[&str], bits: &str) -> Totals {
    let code = Code::written(bits);
    totals(&table_of(&text(lines)), &code.bytes, code.count).expect("a whole code")
}

fn digits<'a>(letters: impl IntoIterator<Item = &'a u8>) -> u64 {
    let litres = |&letter: &u8| match letter {
        b'0'..=b'9' => u64::from(letter - b'0'),
        _ => 0,
    };
    letters.into_iter().map(litres).sum()
}

/// A random pattern with accounts to 200 and a reading of it.
fn drawn(rng: &mut Prng, tastes: &Tastes, index: usize) -> (Table, Value) {
    let table = pattern(rng, tastes, index);
    let table = drawn_accounts(rng, index, &table);
    let value = sample(rng, &table, table.root(), &mut 0);
    let value = put_in(rng, &table, table.root(), &value);
    (table, value)
}

fn code_of(table: &Table, value: &Value) -> Code {
    Code::of_bits(&encode(table, value))
}

#[test]
fn limits() {
    assert_eq!(MOST_ACCOUNT, 200);
    assert_eq!(ACCOUNTS, 201);
}

/// A field of digits is an account exactly if it is what a number from 1 to 200
/// is written as.
#[test]
fn every_field_of_one_to_four_digits() {
    let mut good = 0;
    for length in 1..=4 {
        for number in 0..10_u64.pow(length) {
            let field = format!("{number:0width$}", width = length as usize);
            let expected = (1..=200)
                .contains(&number)
                .then_some(number)
                .filter(|number| number.to_string() == field);
            assert_eq!(account(field.as_bytes()), expected, "{field}");
            good += usize::from(expected.is_some());
        }
    }
    assert_eq!(good, 200);
}

/// Beside `-`, a field of one byte, of two, or of three with any byte in any of
/// their places is an account only if all are digits.
#[test]
fn every_byte_in_every_place() {
    let said = |field: &[u8]| account(field).map(written);
    let mut good = 0;
    for one in 0..=255 {
        let fields = (0..=255).map(|two| vec![one, two]);
        let more = (0..=255).flat_map(|byte| [vec![byte, one, b'0'], vec![b'1', one, byte]]);
        for field in fields.chain(more).chain([vec![one], vec![one; 3]]) {
            let back = said(&field).map(String::into_bytes);
            assert!(back.is_none() || back.as_ref() == Some(&field), "{field:?}");
            good += usize::from(back.is_some());
        }
    }
    assert!(good > 200, "{good}");
    assert_eq!(account(b""), None);
}

#[test]
fn fields_near_the_limits() {
    for (field, expected) in FIELDS {
        assert_eq!(account(field.as_bytes()), *expected, "{field:?}");
    }
    for field in ODD_FIELDS {
        assert_eq!(account(field.as_bytes()), None, "{field:?}");
    }
}

/// What a text says is what its table keeps.
#[test]
fn every_account_is_kept() {
    for number in 1..=200 {
        let text = format!("0\tE\t{number}\n1\tK\t{}\t0\n", 201 - number);
        let table = table(&text);
        assert_eq!(
            [table.nodes[0].account, table.nodes[1].account],
            [number, 201 - number]
        );
        assert_eq!(text_of(&table), text.into_bytes());
    }
}

/// 0 to 260 in a table, at a node of each kind: above 200 every service refuses
/// with 2.
#[test]
fn accounts_by_number_in_a_table() {
    let good = table("0\tL\t-\ta\n1\tR\t-\t0\t9\n2\tS\t-\t0\t1\n3\tE\t-\n4\tA\t-\t2\t3\n5\tK\t-\t4\n6\tZ\t-\t5\n");
    for place in 0..7 {
        for number in (0..=260).chain([456, 1_000, u64::MAX]) {
            let mut changed = good.clone();
            changed.nodes[place].account = number;
            let expected = match number {
                0..=200 => Ok(()),
                _ => Err(Refusal::new(2, 0)),
            };
            assert_eq!(judge(&changed), expected, "{number}");
            // 0: the outer star has no round.
            let mut cells = [7; 3];
            let answer = totals_into(&changed, &[0], 1, &mut cells);
            assert_eq!(answer.map(drop), expected);
            assert_eq!(cells, [0; 3]);
            let (mut words, mut code) = ([7; 2], [7; 1]);
            let answer = parse(&changed, b"", &mut words, &mut code);
            assert_eq!(answer.map(drop), expected);
            assert_eq!(code, if number <= 200 { [0] } else { [7] });
            assert_eq!(flatten(&changed, &[0], 1, &mut []).map(drop), expected);
            assert_eq!(span(&changed, b"", &[0], 1, 6, 0).map(drop), expected);
            let day = wumbyra_reference::calendar::Date::FIRST;
            let term = term_totals(&changed, &[0], 1, day, day, day);
            assert_eq!(term.map(drop), expected);
        }
    }
    // Cells past the line count are not looked at.
    let mut past = good.clone();
    past.nodes[7].account = 201;
    assert_eq!(judge(&past), Ok(()));
}

/// Texts that were accepted, texts that were refused, and texts near both.
fn texts() -> Vec<Vec<u8>> {
    let mut texts: Vec<Vec<u8>> = cases::all().into_iter().map(|case| case.text).collect();
    let mut rng = Prng::new(71);
    for index in 0..3_000 {
        let table = pattern(&mut rng, &TASTES, index);
        let mut text = text_of(&table);
        texts.push(text.clone());
        for _ in 0..1 + rng.below(2) {
            text = match rng.below(2) {
                0 => change(&mut rng, text, LIKELY_HOT_BYTES),
                _ => change_account(&mut rng, text),
            };
        }
        texts.push(text);
    }
    texts
}

/// Whether a text has an account field that only the new rule takes.
fn has_new_account(text: &[u8]) -> bool {
    text.split(|&byte| byte == 10).any(|line| {
        let field = line.split(|&byte| byte == 9).nth(2).unwrap_or(b"");
        account(field).is_some() && one_digit::account(field).is_none()
    })
}

/// "An old pattern text loads to the same nodes with the same accounts": what
/// loaded loads, to the same table; and all other answers are the same where no
/// line has one of the new accounts.
#[test]
fn old_texts() {
    let (mut same, mut refused, mut new) = (0, 0, 0);
    for text in texts() {
        let (before, now) = (one_digit::load(&text), load(&text));
        if before.is_ok() {
            assert_eq!(before, now);
            same += 1;
        } else if !has_new_account(&text) {
            assert_eq!(before, now);
            refused += 1;
        } else if let Ok(table) = now {
            // It was refused for the form of a line, the first that has such an account.
            let is_new = |node: &Node| node.account > 9;
            let line = table.lines().iter().position(is_new).expect("a new one");
            assert_eq!(before, Err(Refusal::new(1, line as u64)));
            new += 1;
        }
    }
    assert!(same > 3_000, "{same}");
    assert!(refused > 1_000, "{refused}");
    assert!(new > 300, "{new}");
}

/// "its totals are the old ten followed by zeros": the old ten are those of 02,
/// Job 5, here from the way to each letter.
#[test]
fn old_totals() {
    let mut rng = Prng::new(72);
    for index in 0..3_000 {
        let drawn = pattern(&mut rng, &TASTES, index);
        let drawn = match index % 3 {
            0 => with_stale_part(&mut rng, &drawn),
            _ => drawn,
        };
        let table = one_digit::load(&text_of(&drawn)).expect("an old text");
        let value = sample(&mut rng, &table, table.root(), &mut 0);
        let code = code_of(&table, &value);
        let mut old = [0; 10];
        for (letter, way) in ways(&table, &value) {
            old[by_way(&way) as usize] += digits(&[letter]);
        }
        let found = totals(&table, &code.bytes, code.count).expect("a whole code");
        assert_eq!((&found[..10], &found[10..]), (&old[..], &[0; 191][..]));
        // The line of a stored case is what it was.
        let old: Vec<String> = old.iter().map(u64::to_string).collect();
        assert_eq!(totals_line(Ok(found)), format!("0\t0\t{}", old.join(",")));
    }
}

/// The lines of stored cases have the first ten totals, and as many more as there
/// are up to the last that is not 0.
#[test]
fn totals_as_they_are_printed() {
    let line = |some: &[(usize, u64)]| totals_line(Ok(litres(some)));
    assert_eq!(line(&[]), "0\t0\t0,0,0,0,0,0,0,0,0,0");
    assert_eq!(line(&[(9, 1)]), "0\t0\t0,0,0,0,0,0,0,0,0,1");
    assert_eq!(line(&[(10, 1)]), "0\t0\t0,0,0,0,0,0,0,0,0,0,1");
    assert_eq!(line(&[(1, 3), (12, 4)]), "0\t0\t0,3,0,0,0,0,0,0,0,0,0,0,4");
    assert_eq!(line(&[(200, 7)]), format!("0\t0\t{}7", "0,".repeat(200)));
    let refused = totals_line(Err(Refusal::new(8, 0)));
    assert_eq!(refused, "8\t0\t0,0,0,0,0,0,0,0,0,0");
}

/// "There are 201 totals": a leaf of each account, alone and beside one without.
#[test]
fn every_account_has_its_total() {
    for number in 0..=200 {
        let leaf = format!("L {} 7", written(number));
        assert_eq!(totals_of(&[&leaf], ""), litres(&[(number as usize, 7)]));
        let mut both = litres(&[(number as usize, 7)]);
        both[0] += 5;
        assert_eq!(totals_of(&[&leaf, "L - 5", "S - 0 1"], ""), both);
    }
}

/// "Account 9 keeps Job 5's meaning", and no other has it.
#[test]
fn stale_is_9_alone() {
    for outer in 0..=200 {
        let star = format!("K {} 0", written(outer));
        let owner = if outer == 9 { 9 } else { 3 };
        let found = totals_of(&["L 3 5", &star], "01");
        assert_eq!(found, litres(&[(owner, 5)]), "{outer}");
        // What has no account of its own is the star's.
        let found = totals_of(&["L - 5", &star], "01");
        assert_eq!(found, litres(&[(outer as usize, 5)]));
        // And 9 takes what is below it, whichever account that has.
        let leaf = format!("L {} 5", written(outer));
        assert_eq!(totals_of(&[&leaf, "K 9 0"], "01"), litres(&[(9, 5)]));
    }
}

#[test]
fn rows_worked_out_by_hand() {
    for row in ROWS {
        let code = Code::written(row.bits);
        let table = load(&text(row.lines)).expect(row.name);
        let spelled = letters_of(&table, &code.bytes, code.count);
        assert_eq!(spelled, Ok(row.tape.as_bytes().to_vec()), "{}", row.name);
        let found = totals(&table, &code.bytes, code.count);
        assert_eq!(found, Ok(litres(row.litres)), "{}", row.name);
        let sum: u64 = row.litres.iter().map(|some| some.1).sum();
        assert_eq!(sum, digits(row.tape.as_bytes()), "{}", row.name);
    }
}

/// On random codes: each total is that of the ways to its letters, and all 201
/// add up to the tape's digits.
#[test]
fn totals_have_the_accounts_of_their_ways() {
    let mut rng = Prng::new(73);
    let mut great = 0;
    for index in 0..3_000 {
        let (table, value) = drawn(&mut rng, &TASTES, index);
        let code = code_of(&table, &value);
        let mut expected = NO_LITRES;
        for (letter, way) in ways(&table, &value) {
            expected[by_way(&way) as usize] += digits(&[letter]);
        }
        let found = totals(&table, &code.bytes, code.count).expect("a whole code");
        assert_eq!(found, expected);
        assert_eq!(found.iter().sum::<u64>(), digits(&spell(&value)));
        great += usize::from(has_great_litres(&table, &value));
    }
    assert!(great > 500, "{great}");
}

/// Within terms too; and two terms that part the days add up to all days.
#[test]
fn terms_follow() {
    let mut rng = Prng::new(74);
    let mut great = 0;
    for index in 0..3_000 {
        let (table, value) = drawn(&mut rng, &MIXED_DAYS, index);
        let code = code_of(&table, &value);
        let letters = spell(&value);
        let [start, first, last] = random_dates(&mut rng, day_ends(&letters));
        let answer = term_totals(&table, &code.bytes, code.count, start, first, last);
        let Ok(found) = answer else {
            continue;
        };
        let dates = dates(letters.iter().copied(), start).expect("dates of all letters");
        let mut expected = NO_LITRES;
        for ((letter, way), date) in ways(&table, &value).into_iter().zip(dates) {
            if first <= date && date <= last {
                expected[by_way(&way) as usize] += digits(&[letter]);
            }
        }
        assert_eq!(found, expected);
        great += usize::from(found[10..].iter().any(|&litres| litres > 0));
    }
    assert!(great > 200, "{great}");
}

/// Marks, codes and pieces do not ask for accounts, and neither do refusals.
#[test]
fn nothing_but_litres_moves() {
    let mut rng = Prng::new(75);
    for index in 0..1_000 {
        let table = pattern(&mut rng, &TASTES, index);
        let great = with_great_accounts(&mut rng, &table);
        let value = sample(&mut rng, &table, table.root(), &mut 0);
        let tape = spell(&value);
        if tape.len() > 30 {
            continue;
        }
        let read = |table: &Table| {
            let (mut marks, mut code) = (vec![7; 2 * tape.len() + 3], vec![7; 700]);
            let answer = parse(table, &tape, &mut marks, &mut code);
            (answer, marks, code)
        };
        assert_eq!(read(&table), read(&great));
        let code = code_of(&table, &value);
        assert_eq!(code, code_of(&great, &value));
        let (node, visit) = (rng.below(table.lines().len()) as u64, rng.below(3) as u64);
        let shown = |table| span(table, &tape, &code.bytes, code.count, node, visit);
        assert_eq!(shown(&table), shown(&great));
    }
}

/// "each account with litres above 0, rising": by number, account 0 too.
#[test]
fn the_listing_has_accounts_by_number() {
    let lines = [
        "L 100 1", "L 20 2", "S - 0 1", "L 9 3", "S - 2 3", "L - 4", "S - 4 5", "L 200 0",
        "S - 6 7",
    ];
    let found = listing(&text(&lines), b"12340\n");
    let accounts: Vec<&str> = found
        .lines()
        .filter(|line| line.starts_with("account"))
        .collect();
    assert_eq!(
        accounts,
        [
            "account\t0\t4",
            "account\t9\t3",
            "account\t20\t2",
            "account\t100\t1"
        ]
    );
    assert_eq!(
        listing(GREAT_LISTING.as_bytes(), b"3W2\n"),
        "tape\t3\t21\t4cc328\naccount\t99\t2\naccount\t200\t3\nopen\t0\t4\nopen\t1\t4\nopen\t2\t4\nopen\t3\t1\n"
    );
    // The listing of 01 is what it was.
    assert_eq!(
        listing(LISTING.as_bytes(), b"3W2\n"),
        "tape\t3\t21\t4cc328\naccount\t1\t3\naccount\t9\t2\nopen\t0\t4\nopen\t1\t4\nopen\t2\t4\nopen\t3\t1\n"
    );
    let refused = GREAT_LISTING.replace("200", "201");
    assert_eq!(listing(refused.as_bytes(), b"3W2\n"), "refused\t1\t3\n");
}

/// No text that loads is longer than 873 bytes: the account field has two bytes
/// more than before, on each of 64 lines.
#[test]
fn the_longest_text() {
    assert_eq!(longest().len(), 873);
    assert_eq!(load(&longest()).map(|table| table.count), Ok(64));
    for text in texts() {
        assert!(text.len() <= 873 || load(&text).is_err());
    }
}

/// What the generator says: 9 stays, the others change, and all come up.
#[test]
fn great_accounts_are_drawn() {
    let mut rng = Prng::new(76);
    let mut seen = [false; 201];
    for index in 0..2_000 {
        let table = pattern(&mut rng, &TASTES, index);
        let changed = with_great_accounts(&mut rng, &table);
        assert_eq!(judge(&changed), Ok(()));
        for (before, after) in table.lines().iter().zip(changed.lines()) {
            assert_eq!(
                Node {
                    account: 0,
                    ..*before
                },
                Node {
                    account: 0,
                    ..*after
                }
            );
            assert_eq!(before.account == 0, after.account == 0);
            assert_eq!(before.account == 9, after.account == 9);
            seen[after.account as usize] = true;
        }
    }
    assert!(seen.iter().all(|&seen| seen));
    assert!(NEAR.iter().all(|&account| account <= MOST_ACCOUNT));
}

/// A change of an account changes nothing else of a text.
#[test]
fn account_fields_are_changed() {
    let mut rng = Prng::new(77);
    let (mut taken, mut refused) = (0, 0);
    for _ in 0..2_000 {
        let changed = change_account(&mut rng, GREAT_LISTING.into());
        let fields = |text: &[u8]| -> Vec<Vec<u8>> {
            let parted = text.split(|&byte| byte == 9 || byte == 10);
            parted.map(<[u8]>::to_vec).collect()
        };
        let (before, after) = (fields(GREAT_LISTING.as_bytes()), fields(&changed));
        assert_eq!(before.len(), after.len());
        let differ = before
            .iter()
            .zip(&after)
            .filter(|(one, other)| one != other);
        assert!(differ.count() <= 1);
        match number_and_value(&load(&changed).map(|table| table.count)) {
            (0, 6) => taken += 1,
            (1, _) => refused += 1,
            other => panic!("{other:?}"),
        }
    }
    assert!(taken > 300 && refused > 300, "{taken}, {refused}");
    assert_eq!(change_account(&mut rng, vec![]), b"");
    assert_eq!(change_account(&mut rng, b"0\tE".to_vec()), b"0\tE");
}
