//! The cases for the piece of a visit: answers set by hand, their lines, and
//! the visits listed by another way, from the reading itself.

use wumbyra_reference::code::{decode, unpack};
use wumbyra_reference::table::{Kind, Table};
use wumbyra_reference::tapes::table_of;
use wumbyra_reference::value::{spell, Value};
use wumbyra_reference::visits;

#[test]
fn answers_set_by_hand() {
    for case in visits::all() {
        if let Some((number, start, length)) = case.expected {
            let answer = case.answer();
            let fields: Vec<&str> = answer.split('\t').collect();
            let told = [fields[0], fields[2], fields[3]];
            let known = [number, start, length].map(|number| number.to_string());
            assert_eq!(told, [&known[0], &known[1], &known[2]], "{}", case.name);
        }
    }
}

#[test]
fn lines_are_short() {
    for case in visits::all() {
        assert!(case.line().len() <= 20_000, "{}", case.name);
    }
}

/// Each place with the start and the length of its visits, in the order in
/// which a reading holds them.
fn listed(table: &Table, place: usize, value: &Value, at: u64, all: &mut Vec<(usize, u64, u64)>) {
    all.push((place, at, spell(value).len() as u64));
    let node = table.node(place);
    let (x, y) = (node.x as usize, node.y as usize);
    match value {
        Value::Nothing | Value::Letter(_) => {}
        Value::Pair(pair) => {
            listed(table, x, &pair.0, at, all);
            listed(table, y, &pair.1, at + spell(&pair.0).len() as u64, all);
        }
        Value::Left(side) => listed(table, x, side, at, all),
        Value::Right(side) => listed(table, y, side, at, all),
        Value::Rounds(star, rounds) => {
            assert_eq!(node.kind, Kind::Rounds(*star));
            let mut at = at;
            for round in rounds {
                listed(table, x, round, at, all);
                at += spell(round).len() as u64;
            }
        }
    }
}

/// Where the answer is a span or 10, it is what the reading says.
#[test]
fn visits_of_readings() {
    let mut compared = 0;
    for case in visits::all() {
        let answer = case.answer();
        let fields: Vec<&str> = answer.split('\t').collect();
        if !["0", "10"].contains(&fields[0]) || case.code.count > 2_000 {
            continue;
        }
        let table = table_of(&case.text);
        let bits = unpack(&case.code.bytes, case.code.count).expect("bits");
        let value = decode(&table, &bits).expect("a reading");
        assert_eq!(spell(&value), case.tape, "{}", case.name);
        let mut all = Vec::new();
        listed(&table, table.root(), &value, 0, &mut all);
        let found = all
            .iter()
            .filter(|(place, _, _)| *place as u64 == case.node)
            .nth(case.visit as usize);
        let (number, start, length) = match found {
            Some((_, start, length)) => (0, *start, *length),
            None => (10, 0, 0),
        };
        let known = format!("{number}\t0\t{start}\t{length}\t{length}\t");
        assert!(answer.starts_with(&known), "{}: {answer}", case.name);
        compared += 1;
    }
    assert!(compared > 200, "{compared}");
}
