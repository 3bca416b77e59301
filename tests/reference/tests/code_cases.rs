//! The cases for spelling, totalling and settling: answers set by hand, and
//! their lines.

use wumbyra_reference::codes::{self, totals_line};
use wumbyra_reference::services::spelling::letters_of;
use wumbyra_reference::tapes::table_of;

#[test]
fn answers_of_settling_set_by_hand() {
    for case in codes::all() {
        if let Some((number, value)) = case.expected {
            let answer = &case.answers()[2];
            let start = format!("{number}\t{value}\t");
            assert!(answer.starts_with(&start), "{}: {answer}", case.name);
        }
    }
}

#[test]
fn totals_set_by_hand() {
    let mut set = 0;
    for case in codes::all() {
        if let Some(totals) = case.litres {
            assert_eq!(case.answers()[1], totals_line(Ok(totals)), "{}", case.name);
            set += 1;
        }
    }
    assert!(set >= 250, "{set}");
}

/// Program `vectors` holds 20,480 bytes of a line.
#[test]
fn lines_are_short() {
    for case in codes::all() {
        assert!(case.line().len() <= 20_000, "{}", case.name);
        assert!(case.code.bytes.len() <= 4_096, "{}", case.name);
    }
}

fn pairs<'a>(all: &'a [codes::Case], sort: &str) -> Vec<(&'a codes::Case, &'a codes::Case)> {
    let found: Vec<&codes::Case> = all
        .iter()
        .filter(|case| case.name.starts_with(sort))
        .collect();
    found.chunks(2).map(|pair| (pair[0], pair[1])).collect()
}

fn spelled(case: &codes::Case) -> Vec<u8> {
    let (code, count) = (&case.code.bytes, case.code.count);
    letters_of(&table_of(&case.text), code, count).expect("a code")
}

/// Two codes of one tape settle alike.
#[test]
fn pairs_of_one_tape() {
    let settled = |case: &codes::Case| {
        let answer = &case.answers()[2];
        let mut fields = answer.split('\t').map(str::to_string);
        (fields.next(), fields.next())
    };
    let all = codes::all();
    let pairs = pairs(&all, "pair of one tape");
    assert_eq!(pairs.len(), 30);
    for (one, other) in pairs {
        assert_eq!(one.text, other.text);
        assert_ne!(one.code, other.code);
        assert_eq!(spelled(one), spelled(other));
        assert_eq!(settled(one), settled(other));
    }
}

#[test]
fn pairs_of_two_tapes() {
    let all = codes::all();
    let pairs = pairs(&all, "pair of two tapes");
    assert_eq!(pairs.len(), 20);
    for (one, other) in pairs {
        assert_eq!(one.text, other.text);
        assert_ne!(spelled(one), spelled(other));
    }
}
