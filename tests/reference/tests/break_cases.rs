//! The cases for where a tape breaks: answers set by hand, their lines, and that
//! each answer that there is comes up.

use wumbyra_reference::breaks;

#[test]
fn answers_set_by_hand() {
    let mut set = 0;
    for case in breaks::all() {
        if let Some(expected) = case.expected {
            assert_eq!(case.answer(), expected.line(), "{}", case.name);
            set += 1;
        }
    }
    assert!(set > 200, "{set}");
}

/// Program `vectors` holds 20,480 bytes of a line.
#[test]
fn lines_are_short() {
    for case in breaks::all() {
        assert!(case.line().len() <= 20_000, "{}", case.name);
    }
}

/// Read tapes, tapes that break at a letter, tapes that stop too early and every
/// cause, among the random ones too.
#[test]
fn every_sort_of_answer() {
    let mut sorts = [0; 3];
    for case in breaks::all() {
        let answer = case.answer();
        let fields: Vec<u64> = answer
            .split('\t')
            .map(|field| field.parse().expect("a number"))
            .collect();
        let length = case.tape.len() as u64;
        if case.expected.is_none() {
            match fields[..] {
                [0, reach, 0] if reach == length => sorts[0] += 1,
                [0, reach, _] if reach == length => sorts[1] += 1,
                [0, ..] => sorts[2] += 1,
                _ => panic!("{}: {answer}", case.name),
            }
        }
    }
    assert!(sorts.iter().all(|&count| count > 20), "{sorts:?}");
    for number in ["2\t", "3\t", "4\t"] {
        let found = breaks::all()
            .iter()
            .filter(|case| case.answer().starts_with(number))
            .count();
        assert!(found > 2, "{number}");
    }
}
