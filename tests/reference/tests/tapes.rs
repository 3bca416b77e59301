//! The cases for reading a tape: answers set by hand, and their lines.

use wumbyra_reference::tapes;

#[test]
fn answers_set_by_hand() {
    for case in tapes::all() {
        if let Some((number, value)) = case.expected {
            let answer = case.answer();
            let start = format!("{number}\t{value}\t");
            assert!(answer.starts_with(&start), "{}: {answer}", case.name);
        }
    }
}

#[test]
fn codes_of_the_tapes_to_try() {
    let codes = [
        "80", "20", "60", "2c", "5380", "00", "00", "80", "40", "", "80", "20",
    ];
    let answers: Vec<String> = tapes::all()
        .iter()
        .filter(|case| case.name.starts_with("to try: ") && !case.name.ends_with("long buffers"))
        .map(|case| case.answer())
        .collect();
    let found: Vec<&str> = answers
        .iter()
        .map(|answer| answer.split('\t').nth(3).unwrap())
        .collect();
    assert_eq!(found, codes);
}

/// Program `vectors` holds 20,480 bytes of a line.
#[test]
fn lines_are_short() {
    for case in tapes::all() {
        assert!(case.line().len() <= 20_000, "{}", case.name);
    }
}
