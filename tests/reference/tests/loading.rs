//! Loading: the answers set by hand, texts that come back, and the shape of
//! the case list.

use wumbyra_reference::patterns::text_of;
use wumbyra_reference::table::{judge, number_and_value};
use wumbyra_reference::{cases, load};

#[test]
fn cases_set_by_hand_get_their_answers() {
    for case in cases::all() {
        let answer = load::load(&case.text).map(|table| table.count);
        if let Some(expected) = case.expected {
            assert_eq!(number_and_value(&answer), expected, "{}", case.name);
        }
    }
}

#[test]
fn a_loaded_table_keeps_the_rules_and_gives_its_text_back() {
    for case in cases::all() {
        if let Ok(table) = load::load(&case.text) {
            assert_eq!(judge(&table), Ok(()), "{}", case.name);
            // The form leaves no room: one table has one text.
            assert_eq!(text_of(&table), case.text, "{}", case.name);
        }
    }
}

#[test]
fn no_case_is_over_3000_bytes_and_all_answers_occur() {
    let mut numbers = [0; 3];
    for case in cases::all() {
        assert!(case.text.len() <= 3000, "{}", case.name);
        let answer = load::load(&case.text).map(|table| table.count);
        numbers[number_and_value(&answer).0 as usize] += 1;
    }
    assert!(numbers.iter().all(|&count| count >= 30), "{numbers:?}");
}
