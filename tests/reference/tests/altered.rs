//! The stored cases of tables that no text gives.

use wumbyra_reference::altered::{all, Case, Service, ON_THE_WAY};
use wumbyra_reference::codes::totals_line;
use wumbyra_reference::services::totals::some_litres;
use wumbyra_reference::table::Table;

fn answers_by(case: &Case, table: &Table) -> Vec<String> {
    match &case.service {
        Service::Tape(own) => vec![own.answer_by(table)],
        Service::Code(own) => own.answers_by(table).to_vec(),
        Service::Visit(own) => vec![own.answer_by(table)],
        Service::Term(own) => vec![own.answer_by(table)],
        Service::Break(own) => vec![own.answer_by(table)],
    }
}

#[test]
fn numbers_by_hand() {
    let cases = all();
    for case in &cases {
        for answer in case.answers() {
            let number = answer.split('\t').next();
            let expected = case.number.to_string();
            assert_eq!(number, Some(expected.as_str()), "{}", case.name);
        }
    }
    let good = cases.iter().filter(|case| case.number == 0).count();
    assert!(good > 400 && cases.len() - good > 200);
}

/// Refused, all is left as a table of no lines leaves it: "2", 0, every buffer as
/// it was, all totals 0.
#[test]
fn refused_cases_leave_all_as_it_was() {
    for case in all().iter().filter(|case| case.number == 2) {
        let expected = answers_by(case, &Table::of_no_lines());
        assert_eq!(case.answers(), expected, "{}", case.name);
    }
}

/// Where the table is good, only the totals depend on the account: the digits 5
/// and 7 go to it, where its line is on the way to them.
#[test]
fn only_totals_depend_on_the_account() {
    for case in all().iter().filter(|case| case.number == 0) {
        let mut text_only = case.table();
        for node in &mut text_only.nodes {
            node.account = 0;
        }
        let mut expected = answers_by(case, &text_only);
        let on_the_way = ON_THE_WAY.contains(&case.line);
        let account = if on_the_way { case.account } else { 0 };
        let totals = totals_line(Ok(some_litres(&[(account as usize, 12)])));
        match &case.service {
            Service::Code(_) => expected[1] = totals,
            Service::Term(_) => expected[0] = totals,
            Service::Tape(_) | Service::Visit(_) | Service::Break(_) => (),
        }
        assert_eq!(case.answers(), expected, "{}", case.name);
    }
}
