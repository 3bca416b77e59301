//! The stored cases of totals in lent cells: numbers set by hand, and their lines.

use wumbyra_reference::cells::{all, ALL_CELLS, CELL_BEFORE};
use wumbyra_reference::services::totals::ACCOUNTS;

/// Refused, the lent cells of accounts are 0, and all others are as they were.
#[test]
fn numbers_and_cells() {
    for case in all() {
        for (answer, number) in case.answers().iter().zip(case.expected) {
            let fields: Vec<&str> = answer.split('\t').collect();
            let known = [number.to_string(), "0".to_string()];
            assert_eq!(fields[..2], known, "{}", case.name);
            let cells: Vec<u32> = fields[2]
                .split(',')
                .map(|cell| cell.parse().expect("a number"))
                .collect();
            assert_eq!(cells.len(), ALL_CELLS);
            let (written, left) = cells.split_at(case.cells.min(ACCOUNTS));
            assert!(left.iter().all(|&cell| cell == CELL_BEFORE));
            assert!(written.iter().all(|&cell| cell < CELL_BEFORE));
            assert!(number == 0 || written.iter().all(|&cell| cell == 0));
        }
    }
}

#[test]
fn lines_are_short() {
    for case in all() {
        assert!(case.line().len() <= 20_000, "{}", case.name);
    }
}
