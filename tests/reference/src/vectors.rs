//! What program `vectors` is run on and what it must print: the cases of all
//! kinds, one kind after the other, a later kind behind the earlier ones. A
//! line's first field is the kind's letter.

use crate::{altered, breaks, cases, cells, codes, desks, tapes, terms, visits};

/// One line a case, as the program reads it.
pub fn lines() -> Vec<String> {
    let mut lines: Vec<String> = cases::all().iter().map(cases::Case::line).collect();
    lines.extend(tapes::all().iter().map(tapes::Case::line));
    lines.extend(codes::all().iter().map(codes::Case::line));
    lines.extend(visits::all().iter().map(visits::Case::line));
    lines.extend(terms::all().iter().map(terms::Case::line));
    lines.extend(altered::all().iter().map(altered::Case::line));
    lines.extend(desks::all().iter().map(desks::Case::line));
    lines.extend(breaks::all().iter().map(breaks::Case::line));
    lines.extend(cells::all().iter().map(cells::Case::line));
    lines
}

/// The names of the same cases in the same order, for a person to look up.
pub fn names() -> Vec<String> {
    let mut names: Vec<String> = cases::all().into_iter().map(|case| case.name).collect();
    names.extend(tapes::all().into_iter().map(|case| case.name));
    names.extend(codes::all().into_iter().map(|case| case.name));
    names.extend(visits::all().into_iter().map(|case| case.name));
    names.extend(terms::all().into_iter().map(|case| case.name));
    names.extend(altered::all().into_iter().map(|case| case.name));
    names.extend(desks::all().into_iter().map(|case| case.name));
    names.extend(breaks::all().into_iter().map(|case| case.name));
    names.extend(cells::all().into_iter().map(|case| case.name));
    names
}

/// The lines of their answers in the same order: after a load those of the
/// nodes, for a code three, for a run of a desk one a call, for totals in cells two.
pub fn answers() -> Vec<String> {
    let mut answers: Vec<String> = cases::all().iter().flat_map(cases::Case::answer).collect();
    answers.extend(tapes::all().iter().map(tapes::Case::answer));
    answers.extend(codes::all().iter().flat_map(codes::Case::answers));
    answers.extend(visits::all().iter().map(visits::Case::answer));
    answers.extend(terms::all().iter().map(terms::Case::answer));
    answers.extend(altered::all().iter().flat_map(altered::Case::answers));
    answers.extend(desks::all().iter().flat_map(desks::Case::answers));
    answers.extend(breaks::all().iter().map(breaks::Case::answer));
    answers.extend(cells::all().iter().flat_map(cells::Case::answers));
    answers
}
