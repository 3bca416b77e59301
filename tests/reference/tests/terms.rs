//! Totalling within a term: the laws of 02, Job 1 on random codes, the order of
//! causes, and the answers set by hand.

use std::collections::HashSet;
use wumbyra_reference::calendar::{moved, Date};
use wumbyra_reference::code::encode;
use wumbyra_reference::codes::random::{pattern, put_in, sample};
use wumbyra_reference::codes::{totals_line, Code};
use wumbyra_reference::load::load;
use wumbyra_reference::prng::Prng;
use wumbyra_reference::services::spelling::letters_of;
use wumbyra_reference::services::terms::{dates, term_totals, term_totals_into};
use wumbyra_reference::services::totals::{some_litres, totals, Totals, ACCOUNTS, NO_LITRES};
use wumbyra_reference::table::{Kind, Node, Refusal, Table};
use wumbyra_reference::tapes::table_of;
use wumbyra_reference::terms::random::{day_ends, random_dates, HOT_DAYS, MIXED_DAYS, WITH_DAYS};
use wumbyra_reference::terms::{self, code_of, DAYS};
use wumbyra_reference::value::{has_empty_round, spell};

/// A pattern, a code of it and the letters that it spells.
struct Sampled {
    table: Table,
    code: Code,
    letters: Vec<u8>,
}

impl Sampled {
    fn term(&self, start: Date, first: Date, last: Date) -> Result<Totals, Refusal> {
        let (bytes, count) = (&self.code.bytes, self.code.count);
        term_totals(&self.table, bytes, count, start, first, last)
    }

    fn whole(&self) -> Totals {
        totals(&self.table, &self.code.bytes, self.code.count).expect("a whole code")
    }
}

/// Calls `each` for codes of random patterns, of both kinds of stars and with
/// letters of the hot side, two in three with empty rounds put in.
fn for_each_code(seed: u64, mut each: impl FnMut(&mut Prng, &Sampled)) {
    let mut rng = Prng::new(seed);
    let (mut with_empty, mut with_days) = (0, 0);
    for index in 0..3_000 {
        let tastes = [&WITH_DAYS, &MIXED_DAYS, &HOT_DAYS][index % 3];
        let table = pattern(&mut rng, tastes, index);
        let mut value = sample(&mut rng, &table, table.root(), &mut 0);
        for _ in 0..rng.below(3) {
            value = put_in(&mut rng, &table, table.root(), &value);
        }
        let letters = spell(&value);
        with_empty += usize::from(has_empty_round(&value));
        with_days += usize::from(day_ends(&letters) > 0);
        let code = Code::of_bits(&encode(&table, &value));
        let sampled = Sampled {
            table,
            code,
            letters,
        };
        each(&mut rng, &sampled);
    }
    assert!(with_empty > 300, "{with_empty}");
    assert!(with_days > 1_000, "{with_days}");
}

/// A date from which on the tape ends before the calendar does.
fn good_start(rng: &mut Prng, letters: &[u8]) -> Date {
    loop {
        let [start, _, _] = random_dates(rng, day_ends(letters));
        if start.is_date() && dates(letters.iter().copied(), start).is_some() {
            return start;
        }
    }
}

fn digits<'a>(letters: impl IntoIterator<Item = &'a u8>) -> u64 {
    let litres = |&letter: &u8| match letter {
        b'0'..=b'9' => u64::from(letter - b'0'),
        _ => 0,
    };
    letters.into_iter().map(litres).sum()
}

/// The date of a letter by the definition: the start stepped once for each
/// byte 68 strictly before it.
fn date_of(letters: &[u8], position: usize, start: Date) -> Option<Date> {
    let steps = letters[..position].iter().filter(|&&byte| byte == 68);
    steps.fold(Some(start), |date, _| date?.next())
}

#[test]
fn letters_have_the_date_of_the_definition() {
    for_each_code(1, |rng, sampled| {
        let letters = &sampled.letters;
        let [start, first, last] = random_dates(rng, day_ends(letters));
        if !start.is_date() {
            return;
        }
        let defined: Option<Vec<Date>> = (0..letters.len())
            .map(|position| date_of(letters, position, start))
            .collect();
        assert_eq!(dates(letters.iter().copied(), start), defined);
        // Refused for a date past the last, whatever the term.
        let answer = sampled.term(start, first, last);
        assert_eq!(answer == Err(Refusal::new(11, 0)), defined.is_none());
    });
}

#[test]
fn a_term_outside_the_tape_is_0() {
    for_each_code(2, |rng, sampled| {
        let start = good_start(rng, &sampled.letters);
        let days = day_ends(&sampled.letters) as i64;
        let far = rng.below(1_000) as i64;
        for (first, last) in [
            (-1, -1),
            (-1 - far, -1),
            (days + 1, days + 1),
            (days + 1, days + 1 + far),
        ] {
            let (first, last) = (moved(start, first), moved(start, last));
            if let (Some(first), Some(last)) = (first, last) {
                assert_eq!(sampled.term(start, first, last), Ok(NO_LITRES));
            }
        }
    });
}

/// Terms one behind the other from before the tape to behind it.
#[test]
fn terms_that_part_the_days_add_up_to_the_totals() {
    for_each_code(3, |rng, sampled| {
        let start = good_start(rng, &sampled.letters);
        let mut added = NO_LITRES;
        let mut first = Some(Date::FIRST);
        // Until the last date, in steps of which most end on the tape.
        while let Some(from) = first {
            let near = moved(start, rng.below(12) as i64 - 2).filter(|&date| date >= from);
            let to = near.unwrap_or(match rng.below(2) {
                0 => from,
                _ => moved(from, rng.below(20_000) as i64).unwrap_or(Date::LAST),
            });
            let litres = sampled.term(start, from, to).expect("a term");
            for (sum, litres) in added.iter_mut().zip(litres) {
                *sum += litres;
            }
            first = to.next();
        }
        assert_eq!(added, sampled.whole());
    });
}

/// The same day by day, and no day has litres of another.
#[test]
fn a_term_is_the_sum_of_its_days() {
    for_each_code(4, |rng, sampled| {
        let start = good_start(rng, &sampled.letters);
        let mut first = start;
        for day in sampled.letters.split_inclusive(|&letter| letter == 68) {
            let litres = sampled.term(start, first, first).expect("a term");
            assert_eq!(litres.iter().sum::<u64>(), digits(day));
            match first.next() {
                Some(next) => first = next,
                None => break,
            }
        }
        let all = sampled.term(start, Date::FIRST, Date::LAST);
        assert_eq!(all, Ok(sampled.whole()));
    });
}

#[test]
fn a_terms_totals_add_up_to_the_digits_of_its_letters() {
    let mut seen = HashSet::new();
    for_each_code(5, |rng, sampled| {
        let letters = &sampled.letters;
        let [start, first, last] = random_dates(rng, day_ends(letters));
        let answer = sampled.term(start, first, last);
        seen.insert(answer.map_or_else(|refusal| refusal.number, |_| 0));
        let Ok(litres) = answer else {
            return;
        };
        // First and last are both included.
        let within = (0..letters.len()).filter(|&position| {
            let date = date_of(letters, position, start).expect("a date");
            !(date < first || date > last)
        });
        let expected = digits(within.map(|position| &letters[position]));
        assert_eq!(litres.iter().sum::<u64>(), expected);
    });
    assert_eq!(seen, HashSet::from([0, 11, 12]));
}

/// A tape of three days under each term of whole days: both ends count.
#[test]
fn both_ends_are_included() {
    let table = load(DAYS.as_bytes()).expect("a good pattern");
    let code = code_of(DAYS.as_bytes(), b"1D2D4");
    let day = |count: i64| moved(Date::new(2024, 2, 28), count).expect("a date");
    for first in -1..=3_i64 {
        for last in first..=3 {
            let litres = [1, 2, 4].into_iter().enumerate();
            let within = litres.filter(|&(at, _)| first <= at as i64 && at as i64 <= last);
            let expected: u64 = within.map(|(_, litres)| litres).sum();
            let dates = [day(0), day(first), day(last)];
            let [start, first, last] = dates;
            let answer = term_totals(&table, &code.bytes, code.count, start, first, last);
            assert_eq!(answer.map(|litres| litres[1]), Ok(expected), "{dates:?}");
        }
    }
}

/// 2 with 0 for tables that no text gives, and whatever else is wrong.
#[test]
fn a_bad_table_is_refused_first() {
    let none = Date::new(0, 0, 0);
    let star = Node::new(Kind::GREEDY_STAR, 0, 1, 0);
    for bad in [
        Table::of_no_lines(),
        Table::of_nodes(&[star]),
        Table::of_nodes(&[Node::new(Kind::Letter, 201, 68, 0)]),
        Table::of_nodes(&[Node::new(Kind::Letter, 0, 32, 0)]),
    ] {
        let answer = term_totals(&bad, &[1], 7, none, none, none);
        assert_eq!(answer, Err(Refusal::new(2, 0)));
    }
}

/// 20 asks for the litres of the term alone: on the first day account 1 has
/// litres, on the second account 9. It comes behind 11 and 12.
#[test]
fn litres_go_into_as_many_cells_as_are_lent() {
    let table = load(DAYS.as_bytes()).expect("a good pattern");
    let code = code_of(DAYS.as_bytes(), b"1DW2");
    let day = Date::new(2024, 2, 29);
    let next = Date::new(2024, 3, 1);
    let far = Date::new(2050, 1, 1);
    let none = Date::new(2023, 2, 29);
    let term = |dates, litres: &mut [u32]| {
        term_totals_into(&table, &code.bytes, code.count, dates, litres)
    };
    for cells in 0..ACCOUNTS + 2 {
        let written = cells.min(ACCOUNTS);
        for (dates, all) in [
            ([day, day, next], &[(1, 1), (9, 2)][..]),
            ([day, day, day], &[(1, 1)]),
            ([day, next, next], &[(9, 2)]),
            ([day, far, far], &[]),
        ] {
            let needed = all.last().map_or(0, |(account, _)| account + 1);
            let mut litres = [7; ACCOUNTS + 2];
            let answer = term(dates, &mut litres[..cells]);
            let due = match cells < needed {
                true => (Err(Refusal::new(20, 0)), some_litres(&[])),
                false => (Ok(0), some_litres(all)),
            };
            assert_eq!(answer, due.0, "{cells} cells");
            let all = due.1.map(|litres| litres as u32);
            assert_eq!(litres[..written], all[..written]);
            assert!(litres[written..].iter().all(|&cell| cell == 7));
        }
        for (dates, number) in [([day, next, day], 12), ([none, day, next], 11)] {
            let mut litres = [7; ACCOUNTS + 2];
            let answer = term(dates, &mut litres[..cells]);
            assert_eq!(answer, Err(Refusal::new(number, 0)));
            assert!(litres[..written].iter().all(|&cell| cell == 0));
            assert!(litres[written..].iter().all(|&cell| cell == 7));
        }
    }
}

#[test]
fn answers_set_by_hand() {
    let mut set = 0;
    for case in terms::all() {
        if let Some((number, totals)) = case.expected {
            let answer = match number {
                0 => Ok(totals),
                _ => Err(Refusal::new(number, 0)),
            };
            assert_eq!(case.answer(), totals_line(answer), "{}", case.name);
            assert!(number == 0 || totals == NO_LITRES, "{}", case.name);
            set += 1;
        }
    }
    assert!(set >= 400, "{set}");
}

/// Each sort of random cases has answers of each sort: litres, none, 11, 12.
#[test]
fn random_cases_are_of_every_sort() {
    for sort in [
        "random:",
        "mixed random:",
        "hot random:",
        "stale random:",
        "accounts random:",
        "damaged:",
    ] {
        let answers: Vec<String> = terms::all()
            .iter()
            .filter(|case| case.name.starts_with(sort))
            .map(terms::Case::answer)
            .collect();
        let count = |start: &str| {
            answers
                .iter()
                .filter(|line| line.starts_with(start))
                .count()
        };
        let none = totals_line(Ok(NO_LITRES));
        let none = answers.iter().filter(|&line| *line == none).count();
        let counts = [none, count("0\t") - none, count("11\t"), count("12\t")];
        if sort == "damaged:" {
            assert!(count("8\t") > 4, "{sort} {answers:?}");
        } else {
            assert!(counts.iter().all(|&found| found > 4), "{sort} {counts:?}");
        }
    }
}

/// Program `vectors` holds 20,480 bytes of a line and 4,096 of a code.
#[test]
fn lines_are_short_and_names_differ() {
    let all = terms::all();
    assert!(all.len() <= 1_200, "{}", all.len());
    let mut names = HashSet::new();
    for case in &all {
        assert!(case.line().len() <= 20_000, "{}", case.name);
        assert!(case.code.bytes.len() <= 4_096, "{}", case.name);
        assert_eq!(case.line().split(' ').count(), 13, "{}", case.name);
        assert!(names.insert(&case.name), "{}", case.name);
    }
}

/// No case rests on how a tape was read: its code spells it.
#[test]
fn codes_of_long_tapes_spell_them() {
    for (text, stop_bit) in [(terms::SEVENS, true), (terms::LAZY_SEVENS, false)] {
        let code = terms::code_of_sevens("7D77DD", stop_bit);
        let spelled = letters_of(&table_of(text.as_bytes()), &code.bytes, code.count);
        assert_eq!(spelled, Ok(b"7D77DD".to_vec()));
        assert_eq!(code, code_of(text.as_bytes(), b"7D77DD"));
    }
}
