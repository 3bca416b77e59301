//! The page desk: cases set by hand, the desk against a plain list of pages, and
//! marks against those of the joined letters.

mod common;

use common::{small, table};
use wumbyra_reference::desks::{self, random::run, State, Step};
use wumbyra_reference::patterns::{text_of, LISTING, P1, P3};
use wumbyra_reference::prng::Prng;
use wumbyra_reference::services::desk::{
    bytes, marks_from_end, open, pages_held, put, withdraw, words_by_steps, Desk, DESK_BYTES,
    MOST_PAGES,
};
use wumbyra_reference::services::reading::parse;
use wumbyra_reference::table::{is_letter, judge, number_and_value, Refusal, Table};
use wumbyra_reference::tapes::random::{HOT, MIXED, WITHOUT_Z};

const CELLS: usize = 3_600;
const WORDS: usize = 7_202;

#[test]
fn answers_set_by_hand() {
    let mut known = 0;
    for case in desks::all() {
        let answers = case.answered();
        for (index, (answer, expected)) in answers.iter().zip(&case.expected).enumerate() {
            if let Some(expected) = expected {
                assert_eq!(
                    number_and_value(answer),
                    *expected,
                    "{}, call {index}",
                    case.name
                );
                known += 1;
            }
        }
    }
    assert!(known > 1_500, "{known}");
}

/// Each case has a call, each call a line, and no line is longer than the program
/// holds; every number that a call can answer comes up.
#[test]
fn lines_are_short() {
    let mut seen = [0; 16];
    for case in desks::all() {
        let answers = case.answers();
        assert!(!answers.is_empty(), "{}", case.name);
        assert!(case.line().len() <= 20_000, "{}", case.name);
        for line in &answers {
            assert!(line.len() < 1_000, "{}", case.name);
            let number = line
                .split('\t')
                .next()
                .and_then(|n| n.parse::<usize>().ok());
            seen[number.expect("a number")] += 1;
        }
    }
    for number in [0, 2, 4, 6, 9, 13, 14, 15] {
        assert!(seen[number] >= 20, "{number}: {}", seen[number]);
    }
    assert_eq!(seen.iter().filter(|&&times| times > 0).count(), 8);
}

/// A plain stack of pages, the last put first. It knows of no desk, no cells and
/// no marks.
struct Stack {
    pages: Vec<Vec<u8>>,
}

impl Stack {
    fn letters(&self) -> u64 {
        self.pages.concat().len() as u64
    }

    fn take(&mut self, table: &Table, step: &Step) -> Option<Result<u64, Refusal>> {
        let few = |cells: usize| (cells < CELLS).then_some(Refusal::new(9, 3_600));
        let tree = judge(table).err();
        let cause = match step {
            Step::Open { words } => tree.or((*words < 2).then_some(Refusal::new(6, 2))),
            Step::Put { page, cells, words } => {
                let wrong = page.is_empty() || page.len() > 120;
                let bad = page.iter().position(|&byte| !is_letter(u64::from(byte)));
                let needed = 2 * (self.letters() + page.len() as u64 + 1);
                tree.or(few(*cells))
                    .or(wrong.then_some(Refusal::new(13, 0)))
                    .or((self.pages.len() == 30).then_some(Refusal::new(14, 0)))
                    .or(bad.map(|at| Refusal::new(4, at as u64)))
                    .or(((*words as u64) < needed).then_some(Refusal::new(6, needed)))
            }
            Step::Withdraw { cells } => tree
                .or(few(*cells))
                .or(self.pages.is_empty().then_some(Refusal::new(15, 0))),
            Step::Hand { .. } | Step::Text(_) => return None,
        };
        if let Some(refusal) = cause {
            return Some(Err(refusal));
        }
        match step {
            Step::Open { .. } => self.pages.clear(),
            Step::Put { page, .. } => self.pages.insert(0, page.clone()),
            _ => drop(self.pages.remove(0)),
        }
        Some(Ok(self.letters()))
    }
}

/// "From an opening, while nothing but its calls writes desk and letters, the desk
/// answers any run of calls as a plain stack of pages would, each accepted one
/// with the count of letters then held, and its letters are those pages joined,
/// the last put first." Tables may change in between.
#[test]
fn the_desk_is_a_stack() {
    let mut rng = Prng::new(671);
    let (mut accepted, mut refused, mut deep) = (0, 0, 0);
    for index in 0..3_000 {
        let tastes = [&WITHOUT_Z, &MIXED, &HOT][index % 3];
        let (text, steps) = run(&mut rng, tastes, index, index % 4 == 3);
        let mut state = State::before(&text);
        state
            .take(&Step::Open { words: 2 })
            .expect("a call")
            .expect("opened");
        let mut stack = Stack { pages: Vec::new() };
        for step in &steps {
            if matches!(step, Step::Hand { .. }) {
                continue;
            }
            let table = state.table.clone();
            let answer = state.take(step);
            assert_eq!(answer, stack.take(&table, step), "run {index}, {step:?}");
            match answer {
                Some(Ok(_)) => accepted += 1,
                Some(Err(_)) => refused += 1,
                None => {}
            }
            let pages = pages_held(&state.desk, &state.letters).expect("a desk");
            assert_eq!(pages, stack.pages);
            let joined = stack.pages.concat();
            assert_eq!(state.letters[CELLS - joined.len()..CELLS], joined);
            deep = deep.max(pages.len());
        }
    }
    assert!(
        accepted > 8_000 && refused > 3_000 && deep == MOST_PAGES,
        "{accepted} {refused} {deep}"
    );
}

/// "If before a call the marks are those of the joined letters under its table,
/// they are so after it; a put changes only its own letters' cells and mark words,
/// a withdrawal none. A refused call leaves desk, letters and marks alike."
#[test]
fn marks_stay_right_and_nothing_else_is_written() {
    let mut rng = Prng::new(672);
    let mut compared = 0;
    for index in 0..2_000 {
        let tastes = [&WITHOUT_Z, &MIXED, &HOT][index % 3];
        let (text, steps) = run(&mut rng, tastes, index, false);
        let mut state = State::before(&text);
        state
            .take(&Step::Open { words: 2 })
            .expect("a call")
            .expect("opened");
        for step in &steps {
            let (desk, letters) = (state.desk, state.letters.clone());
            let marks = state.marks.clone();
            let held = desk.letters();
            let answer = state.take(step).expect("a call");
            let Ok(after) = answer else {
                assert_eq!(state.desk, desk);
                assert!(state.letters == letters && state.marks == marks);
                continue;
            };
            let after = after as usize;
            let joined = state.letters[CELLS - after..CELLS].to_vec();
            let right = marks_from_end(&state.table, &joined);
            assert_eq!(
                state.marks[..2 * (after + 1)],
                right,
                "run {index}, {step:?}"
            );
            compared += 1;
            let (cells, words) = match step {
                Step::Open { .. } => (0..0, 0..2),
                Step::Put { .. } => (CELLS - after..CELLS - held, 2 * (held + 1)..2 * (after + 1)),
                _ => (0..0, 0..0),
            };
            let kept = |at: usize| cells.contains(&at) || state.letters[at] == letters[at];
            assert!((0..letters.len()).all(kept), "run {index}, {step:?}");
            let kept = |at: usize| words.contains(&at) || state.marks[at] == marks[at];
            assert!((0..marks.len()).all(kept), "run {index}, {step:?}");
        }
    }
    assert!(compared > 8_000, "{compared}");
}

/// Steps from a right word give right words, at each cut of a tape.
#[test]
fn steps_from_right_words_are_right() {
    let mut rng = Prng::new(673);
    for _ in 0..400 {
        let table = small(&mut rng, 12);
        let length = 1 + rng.below(8);
        let tape: Vec<u8> = (0..length).map(|_| *rng.pick(b"ab")).collect();
        let whole = marks_from_end(&table, &tape);
        for cut in 1..=tape.len() {
            let held = tape.len() - cut;
            let words = words_by_steps(&table, &tape[..cut], held, &whole[..2 * (held + 1)]);
            assert_eq!(words, whole[2 * (held + 1)..]);
        }
    }
}

/// Marks from the end are those of reading, the positions turned round.
#[test]
fn marks_are_those_of_reading() {
    let mut rng = Prng::new(674);
    for _ in 0..400 {
        let table = small(&mut rng, 12);
        let length = rng.below(8);
        let tape: Vec<u8> = (0..length).map(|_| *rng.pick(b"ab")).collect();
        let mut words = vec![0; 2 * (length + 1)];
        let _ = parse(&table, &tape, &mut words, &mut vec![0; 200]);
        let ours = marks_from_end(&table, &tape);
        for position in 0..=length {
            for flag in 0..2 {
                let j = length - position;
                assert_eq!(words[2 * position + flag], ours[2 * j + flag]);
            }
        }
    }
}

/// Answers, desk and letters do not depend on what the marks hold, and words do
/// only by the flag 1 word of the letters held.
#[test]
fn marks_decide_no_answer() {
    let mut rng = Prng::new(675);
    let mut wrong = 0;
    for _ in 0..500 {
        let table = small(&mut rng, 12);
        let held: Vec<u8> = (0..rng.below(6)).map(|_| *rng.pick(b"ab")).collect();
        let page: Vec<u8> = (0..1 + rng.below(5)).map(|_| *rng.pick(b"ab")).collect();
        let h = held.len();
        let lengths = vec![1; h];
        let mut letters = vec![0; CELLS];
        letters[CELLS - h..].copy_from_slice(&held);
        let mut one: Vec<u64> = (0..2 * (h + page.len() + 1))
            .map(|_| rng.number())
            .collect();
        let mut other: Vec<u64> = one.iter().map(|_| rng.number()).collect();
        other[2 * h + 1] = one[2 * h + 1];
        let (mut a, mut b) = (Desk::of_lengths(&lengths), Desk::of_lengths(&lengths));
        let mut same = letters.clone();
        let answer = put(&table, &mut a, &page, &mut letters, &mut one);
        assert_eq!(answer, Ok((h + page.len()) as u64));
        assert_eq!(answer, put(&table, &mut b, &page, &mut same, &mut other));
        assert_eq!((a, &letters), (b, &same));
        assert_eq!(one[2 * (h + 1)..], other[2 * (h + 1)..]);
        let right = marks_from_end(&table, &[page, held].concat());
        wrong += usize::from(one[2 * (h + 1)..] != right[2 * (h + 1)..]);
    }
    assert!(wrong > 50, "{wrong}");
}

/// Two words by hand: under P1, (a|e)*, the end is reached from the star with
/// flag 1, and after an `a` from everything that can take it.
#[test]
fn words_by_hand() {
    let p1 = table(P1);
    let mut desk = Desk::of_lengths(&[7]);
    let mut marks = [9; 5];
    assert_eq!(open(&p1, &mut desk, &mut marks), Ok(0));
    assert_eq!((desk, marks), (Desk::EMPTY, [0, 0b1110, 9, 9, 9]));
    let mut letters = [b'x'; 3_601];
    assert_eq!(put(&p1, &mut desk, b"a", &mut letters, &mut marks), Ok(1));
    assert_eq!(marks, [0, 0b1110, 0b1101, 0b1111, 9]);
    assert_eq!(
        (letters[3_598], letters[3_599], letters[3_600]),
        (b'x', b'a', b'x')
    );
    // Another pattern does not take the letter.
    assert_eq!(open(&table(LISTING), &mut desk, &mut marks), Ok(0));
    assert_eq!(
        put(&table(LISTING), &mut desk, b"a", &mut letters, &mut marks),
        Ok(1)
    );
    assert_eq!(marks[..4], [0, 0x20, 0, 0]);
}

/// From C: 31 bytes are a desk, and any other number is 13 at its place.
#[test]
fn desks_of_bytes() {
    let p3 = table(P3);
    let none = Table::of_no_lines();
    let mut letters = vec![b'a'; CELLS];
    let mut marks = vec![0; WORDS];
    for length in [0, 1, 30, 32, 62] {
        let mut desk = vec![0; length];
        let refused = |number, value| Err(Refusal::new(number, value));
        assert_eq!(bytes::open(&none, &mut desk, &mut []), refused(2, 0));
        assert_eq!(bytes::open(&p3, &mut desk, &mut marks[..1]), refused(6, 2));
        assert_eq!(bytes::open(&p3, &mut desk, &mut marks), refused(13, 0));
        let short = &mut letters[..3_599];
        assert_eq!(
            bytes::put(&p3, &mut desk, b"", short, &mut marks),
            refused(9, 3_600)
        );
        assert_eq!(
            bytes::put(&p3, &mut desk, b" ", &mut letters, &mut []),
            refused(13, 0)
        );
        assert_eq!(
            bytes::withdraw(&p3, &mut desk, &letters[1..]),
            refused(9, 3_600)
        );
        assert_eq!(bytes::withdraw(&p3, &mut desk, &letters), refused(13, 0));
        assert_eq!(desk, vec![0; length]);
    }
    let mut desk = [255; DESK_BYTES];
    assert_eq!(bytes::open(&p3, &mut desk, &mut marks), Ok(0));
    assert_eq!(
        bytes::put(&p3, &mut desk, b"abb", &mut letters, &mut marks),
        Ok(3)
    );
    assert_eq!(
        bytes::put(&p3, &mut desk, b"b", &mut letters, &mut marks),
        Ok(4)
    );
    assert_eq!((desk[0], desk[1], desk[2], desk[3]), (2, 3, 1, 0));
    assert_eq!(letters[3_596..], *b"babb");
    assert_eq!(bytes::withdraw(&p3, &mut desk, &letters), Ok(3));
    assert_eq!((desk[0], desk[2]), (1, 1));
}

/// The typed calls and those on bytes are the same, for any desk.
#[test]
fn bytes_are_the_same_desk() {
    let mut rng = Prng::new(676);
    let (p, text) = (table(P3), text_of(&table(P3)));
    assert_eq!(text, P3.as_bytes());
    for _ in 0..2_000 {
        let mut desk = Desk {
            count: *rng.pick(&[0, 1, 2, 29, 30, 31, 255]),
            lengths: [0; MOST_PAGES],
        };
        desk.lengths = desk
            .lengths
            .map(|_| *rng.pick(&[1, 1, 1, 1, 1, 1, 1, 1, 1, 2, 120, 0]));
        let mut handed = desk.bytes();
        let mut letters = vec![b'a'; CELLS];
        letters[CELLS - 1 - rng.below(60)] = *rng.pick(b"aaab ");
        let mut same = letters.clone();
        let (mut marks, mut words) = (vec![7; WORDS], vec![7; WORDS]);
        let ours = put(&p, &mut desk, b"ab", &mut letters, &mut marks);
        assert_eq!(
            ours,
            bytes::put(&p, &mut handed, b"ab", &mut same, &mut words)
        );
        assert_eq!((desk.bytes(), &letters, &marks), (handed, &same, &words));
        let ours = withdraw(&p, &mut desk, &letters);
        assert_eq!(ours, bytes::withdraw(&p, &mut handed, &same));
        assert_eq!(desk.bytes(), handed);
    }
}
