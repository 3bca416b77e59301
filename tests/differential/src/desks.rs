//! Random runs of calls on page desks: pages put and withdrawn, every refusal, desks, letters and words as a caller might write them, other
//! texts and other lengths in between. After each call the answer and every cell of desk, letters and words are compared, those around the
//! lent ones too.

use crate::calls;
use crate::compare::{Counts, CANARIES};
use std::path::Path;
use wumbyra_reference::desks::random::run;
use wumbyra_reference::desks::{Case, Step, ALL_LETTERS};
use wumbyra_reference::lazy::{Z1, Z15};
use wumbyra_reference::patterns::{LISTING, P1, P3};
use wumbyra_reference::prng::Prng;
use wumbyra_reference::services::desk::{bytes, DESK_BYTES, MOST_PAGES};
use wumbyra_reference::services::MOST_LETTERS;
use wumbyra_reference::table::{Refusal, Table};
use wumbyra_reference::tapes::random::{HOT, MIXED, WITHOUT_Z};
use wumbyra_reference::tapes::{table_of, ALL_WORDS};

/// Of so many cases of the other calls there is one run.
pub const CASES_A_RUN: u64 = 10;
/// Of so many runs one has pages enough for about 3,600 letters.
const FULL_RUNS: usize = 100;

/// What happens in a run. All but calls write buffers, as a caller might.
#[derive(Clone, Debug, PartialEq, Eq)]
enum Act {
    /// A call, a desk and letters by hand, or another text.
    Step(Step),
    /// So many bytes are lent for the desk from here on.
    DeskLength(usize),
    /// Any bytes for the desk, from this seed.
    AnyDesk(u64),
    /// Any bytes for the letters: most are none.
    AnyLetters(u64),
    /// Any words.
    AnyWords(u64),
}

#[derive(Clone, Debug, PartialEq, Eq)]
struct Run {
    text: Vec<u8>,
    acts: Vec<Act>,
    /// What the buffers hold before.
    filling: u64,
}

/// Desk, letters and words with canaries around what is lent. One side is the library's, the other the reference's.
#[derive(Clone, PartialEq, Eq)]
struct Side {
    desk: Vec<u8>,
    letters: Vec<u8>,
    words: Vec<u64>,
}

impl Side {
    fn new(filling: u64) -> Side {
        let mut rng = Prng::new(filling);
        let mut bytes = |length: usize| -> Vec<u8> {
            (0..length + 2 * CANARIES)
                .map(|_| rng.number() as u8)
                .collect()
        };
        let (desk, letters) = (bytes(DESK_BYTES), bytes(ALL_LETTERS));
        let words = (0..ALL_WORDS + 2 * CANARIES)
            .map(|_| rng.number())
            .collect();
        Side {
            desk,
            letters,
            words,
        }
    }

    /// The first cells of each buffer behind its canaries.
    fn lent(
        &mut self,
        desk: usize,
        cells: usize,
        words: usize,
    ) -> (&mut [u8], &mut [u8], &mut [u64]) {
        (
            &mut self.desk[CANARIES..CANARIES + desk],
            &mut self.letters[CANARIES..CANARIES + cells],
            &mut self.words[CANARIES..CANARIES + words],
        )
    }

    fn write(&mut self, act: &Act) {
        match act {
            Act::Step(Step::Hand { desk, bytes, at }) => {
                self.desk[CANARIES..CANARIES + DESK_BYTES].copy_from_slice(&desk.bytes());
                self.letters[CANARIES + at..CANARIES + at + bytes.len()].copy_from_slice(bytes);
            }
            Act::AnyDesk(seed) => {
                let mut rng = Prng::new(*seed);
                self.desk.fill_with(|| rng.number() as u8);
            }
            Act::AnyLetters(seed) => {
                let mut rng = Prng::new(*seed);
                self.letters.fill_with(|| rng.number() as u8);
            }
            Act::AnyWords(seed) => {
                let mut rng = Prng::new(*seed);
                self.words.fill_with(|| rng.number());
            }
            Act::Step(_) | Act::DeskLength(_) => {}
        }
    }

    /// Where the two sides differ first, as a position in what can be lent.
    fn differs(&self, other: &Side) -> Option<String> {
        fn first<T: PartialEq>(name: &str, one: &[T], other: &[T]) -> Option<String> {
            let at = (0..one.len()).find(|&at| one[at] != other[at])?;
            Some(format!(
                "cell {} of {name} differs",
                at as i64 - CANARIES as i64
            ))
        }
        first("the desk", &self.desk, &other.desk)
            .or_else(|| first("the letters", &self.letters, &other.letters))
            .or_else(|| first("the words", &self.words, &other.words))
    }
}

fn packed(answer: Result<u64, Refusal>) -> u64 {
    match answer {
        Ok(value) => value,
        Err(refusal) => refusal.number << 32 | refusal.value,
    }
}

/// The call's row in the counts, and its answer by the library.
fn proved(text: &[u8], step: &Step, side: &mut Side, desk: usize) -> Option<(usize, u64)> {
    Some(match step {
        Step::Open { words } => {
            let (desk, _, words) = side.lent(desk, 0, *words);
            (8, calls::desk_open(text, desk, words))
        }
        Step::Put { page, cells, words } => {
            let (desk, letters, words) = side.lent(desk, *cells, *words);
            (9, calls::desk_put(text, desk, page, letters, words))
        }
        Step::Withdraw { cells } => {
            let (desk, letters, _) = side.lent(desk, *cells, 0);
            (10, calls::desk_withdraw(text, desk, letters))
        }
        Step::Hand { .. } | Step::Text(_) => return None,
    })
}

/// The same by the reference.
fn expected(table: &Table, step: &Step, side: &mut Side, desk: usize) -> Option<u64> {
    Some(packed(match step {
        Step::Open { words } => {
            let (desk, _, words) = side.lent(desk, 0, *words);
            bytes::open(table, desk, words)
        }
        Step::Put { page, cells, words } => {
            let (desk, letters, words) = side.lent(desk, *cells, *words);
            bytes::put(table, desk, page, letters, words)
        }
        Step::Withdraw { cells } => {
            let (desk, letters, _) = side.lent(desk, *cells, 0);
            bytes::withdraw(table, desk, letters)
        }
        Step::Hand { .. } | Step::Text(_) => return None,
    }))
}

/// What differs, if anything does.
fn compare(run: &Run, counts: &mut Counts) -> Result<(), String> {
    let mut ours = Side::new(run.filling);
    let mut theirs = ours.clone();
    let mut text = run.text.clone();
    let mut desk = DESK_BYTES;
    for (index, act) in run.acts.iter().enumerate() {
        match act {
            Act::DeskLength(length) => desk = *length,
            Act::Step(Step::Text(other)) => text.clone_from(other),
            _ => {
                ours.write(act);
                theirs.write(act);
            }
        }
        let Act::Step(step) = act else { continue };
        let Some((call, answer)) = proved(&text, step, &mut ours, desk) else {
            continue;
        };
        let due = expected(&table_of(&text), step, &mut theirs, desk).expect("a call");
        let told = |what: String| format!("act {index}, {}: {what}", name_of(step));
        if answer != due {
            return Err(told(format!(
                "answered {} and {}, expected {} and {}",
                answer >> 32,
                answer as u32,
                due >> 32,
                due as u32
            )));
        }
        if let Some(words) = ours.differs(&theirs) {
            return Err(told(words));
        }
        counts.answers[call][(answer >> 32) as usize] += 1;
    }
    Ok(())
}

fn name_of(step: &Step) -> &'static str {
    match step {
        Step::Open { .. } => "desk_open",
        Step::Put { .. } => "desk_put",
        Step::Withdraw { .. } => "desk_withdraw",
        Step::Hand { .. } => "by hand",
        Step::Text(_) => "another text",
    }
}

fn random_run(rng: &mut Prng) -> Run {
    if rng.below(FULL_RUNS) == 0 {
        return full_run(rng);
    }
    let tastes = *rng.pick(&[&WITHOUT_Z, &MIXED, &HOT]);
    let index = rng.below(30);
    let wild = rng.below(2) == 0;
    let (text, steps) = run(rng, tastes, index, wild);
    let mut acts = Vec::new();
    for step in steps {
        match rng.below(120) {
            0..=2 => {
                // One call with another length, and then as before.
                acts.push(Act::DeskLength(rng.below(DESK_BYTES + CANARIES + 1)));
                acts.push(Act::Step(step));
                acts.push(Act::DeskLength(DESK_BYTES));
                continue;
            }
            3 => acts.push(Act::AnyDesk(rng.number())),
            4 | 5 if wild => acts.push(Act::AnyLetters(rng.number())),
            6..=12 if wild => acts.push(Act::AnyWords(rng.number())),
            _ => {}
        }
        acts.push(Act::Step(step));
    }
    Run {
        text,
        acts,
        filling: rng.number(),
    }
}

/// Pages of about 120 letters, as many as there can be and one more, then withdrawn to empty and once more.
fn full_run(rng: &mut Prng) -> Run {
    let (text, letters) = *rng.pick(&[
        (LISTING, &b"3W2"[..]),
        (P1, b"a"),
        (P3, b"ab"),
        (Z1, b"a"),
        (Z15, b"ab"),
    ]);
    let whole = rng.below(2) == 0;
    let mut steps = vec![Step::Open { words: 2 }];
    for _ in 0..MOST_PAGES + 1 {
        let length = if whole { 120 } else { 115 + rng.below(6) };
        let page: Vec<u8> = (0..length).map(|_| *rng.pick(letters)).collect();
        steps.push(Step::Put {
            page,
            cells: MOST_LETTERS + rng.below(2),
            words: 2 * (MOST_LETTERS + 1) - rng.below(2),
        });
    }
    for _ in 0..MOST_PAGES + 1 {
        steps.push(Step::Withdraw {
            cells: MOST_LETTERS,
        });
    }
    Run {
        text: text.as_bytes().to_vec(),
        acts: steps.into_iter().map(Act::Step).collect(),
        filling: rng.number(),
    }
}

/// How many runs are equal, or what differs: then the run is cut down, printed and written to the folder.
pub fn runs(count: u64, seed: u64, counts: &mut Counts, folder: &Path) -> Result<u64, String> {
    let mut seeds = Prng::new(seed ^ 0xde5c);
    for index in 0..count {
        let run = random_run(&mut Prng::new(seeds.number()));
        if compare(&run, counts).is_err() {
            let small = shrunk(run);
            let words = compare(&small, &mut Counts::default()).expect_err("it still differs");
            let told = format!("run {index} (seed {seed}): {words}\n{}", shown(&small));
            std::fs::create_dir_all(folder).expect("a folder for the run");
            std::fs::write(folder.join("desk.txt"), &told).expect("a file of the run");
            return Err(told);
        }
    }
    Ok(count)
}

/// The run without every act that is not needed for it to differ.
fn shrunk(mut run: Run) -> Run {
    let fails = |run: &Run| compare(run, &mut Counts::default()).is_err();
    let mut at = run.acts.len();
    while at > 0 {
        at -= 1;
        let mut less = run.clone();
        less.acts.remove(at);
        if fails(&less) {
            run = less;
        }
    }
    run
}

/// The run as its acts, and where it has calls and hands alone, as a line that program `vectors` takes too.
fn shown(run: &Run) -> String {
    let steps: Option<Vec<Step>> = run
        .acts
        .iter()
        .map(|act| match act {
            Act::Step(step) => Some(step.clone()),
            _ => None,
        })
        .collect();
    match steps {
        Some(steps) => {
            let case = Case {
                name: String::new(),
                text: run.text.clone(),
                expected: vec![None; steps.len()],
                steps,
            };
            format!("filling {}\n{}", run.filling, case.line())
        }
        None => format!("{run:?}"),
    }
}

#[cfg(test)]
mod tests {
    use super::*;

    /// Every cause of every call comes up, by the reference alone; desks by hand and other lengths of them are accepted and refused.
    #[test]
    fn runs_have_every_cause() {
        let mut rng = Prng::new(31);
        let mut seen = [[0; 16]; 3];
        let mut others = 0;
        for _ in 0..1_500 {
            let run = random_run(&mut rng);
            let mut side = Side::new(run.filling);
            let (mut text, mut desk) = (run.text.clone(), DESK_BYTES);
            for act in &run.acts {
                match act {
                    Act::DeskLength(length) => desk = *length,
                    Act::Step(Step::Text(other)) => text.clone_from(other),
                    _ => side.write(act),
                }
                others += usize::from(desk != DESK_BYTES);
                let Act::Step(step) = act else { continue };
                let call = match step {
                    Step::Open { .. } => 0,
                    Step::Put { .. } => 1,
                    _ => 2,
                };
                if let Some(answer) = expected(&table_of(&text), step, &mut side, desk) {
                    seen[call][(answer >> 32) as usize] += 1;
                }
            }
        }
        assert!(others > 100, "{others}");
        for (call, causes) in [
            (0, &[0, 2, 6, 13][..]),
            (1, &[0, 2, 9, 13, 14, 4, 6]),
            (2, &[0, 2, 9, 13, 15]),
        ] {
            for &cause in causes {
                assert!(seen[call][cause] >= 10, "call {call}, cause {cause}");
            }
            let found = seen[call].iter().filter(|&&times| times > 0).count();
            assert_eq!(found, causes.len(), "call {call}");
        }
    }

    #[test]
    fn desks_of_thirty_pages_come_up() {
        let mut rng = Prng::new(32);
        let full = (0..2_000)
            .map(|_| random_run(&mut rng))
            .filter(|run| run.acts.len() == 2 * MOST_PAGES + 3)
            .count();
        assert!(full >= 5, "{full}");
    }
}
