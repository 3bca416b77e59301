//! One case, through the C interface and through the reference: every answer and every cell of every buffer.

use crate::calls;
use crate::case::Case;
use std::ops::Range;
use wumbyra_reference::calendar::Date;
use wumbyra_reference::load::load;
use wumbyra_reference::prng::Prng;
use wumbyra_reference::services::totals::{Totals, ACCOUNTS};
use wumbyra_reference::services::{locate, reading, settling, spelling, terms, totals, visits};
use wumbyra_reference::table::{Refusal, Table};

/// Cells on each side of a lent buffer that no call may touch.
pub const CANARIES: usize = 8;
/// Bytes of a code that is walked for every node.
const SHORT: usize = 64;

pub const CALLS: [&str; 12] = [
    "load",
    "parse",
    "flatten",
    "canonicalize",
    "span",
    "total",
    "totals",
    "term_totals",
    "desk_open",
    "desk_put",
    "desk_withdraw",
    "locate",
];

/// Cells lent for totals, beside the case's own: none, as many as a caller of 1.4.0 lends, one short, all and one more.
const CELLS: [usize; 5] = [0, 10, ACCOUNTS - 1, ACCOUNTS, ACCOUNTS + 1];
/// Of so many cases one has its totals in each number of cells, up to two more than there are accounts.
const ALL_CELLS: u64 = 16;

/// Rows of three of them.
pub const PARSE: usize = 1;
pub const SPAN: usize = 4;
const LOCATE: usize = 11;

/// The greatest number of a cause. 16 to 19 are not answered by any call.
pub const LAST_CAUSE: usize = 20;
pub const NO_CAUSES: Range<usize> = 16..20;

/// How often each call answered each number, and how many pieces were read by themselves.
#[derive(Clone, Default)]
pub struct Counts {
    pub answers: [[u64; LAST_CAUSE + 1]; 12],
    pub pieces: u64,
}

impl Counts {
    pub fn calls(&self) -> u64 {
        self.answers.iter().flatten().sum()
    }
}

fn packed(answer: Result<u64, Refusal>) -> u64 {
    match answer {
        Ok(value) => value,
        Err(refusal) => refusal.number << 32 | refusal.value,
    }
}

/// A buffer with canaries around the part that is lent, and the same for the reference.
pub struct Lent<T> {
    proved: Vec<T>,
    expected: Vec<T>,
    length: usize,
}

impl<T: Copy + PartialEq> Lent<T> {
    fn new(length: usize, mut cell: impl FnMut() -> T) -> Lent<T> {
        let all: Vec<T> = (0..length + 2 * CANARIES).map(|_| cell()).collect();
        Lent {
            proved: all.clone(),
            expected: all,
            length,
        }
    }

    pub fn proved(&mut self) -> &mut [T] {
        &mut self.proved[CANARIES..CANARIES + self.length]
    }

    pub fn expected(&mut self) -> &mut [T] {
        &mut self.expected[CANARIES..CANARIES + self.length]
    }

    pub fn same(&self, call: &str, name: &str) -> Result<(), String> {
        self.same_in(0..self.proved.len(), call, name)
    }

    /// The cells on each side alone: what was lent may hold anything.
    pub fn same_around(&self, call: &str, name: &str) -> Result<(), String> {
        self.same_in(0..CANARIES, call, name)?;
        self.same_in(CANARIES + self.length..self.proved.len(), call, name)
    }

    fn same_in(&self, mut cells: Range<usize>, call: &str, name: &str) -> Result<(), String> {
        match cells.find(|&at| self.proved[at] != self.expected[at]) {
            None => Ok(()),
            Some(at) => Err(format!(
                "{call}: cell {} of {name} ({} lent) differs",
                at as i64 - CANARIES as i64,
                self.length
            )),
        }
    }
}

pub struct Run<'a> {
    pub case: &'a Case,
    pub table: Table,
    fill: Prng,
    pub counts: &'a mut Counts,
}

/// What differs, if anything does.
pub fn compare(case: &Case, counts: &mut Counts) -> Result<(), String> {
    let loaded = load(&case.text);
    let mut run = Run {
        case,
        table: loaded.clone().unwrap_or_else(|_| Table::of_no_lines()),
        fill: Prng::new(case.filling),
        counts,
    };
    let before = (case.text.clone(), case.tape.clone(), case.code.clone());
    let answer = calls::load(&case.text);
    run.answered(0, answer, packed(loaded.map(|table| table.count)))?;
    run.parse()?;
    run.flatten()?;
    run.canonicalize()?;
    run.span()?;
    run.total()?;
    run.totals()?;
    run.term_totals()?;
    run.locate()?;
    run.pieces()?;
    if before != (case.text.clone(), case.tape.clone(), case.code.clone()) {
        return Err("text, tape or code was changed".into());
    }
    Ok(())
}

impl Run<'_> {
    pub fn answered(&mut self, call: usize, proved: u64, expected: u64) -> Result<(), String> {
        if proved != expected {
            return Err(format!(
                "{}: answered {} and {}, expected {} and {}",
                CALLS[call],
                proved >> 32,
                proved as u32,
                expected >> 32,
                expected as u32
            ));
        }
        self.counts.answers[call][(proved >> 32) as usize] += 1;
        Ok(())
    }

    pub fn bytes(&mut self, length: usize) -> Lent<u8> {
        Lent::new(length, || self.fill.number() as u8)
    }

    pub fn words(&mut self, length: usize) -> Lent<u64> {
        Lent::new(length, || self.fill.number())
    }

    fn parse(&mut self) -> Result<(), String> {
        let case = self.case;
        let mut words = self.words(case.parse_words);
        let mut code = self.bytes(case.parse_bytes);
        let proved = calls::parse(&case.text, &case.tape, words.proved(), code.proved());
        let expected = reading::parse(&self.table, &case.tape, words.expected(), code.expected());
        self.answered(PARSE, proved, packed(expected))?;
        words.same("parse", "words")?;
        code.same("parse", "code")
    }

    fn flatten(&mut self) -> Result<(), String> {
        let case = self.case;
        let mut tape = self.bytes(case.letters);
        let proved = calls::flatten(&case.text, &case.code, case.count, tape.proved());
        let expected = spelling::flatten(
            &self.table,
            &case.code,
            u64::from(case.count),
            tape.expected(),
        );
        self.answered(2, proved, packed(expected))?;
        tape.same("flatten", "tape")
    }

    fn canonicalize(&mut self) -> Result<(), String> {
        let case = self.case;
        let mut tape = self.bytes(case.letters);
        let mut words = self.words(case.words);
        let mut canonical = self.bytes(case.bytes);
        let proved = calls::canonicalize(
            &case.text,
            &case.code,
            case.count,
            tape.proved(),
            words.proved(),
            canonical.proved(),
        );
        let expected = settling::canonicalize(
            &self.table,
            &case.code,
            u64::from(case.count),
            tape.expected(),
            words.expected(),
            canonical.expected(),
        );
        self.answered(3, proved, packed(expected))?;
        tape.same("canonicalize", "tape")?;
        words.same("canonicalize", "words")?;
        canonical.same("canonicalize", "canonical")
    }

    fn span(&mut self) -> Result<(), String> {
        let case = self.case;
        let bits = u64::from(case.count);
        let own = match case.own_tape && self.table.count > 0 {
            true => spelling::letters_of(&self.table, &case.code, bits).ok(),
            false => None,
        };
        let tape = own.as_deref().unwrap_or(&case.tape);
        // Of short codes, every node at this visit.
        let more = if case.code.len() < SHORT {
            self.table.count as u32
        } else {
            0
        };
        for node in (0..more).chain([case.node]) {
            let proved = calls::span(&case.text, tape, &case.code, case.count, node, case.visit);
            let expected = visits::span(
                &self.table,
                tape,
                &case.code,
                bits,
                u64::from(node),
                u64::from(case.visit),
            );
            let shown = expected.map(|span| span.start << 16 | span.length);
            self.answered(SPAN, proved, packed(shown))?;
        }
        Ok(())
    }

    fn total(&mut self) -> Result<(), String> {
        let case = self.case;
        let expected = totals::totals(&self.table, &case.code, u64::from(case.count));
        // The accounts of the pattern, those at the limits, the first that there is not, and the case's own.
        let nodes = &self.table.nodes[..self.table.count as usize];
        let named = nodes.iter().map(|node| node.account as u32);
        let mut accounts: Vec<u32> = named.chain([0, 9, 10, 200, 201, case.account]).collect();
        accounts.sort_unstable();
        accounts.dedup();
        for account in accounts {
            let proved = calls::total(&case.text, &case.code, case.count, account);
            let litres = |totals: Totals| totals.get(account as usize).copied().unwrap_or(0);
            self.answered(5, proved, packed(expected.map(litres)))?;
        }
        Ok(())
    }

    /// The numbers of cells that are lent for totals: the case's own, those above, and such that the last account with litres has no
    /// cell, or has the last one.
    fn cells(&self, answer: &Result<Totals, Refusal>) -> Vec<usize> {
        if self.case.filling % ALL_CELLS == 0 && self.case.code.len() < SHORT {
            return (0..=ACCOUNTS + 2).collect();
        }
        let last = |totals: &Totals| totals.iter().rposition(|&litres| litres > 0);
        let last = answer.as_ref().ok().and_then(last);
        let needed = last.into_iter().flat_map(|account| [account, account + 1]);
        let mut cells: Vec<usize> = needed.chain(CELLS).chain([self.case.accounts]).collect();
        cells.sort_unstable();
        cells.dedup();
        cells
    }

    fn totals(&mut self) -> Result<(), String> {
        let case = self.case;
        let expected = totals::totals(&self.table, &case.code, u64::from(case.count));
        for cells in self.cells(&expected) {
            let mut litres = Lent::new(cells, || self.fill.number() as u32);
            let proved = calls::totals(&case.text, &case.code, case.count, litres.proved());
            let put = totals::put(expected, litres.expected());
            self.answered(6, proved, packed(put))?;
            litres.same("totals", "litres")?;
        }
        Ok(())
    }

    fn term_totals(&mut self) -> Result<(), String> {
        let case = self.case;
        let [start, first, last] = case.dates.map(Date::of_number);
        let bits = u64::from(case.count);
        let expected = terms::term_totals(&self.table, &case.code, bits, start, first, last);
        for cells in self.cells(&expected) {
            let mut litres = Lent::new(cells, || self.fill.number() as u32);
            let proved = calls::term_totals(
                &case.text,
                &case.code,
                case.count,
                case.dates,
                litres.proved(),
            );
            let put = totals::put(expected, litres.expected());
            self.answered(7, proved, packed(put))?;
            litres.same("term_totals", "litres")?;
        }
        Ok(())
    }

    /// Where the tape breaks. Of a short one also without its last letters, without its first, with one of them twice, and with another
    /// in the place of one.
    fn locate(&mut self) -> Result<(), String> {
        let tape = &self.case.tape;
        let mut tapes = vec![tape.clone()];
        if (1..SHORT).contains(&tape.len()) {
            let at = self.fill.below(tape.len());
            tapes.push(tape[..at].to_vec());
            tapes.push(tape[at + 1..].to_vec());
            tapes.push([&tape[..at], &tape[at..=at], &tape[at..]].concat());
            let mut other = tape.clone();
            other[at] = *self.fill.pick(&[b'0', b'W', b'a', b'~', 161, 228, tape[0]]);
            tapes.push(other);
        }
        for tape in tapes {
            let proved = calls::locate(&self.case.text, &tape);
            let expected = locate::locate(&self.table, &tape).map(locate::Located::value);
            self.answered(LOCATE, proved, packed(expected))
                .map_err(|words| format!("{words} (reach and resume, of {tape:?})"))?;
        }
        Ok(())
    }
}
