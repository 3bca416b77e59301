//! The page desk (02, Job 6): a tape that arrives in pages, the latest letters
//! first. Each call makes a plain list of pages of what it is lent, changes that,
//! and writes the change back.

use super::{judge_bytes, MOST_LETTERS};
use crate::automaton::{self, Automaton};
use crate::table::{is_letter, judge, Refusal, Table};

/// "At most 30 pages are held."
pub const MOST_PAGES: usize = 30;
/// "in pages of 1 to 120 letters"
pub const MOST_PAGE_LETTERS: usize = 120;
/// From C a desk is so many bytes: the count, then the lengths.
pub const DESK_BYTES: usize = MOST_PAGES + 1;

/// What a caller keeps of a desk: how many pages it holds, and how many letters
/// each of them has, in the order in which they were put. A caller can write any
/// numbers here. Lengths at or past the count are never looked at.
#[derive(Clone, Copy, PartialEq, Eq, Debug)]
pub struct Desk {
    pub count: u8,
    pub lengths: [u8; MOST_PAGES],
}

impl Desk {
    pub const EMPTY: Desk = Desk {
        count: 0,
        lengths: [0; MOST_PAGES],
    };

    /// A desk that holds pages of these lengths, the first put first.
    pub fn of_lengths(held: &[u8]) -> Desk {
        let mut desk = Desk::EMPTY;
        desk.count = held.len() as u8;
        for (cell, &length) in desk.lengths.iter_mut().zip(held) {
            *cell = length;
        }
        desk
    }

    /// The desk that callers from C hand over; none for another number of bytes.
    pub fn of_bytes(bytes: &[u8]) -> Option<Desk> {
        let (&count, lengths) = bytes.split_first()?;
        let lengths = lengths.try_into().ok()?;
        Some(Desk { count, lengths })
    }

    pub fn bytes(&self) -> [u8; DESK_BYTES] {
        let mut bytes = [self.count; DESK_BYTES];
        bytes[1..].copy_from_slice(&self.lengths);
        bytes
    }

    /// How many letters the lengths below the count add up to, whatever they are.
    pub fn letters(&self) -> usize {
        let held = self.lengths.iter().take(usize::from(self.count));
        held.map(|&length| usize::from(length)).sum()
    }
}

/// The pages held, the last put first: "its letters are those pages joined, the
/// last put first. They lie against the end of the first 3,600 cells of a lent
/// buffer." None for "a desk that breaks these limits or holds a byte that is no
/// letter". There are 3,600 cells at least.
pub fn pages_held(desk: &Desk, letters: &[u8]) -> Option<Vec<Vec<u8>>> {
    let lengths = desk.lengths.get(..usize::from(desk.count))?;
    let mut pages: Vec<Vec<u8>> = Vec::new();
    let mut end = MOST_LETTERS;
    for &length in lengths {
        if !is_page_length(usize::from(length)) {
            return None;
        }
        let start = end - usize::from(length);
        let page = &letters[start..end];
        if !page.iter().all(|&byte| is_letter(u64::from(byte))) {
            return None;
        }
        pages.insert(0, page.to_vec());
        end = start;
    }
    Some(pages)
}

fn is_page_length(letters: usize) -> bool {
    (1..=MOST_PAGE_LETTERS).contains(&letters)
}

/// "Marks are counted from the tape's end, the words for j letters from 2 × j
/// on": 01's words, the last position's first.
pub fn marks_from_end(table: &Table, tape: &[u8]) -> Vec<u64> {
    let words = automaton::marks(table, tape);
    words.chunks(2).rev().flatten().copied().collect()
}

/// The words of a page that is put before the letters held, where the marks lent
/// need not be theirs: one step a letter from the flag 1 word of the letters held
/// as it stands. Whether the tape's end lies behind a letter is known by the
/// letters and not by that word.
pub fn words_by_steps(table: &Table, page: &[u8], held: usize, marks: &[u64]) -> Vec<u64> {
    let automaton = Automaton::new(table);
    let mut next = marks[2 * held + 1];
    let mut words = Vec::new();
    for (behind, &letter) in page.iter().rev().enumerate() {
        let [zero, one] = automaton.step(letter, next, held + behind == 0);
        words.extend([zero, one]);
        next = one;
    }
    words
}

/// What a put writes: of marks that are right, those of all letters then held;
/// of others, what the steps give.
fn words_of_page(table: &Table, page: &[u8], held: &[u8], marks: &[u64]) -> Vec<u64> {
    let known = 2 * (held.len() + 1);
    let whole = marks_from_end(table, &[page, held].concat());
    match marks[..known] == whole[..known] {
        true => whole[known..].to_vec(),
        false => words_by_steps(table, page, held.len(), marks),
    }
}

/// 13, where there is no desk or none that can be worked with.
fn limits<T>(found: Option<T>) -> Result<T, Refusal> {
    found.ok_or(Refusal::new(13, 0))
}

fn judge_cells(letters: &[u8]) -> Result<(), Refusal> {
    if letters.len() < MOST_LETTERS {
        return Err(Refusal::new(9, MOST_LETTERS as u64));
    }
    Ok(())
}

fn judge_words(marks: &[u64], letters: usize) -> Result<(), Refusal> {
    let needed = 2 * (letters + 1);
    if marks.len() < needed {
        return Err(Refusal::new(6, needed as u64));
    }
    Ok(())
}

/// "opening an empty desk writes the two of the end (refusing 2, then 6)". It
/// takes any desk; the lengths that it leaves are all 0.
pub fn open(table: &Table, desk: &mut Desk, marks: &mut [u64]) -> Result<u64, Refusal> {
    judge(table)?;
    judge_words(marks, 0)?;
    marks[..2].copy_from_slice(&marks_from_end(table, &[]));
    *desk = Desk::EMPTY;
    Ok(0)
}

/// "a page is put before the letters held": 2, 9, 13, 14, 4, 6. Gives "the count
/// of letters then held".
pub fn put(
    table: &Table,
    desk: &mut Desk,
    page: &[u8],
    letters: &mut [u8],
    marks: &mut [u64],
) -> Result<u64, Refusal> {
    put_on(table, Some(desk), page, letters, marks)
}

fn put_on(
    table: &Table,
    desk: Option<&mut Desk>,
    page: &[u8],
    letters: &mut [u8],
    marks: &mut [u64],
) -> Result<u64, Refusal> {
    judge(table)?;
    judge_cells(letters)?;
    let desk = limits(desk)?;
    limits(is_page_length(page.len()).then_some(()))?;
    let pages = limits(pages_held(desk, letters))?;
    if pages.len() == MOST_PAGES {
        return Err(Refusal::new(14, 0));
    }
    // "a bad letter with 4 (its position in the page)"
    judge_bytes(page)?;
    let held = pages.concat();
    let after = held.len() + page.len();
    judge_words(marks, after)?;
    let words = words_of_page(table, page, &held, marks);
    marks[2 * (held.len() + 1)..2 * (after + 1)].copy_from_slice(&words);
    letters[MOST_LETTERS - after..MOST_LETTERS - held.len()].copy_from_slice(page);
    desk.lengths[pages.len()] = page.len() as u8;
    desk.count += 1;
    Ok(after as u64)
}

/// "the last page put can be withdrawn": 2, 9, 13, 15. Letters are read, and
/// nothing but the count changes.
pub fn withdraw(table: &Table, desk: &mut Desk, letters: &[u8]) -> Result<u64, Refusal> {
    withdraw_from(table, Some(desk), letters)
}

fn withdraw_from(table: &Table, desk: Option<&mut Desk>, letters: &[u8]) -> Result<u64, Refusal> {
    judge(table)?;
    judge_cells(letters)?;
    let desk = limits(desk)?;
    let pages = limits(pages_held(desk, letters))?;
    let Some((_, left)) = pages.split_first() else {
        return Err(Refusal::new(15, 0));
    };
    desk.count -= 1;
    Ok(left.concat().len() as u64)
}

/// The calls from C, where a desk is bytes. Another number of bytes than 31 is 13
/// at the place of 13, at opening after 6.
pub mod bytes {
    use super::{judge, judge_words, limits, put_on, withdraw_from, Desk, Refusal, Table};

    pub fn open(table: &Table, desk: &mut [u8], marks: &mut [u64]) -> Result<u64, Refusal> {
        judge(table)?;
        judge_words(marks, 0)?;
        let mut own = limits(Desk::of_bytes(desk))?;
        let answer = super::open(table, &mut own, marks);
        desk.copy_from_slice(&own.bytes());
        answer
    }

    pub fn put(
        table: &Table,
        desk: &mut [u8],
        page: &[u8],
        letters: &mut [u8],
        marks: &mut [u64],
    ) -> Result<u64, Refusal> {
        let mut own = Desk::of_bytes(desk);
        let answer = put_on(table, own.as_mut(), page, letters, marks);
        write_back(own, desk);
        answer
    }

    pub fn withdraw(table: &Table, desk: &mut [u8], letters: &[u8]) -> Result<u64, Refusal> {
        let mut own = Desk::of_bytes(desk);
        let answer = withdraw_from(table, own.as_mut(), letters);
        write_back(own, desk);
        answer
    }

    fn write_back(own: Option<Desk>, desk: &mut [u8]) {
        if let Some(own) = own {
            desk.copy_from_slice(&own.bytes());
        }
    }
}
