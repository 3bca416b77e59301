//! A safe interface to the verified reader of water meter tapes.
//!
//! ```
//! let pattern = wumbyra::Pattern::load(b"0\tL\t1\t7\n1\tK\t-\t0\n").unwrap();
//! let parsed = pattern.parse(b"77").unwrap();
//! assert_eq!(parsed.code.bits, 3);
//! assert_eq!(pattern.totals(&parsed).unwrap()[1], 14); // the litres of account 1
//! ```
//!
//! A call that takes a code takes a [`Code`], or the [`Parsed`] that [`Pattern::parse`] gave.
//!
//! The functions that end in `_into` take buffers from the caller and leave in them what include/wumbyra.h says; the others
//! make buffers that suffice. A slice is never null, is aligned, and a `&mut` slice overlaps nothing else, so every rule of the
//! header holds by the types.

#![deny(missing_docs)]
#![deny(clippy::missing_errors_doc)]

mod breaks;
mod calls;
mod desk;
mod faults;
mod refusal;

use calls::Answer;
pub use desk::Desk;
pub use refusal::Refusal;
use std::ops::Range;

/// Letters of a tape at most.
pub const MAX_LETTERS: usize = 3_600;
/// Bytes of a code at most.
pub const MAX_CODE_BYTES: usize = 65_536;
/// Accounts, 0 to 200.
pub const ACCOUNTS: usize = 201;
/// Pages that a desk holds at most.
pub const MAX_PAGES: usize = 30;
/// Letters of a page at most.
pub const MAX_PAGE_LETTERS: usize = 120;
/// Bytes of a desk that is lent: how many pages it holds, then the letters of each.
pub const DESK_BYTES: usize = 1 + MAX_PAGES;

/// The version of the library that is linked: major * 10000 + minor * 100 + patch.
pub fn version() -> u32 {
    calls::version()
}

/// Words that a tape of so many letters takes.
pub const fn words_for(letters: usize) -> usize {
    2 * (letters + 1)
}

/// Bytes that suffice for the code that is written for so many letters, whatever the pattern.
pub const fn code_bytes_for(letters: usize) -> usize {
    17 * letters + 8
}

/// A code: bits, from the highest of each byte on. It is a plain value, and any may be handed over: what is no whole code of the
/// pattern is refused.
///
/// Store a checksum or the tape with each code, and test it before you use the code. [`Refusal::NotACode`] finds some changes of a stored
/// code, not all: with one bit changed in a letter of a range it may be another whole code, with other litres.
#[derive(Clone, Debug, PartialEq, Eq, Hash)]
pub struct Code {
    /// Exactly as many bytes as the bits need; unused bits of the last one are 0.
    pub bytes: Vec<u8>,
    /// How many bits are in use.
    pub bits: u32,
}

impl AsRef<Code> for Code {
    fn as_ref(&self) -> &Code {
        self
    }
}

/// A date: any three numbers, of which those of a day in the years 2000 to 2099 are taken. It is a plain value, and any may be handed
/// over: what is no date is refused. Dates are ordered as days are.
///
/// ```
/// use wumbyra::{Date, Pattern};
///
/// let day = |day| Date { year: 2024, month: 2, day };
/// let pattern = Pattern::load(b"0\tR\t1\t0\t9\n1\tL\t-\tD\n2\tA\t-\t0\t1\n3\tK\t-\t2\n").unwrap();
/// let code = pattern.parse(b"1D2D4").unwrap().code; // a `D` ends a day
/// let litres = pattern.term_totals(&code, day(27), day(28), day(29)).unwrap();
/// assert_eq!(litres[1], 6);
/// ```
#[derive(Clone, Copy, Debug, PartialEq, Eq, PartialOrd, Ord, Hash)]
pub struct Date {
    /// The year, 2000 to 2099.
    pub year: u32,
    /// The month, 1 to 12.
    pub month: u32,
    /// The day of the month, from 1 on.
    pub day: u32,
}

impl Date {
    /// The date as the library takes it, in one number, of which 0 is no date. Greater parts would make the number of another date.
    const fn number(self) -> u32 {
        if self.year > 9_999 || self.month > 99 || self.day > 99 {
            return 0;
        }
        self.year * 10_000 + self.month * 100 + self.day
    }
}

/// What reading a tape gives.
#[derive(Clone, Debug, PartialEq, Eq)]
#[non_exhaustive]
pub struct Parsed {
    /// The code of the preferred parse.
    pub code: Code,
    /// The state sets, two words for each position: bit l of `words[2 * i + b]` says that the letters from position i on can be read
    /// from node l on with flag b.
    pub words: Vec<u64>,
}

impl AsRef<Code> for Parsed {
    fn as_ref(&self) -> &Code {
        &self.code
    }
}

/// Where a tape breaks: what [`Pattern::locate`] gives.
#[derive(Clone, Copy, Debug, PartialEq, Eq, Hash)]
pub struct Located {
    /// The greatest number of letters from the tape's start that begin some tape of the pattern. If it is below the tape's length, the
    /// letter at this position is the first that cannot follow; otherwise the tape is readable or stops too early.
    pub reach: usize,
    /// The least position from which on the letters end some tape of the pattern; the tape's length if none of them do.
    pub resume: usize,
}

/// A pattern text that loads. Each call reads the text again, which takes two microseconds for 64 lines. Patterns are equal if their texts
/// are.
#[derive(Clone, Debug, PartialEq, Eq, Hash)]
pub struct Pattern {
    text: Vec<u8>,
    lines: u32,
}

impl Pattern {
    /// Loads a pattern text.
    ///
    /// # Errors
    ///
    /// Refused with 1 or 2; [`Refusal::explain`] says what is wrong with the line.
    pub fn load(text: &[u8]) -> Result<Pattern, Refusal> {
        let lines = calls::load(text).value()?;
        Ok(Pattern {
            text: text.to_vec(),
            lines,
        })
    }

    /// The number of its nodes.
    pub fn lines(&self) -> u32 {
        self.lines
    }

    /// The text that was loaded.
    pub fn text(&self) -> &[u8] {
        &self.text
    }

    /// Reads a tape: the code of its preferred parse, and the state sets.
    ///
    /// # Errors
    ///
    /// Refused with 3, 4 or 5. [`Refusal::Unreadable`] has where the tape breaks, and [`Refusal::explain_tape`] says it in words.
    pub fn parse(&self, tape: &[u8]) -> Result<Parsed, Refusal> {
        // A longer tape is refused before a buffer is looked at.
        let letters = tape.len().min(MAX_LETTERS);
        let mut words = vec![0; words_for(letters)];
        let mut bytes = vec![0; code_bytes_for(letters)];
        let bits = self.parse_into(tape, &mut words, &mut bytes)?;
        Ok(Parsed {
            code: code_of(bytes, bits),
            words,
        })
    }

    /// The bit count; words and code are left in the buffers.
    ///
    /// # Errors
    ///
    /// Refused with 3, 4, 6, 5 or 7. As many cells as [`words_for`] and [`code_bytes_for`] give suffice. If it is 5, the tape is located,
    /// which takes about as long as a parse.
    pub fn parse_into(
        &self,
        tape: &[u8],
        words: &mut [u64],
        code: &mut [u8],
    ) -> Result<u32, Refusal> {
        calls::parse(&self.text, tape, words, code)
            .value()
            .map_err(|refusal| refusal.located(|| self.locate(tape)))
    }

    /// Where a tape breaks: how many of its first letters begin some tape of the pattern, and from which position on its letters end one.
    /// Of a tape that can be read they are its length and 0. A tape that is refused with 5 may have the same, so ask
    /// [`parse`](Pattern::parse) whether it can be read.
    ///
    /// ```
    /// use wumbyra::{Located, Pattern};
    ///
    /// let pattern = Pattern::load(b"0\tR\t1\t0\t9\n1\tK\t-\t0\n").unwrap();
    /// let located = pattern.locate(b"35xx2").unwrap();
    /// assert_eq!(located, Located { reach: 2, resume: 4 }); // the first x cannot follow, and the 2 can be read
    /// ```
    ///
    /// # Errors
    ///
    /// Refused with 3 or 4.
    pub fn locate(&self, tape: &[u8]) -> Result<Located, Refusal> {
        let value = calls::locate(&self.text, tape).value()?;
        let (reach, resume) = ((value >> 16) as usize, (value & 0xffff) as usize);
        Ok(Located { reach, resume })
    }

    /// The letters that a code spells.
    ///
    /// # Errors
    ///
    /// Refused with 8 or 3.
    pub fn flatten(&self, code: &impl AsRef<Code>) -> Result<Vec<u8>, Refusal> {
        let mut tape = vec![0; MAX_LETTERS];
        let letters = self.flatten_into(code, &mut tape)?;
        tape.truncate(letters as usize);
        Ok(tape)
    }

    /// The number of letters; they are left at the front of the buffer.
    ///
    /// # Errors
    ///
    /// Refused with 8, 3 or 9. [`MAX_LETTERS`] cells suffice.
    pub fn flatten_into(&self, code: &impl AsRef<Code>, tape: &mut [u8]) -> Result<u32, Refusal> {
        let code = code.as_ref();
        calls::flatten(&self.text, &code.bytes, code.bits, tape).value()
    }

    /// The canonical code of what a code spells: equal for two codes exactly if they spell the same tape.
    ///
    /// # Errors
    ///
    /// Refused with 8 or 3.
    pub fn canonicalize(&self, code: &impl AsRef<Code>) -> Result<Code, Refusal> {
        // How many letters there are is not known before; room for all is cheaper than another walk over the code.
        let mut tape = vec![0; MAX_LETTERS];
        let mut words = vec![0; words_for(MAX_LETTERS)];
        let mut bytes = vec![0; code_bytes_for(MAX_LETTERS)];
        let bits = self.canonicalize_into(code, &mut tape, &mut words, &mut bytes)?;
        Ok(code_of(bytes, bits))
    }

    /// The bit count; letters, words and canonical code are left in the buffers.
    ///
    /// # Errors
    ///
    /// Refused with 8, 3, 9, 6 or 7.
    pub fn canonicalize_into(
        &self,
        code: &impl AsRef<Code>,
        tape: &mut [u8],
        words: &mut [u64],
        canonical: &mut [u8],
    ) -> Result<u32, Refusal> {
        let code = code.as_ref();
        calls::canonicalize(&self.text, &code.bytes, code.bits, tape, words, canonical).value()
    }

    /// Where the piece of the tape lies that a visit of a node covers, visits counted from 0.
    ///
    /// # Errors
    ///
    /// Refused with 3, 4, 8 or 10.
    pub fn span(
        &self,
        tape: &[u8],
        code: &impl AsRef<Code>,
        node: u32,
        visit: u32,
    ) -> Result<Range<usize>, Refusal> {
        let code = code.as_ref();
        let value = calls::span(&self.text, tape, &code.bytes, code.bits, node, visit).value()?;
        let (start, length) = ((value >> 16) as usize, (value & 0xffff) as usize);
        Ok(start..start + length)
    }

    /// The piece itself.
    ///
    /// Read by the pattern made of the node and all below it, places counted afresh, it has the bits that the whole tape's code has for this
    /// visit. Its totals may differ: accounts above the node are not in that pattern.
    ///
    /// # Errors
    ///
    /// Refused as [`span`](Pattern::span) is.
    pub fn piece<'a>(
        &self,
        tape: &'a [u8],
        code: &impl AsRef<Code>,
        node: u32,
        visit: u32,
    ) -> Result<&'a [u8], Refusal> {
        Ok(&tape[self.span(tape, code, node, visit)?])
    }

    /// The litres of an account; 0 for an account above 200.
    ///
    /// # Errors
    ///
    /// Refused with 8 or 3.
    pub fn total(&self, code: &impl AsRef<Code>, account: u32) -> Result<u32, Refusal> {
        let code = code.as_ref();
        calls::total(&self.text, &code.bytes, code.bits, account).value()
    }

    /// The litres of accounts 0 to 200, by one pass over the code.
    ///
    /// # Errors
    ///
    /// Refused with 8 or 3.
    pub fn totals(&self, code: &impl AsRef<Code>) -> Result<[u32; ACCOUNTS], Refusal> {
        let mut litres = [0; ACCOUNTS];
        self.totals_into(code, &mut litres)?;
        Ok(litres)
    }

    /// As many totals from account 0 on as there are cells, at most `ACCOUNTS`, are left in the buffer; they are 0 at a refusal.
    /// Cells after them are left as they were.
    ///
    /// # Errors
    ///
    /// Refused with 8 or 3, or with 20 if an account that has no cell has litres. With `ACCOUNTS` cells 20 does not occur.
    pub fn totals_into(&self, code: &impl AsRef<Code>, litres: &mut [u32]) -> Result<(), Refusal> {
        let code = code.as_ref();
        calls::totals(&self.text, &code.bytes, code.bits, litres).value()?;
        Ok(())
    }

    /// The litres of accounts 0 to 200 within a term: those of the letters that are dated from `first` to `last`, both included. `start`
    /// is the date of the tape's first letter, and each `D` ends a day.
    ///
    /// # Errors
    ///
    /// Refused with 8, 3, 11 or 12.
    pub fn term_totals(
        &self,
        code: &impl AsRef<Code>,
        start: Date,
        first: Date,
        last: Date,
    ) -> Result<[u32; ACCOUNTS], Refusal> {
        let mut litres = [0; ACCOUNTS];
        self.term_totals_into(code, start, first, last, &mut litres)?;
        Ok(litres)
    }

    /// As many totals of the term as `totals_into` leaves are left in the buffer; they are 0 at a refusal. Cells after them are left
    /// as they were.
    ///
    /// # Errors
    ///
    /// Refused with 8, 3, 11 or 12, or with 20 if an account that has no cell has litres within the term.
    pub fn term_totals_into(
        &self,
        code: &impl AsRef<Code>,
        start: Date,
        first: Date,
        last: Date,
        litres: &mut [u32],
    ) -> Result<(), Refusal> {
        let code = code.as_ref();
        let [start, first, last] = [start, first, last].map(Date::number);
        calls::term_totals(
            &self.text,
            &code.bytes,
            code.bits,
            start,
            first,
            last,
            litres,
        )
        .value()?;
        Ok(())
    }

    /// Opens a desk that is lent, whatever its `DESK_BYTES` bytes hold, and writes the two words of the tape's end. [`Desk`] has buffers
    /// of its own.
    ///
    /// # Errors
    ///
    /// Refused with 6 or 13.
    pub fn desk_open_into(&self, desk: &mut [u8], words: &mut [u64]) -> Result<(), Refusal> {
        calls::desk_open(&self.text, desk, words).value()?;
        Ok(())
    }

    /// Puts a page before the letters held, against the end of the first `MAX_LETTERS` cells, and writes its words: the letters held
    /// then.
    ///
    /// # Errors
    ///
    /// Refused with 9, 13, 14, 4 or 6, and then all is left as it was. 4 is [`Refusal::TapeByte`], with a position in the page.
    pub fn desk_put_into(
        &self,
        desk: &mut [u8],
        page: &[u8],
        letters: &mut [u8],
        words: &mut [u64],
    ) -> Result<u32, Refusal> {
        calls::desk_put(&self.text, desk, page, letters, words)
            .value()
            .map_err(Refusal::of_page)
    }

    /// Withdraws the last page put: the letters held then.
    ///
    /// # Errors
    ///
    /// Refused with 9, 13 or 15, and then the desk is left as it was.
    pub fn desk_withdraw_into(&self, desk: &mut [u8], letters: &[u8]) -> Result<u32, Refusal> {
        calls::desk_withdraw(&self.text, desk, letters).value()
    }
}

fn code_of(mut bytes: Vec<u8>, bits: u32) -> Code {
    bytes.truncate(bits.div_ceil(8) as usize);
    Code { bytes, bits }
}

impl Answer {
    fn value(self) -> Result<u32, Refusal> {
        let (number, value) = ((self.0 >> 32) as u32, self.0 as u32);
        match Refusal::of(number, value) {
            None => Ok(value),
            Some(refusal) => Err(refusal),
        }
    }
}
