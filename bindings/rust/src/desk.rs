//! A page desk with buffers of its own.

use crate::{words_for, Pattern, Refusal, DESK_BYTES, MAX_LETTERS};

/// A page desk: a tape that is gathered in pages which arrive newest first. It has a pattern and buffers of its own, so that every
/// buffer suffices and the words are always those of the letters held.
///
/// ```
/// use wumbyra::{Desk, Pattern};
///
/// let pattern = Pattern::load(b"0\tR\t1\t0\t9\n1\tK\t-\t0\n").unwrap();
/// let mut desk = Desk::open(&pattern).unwrap();
/// desk.put(b"52").unwrap(); // the latest letters come first
/// desk.put(b"99").unwrap();
/// desk.withdraw().unwrap(); // a page with a bad radio check
/// assert_eq!(desk.put(b"3").unwrap(), 3);
/// assert_eq!(desk.letters(), b"352");
/// assert_eq!(pattern.parse(desk.letters()).unwrap().code.bits, 28);
/// ```
#[derive(Clone, Debug, PartialEq, Eq)]
pub struct Desk {
    pattern: Pattern,
    desk: [u8; DESK_BYTES],
    letters: Vec<u8>,
    words: Vec<u64>,
    held: usize,
}

impl Desk {
    /// A desk that holds no page.
    ///
    /// # Errors
    ///
    /// Nothing is refused: the pattern loads and the buffers suffice.
    pub fn open(pattern: &Pattern) -> Result<Desk, Refusal> {
        let mut desk = Desk {
            pattern: pattern.clone(),
            desk: [0; DESK_BYTES],
            letters: vec![0; MAX_LETTERS],
            words: vec![0; words_for(MAX_LETTERS)],
            held: 0,
        };
        desk.reopen()?;
        Ok(desk)
    }

    /// Opens it again: it holds no page then.
    ///
    /// # Errors
    ///
    /// Nothing is refused, as in [`open`](Desk::open).
    pub fn reopen(&mut self) -> Result<(), Refusal> {
        self.pattern
            .desk_open_into(&mut self.desk, &mut self.words)?;
        self.held = 0;
        Ok(())
    }

    /// Puts a page before the letters held: how many letters are held then.
    ///
    /// # Errors
    ///
    /// Refused with 13, 14 or 4, and then nothing changes. 4 is [`Refusal::TapeByte`], with a position in the page.
    pub fn put(&mut self, page: &[u8]) -> Result<usize, Refusal> {
        let held =
            self.pattern
                .desk_put_into(&mut self.desk, page, &mut self.letters, &mut self.words)?;
        self.held = held as usize;
        Ok(self.held)
    }

    /// Withdraws the last page put: how many letters are held then.
    ///
    /// # Errors
    ///
    /// Refused with 15, and then nothing changes.
    pub fn withdraw(&mut self) -> Result<usize, Refusal> {
        let held = self
            .pattern
            .desk_withdraw_into(&mut self.desk, &self.letters)?;
        self.held = held as usize;
        Ok(self.held)
    }

    /// The pattern that it was opened with.
    pub fn pattern(&self) -> &Pattern {
        &self.pattern
    }

    /// The letters held, the last page put first: a tape.
    pub fn letters(&self) -> &[u8] {
        &self.letters[MAX_LETTERS - self.held..]
    }

    /// The pages held, the last put first.
    pub fn pages(&self) -> Vec<&[u8]> {
        let (count, lengths) = (usize::from(self.desk[0]), &self.desk[1..]);
        let mut rest = self.letters();
        let mut pages = Vec::with_capacity(count);
        for &length in lengths[..count].iter().rev() {
            let (page, behind) = rest.split_at(usize::from(length));
            pages.push(page);
            rest = behind;
        }
        pages
    }

    /// The words of the letters held, counted from the tape's end: `words()[2 * j + b]` is for the last j letters, and is what
    /// `Parsed::words` of these n letters has at 2 * (n - j) + b.
    pub fn words(&self) -> &[u64] {
        &self.words[..words_for(self.held)]
    }
}
