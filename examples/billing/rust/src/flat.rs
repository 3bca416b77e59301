//! The bill of one flat.

use crate::days;
use crate::fields::{date, fields_of, line_of, reading, Reading};
use crate::stored::{Fault, Stored};
use std::fs;
use std::path::PathBuf;
use wumbyra::{Date, Pattern, Refusal, ACCOUNTS};

/// The term of a bill for the whole tape: all dates there are.
const ALWAYS: [u32; 2] = [20000101, 20991231];

pub struct Bill {
    pub litres: [u32; ACCOUNTS],
    pub warnings: Vec<String>,
}

/// Why a flat has no bill.
pub enum Unbilled {
    Fault(String),
    Refused(Refusal),
    /// The code cannot be stored: this ends the program.
    Store,
}

impl From<Refusal> for Unbilled {
    fn from(why: Refusal) -> Unbilled {
        Unbilled::Refused(why)
    }
}

pub fn fault(words: &str) -> Unbilled {
    Unbilled::Fault(words.to_string())
}

/// The folder of a flat.
pub struct Flat(pub PathBuf);

impl Flat {
    fn path(&self, file: &str) -> PathBuf {
        self.0.join(file)
    }

    /// Also if it is a link to nothing: the file was meant to be there.
    fn has(&self, file: &str) -> bool {
        self.path(file).symlink_metadata().is_ok()
    }

    fn read(&self, file: &str) -> Result<Vec<u8>, Unbilled> {
        fs::read(self.path(file)).map_err(|_| fault(&format!("{file} cannot be read")))
    }

    fn reading(&self) -> Result<Option<Reading>, Unbilled> {
        if !self.has("read.tsv") {
            return Ok(None);
        }
        reading(line_of(&self.read("read.tsv")?)).ok_or_else(|| fault("read.tsv is malformed"))
    }

    /// The first and the last date of the bill; none if the whole tape is billed.
    fn term(&self) -> Result<Option<[u32; 2]>, Unbilled> {
        if !self.has("term.tsv") {
            return Ok(None);
        }
        let file = self.read("term.tsv")?;
        let dates = |[first, last]: [&[u8]; 2]| Some([date(first)?, date(last)?]);
        match fields_of(line_of(&file)).and_then(dates) {
            Some(term) => Ok(Some(term)),
            None => Err(fault("term.tsv is malformed")),
        }
    }

    fn code_of_tape(&self) -> Result<Stored, Unbilled> {
        let (pattern, tape) = (self.read("pattern.tsv")?, self.read("tape.txt")?);
        let reading = self.reading()?;
        Ok(Stored {
            library: wumbyra::version(),
            reading,
            code: Pattern::load(&pattern)?.parse(line_of(&tape))?.code,
            pattern,
        })
    }

    fn stored_code(&self) -> Result<Stored, Unbilled> {
        Stored::of(&self.read("stored.tsv")?).map_err(|why| match why {
            Fault::Damaged => fault("the checksum of stored.tsv is wrong"),
            Fault::Malformed => fault("stored.tsv is malformed"),
        })
    }

    /// The bill by the tape, or by the stored code if there is no tape.
    pub fn bill(&self, store: bool) -> Result<Bill, Unbilled> {
        let from_tape = self.has("tape.txt") || !self.has("stored.tsv");
        let stored = if from_tape {
            self.code_of_tape()?
        } else {
            self.stored_code()?
        };
        let litres = litres_of(&stored, self.term()?)?;
        if store && from_tape {
            fs::write(self.path("stored.tsv"), stored.file()).map_err(|_| Unbilled::Store)?;
        }
        let warnings = warnings_of(&stored)?;
        Ok(Bill { litres, warnings })
    }
}

fn litres_of(stored: &Stored, term: Option<[u32; 2]>) -> Result<[u32; ACCOUNTS], Unbilled> {
    if stored.reading.is_none() && term.is_some() {
        return Err(fault("term.tsv needs the dates of read.tsv"));
    }
    let pattern = Pattern::load(&stored.pattern)?;
    let Some(reading) = &stored.reading else {
        return Ok(pattern.totals(&stored.code)?);
    };
    let [first, last] = term.unwrap_or(ALWAYS).map(parts);
    Ok(pattern.term_totals(&stored.code, parts(reading.start), first, last)?)
}

fn parts(date: u32) -> Date {
    Date {
        year: date / 10_000,
        month: date / 100 % 100,
        day: date % 100,
    }
}

fn warnings_of(stored: &Stored) -> Result<Vec<String>, Refusal> {
    let (then, now) = (stored.library, wumbyra::version());
    let mut warnings = Vec::new();
    if then != now {
        warnings.push(format!(
            "stored by library {then}, read by {now}: its litres may be on other accounts"
        ));
    }
    if let Some(reading) = &stored.reading {
        let tape = Pattern::load(&stored.pattern)?.flatten(&stored.code)?;
        warnings.extend(days::warnings(&tape, reading));
    }
    Ok(warnings)
}
