//! concentrator PATTERN PAGES: gathers a tape from pages that arrive newest first, and prints its litres.
//!
//! After each page it asks whether the letters held can be the end of a tape. If not, the page is fetched again at once, and not when the
//! whole tape has come and is refused. The exit status is 0 if the tape is read, 1 if it is refused, and 2 for trouble: a file that cannot be
//! read, a line of pages without a tab, output that cannot be written.

mod output;

use output::{complain, print_all};
use std::ffi::{OsStr, OsString};
use std::fs;
use std::os::unix::ffi::OsStrExt;
use std::process::ExitCode;
use wumbyra::{Desk, Pattern, Refusal};

/// Why there are no litres.
enum Trouble {
    Refused(Refusal),
    Other(Vec<u8>),
}

impl From<Refusal> for Trouble {
    fn from(refusal: Refusal) -> Trouble {
        Trouble::Refused(refusal)
    }
}

fn refused(refusal: Refusal) -> String {
    format!("refused\t{}\t{}\n", refusal.number(), refusal.value())
}

/// Whether no tape of the pattern ends with the letters held: from no line, with flag 1, can they be read. Ask with letters held.
fn is_unreadable(desk: &Desk) -> bool {
    desk.words()[2 * desk.letters().len() + 1] == 0
}

/// A page, and whether its radio check is good, which is known only when all of it has come. Gives what is printed.
fn take(desk: &mut Desk, page: &[u8], good: bool) -> Result<String, Refusal> {
    let held = match desk.put(page) {
        Ok(held) => held,
        Err(refusal) => return Ok(refused(refusal)),
    };
    let mut said = format!("put\t{held}\n");
    if is_unreadable(desk) {
        said += &format!("unreadable\t{held}\n");
    } else if good {
        return Ok(said);
    }
    Ok(said + &format!("withdrawn\t{}\n", desk.withdraw()?))
}

fn put_litres(out: &mut Vec<u8>, desk: &Desk) -> Result<(), Refusal> {
    let parsed = desk.pattern().parse(desk.letters())?;
    let totals = desk.pattern().totals(&parsed.code)?;
    out.extend([b"tape\t", desk.letters(), b"\n"].concat());
    for (account, litres) in totals.iter().enumerate().filter(|(_, &litres)| litres > 0) {
        out.extend(format!("account\t{account}\t{litres}\n").as_bytes());
    }
    Ok(())
}

fn read(path: &OsStr) -> Result<Vec<u8>, Trouble> {
    let words = || Trouble::Other([path.as_bytes(), b" cannot be read"].concat());
    fs::read(path).map_err(|_| words())
}

fn run(pattern: &OsStr, pages: &OsStr, out: &mut Vec<u8>) -> Result<(), Trouble> {
    let (text, pages) = (read(pattern)?, read(pages)?);
    let mut desk = Desk::open(&Pattern::load(&text)?)?;
    // The pages stand in a file here: `good` or `bad`, a tab, and the letters.
    for line in pages.split_inclusive(|&byte| byte == b'\n') {
        let line = line.strip_suffix(b"\n").unwrap_or(line);
        let Some(tab) = line.iter().position(|&byte| byte == b'\t') else {
            return Err(Trouble::Other(b"a line of pages has no tab".to_vec()));
        };
        let said = take(&mut desk, &line[tab + 1..], &line[..tab] == b"good")?;
        out.extend(said.as_bytes());
    }
    Ok(put_litres(out, &desk)?)
}

fn main() -> ExitCode {
    let arguments: Vec<OsString> = std::env::args_os().skip(1).collect();
    let [pattern, pages] = &arguments[..] else {
        return complain(b"usage: concentrator PATTERN PAGES");
    };
    let mut out = Vec::new();
    let status = match run(pattern, pages, &mut out) {
        Ok(()) => 0,
        Err(Trouble::Refused(refusal)) => {
            out.extend(refused(refusal).as_bytes());
            1
        }
        Err(Trouble::Other(words)) => {
            complain(&[b"concentrator: ", &words[..]].concat());
            2
        }
    };
    print_all("concentrator", &out, status)
}
