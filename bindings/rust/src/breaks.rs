//! Where a tape breaks, in the words of the command tapelist.
//!
//! The words help a person; the two positions are the library's. bin/tapelist has the same in awk, and adds if no line of the pattern takes
//! the letter. The Python package has them in `_breaks.py`. tests/tapelist/breaks.tsv holds the three together.

/// So many letters are shown before and after the one at which a tape breaks.
const AROUND: usize = 8;

/// Why a tape with this reach and this resume is refused with 5. Any tape and any positions may be handed over.
pub fn words(tape: &[u8], reach: usize, resume: usize) -> String {
    let (reach, resume) = (reach.min(tape.len()), resume.min(tape.len()));
    if tape.is_empty() {
        return "the tape stops too early: it has no letter".to_owned();
    }
    let mark = if reach < 3 && tape.starts_with(b"\xef\xbb\xbf") {
        "; it begins with a byte order mark"
    } else {
        ""
    };
    format!("{}{}{mark}", front(tape, reach), rest(tape, resume))
}

/// Letters as words show them: one outside ASCII by its number.
fn shown(letters: &[u8]) -> String {
    let mut shown = String::new();
    for &letter in letters {
        match letter {
            33..=126 => shown.push(letter.into()),
            _ => shown += &format!("<{letter}>"),
        }
    }
    shown
}

/// What is wrong, seen from the tape's start.
fn front(tape: &[u8], reach: usize) -> String {
    let first = reach.saturating_sub(AROUND);
    let dots = |cut| if cut { "..." } else { "" };
    let before = format!("{}{}", dots(first > 0), shown(&tape[first..reach]));
    let Some((&letter, behind)) = tape[reach..].split_first() else {
        return format!("the tape stops too early, after {before}");
    };
    let letter = shown(&[letter]);
    let fault = if reach == 0 { "come first" } else { "follow" };
    let after = format!(
        "{}{}",
        shown(&behind[..behind.len().min(AROUND)]),
        dots(behind.len() > AROUND)
    );
    format!("the letter {letter} at position {reach} cannot {fault}, in {before}[{letter}]{after}")
}

/// What can be read, seen from the tape's end.
fn rest(tape: &[u8], resume: usize) -> String {
    if resume == tape.len() {
        return "; its last letter cannot end a tape".to_owned();
    }
    if resume == 0 {
        return "; all of it can end a longer tape: are its first letters missing?".to_owned();
    }
    format!("; from position {resume} on the rest can be read")
}
