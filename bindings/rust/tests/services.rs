//! The worked examples of the scope, each refusal with what is left in the buffers, what is wrong with a line, where a tape breaks, terms,
//! page desks, and the version.

use std::collections::HashSet;
use wumbyra::{
    code_bytes_for, version, words_for, Code, Date, Desk, Located, Pattern, Refusal, ACCOUNTS,
    DESK_BYTES, MAX_LETTERS, MAX_PAGES, MAX_PAGE_LETTERS,
};

const HEADER: &str = include_str!("../../../include/wumbyra.h");
const FAULTS: &str = include_str!("../../../tests/tapelist/faults.tsv");
const BREAKS: &str = include_str!("../../../tests/tapelist/breaks.tsv");

const LISTING: &[u8] =
    b"0\tR\t-\t0\t9\n1\tL\t-\tW\n2\tS\t9\t1\t0\n3\tR\t1\t0\t9\n4\tA\t-\t2\t3\n5\tK\t-\t4\n";
const P1: &[u8] = b"0\tL\t-\ta\n1\tE\t-\n2\tA\t-\t0\t1\n3\tK\t-\t2\n";
const P2: &[u8] = b"0\tE\t-\n1\tL\t-\ta\n2\tA\t-\t0\t1\n3\tK\t-\t2\n";
const P3: &[u8] = b"0\tL\t-\ta\n1\tK\t-\t0\n2\tL\t-\tb\n3\tK\t-\t2\n4\tS\t-\t1\t3\n5\tK\t-\t4\n";
const P4: &[u8] = b"0\tL\t-\ta\n1\tL\t-\ta\n2\tL\t-\tb\n3\tS\t-\t1\t2\n4\tA\t-\t0\t3\n5\tL\t-\tb\n6\tE\t-\n7\tA\t-\t5\t6\n8\tS\t-\t4\t7\n";
const P5: &[u8] = b"0\tL\t-\ta\n1\tK\t-\t0\n2\tL\t-\ta\n3\tS\t-\t1\t2\n";
/// Digits for account 1, `W` and a digit for account 9, and `D`, which ends a day.
const DAYS: &[u8] = b"0\tR\t-\t0\t9\n1\tL\t-\tW\n2\tS\t9\t1\t0\n3\tR\t1\t0\t9\n4\tL\t-\tD\n5\tA\t-\t3\t4\n6\tA\t-\t2\t5\n7\tK\t-\t6\n";

fn pattern(text: &[u8]) -> Pattern {
    Pattern::load(text).expect("a good pattern")
}

/// A code of bits written as 0 and 1.
fn code(bits: &str) -> Code {
    let mut bytes = vec![0; bits.len().div_ceil(8)];
    for (at, _) in bits.bytes().enumerate().filter(|(_, bit)| *bit == b'1') {
        bytes[at / 8] |= 0x80 >> (at % 8);
    }
    Code {
        bytes,
        bits: bits.len() as u32,
    }
}

#[test]
fn tapes_to_try() {
    for (text, tape, bits) in [
        (P1, "", "1"),
        (P1, "a", "001"),
        (P2, "a", "011"),
        (P3, "ab", "001011"),
        (P3, "ba", "010100111"),
        (P4, "ab", "00"),
        (P4, "abb", "10"),
        (P5, "aa", "01"),
    ] {
        let parsed = pattern(text).parse(tape.as_bytes()).expect("it is read");
        assert_eq!(parsed.code, code(bits));
        assert_eq!(
            pattern(text).flatten(&parsed.code).as_deref(),
            Ok(tape.as_bytes())
        );
    }
    let unreadable = Refusal::Unreadable {
        reach: 0,
        resume: 0,
    };
    assert_eq!(pattern(P5).parse(b""), Err(unreadable));
    assert_eq!((unreadable.number(), unreadable.value()), (5, 0));
    assert_eq!(pattern(P4).canonicalize(&code("11")), Ok(code("00")));
    assert_eq!(pattern(P1).canonicalize(&code("011")), Ok(code("1")));
    assert_eq!(pattern(P1).canonicalize(&code("01001")), Ok(code("001")));
}

/// A star over a lazy star: the lazy star prefers to stop, and must take a letter first, since no round of the star is empty.
#[test]
fn a_lazy_star() {
    let lazy = pattern(b"0\tL\t-\ta\n1\tZ\t-\t0\n2\tK\t-\t1\n");
    assert_eq!(lazy.lines(), 3);
    let parsed = lazy.parse(b"a").expect("it is read");
    assert_eq!((&parsed.code.bytes[..], parsed.code.bits), (&[0x50][..], 4));
    assert_eq!(lazy.flatten(&parsed.code).as_deref(), Ok(&b"a"[..]));
    assert_eq!(lazy.canonicalize(&parsed.code), Ok(code("0101")));
    // Two letters in one round, and an empty round.
    assert_eq!(lazy.canonicalize(&code("01101")), Ok(code("0100101")));
    assert_eq!(lazy.canonicalize(&code("001")), Ok(code("1")));
    assert_eq!(
        Pattern::load(b"0\tE\t-\n1\tz\t-\t0\n"),
        Err(Refusal::LineForm { line: 1 })
    );
}

/// Letters of the hot side, and a range across the gap, whose bytes 127 to 160 are no letters. Byte 185, a 9 with the highest bit set, is
/// no litre.
#[test]
fn hot_letters() {
    let hot = pattern(b"0\tL\t2\t\xa1\n1\tR\t1\t0\t\xb9\n2\tA\t-\t0\t1\n3\tK\t-\t2\n");
    let tape = b"\xa17\xb9";
    let read = hot.parse(tape).expect("it is read").code;
    assert_eq!(read, code("00010011011101101110011"));
    assert_eq!(hot.flatten(&read).as_deref(), Ok(&tape[..]));
    assert_eq!(hot.canonicalize(&read).as_ref(), Ok(&read));
    assert_eq!(hot.piece(tape, &read, 0, 0), Ok(&b"\xa1"[..]));
    assert_eq!(hot.piece(tape, &read, 1, 1), Ok(&b"\xb9"[..]));
    assert_eq!(hot.totals(&read), Ok(litres(7, 0)));
    for byte in [32, 127, 128, 160, 255] {
        let refused = Err(Refusal::TapeByte {
            position: 1,
            in_page: false,
        });
        assert_eq!(hot.parse(&[b'7', byte]), refused);
        let named = code(&format!("01{byte:08b}1"));
        assert_eq!(hot.flatten(&named), Err(Refusal::NotACode));
        let line = [&b"0\tR\t-\t!\t"[..], &[byte], b"\n"].concat();
        assert_eq!(Pattern::load(&line), Err(Refusal::LineForm { line: 0 }));
    }
    // In UTF-8 an umlaut is two bytes: two letters of a tape, and none for a field.
    assert!(pattern(b"0\tR\t-\t!\t\xfe\n1\tK\t-\t0\n")
        .parse("ä".as_bytes())
        .is_ok());
    let umlaut = Pattern::load("0\tL\t-\tä\n".as_bytes());
    assert_eq!(umlaut, Err(Refusal::LineForm { line: 0 }));
    assert_eq!(pattern(b"0\tR\t-\t~\t\xa1\n").lines(), 1);
}

#[test]
fn a_whole_listing() {
    let listing = pattern(LISTING);
    assert_eq!(listing.lines(), 6);
    let parsed = listing.parse(b"3W2").expect("it is read");
    assert_eq!(parsed.code.bits, 21);
    assert_eq!(parsed.code.bytes, [0x4c, 0xc3, 0x28]);
    let open: Vec<u32> = parsed
        .words
        .chunks(2)
        .map(|two| two[1].count_ones())
        .collect();
    assert_eq!(open, [4, 4, 4, 1]);
    assert_eq!(listing.totals(&parsed.code), Ok(litres(3, 2)));
    assert_eq!(listing.total(&parsed.code, 10), Ok(0));
    assert_eq!(listing.span(b"3W2", &parsed.code, 2, 0), Ok(1..3));
    assert_eq!(listing.piece(b"3W2", &parsed.code, 4, 1), Ok(&b"W2"[..]));
}

#[test]
fn refusals() {
    assert_eq!(Pattern::load(b""), Err(Refusal::LineForm { line: 0 }));
    assert_eq!(
        Pattern::load(b"0\tE\t-\n1\tK\t-\t1\n"),
        Err(Refusal::Tree { line: 1 })
    );
    let p1 = pattern(P1);
    assert_eq!(p1.parse(&[b'a'; 3_601]), Err(Refusal::TapeTooLong));
    assert_eq!(
        p1.parse(b"aa a"),
        Err(Refusal::TapeByte {
            position: 2,
            in_page: false
        })
    );
    assert_eq!(p1.flatten(&code("0")), Err(Refusal::NotACode));
    assert_eq!(p1.span(b"aa", &code("001"), 0, 0), Err(Refusal::NotACode));
    assert_eq!(p1.span(b"a", &code("001"), 0, 1), Err(Refusal::NoSuchVisit));
    assert_eq!(Refusal::NoSuchVisit.number(), 10);
    assert_eq!((Refusal::CodeTooShort { needed: 3 }).value(), 3);
    let words = Refusal::TapeByte {
        position: 17,
        in_page: false,
    }
    .to_string();
    assert_eq!(words, "the byte at position 17 of the tape is no letter");
    assert!(p1.parse(&[b'a'; 3_600]).is_ok());
}

#[test]
fn buffers_that_are_one_short_are_left_as_they_were() {
    let p1 = pattern(P1);
    let tape = [b'a'; 8];
    let (mut words, mut code) = ([7; 19], [7; 4]);
    assert_eq!(
        p1.parse_into(&tape, &mut words[..17], &mut code),
        Err(Refusal::WordsTooShort { needed: 18 })
    );
    assert_eq!(words, [7; 19]);
    assert_eq!(
        p1.parse_into(&tape, &mut words, &mut code[..2]),
        Err(Refusal::CodeTooShort { needed: 3 })
    );
    assert_eq!((words[18], code), (7, [7; 4]));
    assert_eq!(
        p1.parse_into(&tape, &mut words[..18], &mut code[..3]),
        Ok(17)
    );
    assert_eq!(code, [0, 0, 0x80, 7]);
    let read = Code {
        bytes: code[..3].to_vec(),
        bits: 17,
    };
    let mut letters = [7; 9];
    assert_eq!(
        p1.flatten_into(&read, &mut letters[..7]),
        Err(Refusal::TapeTooShort { needed: 8 })
    );
    assert_eq!(letters, [7; 9]);
    assert_eq!(
        p1.canonicalize_into(&read, &mut letters, &mut [0; 17], &mut [0; 3]),
        Err(Refusal::WordsTooShort { needed: 18 })
    );
    assert_eq!(letters, *b"aaaaaaaa\x07");
}

#[test]
fn totals_in_any_number_of_cells() {
    let listing = pattern(LISTING);
    let read = listing.parse(b"3W2").expect("it is read").code;
    let expected = litres(3, 2);
    for cells in 0..=ROOM {
        let mut lent = [77; ROOM];
        let (answer, due) = if cells > 9 {
            (Ok(()), expected)
        } else {
            (Err(Refusal::CellsTooFew), [0; ACCOUNTS]) // account 9 has litres, and no cell
        };
        assert_eq!(listing.totals_into(&read, &mut lent[..cells]), answer);
        let written = cells.min(ACCOUNTS);
        assert_eq!(lent[..written], due[..written]);
        assert_eq!(lent[written..], [77; ROOM][written..]);
    }
    assert_eq!(Refusal::CellsTooFew.number(), 20);
    assert_eq!(Refusal::CellsTooFew.value(), 0);
    for (account, total) in (0..).zip(expected) {
        assert_eq!(listing.total(&read, account), Ok(total));
    }
    assert_eq!(listing.total(&read, ACCOUNTS as u32), Ok(0));
}

#[test]
fn refused_totals_are_zeros() {
    let listing = pattern(LISTING);
    for (cells, written) in [(0, 0), (4, 4), (10, 10), (201, 201), (203, 201)] {
        let mut litres = [77; ROOM];
        assert_eq!(
            listing.totals_into(&code("0"), &mut litres[..cells]),
            Err(Refusal::NotACode)
        );
        assert_eq!(litres[..written], [0; ROOM][..written]);
        assert_eq!(litres[written..], [77; ROOM][written..]);
    }
    assert_eq!(listing.totals(&code("0")), Err(Refusal::NotACode));
    let long = Code {
        bytes: [vec![0; 450], vec![0x40]].concat(),
        bits: 3_602,
    };
    let star = pattern(b"0\tL\t4\t7\n1\tK\t-\t0\n");
    assert_eq!(star.totals(&long), Err(Refusal::TapeTooLong));
}

fn date(year: u32, month: u32, day: u32) -> Date {
    Date { year, month, day }
}

/// Cells for totals, of which the last ones are behind the last account.
const ROOM: usize = ACCOUNTS + 3;

/// All totals: those of these accounts, and 0 for the others.
fn some_litres(some: &[(usize, u32)]) -> [u32; ACCOUNTS] {
    let mut all = [0; ACCOUNTS];
    for &(account, litres) in some {
        all[account] += litres;
    }
    all
}

fn litres(first: u32, ninth: u32) -> [u32; ACCOUNTS] {
    some_litres(&[(1, first), (9, ninth)])
}

/// Four days from 27 February 2024 on, and terms inside, across and outside them.
#[test]
fn terms() {
    let days = pattern(DAYS);
    let read = days.parse(b"1D2W3DD4").expect("it is read").code;
    let start = date(2024, 2, 27);
    for (first, last, due) in [
        (start, start, litres(1, 0)),
        (date(2024, 2, 28), date(2024, 2, 28), litres(2, 3)),
        (date(2024, 2, 29), date(2024, 2, 29), litres(0, 0)),
        (date(2024, 3, 1), date(2024, 3, 1), litres(4, 0)),
        (start, date(2024, 2, 28), litres(3, 3)),
        (date(2024, 2, 28), date(2024, 3, 1), litres(6, 3)),
        (date(2000, 1, 1), date(2099, 12, 31), litres(7, 3)),
        (date(2000, 1, 1), date(2024, 2, 26), litres(0, 0)),
        (date(2024, 3, 2), date(2099, 12, 31), litres(0, 0)),
    ] {
        assert!(first <= last);
        assert_eq!(days.term_totals(&read, start, first, last), Ok(due));
    }
    assert_eq!(days.totals(&read), Ok(litres(7, 3)));
    // Of a year without a leap day the fourth day is another one.
    let (before, march) = (date(2023, 2, 27), date(2023, 3, 2));
    assert_eq!(
        days.term_totals(&read, before, march, march),
        Ok(litres(4, 0))
    );
}

/// Litres under a node of account 9 go there, though account 4 is nearer to them; the 7 stands beside it and goes to account 3.
#[test]
fn stale_litres() {
    let stale = pattern(b"0\tR\t4\t0\t9\n1\tK\t9\t0\n2\tL\t-\t7\n3\tS\t3\t1\t2\n");
    let read = stale.parse(b"567").expect("it is read").code;
    assert_eq!(read, code("0001101010001101101"));
    let due = Ok(some_litres(&[(3, 7), (9, 11)]));
    assert_eq!(stale.totals(&read), due);
    assert_eq!(stale.total(&read, 9), Ok(11));
    let day = date(2024, 2, 29);
    assert_eq!(stale.term_totals(&read, day, day, day), due);
}

/// Each account has litres of its own, and only 9 takes those of a line below it.
#[test]
fn accounts_to_200() {
    assert_eq!(ACCOUNTS, 201);
    let day = date(2024, 2, 29);
    for account in 1..ACCOUNTS {
        let text = format!("0\tL\t{account}\t5\n1\tL\t3\t7\n2\tK\t{account}\t1\n3\tS\t-\t0\t2\n");
        let block = pattern(text.as_bytes());
        let read = block.parse(b"577").expect("it is read").code;
        let below = if account == 9 { 9 } else { 3 };
        let due = some_litres(&[(account, 5), (below, 14)]);
        assert_eq!(block.totals(&read), Ok(due));
        assert_eq!(block.term_totals(&read, day, day, day), Ok(due));
        assert_eq!(block.total(&read, account as u32), Ok(due[account]));
        for none in [201, 256 + account as u32, u32::MAX] {
            assert_eq!(block.total(&read, none), Ok(0));
        }
    }
}

#[test]
fn account_fields() {
    let text = |field: &str| format!("0\tE\t-\n1\tK\t{field}\t0\n");
    for field in ["-", "1", "9", "10", "99", "100", "109", "199", "200"] {
        let loaded = Pattern::load(text(field).as_bytes());
        assert_eq!(loaded.map(|pattern| pattern.lines()), Ok(2), "{field}");
    }
    for field in [
        "", "0", "00", "01", "09", "010", "020", "201", "209", "256", "265", "1000", "+9", "-9",
        "9-", " 9", "9 ", "--",
    ] {
        let loaded = Pattern::load(text(field).as_bytes());
        assert_eq!(loaded, Err(Refusal::LineForm { line: 1 }), "{field}");
    }
}

#[test]
fn refused_dates() {
    let days = pattern(DAYS);
    let read = days.parse(b"1D2").expect("it is read").code;
    let good = date(2024, 2, 29);
    for none in [
        date(0, 0, 0),
        date(2024, 0, 1),
        date(2024, 13, 1),
        date(2024, 1, 0),
        date(2024, 1, 32),
        date(2023, 2, 29),
        date(2024, 2, 30),
        date(1999, 12, 31),
        date(2100, 1, 1),
        // As one number each of these would be another date's, or past 32 bits.
        date(2024, 1, 129),
        date(2024, 0, 10_101),
        date(2023, 101, 1),
        date(2024, 112, 31),
        date(431_520, 75, 25),
        date(u32::MAX, 1, 1),
        date(2024, u32::MAX, 1),
        date(2024, 1, u32::MAX),
    ] {
        let undated = Err(Refusal::TapeUndated);
        assert_eq!(days.term_totals(&read, none, good, good), undated);
        assert_eq!(days.term_totals(&read, none, none, none), undated);
        let no_term = Err(Refusal::NotATerm);
        assert_eq!(days.term_totals(&read, good, none, good), no_term);
        assert_eq!(days.term_totals(&read, good, good, none), no_term);
        // A tape of no letters has a start all the same, and a code comes before it.
        let empty = code("1");
        assert_eq!(days.term_totals(&empty, none, good, good), undated);
        assert_eq!(
            days.term_totals(&code("0"), none, none, none),
            Err(Refusal::NotACode)
        );
    }
    assert_eq!(
        days.term_totals(&read, good, good, date(2024, 2, 28)),
        Err(Refusal::NotATerm)
    );
    assert_eq!(
        (Refusal::TapeUndated.number(), Refusal::NotATerm.number()),
        (11, 12)
    );
    assert_eq!(
        (Refusal::TapeUndated.value(), Refusal::NotATerm.value()),
        (0, 0)
    );
    let words = Refusal::NotATerm.to_string();
    assert_eq!(
        words,
        "the term's first or last date is none, or the last is before the first"
    );
}

/// The last `D` of 2099 has a date, and a letter behind it has none, whatever the term.
#[test]
fn the_end_of_2099() {
    let days = pattern(DAYS);
    let last = date(2099, 12, 31);
    let closed = days.parse(b"1D").expect("it is read").code;
    assert_eq!(
        days.term_totals(&closed, last, last, last),
        Ok(litres(1, 0))
    );
    for tape in [&b"1D2"[..], b"1DD"] {
        let past = days.parse(tape).expect("it is read").code;
        let early = date(2024, 1, 1);
        for (first, last) in [(last, last), (early, early), (last, early)] {
            assert_eq!(
                days.term_totals(&past, date(2099, 12, 31), first, last),
                Err(Refusal::TapeUndated)
            );
        }
    }
    let long = Code {
        bytes: [vec![0; 450], vec![0x40]].concat(),
        bits: 3_602,
    };
    let star = pattern(b"0\tL\t4\tD\n1\tK\t-\t0\n");
    let none = date(0, 0, 0);
    assert_eq!(
        star.term_totals(&long, none, none, none),
        Err(Refusal::TapeTooLong)
    );
}

#[test]
fn terms_in_any_number_of_cells() {
    let days = pattern(DAYS);
    let read = days.parse(b"1D2W3").expect("it is read").code;
    let (start, next) = (date(2024, 12, 31), date(2025, 1, 1));
    for cells in 0..=ROOM {
        let written = cells.min(ACCOUNTS);
        let mut into = [77; ROOM];
        let (answer, due) = if cells > 9 {
            (Ok(()), litres(2, 3))
        } else {
            (Err(Refusal::CellsTooFew), litres(0, 0))
        };
        assert_eq!(
            days.term_totals_into(&read, start, next, next, &mut into[..cells]),
            answer
        );
        assert_eq!(into[..written], due[..written]);
        assert_eq!(into[written..], [77; ROOM][written..]);
        // The first day has a litre of account 1 alone, so two cells suffice for it.
        let answer = days.term_totals_into(&read, start, start, start, &mut into[..cells]);
        assert_eq!(answer.is_ok(), cells > 1);
        into = [77; ROOM];
        assert_eq!(
            days.term_totals_into(&read, start, next, start, &mut into[..cells]),
            Err(Refusal::NotATerm)
        );
        assert_eq!(into[..written], [0; ROOM][..written]);
        assert_eq!(into[written..], [77; ROOM][written..]);
    }
}

/// The words of a parse, counted from the tape's end.
fn turned(words: &[u64]) -> Vec<u64> {
    words.chunks(2).rev().flatten().copied().collect()
}

#[test]
fn pages_newest_first() {
    let listing = pattern(LISTING);
    let mut desk = Desk::open(&listing).expect("it is opened");
    assert_eq!((desk.letters(), desk.pages()), (&b""[..], vec![]));
    assert_eq!(desk.words(), [0, 0x20]);
    assert_eq!(desk.withdraw(), Err(Refusal::DeskEmpty));
    assert_eq!(desk.put(b"2"), Ok(1));
    assert_eq!(desk.put(b"9W9"), Ok(4));
    assert_eq!(desk.pages(), [&b"9W9"[..], b"2"]);
    assert_eq!(desk.withdraw(), Ok(1));
    assert_eq!(desk.put(b"3W"), Ok(3));
    assert_eq!(desk.letters(), b"3W2");
    let parsed = desk.pattern().parse(desk.letters()).expect("it is read");
    assert_eq!(desk.words(), turned(&parsed.words));
    assert_eq!(parsed.code.bits, 21);
    let before = desk.clone();
    for page in [&b""[..], &[b'3'; MAX_PAGE_LETTERS + 1]] {
        assert_eq!(desk.put(page), Err(Refusal::DeskLimits));
    }
    let position = Err(Refusal::TapeByte {
        position: 1,
        in_page: true,
    });
    assert_eq!(desk.put(b"3 "), position);
    assert_eq!(desk, before);
    desk.reopen().expect("it is opened");
    assert_eq!((desk.letters(), desk.words().len()), (&b""[..], 2));
}

#[test]
fn a_full_desk() {
    let star = pattern(P2);
    let mut desk = Desk::open(&star).expect("it is opened");
    for page in 1..=MAX_PAGES {
        assert_eq!(
            desk.put(&[b'a'; MAX_PAGE_LETTERS]),
            Ok(page * MAX_PAGE_LETTERS)
        );
    }
    assert_eq!(desk.letters().len(), MAX_LETTERS);
    assert_eq!(
        desk.words(),
        turned(&star.parse(desk.letters()).expect("it is read").words)
    );
    assert_eq!(desk.put(b"a"), Err(Refusal::DeskFull));
    for page in (0..MAX_PAGES).rev() {
        assert_eq!(desk.withdraw(), Ok(page * MAX_PAGE_LETTERS));
    }
    assert_eq!(desk.withdraw(), Err(Refusal::DeskEmpty));
    assert_eq!(Refusal::DeskEmpty.to_string(), "the desk holds no page");
    assert_eq!(
        (Refusal::DeskFull.number(), Refusal::DeskFull.value()),
        (14, 0)
    );
}

/// Desks that are lent: each buffer just long enough and one cell short, and desks that are none.
#[test]
fn desks_that_are_lent() {
    let star = pattern(P1);
    let mut letters = vec![b'x'; MAX_LETTERS + 1];
    let mut words = vec![7; words_for(3)];
    for length in [0, DESK_BYTES - 1, DESK_BYTES + 1] {
        let mut desk = vec![0; length];
        let none = Err(Refusal::DeskLimits);
        assert_eq!(star.desk_open_into(&mut desk, &mut words), none);
        assert_eq!(
            star.desk_put_into(&mut desk, b" ", &mut letters, &mut []),
            Err(Refusal::DeskLimits)
        );
        assert_eq!(
            star.desk_withdraw_into(&mut desk, &letters),
            Err(Refusal::DeskLimits)
        );
        assert_eq!(
            star.desk_open_into(&mut desk, &mut words[..1]),
            Err(Refusal::WordsTooShort { needed: 2 })
        );
    }
    let mut desk = [255; DESK_BYTES];
    assert_eq!(
        star.desk_withdraw_into(&mut desk, &letters),
        Err(Refusal::DeskLimits)
    );
    assert_eq!(star.desk_open_into(&mut desk, &mut words[..2]), Ok(()));
    assert_eq!((desk, words[2]), ([0; DESK_BYTES], 7));
    let short = Err(Refusal::TapeTooShort { needed: 3_600 });
    assert_eq!(
        star.desk_put_into(&mut desk, b"", &mut letters[..3_599], &mut []),
        short
    );
    assert_eq!(
        star.desk_put_into(&mut desk, b"aaa", &mut letters, &mut words[..7]),
        Err(Refusal::WordsTooShort { needed: 8 })
    );
    assert_eq!((desk, letters[3_599]), ([0; DESK_BYTES], b'x'));
    assert_eq!(
        star.desk_put_into(&mut desk, b"aaa", &mut letters, &mut words),
        Ok(3)
    );
    assert_eq!(letters[3_596..], *b"xaaax");
    assert_eq!((desk[0], desk[1]), (1, 3));
    letters[3_598] = b' ';
    assert_eq!(
        star.desk_withdraw_into(&mut desk, &letters),
        Err(Refusal::DeskLimits)
    );
}

/// The position of refusal 4 is one of the page that is put, and the words say so.
#[test]
fn a_byte_of_a_page() {
    let mut desk = Desk::open(&pattern(LISTING)).expect("it is opened");
    desk.put(b"3W2").expect("it is put");
    let refusal = desk.put(b"3W ").expect_err("it has a space");
    assert_eq!(
        refusal,
        Refusal::TapeByte {
            position: 2,
            in_page: true
        }
    );
    assert_eq!((refusal.number(), refusal.value()), (4, 2));
    assert_eq!(
        refusal.to_string(),
        "the byte at position 2 of the page is no letter"
    );
    assert_eq!(
        Refusal::TapeByte {
            position: 2,
            in_page: false
        }
        .to_string(),
        "the byte at position 2 of the tape is no letter"
    );
}

/// What `parse` and `canonicalize` give is a code for every call that takes one, by itself or behind a pointer.
#[test]
fn what_parse_gives_is_a_code() {
    let days = pattern(DAYS);
    let tape = b"1D2W3";
    let parsed = days.parse(tape).expect("it is read");
    let code = parsed.code.clone();
    let day = date(2024, 2, 29);
    assert_eq!(days.canonicalize(&parsed), Ok(code.clone()));
    assert_eq!(days.flatten(&parsed).as_deref(), Ok(&tape[..]));
    assert_eq!(days.totals(&parsed), days.totals(&code));
    assert_eq!(days.total(&parsed, 9), Ok(3));
    assert_eq!(
        days.term_totals(&parsed, day, day, day),
        days.term_totals(&code, day, day, day)
    );
    assert_eq!(days.span(tape, &parsed, 2, 0), Ok(3..5));
    assert_eq!(days.piece(tape, &parsed, 2, 0), Ok(&b"W3"[..]));
    let mut litres = [0; ACCOUNTS];
    assert_eq!(days.totals_into(&parsed, &mut litres), Ok(()));
    assert_eq!(Ok(litres), days.totals(&Box::new(code.clone())));
    assert_eq!(Ok(litres), days.totals(&mut code.clone()));
    assert_eq!(Ok(litres), days.totals(&&code));
    assert_eq!(pattern(P1).totals(&parsed), Err(Refusal::NotACode));
}

#[test]
fn patterns_are_equal_by_their_text() {
    let (one, same, other) = (pattern(LISTING), pattern(LISTING), pattern(P1));
    assert!(one == same && one != other);
    assert_eq!(HashSet::from([one, same, other]).len(), 2);
}

/// A text with the escapes of printf: \\t, \\n, \\r, and bytes by three octal digits.
fn unescaped(text: &str) -> Vec<u8> {
    let mut bytes = Vec::new();
    let mut rest = text.as_bytes();
    while let [first, behind @ ..] = rest {
        rest = match (first, behind) {
            (b'\\', [b'0'..=b'3', ..]) => {
                let octal = std::str::from_utf8(&behind[..3]).expect("three digits");
                bytes.push(u8::from_str_radix(octal, 8).expect("a byte"));
                &behind[3..]
            }
            (b'\\', [letter, behind @ ..]) => {
                let escapes = [(b't', b'\t'), (b'n', b'\n'), (b'r', b'\r')];
                let known = escapes.iter().find(|(name, _)| name == letter);
                bytes.push(known.expect("an escape").1);
                behind
            }
            _ => {
                bytes.push(*first);
                behind
            }
        };
    }
    bytes
}

/// Each fault of a table that tapelist and Python are tested by, too.
#[test]
fn what_is_wrong_with_a_line() {
    let rows: Vec<Vec<&str>> = FAULTS
        .lines()
        .map(|row| row.split('\t').collect())
        .collect();
    assert!(rows.len() > 100);
    for row in rows {
        let [name, number, value, words, text] = row[..] else {
            panic!("a row has five fields: {row:?}");
        };
        let text = unescaped(text);
        let refusal = Pattern::load(&text).expect_err(name);
        assert_eq!(refusal.number().to_string(), number, "{name}");
        assert_eq!(refusal.value().to_string(), value, "{name}");
        assert_eq!(refusal.explain(&text), format!("pattern, {words}"));
    }
    // Whatever the text, there are words, also if it is not the one that was refused.
    let every: Vec<u8> = (0..=255).collect();
    for text in [&every[..], b"", b"\n", b"\0", b"\xff", b"0\t", LISTING] {
        for line in [0, 1, 63, 64, u32::MAX] {
            for refusal in [Refusal::LineForm { line }, Refusal::Tree { line }] {
                assert!(refusal.explain(text).starts_with("pattern, "));
            }
        }
        let unreadable = Refusal::Unreadable {
            reach: 1,
            resume: 2,
        };
        assert_eq!(unreadable.explain(text), unreadable.to_string());
    }
}

/// Each row of a table that tapelist and Python are tested by, too.
#[test]
fn where_a_tape_breaks() {
    let rows: Vec<Vec<&str>> = BREAKS
        .lines()
        .map(|row| row.split('\t').collect())
        .collect();
    assert!(rows.len() > 20);
    for row in rows {
        let [name, reach, resume, words, text, tape] = row[..] else {
            panic!("a row has six fields: {row:?}");
        };
        let (tape, pattern) = (unescaped(tape), pattern(&unescaped(text)));
        let (reach, resume) = (reach.parse().unwrap(), resume.parse().unwrap());
        assert_eq!(
            pattern.locate(&tape),
            Ok(Located { reach, resume }),
            "{name}"
        );
        let refusal = pattern.parse(&tape).expect_err(name);
        assert_eq!(refusal, Refusal::Unreadable { reach, resume }, "{name}");
        assert_eq!((refusal.number(), refusal.value()), (5, 0));
        assert_eq!(
            refusal.explain_tape(&tape),
            format!("no parse of the pattern spells the tape: {words}")
        );
        assert_eq!(
            refusal.to_string(),
            "no parse of the pattern spells the tape"
        );
        let mut lent = (vec![0; words_for(tape.len())], vec![0; 1]);
        let into = pattern.parse_into(&tape, &mut lent.0, &mut lent.1);
        assert_eq!(into, Err(refusal), "{name}");
    }
}

/// Whatever the tape, there are words, also if it is not the one that was refused.
#[test]
fn any_tape_is_explained() {
    let every: Vec<u8> = (0..=255).collect();
    for tape in [&every[..], b"", b"3", b"\xef\xbb\xbf"] {
        for reach in [0, 1, 2, 255, 256, MAX_LETTERS, usize::MAX] {
            for resume in [0, 1, 256, usize::MAX] {
                let refusal = Refusal::Unreadable { reach, resume };
                assert!(refusal.explain_tape(tape).len() < 250);
            }
        }
        let long = Refusal::TapeTooLong;
        assert_eq!(long.explain_tape(tape), long.to_string());
    }
}

#[test]
fn tapes_that_are_located() {
    let listing = pattern(LISTING);
    for (tape, reach, resume) in [(&b""[..], 0, 0), (b"3W2", 3, 0), (&[b'7'; 3_600], 3_600, 0)] {
        assert!(listing.parse(tape).is_ok());
        assert_eq!(listing.locate(tape), Ok(Located { reach, resume }));
    }
    assert_eq!(listing.locate(&[b' '; 3_601]), Err(Refusal::TapeTooLong));
    let byte = Err(Refusal::TapeByte {
        position: 2,
        in_page: false,
    });
    assert_eq!(listing.locate(b"xx  "), byte);
    // The longest tape that breaks at its last letter, and at its first.
    let mut tape = [b'7'; 3_600];
    tape[3_599] = b'x';
    let located = |reach, resume| Ok(Located { reach, resume });
    assert_eq!(listing.locate(&tape), located(3_599, 3_600));
    tape.reverse();
    assert_eq!(listing.locate(&tape), located(0, 1));
}

/// The number of a macro of the header.
fn defined(name: &str) -> u32 {
    let line = format!("#define WUMBYRA_{name} ");
    let number = HEADER.lines().find_map(|text| text.strip_prefix(&line));
    number
        .and_then(|n| n.parse().ok())
        .expect("a macro with a number")
}

#[test]
fn the_library_has_the_headers_version() {
    let [major, minor, patch] =
        ["MAJOR", "MINOR", "PATCH"].map(|part| defined(&format!("VERSION_{part}")));
    assert_eq!(version(), major * 10_000 + minor * 100 + patch);
    assert_eq!(ACCOUNTS as u32, defined("ACCOUNTS"));
    assert_eq!(MAX_PAGES as u32, defined("MAX_PAGES"));
    assert_eq!(MAX_PAGE_LETTERS as u32, defined("MAX_PAGE_LETTERS"));
    assert_eq!(
        env!("CARGO_PKG_VERSION"),
        format!("{major}.{minor}.{patch}")
    );
}

#[test]
fn bounds_suffice() {
    assert_eq!((words_for(0), words_for(3)), (2, 8));
    assert_eq!((code_bytes_for(0), code_bytes_for(3)), (8, 59));
    for letters in [0, 1, 100, 3_600] {
        assert!(pattern(P2).parse(&vec![b'a'; letters]).is_ok());
    }
}
