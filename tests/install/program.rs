//! The worked example, a term, a page desk, where a tape breaks, and refusals, by a package outside the tree.
use wumbyra::{Date, Desk, Pattern, Refusal};

const PATTERN: &[u8] = b"0\tR\t-\t0\t9\n1\tL\t-\tW\n2\tS\t9\t1\t0\n3\tR\t1\t0\t9\n4\tA\t-\t2\t3\n5\tK\t-\t4\n";
const DAYS: &[u8] = b"0\tR\t1\t0\t9\n1\tL\t-\tD\n2\tA\t-\t0\t1\n3\tK\t-\t2\n";

/// The litres of the leap day.
fn print_term() {
    let pattern = Pattern::load(DAYS).unwrap();
    let code = pattern.parse(b"1D2D4").unwrap().code;
    let [start, leap_day] = [28, 29].map(|day| Date { year: 2024, month: 2, day });
    println!("term\t20240229\t{}", pattern.term_totals(&code, start, leap_day, leap_day).unwrap()[1]);
    assert_eq!(pattern.term_totals(&code, start, leap_day, start), Err(Refusal::NotATerm));
}

/// The worked example's tape, in pages that arrive newest first.
fn print_desk(pattern: &Pattern) {
    let mut desk = Desk::open(pattern).unwrap();
    for page in [b"2", b"W", b"3"] {
        desk.put(page).unwrap();
    }
    println!("desk\t{}\t{}", desk.pages().len(), String::from_utf8_lossy(desk.letters()));
}

fn main() {
    let pattern = Pattern::load(PATTERN).unwrap();
    let code = pattern.parse(b"3W2").unwrap().code;
    let bytes: String = code.bytes.iter().map(|byte| format!("{byte:02x}")).collect();
    println!("tape\t3\t{}\t{bytes}", code.bits);
    for (account, litres) in pattern.totals(&code).unwrap().iter().enumerate() {
        if *litres > 0 {
            println!("account\t{account}\t{litres}");
        }
    }
    let piece = pattern.span(b"3W2", &code, 2, 0).unwrap();
    println!("span\t{}\t{}", piece.start, piece.len());
    print_term();
    print_desk(&pattern);
    let located = pattern.locate(b"3Wx2").unwrap();
    println!("locate\t{}\t{}", located.reach, located.resume);
    assert_eq!(pattern.parse(b"3 2"), Err(Refusal::TapeByte { position: 1, in_page: false }));
}
