//! C1 to C11 and the whole listing of 01, and refusals of the listing.

mod common;

use common::{bits, table, written};
use wumbyra_reference::code::{pack, unpack};
use wumbyra_reference::listing::listing;
use wumbyra_reference::patterns::{LISTING, P1, P2, P3, P4, P5};
use wumbyra_reference::services::reading::parse;
use wumbyra_reference::services::settling::canonicalize;
use wumbyra_reference::table::Refusal;

fn read(pattern: &str, tape: &str) -> Result<String, Refusal> {
    let (mut marks, mut code) = (vec![7; 20], vec![7; 20]);
    let count = parse(&table(pattern), tape.as_bytes(), &mut marks, &mut code)?;
    let bytes = &code[..count.div_ceil(8) as usize];
    Ok(written(&unpack(bytes, count).expect("a good code")))
}

fn settle(pattern: &str, code: &str) -> Result<String, Refusal> {
    let (mut tape, mut marks, mut settled) = (vec![7; 20], vec![7; 20], vec![7; 20]);
    let bytes = pack(&bits(code));
    let count = code.len() as u64;
    let count = canonicalize(
        &table(pattern),
        &bytes,
        count,
        &mut tape,
        &mut marks,
        &mut settled,
    )?;
    let bytes = &settled[..count.div_ceil(8) as usize];
    Ok(written(&unpack(bytes, count).expect("a good code")))
}

#[test]
fn c1_to_c11() {
    let found = |code: &str| Ok(code.to_string());
    assert_eq!(read(P1, ""), found("1"), "C1");
    assert_eq!(read(P1, "a"), found("001"), "C2");
    assert_eq!(read(P2, "a"), found("011"), "C3");
    assert_eq!(read(P3, "ab"), found("001011"), "C4");
    assert_eq!(read(P3, "ba"), found("010100111"), "C5");
    assert_eq!(read(P4, "ab"), found("00"), "C6");
    assert_eq!(settle(P4, "11"), found("00"), "C6");
    assert_eq!(read(P4, "abb"), found("10"), "C7");
    assert_eq!(read(P5, "aa"), found("01"), "C8");
    assert_eq!(read(P5, ""), Err(Refusal::new(5, 0)), "C9");
    assert_eq!(settle(P1, "011"), found("1"), "C10");
    assert_eq!(settle(P1, "01001"), found("001"), "C11");
}

#[test]
fn the_whole_listing() {
    let expected = "tape\t3\t21\t4cc328\naccount\t1\t3\naccount\t9\t2\n\
                    open\t0\t4\nopen\t1\t4\nopen\t2\t4\nopen\t3\t1\n";
    assert_eq!(listing(LISTING.as_bytes(), b"3W2\n"), expected);
    assert_eq!(listing(LISTING.as_bytes(), b"3W2"), expected);
}

#[test]
fn listings_at_the_edges() {
    let list = |pattern: &str, tape: &[u8]| listing(pattern.as_bytes(), tape);
    // A code of 0 bits leaves its field empty and the tab before it.
    assert_eq!(list("0\tE\t-\n", b""), "tape\t0\t0\t\nopen\t0\t1\n");
    assert_eq!(list("0\tE\t-\n", b"\n"), "tape\t0\t0\t\nopen\t0\t1\n");
    assert_eq!(
        list("0\tL\t-\t7\n", b"7"),
        "tape\t1\t0\t\naccount\t0\t7\nopen\t0\t1\nopen\t1\t0\n"
    );
    assert_eq!(list("0\tE\t-\n", b"\n\n"), "refused\t4\t0\n");
    assert_eq!(list("0\tL\t-\t7\n", b"7\r\n"), "refused\t4\t1\n");
    assert_eq!(list("0\tL\t-\t7\n", b"8"), "refused\t5\t0\n");
    assert_eq!(list("", b"8 8"), "refused\t1\t0\n");
    assert_eq!(
        list("0\tE\t-\n1\tE\t-\n2\tK\t-\t0\n", b" "),
        "refused\t2\t1\n"
    );
    let star = "0\tL\t-\t7\n1\tK\t1\t0\n";
    let most = list(star, &[b'7'; 3_600]);
    assert!(most.starts_with("tape\t3600\t3601\t0000"));
    assert!(most.contains("0080\naccount\t1\t25200\nopen\t0\t2\n"));
    assert!(most.ends_with("open\t3599\t2\nopen\t3600\t1\n"));
    assert_eq!(list(star, &[b'7'; 3_601]), "refused\t3\t0\n");
    assert_eq!(list(star, &[b' '; 3_601]), "refused\t3\t0\n");
    assert_eq!(
        list(star, &[[b'7'; 3_600].as_slice(), b"\n"].concat()),
        most
    );
}
