//! 02, Job 10: "in the settled code of a tape, take a visit of any node. The
//! bits written during it are the settled code of the piece it covers, under
//! the pattern made of that node and all below it, places counted afresh. This
//! holds for pieces without letters and for patterns mixing `K` and `Z`."

mod common;

use common::{bits, small, table, tapes, written};
use wumbyra_reference::brute::preferred_by_definition;
use wumbyra_reference::code::{decode, encode, pack, unpack};
use wumbyra_reference::codes::random::{drawn_accounts, pattern, sample};
use wumbyra_reference::cuts::{cuts, Cut};
use wumbyra_reference::hot;
use wumbyra_reference::lazy::{self, Z1, Z5, Z7};
use wumbyra_reference::load::load;
use wumbyra_reference::memo::preferred_reading;
use wumbyra_reference::patterns::{text_of, LISTING, P1, P2, P3, P4, P5};
use wumbyra_reference::prng::Prng;
use wumbyra_reference::services::reading::parse;
use wumbyra_reference::services::totals::{some_litres, totals};
use wumbyra_reference::services::visits::{count_of_visits, span, Span};
use wumbyra_reference::stale::text;
use wumbyra_reference::subpattern::{lines_of, subpattern};
use wumbyra_reference::table::{judge, Kind, Star, Table};
use wumbyra_reference::tapes::random::{HOT, MIXED, WITHOUT_Z};
use wumbyra_reference::tapes::table_of;
use wumbyra_reference::value::spell;

/// ([09]*xZ)*, with accounts.
const BOTH: [&str; 6] = ["L - x", "R 3 0 9", "K - 1", "Z - 0", "S - 2 3", "K 9 4"];

/// The settled code of a tape, by the service; none where no reading spells it.
fn read(table: &Table, tape: &[u8]) -> Option<Vec<bool>> {
    let (mut words, mut code) = (vec![7; 2 * (tape.len() + 1)], vec![7; 2_000]);
    let count = parse(table, tape, &mut words, &mut code).ok()?;
    Some(unpack(&code[..count.div_ceil(8) as usize], count).expect("a good code"))
}

/// The cuts of a code, and the tape that it spells.
fn cut(table: &Table, code: &[bool]) -> (Vec<Cut>, Vec<u8>) {
    let value = decode(table, code).expect("a reading");
    (cuts(table, &value), spell(&value))
}

/// Node, visit, start and letters of the piece, first bit, bits.
type Row = (usize, usize, usize, &'static str, usize, &'static str);

/// All visits of a tape's settled code, in the order in which they begin.
fn rows(table: &Table, tape: &str, code: &str, expected: &[Row]) {
    assert_eq!(
        read(table, tape.as_bytes()),
        Some(bits(code)),
        "{tape}: {code}"
    );
    let (found, _) = cut(table, &bits(code));
    assert_eq!(found.len(), expected.len(), "{tape}: {code}");
    for (index, (cut, row)) in found.iter().zip(expected).enumerate() {
        let (node, visit, start, piece, first, own) = *row;
        let expected = Cut {
            node,
            start,
            length: piece.len(),
            first,
            bits: own.len(),
        };
        assert_eq!(*cut, expected, "{tape}: {row:?}");
        let before = found[..index].iter().filter(|cut| cut.node == node);
        assert_eq!(before.count(), visit, "{tape}: {row:?}");
        assert_eq!(cut.piece(tape.as_bytes()), piece.as_bytes());
        assert_eq!(written(cut.code(&bits(code))), own, "{tape}: {row:?}");
        let alone = subpattern(table, node as u64).expect("a node of the table");
        let settled = read(&alone, piece.as_bytes());
        assert_eq!(settled, Some(bits(own)), "{tape}: {row:?}");
    }
}

#[test]
fn cuts_by_hand() {
    // 0, then 0 00110111 1 and 0, then 0, then 1 and 10, then 1.
    rows(
        &table_of(&text(&BOTH)),
        "7x",
        "00001101111001101",
        &[
            (5, 0, 0, "7x", 0, "00001101111001101"),
            (4, 0, 0, "7", 1, "00011011110"),
            (2, 0, 0, "7", 1, "0001101111"),
            (1, 0, 0, "7", 2, "00110111"),
            (3, 0, 1, "", 11, "0"),
            (4, 1, 1, "x", 13, "110"),
            (2, 1, 1, "", 13, "1"),
            (3, 1, 1, "x", 14, "10"),
            (0, 0, 1, "x", 15, ""),
        ],
    );
    // The first bit of an `A` is the `A`'s, not its side's.
    rows(
        &table(P4),
        "abb",
        "10",
        &[
            (8, 0, 0, "abb", 0, "10"),
            (4, 0, 0, "ab", 0, "1"),
            (3, 0, 0, "ab", 1, ""),
            (1, 0, 0, "a", 1, ""),
            (2, 0, 1, "b", 1, ""),
            (7, 0, 2, "b", 1, "0"),
            (5, 0, 2, "b", 2, ""),
        ],
    );
    rows(
        &table(LISTING),
        "3W2",
        "010011001100001100101",
        &[
            (5, 0, 0, "3W2", 0, "010011001100001100101"),
            (4, 0, 0, "3", 1, "100110011"),
            (3, 0, 0, "3", 2, "00110011"),
            (4, 1, 1, "W2", 11, "000110010"),
            (2, 0, 1, "W2", 12, "00110010"),
            (1, 0, 1, "W", 12, ""),
            (0, 0, 2, "2", 12, "00110010"),
        ],
    );
}

/// A star without rounds has its closing bit. A `K` in a `Z` and a `Z` in a `K`.
#[test]
fn cuts_of_stars_by_hand() {
    rows(&table(P1), "", "1", &[(3, 0, 0, "", 0, "1")]);
    rows(&table(Z1), "", "0", &[(1, 0, 0, "", 0, "0")]);
    rows(
        &table(Z7),
        "aa",
        "10010",
        &[
            (2, 0, 0, "aa", 0, "10010"),
            (1, 0, 0, "aa", 1, "001"),
            (0, 0, 0, "a", 2, ""),
            (0, 1, 1, "a", 3, ""),
        ],
    );
    rows(
        &table(Z5),
        "aa",
        "0100101",
        &[
            (2, 0, 0, "aa", 0, "0100101"),
            (1, 0, 0, "a", 1, "10"),
            (0, 0, 0, "a", 2, ""),
            (1, 1, 1, "a", 4, "10"),
            (0, 1, 1, "a", 5, ""),
        ],
    );
}

#[test]
fn subpatterns_by_hand() {
    let expect = |whole: &[&str], node: u64, lines: &[&str]| {
        let alone = subpattern(&table_of(&text(whole)), node).expect("a node of the table");
        assert_eq!(text_of(&alone), text(lines), "{whole:?}, node {node}");
    };
    expect(&BOTH, 0, &["L - x"]);
    expect(&BOTH, 1, &["R 3 0 9"]);
    expect(&BOTH, 2, &["R 3 0 9", "K - 0"]);
    expect(&BOTH, 3, &["L - x", "Z - 0"]);
    expect(&BOTH, 4, &BOTH[..5]);
    expect(&BOTH, 5, &BOTH);
    // Parts in another order than their lines, and lines of others in between.
    let spread = [
        "L - a", "E 7", "L 200 c", "S - 2 0", "K - 1", "A 9 3 4", "Z 10 5",
    ];
    expect(&spread, 3, &["L - a", "L 200 c", "S - 1 0"]);
    expect(&spread, 4, &["E 7", "K - 0"]);
    expect(&spread, 5, &spread[..6]);
    // Numbers of letters are no places: a range has two, of any value.
    let letters = ["E -", "R - ! ~", "L - 5", "A - 1 2", "S - 0 3"];
    expect(&letters, 3, &["R - ! ~", "L - 5", "A - 0 1"]);
}

#[test]
fn no_subpattern_of_a_node_outside_the_table() {
    let both = table_of(&text(&BOTH));
    for node in [6, 7, 63, 64, 1 << 32, u64::MAX] {
        assert_eq!(subpattern(&both, node), None);
    }
    assert_eq!(subpattern(&Table::of_no_lines(), 0), None);
}

/// The pattern of the root is the whole, and a node has the same pattern in that
/// of a node above it.
#[test]
fn subpatterns_of_subpatterns() {
    let mut rng = Prng::new(1001);
    let mut inner = 0;
    for index in 0..300 {
        let tastes = [WITHOUT_Z, MIXED, HOT][index / 3 % 3];
        let table = pattern(&mut rng, &tastes, index);
        let table = drawn_accounts(&mut rng, index, &table);
        assert_eq!(
            subpattern(&table, table.count - 1).as_ref(),
            Some(&table),
            "{table:?}"
        );
        for node in 0..table.lines().len() {
            let outer = subpattern(&table, node as u64).expect("a node");
            keeps_the_rules(&outer);
            for (place, &old) in lines_of(&table, node).iter().enumerate() {
                let alone = subpattern(&outer, place as u64);
                assert_eq!(alone, subpattern(&table, old as u64), "{table:?} {node}");
                inner += 1;
            }
        }
    }
    assert!(inner > 10_000, "{inner}");
}

/// It obeys the rules: the service's test accepts it, and its text loads to it.
fn keeps_the_rules(table: &Table) {
    assert_eq!(judge(table), Ok(()));
    assert_eq!(load(&text_of(table)).as_ref(), Ok(table));
}

/// What the pieces were that a test has seen.
#[derive(Default, Debug)]
struct Seen {
    codes: usize,
    pieces: usize,
    /// Pieces without letters of a `K` and of a `Z`.
    empty_greedy: usize,
    empty_lazy: usize,
    /// Pieces with letters, under nodes with both kinds of stars.
    mixed: usize,
}

impl Seen {
    fn note(&mut self, alone: &Table, piece: &[u8]) {
        let has = |star: Star| {
            let mut kinds = alone.lines().iter().map(|node| node.kind);
            kinds.any(|kind| kind == Kind::Rounds(star))
        };
        self.pieces += 1;
        match alone.node(alone.root()).kind {
            Kind::Rounds(Star::Greedy) => self.empty_greedy += usize::from(piece.is_empty()),
            Kind::Rounds(Star::Lazy) => self.empty_lazy += usize::from(piece.is_empty()),
            _ => {}
        }
        let mixed = has(Star::Greedy) && has(Star::Lazy);
        self.mixed += usize::from(mixed && !piece.is_empty());
    }
}

/// The settled code of a piece, if it is known.
type Reader = fn(&Table, &[u8]) -> Option<Vec<bool>>;

/// Cuts the settled code of a tape at every visit of every node. `settled` gives
/// the settled code of a piece; where it does not know, the piece is left out.
fn every_piece_stands(table: &Table, tape: &[u8], settled: Reader, seen: &mut Seen) {
    let Some(code) = read(table, tape) else {
        return;
    };
    seen.codes += 1;
    let (found, spelled) = cut(table, &code);
    assert_eq!(spelled, tape);
    let (bytes, count) = (pack(&code), code.len() as u64);
    for node in 0..table.lines().len() {
        let alone = subpattern(table, node as u64).expect("a node of the table");
        keeps_the_rules(&alone);
        let visits: Vec<&Cut> = found.iter().filter(|cut| cut.node == node).collect();
        assert_eq!(
            count_of_visits(table, &bytes, count, node),
            visits.len() as u64
        );
        for (k, cut) in visits.into_iter().enumerate() {
            let shown = Span {
                start: cut.start as u64,
                length: cut.length as u64,
            };
            let service = span(table, tape, &bytes, count, node as u64, k as u64);
            assert_eq!(service, Ok(shown), "{table:?} {tape:?} {node} {k}");
            let piece = cut.piece(tape);
            if let Some(settled) = settled(&alone, piece) {
                let own = cut.code(&code);
                assert_eq!(settled, own, "{table:?} {tape:?} {node} {k}");
                seen.note(&alone, piece);
            }
        }
    }
}

/// By the service, which knows the settled code of every piece.
fn by_service(alone: &Table, piece: &[u8]) -> Option<Vec<bool>> {
    Some(read(alone, piece).expect("a piece is spelled by its own node"))
}

/// By the definition: the greatest of all values, where these are not too many.
fn by_definition(alone: &Table, piece: &[u8]) -> Option<Vec<bool>> {
    let found = preferred_by_definition(alone, piece, 1_000).ok()?;
    Some(encode(alone, &found.expect("a reading")))
}

#[test]
fn pieces_of_the_patterns_with_names() {
    let mut seen = Seen::default();
    let mut every = |text: &[u8], letters: &[u8], most: usize| {
        let table = load(text).expect("a good pattern");
        for tape in tapes(letters, most) {
            every_piece_stands(&table, &tape, by_service, &mut seen);
        }
    };
    for text in [P1, P2, P3, P4, P5] {
        every(text.as_bytes(), b"ab", 7);
    }
    every(LISTING.as_bytes(), b"3W2", 5);
    every(&text(&BOTH), b"7x", 7);
    for (_, text) in lazy::ALL {
        every(text.as_bytes(), b"ab", 6);
        every(text.as_bytes(), b"3W", 4);
    }
    for (_, text) in hot::ALL {
        every(text, b"a~\xa1\xe1\xe2\xe4\xfe", 3);
    }
    assert!(seen.codes > 1_500 && seen.pieces > 15_000, "{seen:?}");
    assert!(seen.empty_greedy > 500, "{seen:?}");
    assert!(seen.empty_lazy > 500, "{seen:?}");
    assert!(seen.mixed > 500, "{seen:?}");
}

#[test]
fn pieces_of_small_patterns_by_the_definition() {
    let mut rng = Prng::new(1002);
    let mut seen = Seen::default();
    for _ in 0..1_500 {
        let table = small(&mut rng, 9);
        for tape in tapes(b"ab", 3) {
            every_piece_stands(&table, &tape, by_definition, &mut seen);
        }
    }
    assert!(seen.codes > 1_000 && seen.pieces > 5_000, "{seen:?}");
    assert!(seen.empty_greedy > 100 && seen.empty_lazy > 100, "{seen:?}");
    assert!(seen.mixed > 100, "{seen:?}");
}

/// Random patterns of up to 64 lines, without `Z`, with both kinds of stars and
/// with hot letters, with accounts to 200.
#[test]
fn pieces_of_random_patterns() {
    const MOST_LETTERS: usize = 16;
    let mut rng = Prng::new(1003);
    let mut seen = Seen::default();
    for index in 0..4_000 {
        let tastes = [WITHOUT_Z, MIXED, MIXED, HOT][index / 3 % 4];
        let table = pattern(&mut rng, &tastes, index);
        let table = drawn_accounts(&mut rng, index, &table);
        let root = table.root();
        let tape = (0..6)
            .map(|_| spell(&sample(&mut rng, &table, root, &mut 0)))
            .filter(|tape| tape.len() <= MOST_LETTERS)
            .max_by_key(Vec::len);
        if let Some(tape) = tape {
            every_piece_stands(&table, &tape, by_service, &mut seen);
        }
    }
    assert!(seen.codes > 3_500 && seen.pieces > 50_000, "{seen:?}");
    assert!(seen.empty_greedy > 1_000, "{seen:?}");
    assert!(seen.empty_lazy > 2_000, "{seen:?}");
    assert!(seen.mixed > 5_000, "{seen:?}");
}

/// The law is said of settled codes only. `11` is a code of P4 that spells ab,
/// and settles to `00`: at the root its bits are not the settled code. At the
/// nodes below they are.
#[test]
fn a_code_that_is_not_settled_has_a_piece_that_does_not_stand() {
    let p4 = table(P4);
    let code = bits("11");
    let (found, tape) = cut(&p4, &code);
    assert_eq!(tape, b"ab");
    for cut in found {
        let alone = subpattern(&p4, cut.node as u64).expect("a node of the table");
        let settled = read(&alone, cut.piece(&tape)).expect("a reading");
        if cut.node == 8 {
            assert_eq!(written(cut.code(&code)), "11");
            assert_eq!(written(&settled), "00");
        } else {
            assert_eq!(settled, cut.code(&code), "{cut:?}");
        }
    }
}

/// An empty round is a piece of its own, and the piece around it does not stand:
/// `011` of P1 has one, and settles to `1`.
#[test]
fn a_code_with_an_empty_round_does_not_stand() {
    let p1 = table(P1);
    let code = bits("011");
    let (found, tape) = cut(&p1, &code);
    assert_eq!(tape, b"");
    let nodes: Vec<usize> = found.iter().map(|cut| cut.node).collect();
    assert_eq!(nodes, [3, 2, 1]);
    assert_eq!(found[0].code(&code), code);
    assert_eq!(read(&p1, b""), Some(bits("1")));
    let either = subpattern(&p1, 2).expect("a node of the table");
    assert_eq!(written(found[1].code(&code)), "1");
    assert_eq!(read(&either, b""), Some(bits("1")));
}

/// Accounts go along with their nodes and have no part in the bits. The totals of
/// a piece may be others, since what is above it is gone.
#[test]
fn a_piece_has_totals_of_its_own() {
    let both = table_of(&text(&BOTH));
    let code = bits("00001101111001101");
    let litres = |table: &Table, code: &[bool]| totals(table, &pack(code), code.len() as u64);
    assert_eq!(litres(&both, &code), Ok(some_litres(&[(9, 7)])));
    let (found, _) = cut(&both, &code);
    let mut with_litres = 0;
    for cut in found {
        let alone = subpattern(&both, cut.node as u64).expect("a node of the table");
        let expected = match (cut.node, cut.piece(b"7x")) {
            (5, _) => some_litres(&[(9, 7)]),
            (_, b"7") => some_litres(&[(3, 7)]),
            _ => some_litres(&[]),
        };
        assert_eq!(litres(&alone, cut.code(&code)), Ok(expected), "{cut:?}");
        with_litres += usize::from(expected != some_litres(&[]));
    }
    assert_eq!(with_litres, 4);
}

/// Every node of another account: the same cuts, and the same bits of each piece.
#[test]
fn accounts_have_no_part_in_pieces() {
    let mut rng = Prng::new(1004);
    for index in 0..300 {
        let plain = pattern(&mut rng, &MIXED, index);
        let other = drawn_accounts(&mut rng, index, &plain);
        let value = sample(&mut rng, &plain, plain.root(), &mut 0);
        let tape = spell(&value);
        assert_eq!(
            preferred_reading(&plain, &tape).map(|value| cuts(&plain, &value)),
            preferred_reading(&other, &tape).map(|value| cuts(&other, &value))
        );
        for node in 0..plain.count {
            let mut alone = subpattern(&other, node).expect("a node");
            let lines = alone.lines().len();
            let old = lines_of(&plain, node as usize);
            for (node, old) in alone.nodes[..lines].iter_mut().zip(old) {
                assert_eq!(node.account, other.node(old).account);
                node.account = plain.node(old).account;
            }
            assert_eq!(Some(alone), subpattern(&plain, node));
        }
    }
}
