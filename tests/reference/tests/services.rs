//! The services: order of checks, numbers, values, and what each lent
//! buffer holds afterwards. Buffers start filled with 7.

mod common;

use common::{bits, small, table, tapes, METER};
use wumbyra_reference::automaton;
use wumbyra_reference::code::{encode, pack};
use wumbyra_reference::memo::preferred_reading;
use wumbyra_reference::patterns::{random, LISTING, P1, P3, P4, P5};
use wumbyra_reference::prng::Prng;
use wumbyra_reference::services::reading::{open_counts, parse};
use wumbyra_reference::services::settling::canonicalize;
use wumbyra_reference::services::spelling::flatten;
use wumbyra_reference::services::totals::{some_litres, totals, totals_into, ACCOUNTS, NO_LITRES};
use wumbyra_reference::services::visits::{piece, span, Span};
use wumbyra_reference::table::{Kind, Node, Refusal, Table};

type Read = (Result<u64, Refusal>, Vec<u64>, Vec<u8>);

fn read(table: &Table, tape: &[u8], words: usize, bytes: usize) -> Read {
    let (mut marks, mut code) = (vec![7; words], vec![7; bytes]);
    let answer = parse(table, tape, &mut marks, &mut code);
    (answer, marks, code)
}

type Settled = (Result<u64, Refusal>, Vec<u8>, Vec<u64>, Vec<u8>);

fn settle(
    table: &Table,
    code: &[u8],
    count: u64,
    cells: usize,
    words: usize,
    bytes: usize,
) -> Settled {
    let (mut tape, mut marks, mut settled) = (vec![7; cells], vec![7; words], vec![7; bytes]);
    let answer = canonicalize(table, code, count, &mut tape, &mut marks, &mut settled);
    (answer, tape, marks, settled)
}

fn refused(number: u64, value: u64) -> Result<u64, Refusal> {
    Err(Refusal::new(number, value))
}

/// Tables that depart from the pattern rules, one rule each.
fn bad_tables() -> Vec<Table> {
    let good = table(LISTING);
    let with = |place: usize, node: Node| {
        let mut bad = good.clone();
        bad.nodes[place] = node;
        bad
    };
    let counted = |count: u64| Table {
        count,
        nodes: good.nodes,
    };
    vec![
        Table::of_no_lines(),
        counted(65),
        counted(u64::MAX),
        // Line 6 is an unused cell, a leaf, so line 5 is named by none.
        counted(7),
        // Lines 0 to 3 alone: place 2 is named by none.
        counted(4),
        with(0, Node::new(Kind::Range, 0, 57, 48)),
        with(0, Node::new(Kind::Range, 0, 32, 48)),
        with(0, Node::new(Kind::Range, 0, 48, 127)),
        with(0, Node::new(Kind::Range, 0, 48, 128)),
        with(0, Node::new(Kind::Range, 0, 48, 160)),
        with(0, Node::new(Kind::Range, 0, 127, 160)),
        with(0, Node::new(Kind::Range, 0, 160, 161)),
        with(0, Node::new(Kind::Range, 0, 161, 255)),
        with(0, Node::new(Kind::Range, 0, 161, 126)),
        with(0, Node::new(Kind::Letter, 0, 32, 0)),
        with(0, Node::new(Kind::Letter, 0, 127, 0)),
        with(0, Node::new(Kind::Letter, 0, 128, 0)),
        with(0, Node::new(Kind::Letter, 0, 160, 0)),
        with(0, Node::new(Kind::Letter, 0, 255, 0)),
        // A byte has no room for it, but for its lowest eight bits it has.
        with(0, Node::new(Kind::Letter, 0, 256 + 48, 0)),
        with(0, Node::new(Kind::Range, 0, 48, 256 + 57)),
        with(0, Node::new(Kind::Nothing, 201, 0, 0)),
        with(0, Node::new(Kind::Letter, 255, 48, 0)),
        // A byte has no room for these, but for their lowest eight bits it has.
        with(1, Node::new(Kind::Letter, 256, 87, 0)),
        with(3, Node::new(Kind::Range, 256 + 200, 48, 57)),
        with(2, Node::new(Kind::Sequence, u64::MAX, 1, 0)),
        with(5, Node::new(Kind::GREEDY_STAR, 0, 5, 0)),
        with(5, Node::new(Kind::GREEDY_STAR, 0, 3, 0)),
        with(5, Node::new(Kind::GREEDY_STAR, 0, 64, 0)),
        with(5, Node::new(Kind::GREEDY_STAR, 0, u64::MAX, 0)),
        with(5, Node::new(Kind::LAZY_STAR, 0, 5, 0)),
        with(5, Node::new(Kind::LAZY_STAR, 0, 3, 0)),
        with(5, Node::new(Kind::LAZY_STAR, 0, 64, 0)),
        with(5, Node::new(Kind::LAZY_STAR, 201, 4, 0)),
        with(4, Node::new(Kind::Either, 0, 2, 2)),
        with(4, Node::new(Kind::GREEDY_STAR, 0, 2, 0)),
    ]
}

#[test]
fn every_service_refuses_a_bad_table_first() {
    let long = [b' '; 3_601];
    for bad in bad_tables() {
        assert_eq!(read(&bad, &long, 1, 1), (refused(2, 0), vec![7], vec![7]));
        assert_eq!(open_counts(&bad, &long), Err(Refusal::new(2, 0)));
        let mut tape = [7; 2];
        assert_eq!(flatten(&bad, &[1], 7, &mut tape), refused(2, 0));
        assert_eq!(tape, [7; 2]);
        assert_eq!(
            settle(&bad, &[1], 7, 1, 1, 1),
            (refused(2, 0), vec![7], vec![7], vec![7])
        );
        assert_eq!(span(&bad, &long, &[1], 7, 0, 0), Err(Refusal::new(2, 0)));
        assert_eq!(
            piece(&bad, &long, &[1], 7, 0, 0),
            (Err(Refusal::new(2, 0)), &[][..])
        );
        assert_eq!(totals(&bad, &[1], 7), Err(Refusal::new(2, 0)));
    }
}

#[test]
fn cells_past_the_count_and_numbers_not_needed_are_not_looked_at() {
    let mut odd = table(P1);
    odd.nodes[4] = Node::new(Kind::GREEDY_STAR, 999, 99, 99);
    odd.nodes[3].y = 99;
    odd.nodes[1].x = 99;
    odd.nodes[1].y = 99;
    odd.nodes[0].y = 99;
    assert_eq!(read(&odd, b"a", 4, 1), read(&table(P1), b"a", 4, 1));
}

#[test]
fn reading_checks_in_order() {
    let p5 = table(P5);
    let untouched = |answer, words, bytes| (answer, vec![7; words], vec![7; bytes]);
    assert_eq!(
        read(&p5, &[b' '; 3_601], 0, 0),
        untouched(refused(3, 0), 0, 0)
    );
    assert_eq!(read(&p5, b"a b ", 0, 0), untouched(refused(4, 1), 0, 0));
    assert_eq!(
        read(&p5, &[33, 126, 127], 0, 0),
        untouched(refused(4, 2), 0, 0)
    );
    assert_eq!(
        read(&p5, &[33, 126, 32], 0, 0),
        untouched(refused(4, 2), 0, 0)
    );
    assert_eq!(read(&p5, b"b", 3, 5), untouched(refused(6, 4), 3, 5));
    assert_eq!(read(&p5, b"", 1, 5), untouched(refused(6, 2), 1, 5));
    // 5 comes before 7 and leaves the marks filled, the word past them not.
    let mut marks = automaton::marks(&p5, b"b");
    marks.push(7);
    assert_eq!(read(&p5, b"b", 5, 0), (refused(5, 0), marks, vec![]));
    let mut marks = automaton::marks(&p5, b"aa");
    marks.push(7);
    assert_eq!(
        read(&p5, b"aa", 7, 0),
        (refused(7, 1), marks.clone(), vec![])
    );
    assert_eq!(read(&p5, b"aa", 7, 1), (Ok(2), marks.clone(), vec![0x40]));
    assert_eq!(read(&p5, b"aa", 7, 3), (Ok(2), marks, vec![0x40, 7, 7]));
}

#[test]
fn spelling_checks_in_order() {
    let spelled = |table: &Table, code: &[u8], count: u64, cells: usize| {
        let mut tape = vec![7; cells];
        let answer = flatten(table, code, count, &mut tape);
        (answer, tape)
    };
    let p3 = table(P3);
    let code = pack(&bits("010100111"));
    assert_eq!(spelled(&p3, &code, 9, 2), (Ok(2), b"ba".to_vec()));
    assert_eq!(spelled(&p3, &code, 9, 3), (Ok(2), b"ba\x07".to_vec()));
    assert_eq!(spelled(&p3, &code, 9, 1), (refused(9, 2), vec![7]));
    assert_eq!(spelled(&p3, &code, 9, 0), (refused(9, 2), vec![]));
    for count in [0, 1, 8, 10, 16, 17, u64::MAX] {
        assert_eq!(spelled(&p3, &code, count, 0), (refused(8, 0), vec![]));
    }
    assert_eq!(spelled(&p3, &[code[0], code[1] | 1], 9, 3).0, refused(8, 0));
    assert_eq!(spelled(&p3, &[code[0], code[1], 0], 9, 3).0, refused(8, 0));
    assert_eq!(spelled(&p3, &code[..1], 9, 3).0, refused(8, 0));
    assert_eq!(spelled(&table("0\tE\t-\n"), &[], 0, 0).0, Ok(0));
    // 3,600 and 3,601 letters: a round writes one bit here.
    let star = table("0\tL\t-\ta\n1\tK\t-\t0\n");
    let rounds = |letters: usize| pack(&[vec![false; letters], vec![true]].concat());
    assert_eq!(spelled(&star, &rounds(3_600), 3_601, 3_600).0, Ok(3_600));
    assert_eq!(
        spelled(&star, &rounds(3_600), 3_601, 3_599).0,
        refused(9, 3_600)
    );
    assert_eq!(spelled(&star, &rounds(3_601), 3_602, 0).0, refused(3, 0));
    assert_eq!(spelled(&star, &rounds(3_601), 3_601, 0).0, refused(8, 0));
    assert_eq!(
        totals(&star, &rounds(3_601), 3_602),
        Err(Refusal::new(3, 0))
    );
    assert_eq!(
        totals(&star, &rounds(3_601), 3_601),
        Err(Refusal::new(8, 0))
    );
    assert_eq!(totals(&star, &rounds(3_600), 3_601), Ok(NO_LITRES));
}

#[test]
fn settling_checks_in_order() {
    let p4 = table(P4);
    let code = [0xc0];
    let marks = automaton::marks(&p4, b"ab");
    let (b, ab) = (vec![7], b"ab".to_vec());
    assert_eq!(
        settle(&p4, &code, 3, 0, 0, 0),
        (refused(8, 0), vec![], vec![], vec![])
    );
    assert_eq!(
        settle(&p4, &code, 2, 1, 0, 0),
        (refused(9, 2), b.clone(), vec![], vec![])
    );
    assert_eq!(
        settle(&p4, &code, 2, 2, 5, 0),
        (refused(6, 6), ab.clone(), vec![7; 5], vec![])
    );
    assert_eq!(
        settle(&p4, &code, 2, 2, 6, 0),
        (refused(7, 1), ab.clone(), marks.clone(), vec![])
    );
    assert_eq!(
        settle(&p4, &code, 2, 2, 6, 1),
        (Ok(2), ab, marks.clone(), vec![0x00])
    );
    let (answer, tape, words, settled) = settle(&p4, &code, 2, 3, 7, 2);
    assert_eq!(
        (answer, tape, settled),
        (Ok(2), b"ab\x07".to_vec(), vec![0x00, 7])
    );
    assert_eq!(words, [marks, vec![7]].concat());
}

#[test]
fn settling_twice_changes_nothing_more() {
    let mut rng = Prng::new(11);
    let mut moved = 0;
    for _ in 0..300 {
        let table = small(&mut rng, 10);
        for number in 0..256_u32 {
            let code: Vec<bool> = (0..8).map(|bit| number >> bit & 1 == 1).collect();
            for count in 0..=8 {
                let given = pack(&code[..count]);
                let (answer, tape, _, settled) = settle(&table, &given, count as u64, 99, 200, 99);
                let Ok(bits) = answer else {
                    continue;
                };
                let settled = &settled[..bits.div_ceil(8) as usize];
                let (again, same_tape, _, twice) = settle(&table, settled, bits, 99, 200, 99);
                assert_eq!((again, same_tape), (Ok(bits), tape));
                assert_eq!(&twice[..settled.len()], settled);
                moved += usize::from(settled != given || bits != count as u64);
            }
        }
    }
    assert!(moved > 100, "{moved}");
}

#[test]
fn visits_of_the_listing() {
    // 3W2: rounds (right 3), (left W2).
    let (table, tape, code, bits) = (table(LISTING), b"3W2", [0x4c, 0xc3, 0x28], 21);
    let at = |node: u64, k: u64| span(&table, tape, &code, bits, node, k);
    let found = |start: u64, length: u64| Ok(Span { start, length });
    let none = Err(Refusal::new(10, 0));
    assert_eq!([at(5, 0), at(5, 1)], [found(0, 3), none]);
    assert_eq!(
        [at(4, 0), at(4, 1), at(4, 2)],
        [found(0, 1), found(1, 2), none]
    );
    assert_eq!([at(3, 0), at(3, 1)], [found(0, 1), none]);
    assert_eq!([at(2, 0), at(2, 1)], [found(1, 2), none]);
    assert_eq!(
        [at(1, 0), at(0, 0), at(0, 1)],
        [found(1, 1), found(2, 1), none]
    );
    assert_eq!(
        [at(6, 0), at(64, 0), at(u64::MAX, 0), at(0, u64::MAX)],
        [none; 4]
    );
    let (answer, letters) = piece(&table, tape, &code, bits, 2, 0);
    assert_eq!((answer, letters), (Ok(()), b"W2".as_slice()));
    // A part of the caller's tape, not a copy of it.
    assert_eq!(letters.as_ptr(), tape[1..].as_ptr());
    assert_eq!(
        piece(&table, tape, &code, bits, 2, 1),
        (Err(Refusal::new(10, 0)), &[][..])
    );
    // Another tape, of the same length and of others, and no whole code.
    let other = |tape: &[u8], bits| span(&table, tape, &code, bits, 99, 0);
    let eight = Err(Refusal::new(8, 0));
    assert_eq!(
        [
            other(b"3W3", 21),
            other(b"3W", 21),
            other(b"3W22", 21),
            other(b"3W2", 20)
        ],
        [eight; 4]
    );
    assert_eq!(other(b"3 2", 20), Err(Refusal::new(4, 1)));
    assert_eq!(other(&[b' '; 3_601], 20), Err(Refusal::new(3, 0)));
}

#[test]
fn a_code_of_too_many_letters_is_one_of_another_tape() {
    let star = table("0\tL\t-\ta\n1\tK\t-\t0\n");
    let code = pack(&[vec![false; 3_601], vec![true]].concat());
    assert_eq!(
        span(&star, b"a", &code, 3_602, 0, 0),
        Err(Refusal::new(8, 0))
    );
}

#[test]
fn visits_inside_empty_rounds_count() {
    // P1 on `a` with an empty round before it and one after.
    let (p1, code) = (table(P1), pack(&bits("0100011")));
    let at = |node: u64, k: u64| {
        span(&p1, b"a", &code, 7, node, k).map(|span| (span.start, span.length))
    };
    assert_eq!(
        [at(2, 0), at(2, 1), at(2, 2)],
        [Ok((0, 0)), Ok((0, 1)), Ok((1, 0))]
    );
    assert_eq!(
        [at(1, 0), at(1, 1), at(0, 0), at(3, 0)],
        [Ok((0, 0)), Ok((1, 0)), Ok((0, 1)), Ok((0, 1))]
    );
    assert_eq!(
        [at(2, 3), at(1, 2), at(0, 1), at(3, 1)],
        [Err(Refusal::new(10, 0)); 4]
    );
}

#[test]
fn totals_add_up_to_the_digits_and_go_to_the_innermost_account() {
    assert_eq!(
        totals(&table(LISTING), &[0x4c, 0xc3, 0x28], 21),
        Ok(some_litres(&[(1, 3), (9, 2)]))
    );
    // A leaf's own account, an outer one around a leaf without, and none.
    let nested =
        table("0\tL\t2\t5\n1\tL\t-\t4\n2\tS\t-\t0\t1\n3\tK\t3\t2\n4\tL\t-\t7\n5\tS\t-\t3\t4\n");
    assert_eq!(
        totals(&nested, &[0x20], 3),
        Ok(some_litres(&[(0, 7), (2, 10), (3, 8)]))
    );
    let mut rng = Prng::new(12);
    let mut read = 0;
    for _ in 0..300 {
        let count = 1 + rng.below(14);
        let table = random(&mut rng, count, &METER);
        for tape in tapes(b"03W", 4) {
            let Some(reading) = preferred_reading(&table, &tape) else {
                continue;
            };
            let bits = encode(&table, &reading);
            let totals = totals(&table, &pack(&bits), bits.len() as u64).expect("a whole code");
            let digits = tape.iter().filter(|letter| letter.is_ascii_digit());
            assert_eq!(
                totals.iter().sum::<u64>(),
                digits.map(|digit| u64::from(digit - b'0')).sum()
            );
            read += 1;
        }
    }
    assert!(read > 500, "{read}");
}

#[test]
fn open_counts_of_the_listing() {
    let listing = table(LISTING);
    assert_eq!(open_counts(&listing, b"3W2"), Ok(vec![4, 4, 4, 1]));
    // No reading spells this tape; its marks are there all the same.
    assert_eq!(open_counts(&listing, b"W"), Ok(vec![0, 1]));
    assert_eq!(open_counts(&listing, b"W "), Err(Refusal::new(4, 1)));
    assert_eq!(
        open_counts(&listing, &[b' '; 3_601]),
        Err(Refusal::new(3, 0))
    );
}

/// 20 where a cell is missing for litres, and not where the accounts that have
/// none have no litres.
#[test]
fn totals_go_into_as_many_cells_as_are_lent() {
    let listing = table(LISTING);
    let (code, expected) = ([0x4c, 0xc3, 0x28], some_litres(&[(1, 3), (9, 2)]));
    let expected = expected.map(|litres| litres as u32);
    for cells in 0..ACCOUNTS + 3 {
        let written = cells.min(ACCOUNTS);
        let mut litres = [77; ACCOUNTS + 3];
        let answer = totals_into(&listing, &code, 21, &mut litres[..cells]);
        if cells < 10 {
            assert_eq!(answer, Err(Refusal::new(20, 0)), "{cells}");
            assert!(litres[..written].iter().all(|cell| *cell == 0));
        } else {
            assert_eq!(answer, Ok(0), "{cells}");
            assert_eq!(litres[..written], expected[..written]);
        }
        assert!(litres[written..].iter().all(|cell| *cell == 77));
        assert_eq!(
            totals_into(&listing, &code, 20, &mut litres[..cells]),
            Err(Refusal::new(8, 0))
        );
        assert!(litres[..written].iter().all(|cell| *cell == 0));
        assert!(litres[written..].iter().all(|cell| *cell == 77));
    }
}

/// Each account by itself, with 7 litres and with none, in its own number of cells
/// and in one more. 2, 8 and 3 come before 20.
#[test]
fn an_account_with_litres_needs_its_cell() {
    for account in 0..ACCOUNTS as u64 {
        for (letter, litres) in [(b'7', 7), (b'0', 0), (b'x', 0)] {
            let leaf = Node::new(Kind::Letter, account, u64::from(letter), 0);
            let leaf = Table::of_nodes(&[leaf]);
            let mut cells = vec![77; account as usize + 1];
            let answer = totals_into(&leaf, &[], 0, &mut cells[..account as usize]);
            let due = match litres {
                0 => Ok(0),
                _ => Err(Refusal::new(20, 0)),
            };
            assert_eq!(answer, due, "{account}");
            assert!(cells[..account as usize].iter().all(|cell| *cell == 0));
            assert_eq!(cells[account as usize], 77);
            assert_eq!(totals_into(&leaf, &[], 0, &mut cells), Ok(0));
            assert_eq!(cells[account as usize], litres);
            let no_code = totals_into(&leaf, &[0], 1, &mut []);
            assert_eq!(no_code, Err(Refusal::new(8, 0)));
        }
    }
    let many = table("0\tL\t200\t7\n1\tK\t-\t0\n");
    let mut bits = vec![false; 3_601];
    bits.push(true);
    let too_long = totals_into(&many, &pack(&bits), 3_602, &mut []);
    assert_eq!(too_long, Err(Refusal::new(3, 0)));
    let no_table = totals_into(&Table::of_no_lines(), &pack(&bits), 3_602, &mut []);
    assert_eq!(no_table, Err(Refusal::new(2, 0)));
    assert_eq!(
        totals_into(&many, &pack(&bits[1..]), 3_601, &mut [7; 200]),
        Err(Refusal::new(20, 0))
    );
}
