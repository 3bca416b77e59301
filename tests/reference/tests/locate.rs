//! Where tapes break: rows by hand, then every short tape against all words of
//! the language, and long tapes against what readings and marks say.

mod common;

use common::{sample, small, table, tapes};
use wumbyra_reference::automaton::marks;
use wumbyra_reference::breaks::by_hand::ROWS;
use wumbyra_reference::hot::letters;
use wumbyra_reference::lazy::tower;
use wumbyra_reference::load::load;
use wumbyra_reference::memo::preferred_reading;
use wumbyra_reference::patterns::{random, LISTING};
use wumbyra_reference::prng::Prng;
use wumbyra_reference::services::locate::{locate, Located};
use wumbyra_reference::table::{Kind, Refusal, Table};
use wumbyra_reference::tapes::random::{HOT, MIXED};

fn at(reach: usize, resume: usize) -> Result<Located, Refusal> {
    Ok(Located {
        reach: reach as u64,
        resume: resume as u64,
    })
}

#[test]
fn rows_by_hand() {
    for (text, tape, reach, resume) in ROWS {
        let table = load(text).expect("a good pattern");
        let shown = String::from_utf8_lossy(tape);
        assert_eq!(
            locate(&table, tape),
            at(reach as usize, resume as usize),
            "{shown}"
        );
    }
}

/// Letters that begin a tape and end one need not be one themselves: with aba
/// alone, a.
#[test]
fn a_tape_that_begins_and_ends_others_may_be_unreadable() {
    let table = table("0\tL\t-\ta\n1\tL\t-\tb\n2\tL\t-\ta\n3\tS\t-\t1\t2\n4\tS\t-\t0\t3\n");
    assert_eq!(preferred_reading(&table, b"a"), None);
    assert_eq!(locate(&table, b"a"), at(1, 0));
    assert_eq!(locate(&table, b"ab"), at(2, 2));
    assert_eq!(locate(&table, b"ba"), at(0, 0));
    assert_eq!(locate(&table, b"abba"), at(2, 2));
}

#[test]
fn the_value_has_the_reach_above_sixteen_bits() {
    let located = Located {
        reach: 3_600,
        resume: 17,
    };
    assert_eq!(located.value(), 3_600 * 65_536 + 17);
}

fn leaves(table: &Table) -> usize {
    let is_leaf = |kind| matches!(kind, Kind::Letter | Kind::Range);
    let nodes = table.lines().iter();
    nodes.filter(|node| is_leaf(node.kind)).count()
}

/// Whether some word of the language begins, or ends, with these letters. A
/// shortest one goes through each leaf at most once more.
fn is_part(table: &Table, letters: &[u8], more: &[Vec<u8>], begins: bool) -> bool {
    more.iter().any(|more| {
        let word = match begins {
            true => [letters, more].concat(),
            false => [more, letters].concat(),
        };
        preferred_reading(table, &word).is_some()
    })
}

/// The definition itself: of every k and every i, with all words.
#[test]
fn short_tapes_against_all_words() {
    let mut rng = Prng::new(61);
    let mut seen = [0; 3];
    for _ in 0..500 {
        let table = small(&mut rng, 9);
        let more = tapes(b"ab", leaves(&table));
        for tape in tapes(b"abc", 4) {
            let begins = |&k: &usize| is_part(&table, &tape[..k], &more, true);
            let ends = |&i: &usize| is_part(&table, &tape[i..], &more, false);
            let reach = (0..=tape.len()).filter(begins).max().expect("0");
            let resume = (0..=tape.len()).find(ends).expect("all");
            assert_eq!(locate(&table, &tape), at(reach, resume), "{tape:?}");
            // It begins a tape and ends one; it stops too early; it breaks.
            let sort = match (reach == tape.len(), resume) {
                (true, 0) => 0,
                (true, _) => 1,
                _ => 2,
            };
            seen[sort] += 1;
        }
    }
    assert!(seen.iter().all(|&count| count > 300), "{seen:?}");
}

/// The letters of random patterns of many lines, of hot ones too, with each letter
/// in turn made one that no leaf reads, and cut off behind each letter.
#[test]
fn readable_tapes_and_each_break_of_them() {
    let mut rng = Prng::new(62);
    let mut broken = 0;
    for round in 0..1_500 {
        let taste = match round % 2 {
            0 => *rng.pick(&MIXED),
            _ => *rng.pick(&HOT),
        };
        let lines = 1 + rng.below(64);
        let table = random(&mut rng, lines, taste);
        let read = |letter: &u8| {
            let nodes = table.lines();
            nodes.iter().any(|node| node.reads(u64::from(*letter)))
        };
        let unread = letters().into_iter().find(|letter| !read(letter));
        let mut tape = Vec::new();
        sample(&mut rng, &table, table.root(), &mut tape);
        tape.truncate(200);
        if preferred_reading(&table, &tape).is_none() {
            continue;
        }
        assert_eq!(locate(&table, &tape), at(tape.len(), 0));
        for position in 0..tape.len() {
            let cut = locate(&table, &tape[..position]).expect("letters");
            assert_eq!(cut.reach as usize, position);
            let late = locate(&table, &tape[position..]).expect("letters");
            assert_eq!(late.resume, 0);
            if let Some(letter) = unread {
                let mut other = tape.clone();
                other[position] = letter;
                assert_eq!(locate(&table, &other), at(position, position + 1));
                broken += 1;
            }
        }
    }
    assert!(broken > 1_000, "{broken}");
}

/// Letters end a tape if they are read from some node, with a letter taken before
/// it. So the least i is the first position with a mark in its flag 1 word, or the
/// end, which always accepts.
#[test]
fn letters_that_end_a_tape_are_marked() {
    let mut rng = Prng::new(63);
    let mut unread = 0;
    for _ in 0..600 {
        let table = small(&mut rng, 24);
        for tape in tapes(b"abc", 4) {
            let words = marks(&table, &tape);
            let marked = |&i: &usize| words[2 * i + 1] != 0 || i == tape.len();
            let first = (0..=tape.len()).find(marked).expect("the end");
            let located = locate(&table, &tape).expect("letters");
            assert_eq!(located.resume as usize, first);
            let read = words[1] >> table.root() & 1 == 1;
            if read {
                assert_eq!(Ok(located), at(tape.len(), 0));
            }
            unread += usize::from(!read);
        }
    }
    assert!(unread > 1_000, "{unread}");
}

/// Both stars have the same language.
#[test]
fn the_stars_are_not_told_apart() {
    let mut rng = Prng::new(64);
    for _ in 0..300 {
        let table = small(&mut rng, 24);
        let mut greedy = table.clone();
        for node in &mut greedy.nodes {
            if node.kind == Kind::LAZY_STAR {
                node.kind = Kind::GREEDY_STAR;
            }
        }
        for tape in tapes(b"abc", 4) {
            assert_eq!(locate(&table, &tape), locate(&greedy, &tape));
        }
    }
}

/// 2, 3, 4, each with all behind it; letters or not, 3,601 bytes are too many.
#[test]
fn the_order_of_the_causes() {
    let listing = table(LISTING);
    let refused = |number, value| Err(Refusal::new(number, value));
    let no_table = Table::of_no_lines();
    assert_eq!(locate(&no_table, b"3"), refused(2, 0));
    assert_eq!(locate(&no_table, b" "), refused(2, 0));
    assert_eq!(locate(&no_table, &[b' '; 3_601]), refused(2, 0));
    assert_eq!(locate(&listing, &[b' '; 3_601]), refused(3, 0));
    assert_eq!(locate(&listing, &[b'3'; 3_601]), refused(3, 0));
    assert_eq!(locate(&listing, &[b'3'; 3_600]), at(3_600, 0));
    assert_eq!(locate(&listing, b"3W "), refused(4, 2));
    // A byte that is no letter is found behind a letter that breaks the tape.
    assert_eq!(locate(&listing, b"xW2\x7f\xa0"), refused(4, 3));
    let mut last = [b'3'; 3_600];
    last[3_599] = 255;
    assert_eq!(locate(&listing, &last), refused(4, 3_599));
    for byte in 0..=255 {
        let answer = locate(&listing, &[b'1', byte]);
        match byte {
            b'0'..=b'9' => assert_eq!(answer, at(2, 0)),
            b'W' => assert_eq!(answer, at(2, 2)),
            33..=126 | 161..=254 => assert_eq!(answer, at(1, 2)),
            _ => assert_eq!(answer, refused(4, 1)),
        }
    }
}

/// 3,600 letters under 63 stars, read and broken near both ends and in the middle.
#[test]
fn full_tapes() {
    for kinds in [&['K'][..], &['Z'], &['K', 'Z']] {
        let table = table(&tower(64, kinds));
        let mut tape = [b'7'; 3_600];
        assert_eq!(locate(&table, &tape), at(3_600, 0));
        for position in [0, 1, 1_800, 3_598, 3_599] {
            tape[position] = 200;
            assert_eq!(locate(&table, &tape), at(position, position + 1));
            tape[position] = b'7';
        }
    }
}
