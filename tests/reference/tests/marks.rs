//! The marks against a search forwards from each state, against the
//! languages of lemma 2, and against the example of 001, section 5.

mod common;

use common::{small, table, tapes};
use wumbyra_reference::automaton::{followers, marks, Automaton, State};
use wumbyra_reference::memo::{preferred_reading, Ends};
use wumbyra_reference::patterns::P3;
use wumbyra_reference::prng::Prng;
use wumbyra_reference::table::Kind;

/// Whether the letters lead from this state to the end with flag 1: every
/// state that can be reached is tried, letter by letter.
fn accepts(automaton: &Automaton, from: State, letters: &[u8]) -> bool {
    let mut here = closed(automaton, vec![from]);
    for &letter in letters {
        let mut next = Vec::new();
        for &(from, leaf, to) in &automaton.reading {
            if here.contains(&from) && leaf.reads(u64::from(letter)) {
                next.push(to);
            }
        }
        here = closed(automaton, next);
    }
    here.contains(&Automaton::accepting())
}

fn closed(automaton: &Automaton, mut states: Vec<State>) -> Vec<State> {
    let mut done = 0;
    while done < states.len() {
        let state = states[done];
        for &(from, to) in &automaton.silent {
            if from == state && !states.contains(&to) {
                states.push(to);
            }
        }
        done += 1;
    }
    states
}

#[test]
fn marks_are_what_a_search_forwards_finds() {
    let mut rng = Prng::new(8);
    for round in 0..600 {
        let table = small(&mut rng, if round % 10 == 0 { 64 } else { 14 });
        let automaton = Automaton::new(&table);
        for tape in tapes(b"ab", 3) {
            let words = marks(&table, &tape);
            assert_eq!(words.len(), 2 * (tape.len() + 1));
            for (index, word) in words.iter().enumerate() {
                for place in 0..64 {
                    let state = State {
                        place: Some(place),
                        flag: index % 2 == 1,
                    };
                    let inside = place < table.lines().len();
                    let accepted = inside && accepts(&automaton, state, &tape[index / 2..]);
                    assert_eq!(word >> place & 1 == 1, accepted);
                }
            }
        }
    }
}

#[test]
fn the_root_with_flag_1_is_marked_where_a_reading_spells_the_rest() {
    let mut rng = Prng::new(9);
    for _ in 0..600 {
        let table = small(&mut rng, 14);
        for tape in tapes(b"ab", 4) {
            let words = marks(&table, &tape);
            for position in 0..=tape.len() {
                let marked = words[2 * position + 1] >> table.root() & 1 == 1;
                assert_eq!(
                    marked,
                    preferred_reading(&table, &tape[position..]).is_some()
                );
            }
            // "whenever q0 is in a subset, then q1 is also in a subset"
            for pair in words.chunks(2) {
                assert_eq!(pair[0] & !pair[1], 0);
            }
        }
    }
}

/// Lemma 2 of 001: with flag 1 a node's language is its own before that of
/// its follower with flag 1; with flag 0 the node must spell something, or
/// its follower with flag 0 takes over, unless that is a star above.
#[test]
fn the_languages_are_those_of_lemma_2() {
    let mut rng = Prng::new(10);
    for _ in 0..600 {
        let table = small(&mut rng, 14);
        let followers = followers(&table);
        for tape in tapes(b"ab", 4) {
            let words = marks(&table, &tape);
            let ends = Ends::new(&table, &tape);
            let marked = |place: Option<usize>, flag: usize, position: usize| match place {
                Some(place) => words[2 * position + flag] >> place & 1 == 1,
                None => flag == 1 && position == tape.len(),
            };
            for (place, follower) in followers.iter().enumerate() {
                for start in 0..=tape.len() {
                    let handed = |end: usize| {
                        ends.spells(place, start, end) && marked(follower.place, 1, end)
                    };
                    let nothing = !follower.above
                        && ends.spells(place, start, start)
                        && marked(follower.place, 0, start);
                    let one = (start..=tape.len()).any(handed);
                    let zero = (start + 1..=tape.len()).any(handed) || nothing;
                    assert_eq!(marked(Some(place), 1, start), one);
                    assert_eq!(marked(Some(place), 0, start), zero);
                }
            }
        }
    }
}

/// `Z` "follows every rule for `K` on followers, flags": the marks are those
/// of the pattern with each `Z` made a `K`.
#[test]
fn marks_do_not_tell_the_stars_apart() {
    let mut rng = Prng::new(15);
    let mut told = 0;
    for _ in 0..600 {
        let table = small(&mut rng, 24);
        let mut greedy = table.clone();
        for node in &mut greedy.nodes {
            if node.kind == Kind::LAZY_STAR {
                node.kind = Kind::GREEDY_STAR;
            }
        }
        for tape in tapes(b"ab", 4) {
            assert_eq!(marks(&table, &tape), marks(&greedy, &tape));
        }
        told += usize::from(table != greedy);
    }
    assert!(told > 200, "{told}");
}

/// 001 numbers (c1* x c2*)*: 0 the outer star, 1 the pair, 2 and 3 the inner
/// stars, 4 and 5 their letters, 6 the end. On c2 c1 it finds S2 = {6, 0, 3,
/// 2, 1 all with flag 1}, S1 = {4, 2, 1, 0, and 3 with flag 1}, S0 = {5, 3,
/// 2, 1, 0}. P3 has the same shape with places 5, 4, 1, 3, 0, 2.
#[test]
fn the_example_of_section_5() {
    let (outer, pair, first, second, a, b) = (1 << 5, 1 << 4, 1 << 1, 1 << 3, 1 << 0, 1 << 2);
    let s0 = b | second | first | pair | outer;
    let s1 = a | first | pair | outer;
    let s2 = outer | second | first | pair;
    assert_eq!(marks(&table(P3), b"ba"), [s0, s0, s1, s1 | second, 0, s2]);
}
