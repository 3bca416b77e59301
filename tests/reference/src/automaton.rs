//! The automaton with flags of 001, section 5, and the marks: for each
//! position the states from which the letters from there on are accepted.
//! Everything is a search over the states of a written-out graph.

use crate::table::{Kind, Node, Table};

/// A node, or the end, with a flag. "Flag 1 means that the present round has
/// taken a letter."
#[derive(Clone, Copy, PartialEq, Eq, Debug)]
pub struct State {
    /// None is the end.
    pub place: Option<usize>,
    pub flag: bool,
}

/// The transitions of the automaton of one table.
pub struct Automaton {
    /// Steps that read no letter.
    pub silent: Vec<(State, State)>,
    /// Steps that read one letter of a leaf.
    pub reading: Vec<(State, Node, State)>,
    count: usize,
}

/// The line that names each place; none names the root.
fn parents(table: &Table) -> Vec<Option<usize>> {
    let mut parents = vec![None; table.lines().len()];
    for (line, node) in table.lines().iter().enumerate() {
        for part in node.parts() {
            parents[part as usize] = Some(line);
        }
    }
    parents
}

/// "A node's follower is: for the root, the end; for the first of `S`, the
/// second; for the child of `K`, that `K`; otherwise its parent's follower."
/// `Z` follows the rules for `K` here and in all that is below, so the marks
/// are those of the pattern with each `Z` made a `K`.
fn follower(table: &Table, parents: &[Option<usize>], place: usize) -> Option<usize> {
    let parent = parents[place]?;
    let node = table.node(parent);
    match node.kind {
        Kind::Sequence if node.x == place as u64 => Some(node.y as usize),
        Kind::Rounds(_) => Some(parent),
        _ => follower(table, parents, parent),
    }
}

fn is_above(parents: &[Option<usize>], place: usize, above: usize) -> bool {
    match parents[place] {
        Some(parent) => parent == above || is_above(parents, parent, above),
        None => false,
    }
}

/// A node's follower (none is the end), and whether it is above the node in
/// the tree. 001 calls P the nodes for which it is; it is a star then.
#[derive(Clone, Copy, PartialEq, Eq, Debug)]
pub struct Follower {
    pub place: Option<usize>,
    pub above: bool,
}

pub fn followers(table: &Table) -> Vec<Follower> {
    let parents = parents(table);
    let of = |place| {
        let next = follower(table, &parents, place);
        Follower {
            place: next,
            above: next.is_some_and(|next| is_above(&parents, place, next)),
        }
    };
    (0..parents.len()).map(of).collect()
}

impl Automaton {
    pub fn new(table: &Table) -> Automaton {
        let followers = followers(table);
        let mut automaton = Automaton {
            silent: Vec::new(),
            reading: Vec::new(),
            count: table.lines().len(),
        };
        for (place, node) in table.lines().iter().enumerate() {
            let follower = followers[place];
            for flag in [false, true] {
                let from = State {
                    place: Some(place),
                    flag,
                };
                let to = |part: u64, flag| State {
                    place: Some(part as usize),
                    flag,
                };
                match node.kind {
                    // "A letter leaf steps to its follower with flag 1."
                    Kind::Letter | Kind::Range => {
                        let after = State {
                            place: follower.place,
                            flag: true,
                        };
                        automaton.reading.push((from, *node, after));
                    }
                    // "`S` passes its flag to its first part, and `A` to
                    // either side."
                    Kind::Sequence => automaton.silent.push((from, to(node.x, flag))),
                    Kind::Either => {
                        automaton.silent.push((from, to(node.x, flag)));
                        automaton.silent.push((from, to(node.y, flag)));
                    }
                    // "`K` enters its child with flag 0."
                    Kind::Rounds(_) => automaton.silent.push((from, to(node.x, false))),
                    Kind::Nothing => {}
                }
                // "`E` and `K` step to the follower with the same flag, but
                // where the follower is a `K` above them, only with flag 1."
                let steps_on = matches!(node.kind, Kind::Nothing | Kind::Rounds(_));
                if steps_on && (flag || !follower.above) {
                    automaton.silent.push((
                        from,
                        State {
                            place: follower.place,
                            flag,
                        },
                    ));
                }
            }
        }
        automaton
    }

    /// The end with flag 1 is the one accepting state.
    pub fn accepting() -> State {
        State {
            place: None,
            flag: true,
        }
    }

    fn index(&self, state: State) -> usize {
        2 * state.place.unwrap_or(self.count) + usize::from(state.flag)
    }

    /// For each position, from the tape's end, the states from which the
    /// letters from there on are accepted.
    fn accepted(&self, tape: &[u8]) -> Vec<Vec<bool>> {
        let mut found = vec![self.at_end()];
        for (behind, &letter) in tape.iter().rev().enumerate() {
            found.push(self.before(letter, &found[behind]));
        }
        found.reverse();
        found
    }

    /// No letter is left: the accepting state, and those that reach it silently.
    fn at_end(&self) -> Vec<bool> {
        let mut here = vec![false; 2 * (self.count + 1)];
        here[self.index(Automaton::accepting())] = true;
        self.reach_silently(&mut here);
        here
    }

    /// Those that read the letter into an accepted state of the next position,
    /// and those that reach one of these silently.
    fn before(&self, letter: u8, next: &[bool]) -> Vec<bool> {
        let mut here = vec![false; 2 * (self.count + 1)];
        for &(from, leaf, to) in &self.reading {
            if leaf.reads(u64::from(letter)) && next[self.index(to)] {
                here[self.index(from)] = true;
            }
        }
        self.reach_silently(&mut here);
        here
    }

    fn reach_silently(&self, here: &mut [bool]) {
        let mut changed = true;
        while changed {
            changed = false;
            for &(from, to) in &self.silent {
                if here[self.index(to)] && !here[self.index(from)] {
                    here[self.index(from)] = true;
                    changed = true;
                }
            }
        }
    }

    /// The words of flag 0 and flag 1 of one position.
    fn words(&self, here: &[bool]) -> [u64; 2] {
        [false, true].map(|flag| {
            let bit = |place: usize| {
                let state = State {
                    place: Some(place),
                    flag,
                };
                u64::from(here[self.index(state)]) << place
            };
            (0..self.count).map(bit).sum()
        })
    }

    /// Both words of a position from its letter, the flag 1 word of the next
    /// position, whatever that holds, and whether the tape's end lies there. A
    /// letter is read into flag 1, so no more of the next position is asked for.
    pub fn step(&self, letter: u8, next: u64, at_end: bool) -> [u64; 2] {
        let mut states = vec![false; 2 * (self.count + 1)];
        for place in 0..self.count {
            let state = State {
                place: Some(place),
                flag: true,
            };
            states[self.index(state)] = next >> place & 1 == 1;
        }
        states[self.index(Automaton::accepting())] = at_end;
        self.words(&self.before(letter, &states))
    }
}

/// "Bit l of word 2 × i + b says that the letters from i on are in the
/// language of node l with flag b. Bits past the last node are 0."
pub fn marks(table: &Table, tape: &[u8]) -> Vec<u64> {
    let automaton = Automaton::new(table);
    let accepted = automaton.accepted(tape);
    accepted
        .iter()
        .flat_map(|here| automaton.words(here))
        .collect()
}
