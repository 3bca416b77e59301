//! The preferred reading of a tape of any allowed length, by memoised sets of
//! positions. It knows no automaton and no flags: for each node and start
//! it keeps the set of positions where a value of the node can end, and
//! chooses with a set of allowed ends in hand.

use crate::positions::Positions;
use crate::table::{Kind, Star, Table};
use crate::value::Value;

/// For each node and each start, where its values can end.
pub struct Ends<'a> {
    table: &'a Table,
    tape: &'a [u8],
    sets: Vec<Vec<Positions>>,
}

impl<'a> Ends<'a> {
    /// Parts have lower places than their line, so places rise; rounds look
    /// at later starts of the same node, so starts fall.
    pub fn new(table: &'a Table, tape: &'a [u8]) -> Ends<'a> {
        let mut ends = Ends {
            table,
            tape,
            sets: Vec::new(),
        };
        for place in 0..table.lines().len() {
            // In falling order of starts while they are being made.
            let mut falling: Vec<Positions> = Vec::with_capacity(tape.len() + 1);
            for start in (0..=tape.len()).rev() {
                let set = ends.make(place, start, &falling);
                falling.push(set);
            }
            falling.reverse();
            ends.sets.push(falling);
        }
        ends
    }

    /// Where values of the node can end that start here. A round that spells
    /// nothing adds no end, so rounds are taken to move on.
    fn make(&self, place: usize, start: usize, falling: &[Positions]) -> Positions {
        let length = self.tape.len();
        let mut set = Positions::none(length);
        let node = self.table.node(place);
        match node.kind {
            Kind::Nothing => set.insert(start),
            Kind::Letter | Kind::Range => {
                if self.reads(place, start) {
                    set.insert(start + 1);
                }
            }
            Kind::Sequence => {
                for middle in self.of(node.x, start).iter() {
                    set.join(self.of(node.y, middle));
                }
            }
            Kind::Either => {
                set.join(self.of(node.x, start));
                set.join(self.of(node.y, start));
            }
            Kind::Rounds(_) => {
                set.insert(start);
                for next in self.of(node.x, start).iter() {
                    // What rounds reach from a position that rounds reach is
                    // in the set already.
                    if next > start && !set.contains(next) {
                        set.join(&falling[length - next]);
                    }
                }
            }
        }
        set
    }

    /// Whether a value of the node spells the letters from start to end.
    pub fn spells(&self, place: usize, start: usize, end: usize) -> bool {
        self.sets[place][start].iter().any(|reached| reached == end)
    }

    fn of(&self, part: u64, start: usize) -> &Positions {
        &self.sets[part as usize][start]
    }

    /// Whether this leaf reads the letter that stands here.
    fn reads(&self, place: usize, start: usize) -> bool {
        match self.tape.get(start) {
            Some(&letter) => self.table.node(place).reads(u64::from(letter)),
            None => false,
        }
    }

    /// The greatest value without empty rounds that starts here and ends in
    /// one of the allowed ends, and where it ends; there is one.
    fn greatest(&self, place: usize, start: usize, allowed: &Positions) -> (Value, usize) {
        let node = self.table.node(place);
        match node.kind {
            Kind::Nothing => (Value::Nothing, start),
            Kind::Letter | Kind::Range => (Value::Letter(self.tape[start]), start + 1),
            Kind::Sequence => {
                // The first part is settled before the second is looked at;
                // it may end wherever the second can take over.
                let handed = self.handing_over(self.of(node.x, start), node.y, allowed);
                let (first, middle) = self.greatest(node.x as usize, start, &handed);
                let (second, end) = self.greatest(node.y as usize, middle, allowed);
                (Value::pair(first, second), end)
            }
            Kind::Either => {
                if self.of(node.x, start).meets(allowed) {
                    let (side, end) = self.greatest(node.x as usize, start, allowed);
                    (Value::Left(Box::new(side)), end)
                } else {
                    let (side, end) = self.greatest(node.y as usize, start, allowed);
                    (Value::Right(Box::new(side)), end)
                }
            }
            Kind::Rounds(star) => {
                let mut rounds = Vec::new();
                let mut position = start;
                loop {
                    // Stopping before another round, if here is an allowed
                    // end. A round that may not be empty allows no end where
                    // it starts, so a `Z` in it cannot stop there.
                    if star == Star::Lazy && allowed.contains(position) {
                        return (Value::Rounds(star, rounds), position);
                    }
                    // Another round before stopping, if it spells something
                    // and further rounds can still reach an allowed end.
                    let mut next = self.of(node.x, position).clone();
                    next.remove(position);
                    let handed = self.handing_over(&next, place as u64, allowed);
                    if handed.is_empty() {
                        return (Value::Rounds(star, rounds), position);
                    }
                    let (round, end) = self.greatest(node.x as usize, position, &handed);
                    rounds.push(round);
                    position = end;
                }
            }
        }
    }

    /// Those of the middles from which `then` can reach an allowed end.
    fn handing_over(&self, middles: &Positions, then: u64, allowed: &Positions) -> Positions {
        let mut handed = Positions::none(self.tape.len());
        for middle in middles.iter() {
            if self.of(then, middle).meets_from(middle, allowed) {
                handed.insert(middle);
            }
        }
        handed
    }
}

/// The preferred reading of the whole tape, if any reading spells it.
pub fn preferred_reading(table: &Table, tape: &[u8]) -> Option<Value> {
    let ends = Ends::new(table, tape);
    let mut whole = Positions::none(tape.len());
    whole.insert(tape.len());
    let root = table.root();
    if !ends.of(root as u64, 0).meets(&whole) {
        return None;
    }
    Some(ends.greatest(root, 0, &whole).0)
}
