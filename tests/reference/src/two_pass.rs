//! The second pass of 001, section 5.2 (`build'`), over the marks of the
//! first, with the case that section 6 adds for a lazy star: it "simply tries
//! to return [] when possible". It checks the marks against the readings
//! found without them.

use crate::automaton::{followers, Follower};
use crate::table::{Kind, Star, Table};
use crate::value::Value;

struct Build<'a> {
    table: &'a Table,
    tape: &'a [u8],
    marks: &'a [u64],
    followers: Vec<Follower>,
    /// What is left of the tape begins here, and the flag b; both change
    /// when a letter is read, as 001 allows.
    position: usize,
    flag: bool,
}

/// The reading that the second pass builds, if the root with flag 1 is
/// marked at position 0.
pub fn build(table: &Table, tape: &[u8], marks: &[u64]) -> Option<Value> {
    let mut build = Build {
        table,
        tape,
        marks,
        followers: followers(table),
        position: 0,
        flag: true,
    };
    let root = table.root();
    build.open(root, true).then(|| build.node(root))
}

impl Build<'_> {
    fn open(&self, place: usize, flag: bool) -> bool {
        self.marks[2 * self.position + usize::from(flag)] >> place & 1 == 1
    }

    /// Whether the rest can be read after this star has stopped here. The
    /// star's own mark does not tell that: it is there too where only another
    /// round goes on.
    fn may_stop(&self, place: usize) -> bool {
        let follower = self.followers[place];
        match follower.place {
            // "The end accepts with flag 1", and no letter is left.
            None => self.flag && self.position == self.tape.len(),
            // "where the follower is a `K` above them, only with flag 1"
            Some(star) if follower.above => self.flag && self.open(star, true),
            Some(next) => self.open(next, self.flag),
        }
    }

    fn goes_on(&self, star: Star, place: usize, child: usize) -> bool {
        match star {
            Star::Greedy => self.open(child, false),
            Star::Lazy => !self.may_stop(place),
        }
    }

    fn node(&mut self, place: usize) -> Value {
        let node = self.table.node(place);
        let (x, y) = (node.x as usize, node.y as usize);
        match node.kind {
            Kind::Nothing => Value::Nothing,
            Kind::Letter | Kind::Range => {
                let letter = self.tape[self.position];
                self.position += 1;
                self.flag = true;
                Value::Letter(letter)
            }
            Kind::Sequence => {
                let first = self.node(x);
                let second = self.node(y);
                Value::pair(first, second)
            }
            Kind::Either => {
                if self.open(x, self.flag) {
                    Value::Left(Box::new(self.node(x)))
                } else {
                    Value::Right(Box::new(self.node(y)))
                }
            }
            Kind::Rounds(star) => {
                let mut rounds = Vec::new();
                while self.goes_on(star, place, x) {
                    self.flag = false;
                    rounds.push(self.node(x));
                }
                Value::Rounds(star, rounds)
            }
        }
    }
}
