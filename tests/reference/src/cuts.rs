//! The cuts of a code: for each visit, the piece that it covers and "the bits
//! written during it" (02, Job 10). They are found from the reading, by the
//! rules for code bits in 01 and 02; `walk` has no part in it.

use crate::table::{Kind, Table};
use crate::value::Value;

/// One visit of a node.
#[derive(Clone, Copy, PartialEq, Eq, Debug)]
pub struct Cut {
    pub node: usize,
    /// The piece: where it starts on the tape, and its letters.
    pub start: usize,
    pub length: usize,
    /// The bits: the first of them in the whole code, and how many there are.
    pub first: usize,
    pub bits: usize,
}

impl Cut {
    /// What this cut takes out of the tape.
    pub fn piece<'a>(&self, tape: &'a [u8]) -> &'a [u8] {
        &tape[self.start..self.start + self.length]
    }

    /// What this cut takes out of the code.
    pub fn code<'a>(&self, bits: &'a [bool]) -> &'a [bool] {
        &bits[self.first..self.first + self.bits]
    }
}

/// The visits of a reading of the whole pattern, "as the code enters them from
/// above": of the cuts of one node, the one at index k is visit k.
pub fn cuts(table: &Table, value: &Value) -> Vec<Cut> {
    let mut knife = Knife {
        table,
        letters: 0,
        bits: 0,
        found: Vec::new(),
    };
    knife.visit(table.root(), value);
    knife.found
}

struct Knife<'a> {
    table: &'a Table,
    /// Letters read and bits written so far.
    letters: usize,
    bits: usize,
    found: Vec<Cut>,
}

impl Knife<'_> {
    fn visit(&mut self, place: usize, value: &Value) {
        let index = self.found.len();
        let (start, first) = (self.letters, self.bits);
        self.found.push(Cut {
            node: place,
            start,
            length: 0,
            first,
            bits: 0,
        });
        self.parts(place, value);
        self.found[index].length = self.letters - start;
        self.found[index].bits = self.bits - first;
    }

    fn parts(&mut self, place: usize, value: &Value) {
        let node = self.table.node(place);
        let (x, y) = (node.x as usize, node.y as usize);
        match value {
            Value::Nothing => {}
            Value::Letter(_) => {
                self.letters += 1;
                self.bits += if node.kind == Kind::Range { 8 } else { 0 };
            }
            Value::Pair(pair) => {
                self.visit(x, &pair.0);
                self.visit(y, &pair.1);
            }
            // The bit that tells the side is the `A`'s, not the side's.
            Value::Left(side) => {
                self.bits += 1;
                self.visit(x, side);
            }
            Value::Right(side) => {
                self.bits += 1;
                self.visit(y, side);
            }
            // The bit before a round is the star's, not the round's, and so is
            // the closing one.
            Value::Rounds(_, rounds) => {
                for round in rounds {
                    self.bits += 1;
                    self.visit(x, round);
                }
                self.bits += 1;
            }
        }
    }
}
