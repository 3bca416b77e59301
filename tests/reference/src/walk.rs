//! Walking a code without keeping its reading, for codes of any allowed
//! length: a reading of 65,536 bytes can have millions of nodes.

use crate::code::unpack;
use crate::table::{Kind, Table};

/// What the walk meets, in the order in which the code goes.
#[derive(Clone, Copy, PartialEq, Eq, Debug)]
pub enum Step {
    /// The code enters this node from above; a star only once for all rounds.
    Enter(usize),
    /// A leaf reads this letter.
    Letter(u8),
    /// The node entered last is done.
    Leave(usize),
}

/// "Not a whole code of the pattern, by bits, range, count or padding."
#[derive(Debug, PartialEq, Eq)]
pub struct NotWhole;

struct Walk<'a> {
    table: &'a Table,
    bits: &'a [bool],
    next: usize,
    each: &'a mut dyn FnMut(Step),
}

/// Calls `each` for every step. The steps of a code that turns out not to
/// be whole mean nothing. The table keeps the rules.
pub fn walk(
    table: &Table,
    bytes: &[u8],
    count: u64,
    each: &mut dyn FnMut(Step),
) -> Result<(), NotWhole> {
    let bits = unpack(bytes, count).ok_or(NotWhole)?;
    let mut walk = Walk {
        table,
        bits: &bits,
        next: 0,
        each,
    };
    walk.node(table.root())?;
    if walk.next == bits.len() {
        Ok(())
    } else {
        Err(NotWhole)
    }
}

impl Walk<'_> {
    fn bit(&mut self) -> Result<bool, NotWhole> {
        let bit = self.bits.get(self.next).copied().ok_or(NotWhole)?;
        self.next += 1;
        Ok(bit)
    }

    fn node(&mut self, place: usize) -> Result<(), NotWhole> {
        let node = self.table.node(place);
        let (x, y) = (node.x as usize, node.y as usize);
        (self.each)(Step::Enter(place));
        match node.kind {
            Kind::Nothing => {}
            Kind::Letter => (self.each)(Step::Letter(node.x as u8)),
            Kind::Range => {
                let mut letter = 0;
                for _ in 0..8 {
                    letter = 2 * letter + u64::from(self.bit()?);
                }
                // "bytes 127 to 160 are still no letters, so a code naming
                // one is no code"
                if !node.reads(letter) {
                    return Err(NotWhole);
                }
                (self.each)(Step::Letter(letter as u8));
            }
            Kind::Sequence => {
                self.node(x)?;
                self.node(y)?;
            }
            Kind::Either => {
                let side = if self.bit()? { y } else { x };
                self.node(side)?;
            }
            Kind::Rounds(star) => {
                while self.bit()? != star.stop_bit() {
                    self.node(x)?;
                }
            }
        }
        (self.each)(Step::Leave(place));
        Ok(())
    }
}
