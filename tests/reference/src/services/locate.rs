//! Where a tape breaks: how far its letters begin a tape of the pattern, and
//! from where on they end one.

use super::{judge_bytes, judge_length};
use crate::table::{judge, Kind, Refusal, Table};

/// Where a tape breaks.
#[derive(Clone, Copy, PartialEq, Eq, Debug)]
pub struct Located {
    /// "the greatest k such that the first k letters begin some tape of the
    /// pattern"
    pub reach: u64,
    /// "the least i such that the letters from i on end one"
    pub resume: u64,
}

impl Located {
    /// The value from C: `reach << 16 | resume`.
    pub fn value(self) -> u64 {
        self.reach << 16 | self.resume
    }
}

/// Locating where a tape breaks: 2, 3, 4, with the values of reading. No buffer
/// is lent, and an unreadable tape is answered like any other.
pub fn locate(table: &Table, tape: &[u8]) -> Result<Located, Refusal> {
    judge(table)?;
    judge_length(tape.len())?;
    judge_bytes(tape)?;
    // Letters end a tape if, read backwards, they begin one that is read backwards.
    let backwards: Vec<u8> = tape.iter().rev().copied().collect();
    let ended = begun(table, &backwards, Way::Backwards);
    Ok(Located {
        reach: begun(table, tape, Way::Forwards) as u64,
        resume: (tape.len() - ended) as u64,
    })
}

/// Whether tapes are read from their first letter on or from their last.
/// Backwards, the second part of an `S` comes first, and that is all.
#[derive(Clone, Copy, PartialEq, Eq)]
enum Way {
    Forwards,
    Backwards,
}

/// What is still to be read of a tape: places, the next one last. An empty
/// list is a tape that is read.
type Rest = Vec<usize>;

/// How many of these letters begin a tape: as many as can be read one after the
/// other. Every place can read something, if only no letter, so whatever is left
/// then can be read to its end, and the letters begin the tape that this makes.
fn begun(table: &Table, letters: &[u8], way: Way) -> usize {
    let mut rests = unfolded(table, vec![vec![table.root()]], way);
    for (position, &letter) in letters.iter().enumerate() {
        let behind = behind(table, &rests, letter);
        if behind.is_empty() {
            return position;
        }
        rests = unfolded(table, behind, way);
    }
    letters.len()
}

/// What is left behind a letter, of those that begin with a leaf that reads it.
fn behind(table: &Table, rests: &[Rest], letter: u8) -> Vec<Rest> {
    let mut found: Vec<Rest> = Vec::new();
    for rest in rests {
        let Some((&next, left)) = rest.split_last() else {
            continue;
        };
        if table.node(next).reads(u64::from(letter)) && !found.iter().any(|known| known == left) {
            found.push(left.to_vec());
        }
    }
    found
}

/// These lists and all that come of them without a letter: the next place is
/// taken apart until it is a leaf that reads one. A round without a letter comes
/// back to a list that is known, so empty rounds need no rule here. Each place is
/// named once, which fixes what is read after it, so there are at most as many
/// lists as places and the empty one.
fn unfolded(table: &Table, mut rests: Vec<Rest>, way: Way) -> Vec<Rest> {
    let mut done = 0;
    while done < rests.len() {
        let Some((&next, left)) = rests[done].split_last() else {
            done += 1;
            continue;
        };
        let left = left.to_vec();
        let before = |places: &[usize]| [&left[..], places].concat();
        let node = table.node(next);
        let (x, y) = (node.x as usize, node.y as usize);
        let ways = match node.kind {
            Kind::Nothing => vec![left.clone()],
            Kind::Letter | Kind::Range => vec![],
            Kind::Sequence if way == Way::Forwards => vec![before(&[y, x])],
            Kind::Sequence => vec![before(&[x, y])],
            Kind::Either => vec![before(&[x]), before(&[y])],
            // No further round, or one and then the star again.
            Kind::Rounds(_) => vec![left.clone(), before(&[next, x])],
        };
        for rest in ways {
            if !rests.contains(&rest) {
                rests.push(rest);
            }
        }
        done += 1;
    }
    rests
}
