//! 02, Job 10, through the C interface: in the settled code of a short tape, every visit of every node. `span` shows the piece, and
//! `parse` reads it by the pattern of that node, as the reference writes it. It must write the bits that the reference cuts out of the
//! whole code. The reference does not read the piece: cutting is all that it does.

use crate::calls;
use crate::case::Case;
use crate::compare::{Run, PARSE, SPAN};
use wumbyra_reference::code::{decode, pack, unpack};
use wumbyra_reference::cuts::{cuts, Cut};
use wumbyra_reference::patterns::text_of;
use wumbyra_reference::services::spelling::letters_of;
use wumbyra_reference::subpattern::subpattern;
use wumbyra_reference::table::Table;
use wumbyra_reference::value::spell;

/// Letters of a tape and bytes of a code that are cut.
const MOST_LETTERS: usize = 24;
const MOST_BYTES: usize = 20;

/// A settled code, as the library gave it.
struct Settled {
    tape: Vec<u8>,
    bits: Vec<bool>,
    bytes: Vec<u8>,
}

/// The case's own tape and what its code spells; no tape if the pattern is refused.
fn tapes_of(table: &Table, case: &Case) -> Vec<Vec<u8>> {
    if table.count == 0 {
        return vec![];
    }
    let spelled = letters_of(table, &case.code, u64::from(case.count)).ok();
    let other = spelled.filter(|letters| *letters != case.tape);
    let tapes = [Some(case.tape.clone()), other].into_iter().flatten();
    tapes.filter(|tape| tape.len() <= MOST_LETTERS).collect()
}

impl Run<'_> {
    /// All pieces of the case's tapes.
    pub fn pieces(&mut self) -> Result<(), String> {
        for tape in tapes_of(&self.table, self.case) {
            if let Some(settled) = self.settled(tape)? {
                self.pieces_of(&settled)?;
            }
        }
        Ok(())
    }

    /// The settled code of a tape by the library. None if it refuses the tape, or needs more bytes for the code.
    fn settled(&self, tape: Vec<u8>) -> Result<Option<Settled>, String> {
        let (mut words, mut code) = ([0; 2 * (MOST_LETTERS + 1)], [0; MOST_BYTES]);
        let answer = calls::parse(&self.case.text, &tape, &mut words, &mut code);
        if answer >> 32 != 0 {
            return Ok(None);
        }
        let bytes = &code[..(answer as usize).div_ceil(8).min(MOST_BYTES)];
        let bits = unpack(bytes, answer).ok_or("pieces: parse wrote no code")?;
        Ok(Some(Settled {
            tape,
            bits,
            bytes: bytes.to_vec(),
        }))
    }

    fn pieces_of(&mut self, whole: &Settled) -> Result<(), String> {
        let value = decode(&self.table, &whole.bits).ok_or("pieces: parse wrote no code")?;
        if spell(&value) != whole.tape {
            return Err("pieces: parse wrote the code of another tape".into());
        }
        let lines = self.table.count as usize;
        let mut texts: Vec<Option<Vec<u8>>> = vec![None; lines];
        let mut visits = vec![0; lines];
        for cut in cuts(&self.table, &value) {
            let text = texts[cut.node].get_or_insert_with(|| {
                let alone = subpattern(&self.table, cut.node as u64);
                text_of(&alone.expect("a node of the table"))
            });
            let visit = visits[cut.node];
            visits[cut.node] += 1;
            self.piece(whole, &cut, visit, text)
                .map_err(|words| format!("piece of node {}, visit {visit}: {words}", cut.node))?;
        }
        Ok(())
    }

    /// One visit: where its piece lies, and what is read of the piece by the text of the node's pattern.
    fn piece(&mut self, whole: &Settled, cut: &Cut, visit: u32, text: &[u8]) -> Result<(), String> {
        let count = whole.bits.len() as u32;
        let shown = calls::span(
            &self.case.text,
            &whole.tape,
            &whole.bytes,
            count,
            cut.node as u32,
            visit,
        );
        self.answered(SPAN, shown, (cut.start << 16 | cut.length) as u64)?;
        let (start, length) = (shown as usize >> 16, shown as usize & 0xffff);
        let piece = &whole.tape[start..start + length];
        let own = pack(cut.code(&whole.bits));
        let mut words = self.words(2 * (length + 1));
        let mut code = self.bytes(own.len());
        let proved = calls::parse(text, piece, words.proved(), code.proved());
        code.expected().copy_from_slice(&own);
        self.answered(PARSE, proved, cut.bits as u64)?;
        words.same_around("parse", "words")?;
        code.same("parse", "code")?;
        self.counts.pieces += 1;
        Ok(())
    }
}

#[cfg(test)]
mod tests {
    use super::*;
    use crate::case::random_case;
    use crate::shrink::shrink;
    use wumbyra_reference::load::load;
    use wumbyra_reference::memo::preferred_reading;
    use wumbyra_reference::prng::Prng;
    use wumbyra_reference::table::Kind;

    /// The table of a case, and the cuts of each of its settled codes.
    fn cut_by_reference(case: &Case) -> Option<(Table, Vec<Vec<Cut>>)> {
        let table = load(&case.text).ok()?;
        let read = |tape: Vec<u8>| preferred_reading(&table, &tape);
        let values = tapes_of(&table, case).into_iter().filter_map(read);
        let found = values
            .map(|value| cuts(&table, &value))
            .filter(|found| found[0].bits <= 8 * MOST_BYTES)
            .collect();
        Some((table, found))
    }

    /// Pieces without letters of both kinds of stars come up, and pieces with letters of nodes that have both kinds.
    #[test]
    fn cases_have_pieces_of_every_sort() {
        let mut rng = Prng::new(31);
        let [mut pieces, mut greedy, mut lazy, mut mixed] = [0; 4];
        for _ in 0..4_000 {
            let case = random_case(&mut rng);
            let Some((table, codes)) = cut_by_reference(&case) else {
                continue;
            };
            for cut in codes.into_iter().flatten() {
                let kind = table.node(cut.node).kind;
                pieces += 1;
                greedy += usize::from(cut.length == 0 && kind == Kind::GREEDY_STAR);
                lazy += usize::from(cut.length == 0 && kind == Kind::LAZY_STAR);
                let alone = subpattern(&table, cut.node as u64).expect("a node");
                let has = |kind: Kind| alone.lines().iter().any(|node| node.kind == kind);
                let both = has(Kind::GREEDY_STAR) && has(Kind::LAZY_STAR);
                mixed += usize::from(cut.length > 0 && both);
            }
        }
        for (sort, count) in [("greedy", greedy), ("lazy", lazy), ("mixed", mixed)] {
            assert!(count >= 500, "{sort}: {count}");
        }
        assert!(pieces >= 20_000, "{pieces}");
    }

    /// Whether a visit of a `K` with letters has in it a visit of a `Z` without letters.
    fn lazy_stops_in_greedy(table: &Table, found: &[Cut]) -> bool {
        let is = |cut: &Cut, kind: Kind| table.node(cut.node).kind == kind;
        let stops = |inner: &Cut| is(inner, Kind::LAZY_STAR) && inner.length == 0;
        let mut greedy = found
            .iter()
            .filter(|outer| is(outer, Kind::GREEDY_STAR) && outer.length > 0);
        greedy.any(|outer| {
            let bits = outer.first..outer.first + outer.bits;
            let inside = |inner: &&Cut| bits.contains(&inner.first);
            found.iter().filter(inside).any(stops)
        })
    }

    /// A fault in such a visit is shown with hardly more than the two stars and a letter.
    #[test]
    fn a_fault_in_pieces_is_made_small() {
        let fails = |case: &Case| {
            cut_by_reference(case).is_some_and(|(table, codes)| {
                let stops = |found: &Vec<Cut>| lazy_stops_in_greedy(&table, found);
                codes.iter().any(stops)
            })
        };
        let mut rng = Prng::new(33);
        let mut seen = 0;
        while seen < 20 {
            let case = random_case(&mut rng);
            if case.code.len() < 100 && fails(&case) {
                seen += 1;
                let small = shrink(&case, &fails);
                let table = load(&small.text).expect("it loads");
                assert!(table.lines().len() <= 6, "{small:?}");
            }
        }
    }
}
