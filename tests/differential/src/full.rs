//! Cases with tapes of about 3,600 letters: the greatest positions that there are, and the first that is refused.

use wumbyra_reference::code::encode;
use wumbyra_reference::codes::damaged::damage;
use wumbyra_reference::codes::random::sample;
use wumbyra_reference::codes::Code;
use wumbyra_reference::full;
use wumbyra_reference::patterns::{random, text_of, with_stale_part, Taste};
use wumbyra_reference::prng::Prng;
use wumbyra_reference::table::{Kind, Node, Star, Table};
use wumbyra_reference::value::{spell, Value};

/// What a case is made of: a pattern's text, a tape, a code.
pub type Parts = (Vec<u8>, Vec<u8>, Code);

/// Nodes without a star, over letters of either side of the gap, digits and `D`. A star in the part would make the reference slow:
/// it asks for every pair of positions then.
const PART: Taste = Taste {
    leaves: &[Kind::Nothing, Kind::Letter, Kind::Letter, Kind::Range],
    inner: &[Kind::Either, Kind::Either, Kind::Sequence],
    letters: b"07DW~\xa1\xb7",
    accounts: true,
};

pub fn random_parts(rng: &mut Prng) -> Parts {
    let some = 3_580 + rng.below(20);
    let letters = *rng.pick(&[some, 3_599, 3_600, 3_600, 3_601]);
    let star = *rng.pick(&[Star::Greedy, Star::Lazy]);
    let (text, mut tape, bits) = match rng.below(40) {
        0 => written_down(full::long_sequence(star, letters)),
        1..=4 => {
            let more = rng.below(letters);
            written_down(full::choices(star, letters, more))
        }
        5..=9 => written_down(full::star_of_a_letter(star, letters)),
        10..=14 => written_down(full::star_of_a_range(star, letters)),
        15..=17 => written_down(full::nested_greedy(letters)),
        _ => rounds(rng, star, letters),
    };
    change(rng, &mut tape);
    let code = match rng.below(8) {
        0 => {
            let which = rng.below(8);
            damage(rng, which, &bits)
        }
        _ => Code::of_bits(&bits),
    };
    (text, tape, code)
}

fn written_down(row: full::Full) -> (Vec<u8>, Vec<u8>, Vec<bool>) {
    (row.text.into(), row.tape, row.code)
}

/// Rounds of a random part, until there are so many letters. A round may be empty.
fn rounds(rng: &mut Prng, star: Star, letters: usize) -> (Vec<u8>, Vec<u8>, Vec<bool>) {
    let part = loop {
        // Nodes have no part or two, so their number is odd.
        let lines = 1 + 2 * rng.below(4);
        let part = random(rng, lines, &PART);
        let reads = |node: &Node| matches!(node.kind, Kind::Letter | Kind::Range);
        if part.lines().iter().any(reads) {
            break part;
        }
    };
    let mut nodes = part.lines().to_vec();
    nodes.push(Node::new(Kind::Rounds(star), 0, part.root() as u64, 0));
    let mut table = Table::of_nodes(&nodes);
    if rng.below(3) == 0 {
        table = with_stale_part(rng, &table);
    }
    let mut list: Vec<Value> = Vec::new();
    let mut spelled = 0;
    while spelled < letters {
        let round = sample(rng, &part, part.root(), &mut 0);
        spelled += spell(&round).len();
        list.push(round);
    }
    let value = Value::Rounds(star, list);
    (text_of(&table), spell(&value), encode(&table, &value))
}

/// Most tapes stay as they are; in some a letter is another one or no letter, or letters at the end are gone.
fn change(rng: &mut Prng, tape: &mut Vec<u8>) {
    let at = rng.below(tape.len());
    match rng.below(12) {
        0 => tape[at] = *rng.pick(&[32, 127, 160, 255]),
        1 => tape[at] = tape[rng.below(tape.len())],
        2 => *tape.last_mut().expect("a letter") = *rng.pick(b"!7a"),
        3 => tape.truncate(tape.len() - 1 - rng.below(3)),
        _ => {}
    }
}
