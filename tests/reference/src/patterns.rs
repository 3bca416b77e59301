//! Good patterns: those of 01 and random ones, and their texts.

use crate::prng::Prng;
use crate::table::{Kind, Node, Table, MOST_ACCOUNT, STALE_ACCOUNT};

/// The text that loads as this table.
pub fn text_of(table: &Table) -> Vec<u8> {
    let mut text = Vec::new();
    for (line, node) in table.lines().iter().enumerate() {
        let account = match node.account {
            0 => "-".to_string(),
            digit => digit.to_string(),
        };
        let start = format!("{line}\t{}\t{account}", node.kind.letter());
        text.extend_from_slice(start.as_bytes());
        match node.kind {
            Kind::Nothing => {}
            Kind::Letter => text.extend_from_slice(&[9, node.x as u8]),
            Kind::Range => text.extend_from_slice(&[9, node.x as u8, 9, node.y as u8]),
            Kind::Sequence | Kind::Either | Kind::Rounds(_) => {
                for part in node.parts() {
                    text.extend_from_slice(format!("\t{part}").as_bytes());
                }
            }
        }
        text.push(10);
    }
    text
}

/// The pattern of the listing in 01.
pub const LISTING: &str =
    "0\tR\t-\t0\t9\n1\tL\t-\tW\n2\tS\t9\t1\t0\n3\tR\t1\t0\t9\n4\tA\t-\t2\t3\n5\tK\t-\t4\n";
/// P1: (a|e)*
pub const P1: &str = "0\tL\t-\ta\n1\tE\t-\n2\tA\t-\t0\t1\n3\tK\t-\t2\n";
/// P2: (e|a)*
pub const P2: &str = "0\tE\t-\n1\tL\t-\ta\n2\tA\t-\t0\t1\n3\tK\t-\t2\n";
/// P3: (a*b*)*
pub const P3: &str = "0\tL\t-\ta\n1\tK\t-\t0\n2\tL\t-\tb\n3\tK\t-\t2\n4\tS\t-\t1\t3\n5\tK\t-\t4\n";
/// P4: (a|ab)(b|e)
pub const P4: &str = "0\tL\t-\ta\n1\tL\t-\ta\n2\tL\t-\tb\n3\tS\t-\t1\t2\n4\tA\t-\t0\t3\n\
5\tL\t-\tb\n6\tE\t-\n7\tA\t-\t5\t6\n8\tS\t-\t4\t7\n";
/// P5: a*a
pub const P5: &str = "0\tL\t-\ta\n1\tK\t-\t0\n2\tL\t-\ta\n3\tS\t-\t1\t2\n";

/// What random nodes are made of; a kind or letter that stands more often
/// in its list comes up more often.
pub struct Taste<'a> {
    pub leaves: &'a [Kind],
    pub inner: &'a [Kind],
    pub letters: &'a [u8],
    /// Whether nodes get accounts at all: those of one digit.
    pub accounts: bool,
}

/// A random good table of exactly `count` lines. Places not yet named are
/// kept in a list; a line is a leaf only while the lines after it can still
/// bring that list down to the root alone. Parts are drawn from anywhere in
/// the list, so the places of a part need not be next to its line.
pub fn random(rng: &mut Prng, count: usize, taste: &Taste) -> Table {
    let mut nodes: Vec<Node> = Vec::new();
    let mut unnamed: Vec<u64> = Vec::new();
    for line in 0..count {
        let left = count - line;
        let mut kinds: Vec<Kind> = Vec::new();
        if unnamed.len() < left {
            kinds.extend_from_slice(taste.leaves);
        }
        for &kind in taste.inner {
            let fits = match kind {
                Kind::Rounds(_) => !unnamed.is_empty() && unnamed.len() <= left,
                _ => unnamed.len() >= 2,
            };
            if fits {
                kinds.push(kind);
            }
        }
        let kind = *rng.pick(&kinds);
        let account = match taste.accounts && rng.below(2) == 0 {
            true => 1 + rng.below(9) as u64,
            false => 0,
        };
        let (x, y) = match kind {
            Kind::Nothing => (0, 0),
            Kind::Letter => (u64::from(*rng.pick(taste.letters)), 0),
            Kind::Range => {
                let one = u64::from(*rng.pick(taste.letters));
                let other = u64::from(*rng.pick(taste.letters));
                (one.min(other), one.max(other))
            }
            Kind::Sequence | Kind::Either => (take(rng, &mut unnamed), take(rng, &mut unnamed)),
            Kind::Rounds(_) => (take(rng, &mut unnamed), 0),
        };
        nodes.push(Node::new(kind, account, x, y));
        unnamed.push(line as u64);
    }
    Table::of_nodes(&nodes)
}

fn take(rng: &mut Prng, unnamed: &mut Vec<u64>) -> u64 {
    let index = rng.below(unnamed.len());
    unnamed.remove(index)
}

/// The table with account 9 at a random node that has letters below it, and
/// with other accounts there: at one of the leaves that read them, and at half
/// of the rest. As it is where it has no such node.
pub fn with_stale_part(rng: &mut Prng, table: &Table) -> Table {
    let reads = |place: &usize| matches!(table.node(*place).kind, Kind::Letter | Kind::Range);
    let tops: Vec<usize> = (0..table.lines().len())
        .filter(|&place| below(table, place).iter().any(reads))
        .collect();
    let mut changed = table.clone();
    if tops.is_empty() {
        return changed;
    }
    let top = *rng.pick(&tops);
    changed.nodes[top].account = STALE_ACCOUNT;
    let places = below(table, top);
    let leaves: Vec<usize> = places.iter().copied().filter(reads).collect();
    let chosen = *rng.pick(&leaves);
    for place in places {
        if place == chosen || rng.below(2) == 0 {
            changed.nodes[place].account = 1 + rng.below(STALE_ACCOUNT as usize - 1) as u64;
        }
    }
    changed
}

/// Accounts on either side of a limit: of one, two and three digits, of the
/// greatest, and of those that are written with a 9 and are not 9.
const LIKELY_ACCOUNTS: [u64; 20] = [
    1, 2, 8, 10, 11, 19, 20, 29, 89, 90, 98, 99, 100, 101, 109, 110, 190, 198, 199, 200,
];

/// The table with accounts to 200 in the place of 1 to 8. Account 9 stays where it
/// is, and no other node gets it.
pub fn with_great_accounts(rng: &mut Prng, table: &Table) -> Table {
    let mut changed = table.clone();
    for node in &mut changed.nodes[..table.lines().len()] {
        if node.account == 0 || node.account == STALE_ACCOUNT {
            continue;
        }
        let any = 1 + rng.below(MOST_ACCOUNT as usize) as u64;
        node.account = match rng.below(2) {
            0 if any != STALE_ACCOUNT => any,
            _ => *rng.pick(&LIKELY_ACCOUNTS),
        };
    }
    changed
}

/// The places below a node, at any depth.
pub fn below(table: &Table, place: usize) -> Vec<usize> {
    let mut found: Vec<usize> = Vec::new();
    for part in table.node(place).parts() {
        found.push(part as usize);
        found.extend(below(table, part as usize));
    }
    found
}
