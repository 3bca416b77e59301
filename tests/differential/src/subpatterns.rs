//! Patterns, nodes of them, and the text of each node's pattern by the reference: a file for `subpatterns.py`, which asks the Python
//! package for the same texts.

use std::collections::BTreeSet;
use std::fmt::Write;
use std::path::Path;
use wumbyra_reference::hex;
use wumbyra_reference::patterns::{
    random, text_of, with_great_accounts, with_stale_part, LISTING, P1, P2, P3, P4, P5,
};
use wumbyra_reference::prng::Prng;
use wumbyra_reference::subpattern::subpattern;
use wumbyra_reference::table::{Table, MOST_LINES};
use wumbyra_reference::tapes::random::{HOT_METER, MIXED_METER, MIXED_NULLABLE};
use wumbyra_reference::tapes::table_of;
use wumbyra_reference::{hot, lazy};

/// Of each random pattern so many nodes, beside the root.
const NODES: usize = 3;

/// A pattern's text, a node, and the text of the node's pattern.
type Row = (Vec<u8>, u64, Vec<u8>);

/// Every node of the patterns with names and of the deepest ones; then random patterns of each size, most with accounts to 200.
fn rows(seed: u64) -> BTreeSet<Row> {
    let mut rows = BTreeSet::new();
    let mut add = |table: &Table, node: u64| {
        let alone = subpattern(table, node).expect("a node of the table");
        rows.insert((text_of(table), node, text_of(&alone)));
    };
    for text in named() {
        let table = table_of(&text);
        (0..table.count).for_each(|node| add(&table, node));
    }
    let mut rng = Prng::new(seed);
    let rng = &mut rng;
    for lines in 1..=MOST_LINES {
        for taste in [&MIXED_NULLABLE, &MIXED_METER, &HOT_METER] {
            let table = random(rng, lines, taste);
            let table = with_stale_part(rng, &table);
            let table = with_great_accounts(rng, &table);
            add(&table, table.count - 1);
            for _ in 0..NODES {
                add(&table, rng.below(lines) as u64);
            }
        }
    }
    rows
}

fn named() -> Vec<Vec<u8>> {
    let mut texts: Vec<Vec<u8>> = [LISTING, P1, P2, P3, P4, P5].map(Vec::from).to_vec();
    texts.extend(lazy::ALL.iter().map(|(_, text)| Vec::from(*text)));
    texts.extend(hot::ALL.iter().map(|(_, text)| text.to_vec()));
    texts.push(hot::tower(MOST_LINES, &['K', 'Z']));
    texts
}

/// Writes the rows, texts in hexadecimal, fields parted by tabs.
pub fn write(seed: u64, folder: &Path) {
    let mut lines = String::new();
    for (text, node, alone) in rows(seed) {
        let (text, alone) = (hex::of_bytes(&text), hex::of_bytes(&alone));
        writeln!(lines, "{text}\t{node}\t{alone}").expect("a line");
    }
    std::fs::create_dir_all(folder).expect("a folder for the rows");
    std::fs::write(folder.join("subpatterns.tsv"), lines).expect("a file of rows");
}

#[cfg(test)]
mod tests {
    use super::*;
    use wumbyra_reference::table::{is_letter, Kind};

    /// Patterns of every size, and node's patterns of nearly every size; both kinds of stars, hot letters, the greatest account.
    #[test]
    fn rows_are_of_every_sort() {
        let rows = rows(1);
        assert!((500..1_500).contains(&rows.len()), "{}", rows.len());
        let tables: Vec<[Table; 2]> = rows
            .iter()
            .map(|(text, _, alone)| [table_of(text), table_of(alone)])
            .collect();
        let sizes = |which: usize| -> BTreeSet<u64> {
            tables.iter().map(|pair| pair[which].count).collect()
        };
        assert_eq!(sizes(0).len(), MOST_LINES);
        assert_eq!(sizes(1).len(), MOST_LINES);
        let inner = tables.iter().filter(|[whole, alone]| {
            alone.count > 3 && alone.count < whole.count && whole.count > 10
        });
        assert!(inner.count() > 50);
        let mut nodes = tables.iter().flat_map(|[_, alone]| alone.lines());
        let mut any = |asked: &dyn Fn(Kind, u64, u64) -> bool| {
            nodes.any(|node| asked(node.kind, node.account, node.x))
        };
        assert!(any(&|kind, _, _| kind == Kind::LAZY_STAR));
        assert!(any(&|_, account, _| account > 99));
        assert!(any(&|kind, _, x| kind == Kind::Letter
            && x > 160
            && is_letter(x)));
    }
}
