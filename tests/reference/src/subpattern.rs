//! The pattern of a node (02, Job 10): "the pattern made of that node and all
//! below it, places counted afresh".

use crate::patterns::below;
use crate::table::{Kind, Node, Table};

/// The table of this node and all below it, or none for a node outside the
/// table. A line keeps its kind, its account and its letters, and the places of
/// its parts are the new ones. The table keeps the rules, so the new one does.
pub fn subpattern(table: &Table, node: u64) -> Option<Table> {
    if node >= table.count {
        return None;
    }
    let kept = lines_of(table, node as usize);
    let nodes: Vec<Node> = kept
        .iter()
        .map(|&line| with_new_places(table.node(line), &kept))
        .collect();
    Some(Table::of_nodes(&nodes))
}

/// The lines of the node's pattern, by their old places. "Places counted afresh"
/// keep their order, and parts are below the line that names them, so the node
/// itself is the last.
pub fn lines_of(table: &Table, node: usize) -> Vec<usize> {
    let mut kept = below(table, node);
    kept.push(node);
    kept.sort_unstable();
    kept
}

fn with_new_places(node: Node, kept: &[usize]) -> Node {
    let (x, y) = match node.kind {
        // These numbers are letters.
        Kind::Nothing | Kind::Letter | Kind::Range => (node.x, node.y),
        Kind::Sequence | Kind::Either => (afresh(node.x, kept), afresh(node.y, kept)),
        Kind::Rounds(_) => (afresh(node.x, kept), node.y),
    };
    Node::new(node.kind, node.account, x, y)
}

/// A place counted afresh: the number of kept lines before it.
fn afresh(place: u64, kept: &[usize]) -> u64 {
    let before = kept.iter().filter(|&&line| (line as u64) < place);
    before.count() as u64
}
