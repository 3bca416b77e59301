//! The loaded table, the pattern rules that bind it, and refusals.

/// "There are 1 to 64 lines."
pub const MOST_LINES: usize = 64;
/// 02, Job 7: "The account field grows to 1 to 200"; `-` is kept as 0.
pub const MOST_ACCOUNT: u64 = 200;
/// The account of stale litres (02, Job 5): "Account 9 keeps Job 5's meaning",
/// and no other account has it.
pub const STALE_ACCOUNT: u64 = 9;

/// The letters of texts, tables, tapes and codes. 01: "A letter is one byte,
/// 33 to 126." 02, Job 3: "Combined meters write hot water events as bytes 161
/// to 254. These become letters of tapes and patterns beside 33 to 126"; "bytes
/// 127 to 160 are still no letters".
pub fn is_letter(number: u64) -> bool {
    matches!(number, 33..=126 | 161..=254)
}

/// A refusal: the cause's number and what is returned beside it.
#[derive(Clone, Copy, PartialEq, Eq, Debug)]
pub struct Refusal {
    pub number: u64,
    pub value: u64,
}

impl Refusal {
    pub fn new(number: u64, value: u64) -> Refusal {
        Refusal { number, value }
    }
}

/// Number and returned number of any answer; success has number 0.
pub fn number_and_value(answer: &Result<u64, Refusal>) -> (u64, u64) {
    match answer {
        Ok(value) => (0, *value),
        Err(refusal) => (refusal.number, refusal.value),
    }
}

/// The two sorts of rounds. They differ in what is preferred and in the bits,
/// and in nothing else: followers, flags, empty rounds, visits and the count a
/// are the same.
#[derive(Clone, Copy, PartialEq, Eq, Debug)]
pub enum Star {
    /// `K`: another round is preferred to stopping.
    Greedy,
    /// `Z`: stopping is preferred to another round.
    Lazy,
}

impl Star {
    /// The bit that ends the rounds; the other one stands before each round.
    /// "`K` writes 0 and a round, again and again, then 1"; `Z` "writes 0 to
    /// stop and 1 before a round".
    pub fn stop_bit(self) -> bool {
        match self {
            Star::Greedy => true,
            Star::Lazy => false,
        }
    }
}

#[derive(Clone, Copy, PartialEq, Eq, Debug)]
pub enum Kind {
    /// `E`: nothing
    Nothing,
    /// `L`: one letter
    Letter,
    /// `R`: any letter of a range
    Range,
    /// `S`: two places, one after the other
    Sequence,
    /// `A`: two places, the left preferred
    Either,
    /// `K` or `Z`: one place, any number of rounds
    Rounds(Star),
}

impl Kind {
    pub const GREEDY_STAR: Kind = Kind::Rounds(Star::Greedy);
    pub const LAZY_STAR: Kind = Kind::Rounds(Star::Lazy);

    pub fn letter(self) -> char {
        match self {
            Kind::Nothing => 'E',
            Kind::Letter => 'L',
            Kind::Range => 'R',
            Kind::Sequence => 'S',
            Kind::Either => 'A',
            Kind::Rounds(Star::Greedy) => 'K',
            Kind::Rounds(Star::Lazy) => 'Z',
        }
    }
}

/// One node. The numbers are wide so that a test can hand in a table that
/// no text gives. `x` and `y` hold what the kind needs; a number that the
/// kind does not need is not looked at.
#[derive(Clone, Copy, PartialEq, Eq, Debug)]
pub struct Node {
    pub kind: Kind,
    pub account: u64,
    pub x: u64,
    pub y: u64,
}

impl Node {
    pub fn new(kind: Kind, account: u64, x: u64, y: u64) -> Node {
        Node {
            kind,
            account,
            x,
            y,
        }
    }

    pub fn unused() -> Node {
        Node::new(Kind::Nothing, 0, 0, 0)
    }

    /// The places this node names, in the order of its line.
    pub fn parts(&self) -> Vec<u64> {
        match self.kind {
            Kind::Nothing | Kind::Letter | Kind::Range => vec![],
            Kind::Sequence | Kind::Either => vec![self.x, self.y],
            Kind::Rounds(_) => vec![self.x],
        }
    }

    /// Whether this node is a leaf that reads the byte: `L` its letter, `R`
    /// "any letter of that range". "A range may run across the gap": what lies
    /// between the ends and is no letter is not read.
    pub fn reads(&self, byte: u64) -> bool {
        match self.kind {
            Kind::Letter => byte == self.x,
            Kind::Range => is_letter(byte) && self.x <= byte && byte <= self.y,
            Kind::Nothing | Kind::Sequence | Kind::Either | Kind::Rounds(_) => false,
        }
    }

    /// All that this leaf reads, rising.
    pub fn letters(&self) -> Vec<u8> {
        (0..=255)
            .filter(|&byte| self.reads(u64::from(byte)))
            .collect()
    }
}

/// The table of a text: its line count and 64 cells, of which those below
/// the count are the nodes. The count is wide so that a bad one can be made.
#[derive(Clone, PartialEq, Eq, Debug)]
pub struct Table {
    pub count: u64,
    pub nodes: [Node; MOST_LINES],
}

impl Table {
    /// "A refused load gives a table of no lines, itself a departure from
    /// the tree rules."
    pub fn of_no_lines() -> Table {
        Table {
            count: 0,
            nodes: [Node::unused(); MOST_LINES],
        }
    }

    /// A table of these nodes; for more than 64 the count alone says so.
    pub fn of_nodes(nodes: &[Node]) -> Table {
        let mut table = Table::of_no_lines();
        table.count = nodes.len() as u64;
        for (cell, node) in table.nodes.iter_mut().zip(nodes) {
            *cell = *node;
        }
        table
    }

    /// The nodes below the count. Only for a table that keeps the rules.
    pub fn lines(&self) -> &[Node] {
        &self.nodes[..self.count as usize]
    }

    pub fn node(&self, place: usize) -> Node {
        self.nodes[place]
    }

    /// "The last line is the root." Only for a table that keeps the rules.
    pub fn root(&self) -> usize {
        self.count as usize - 1
    }
}

/// The first tree fault among these lines: "a wrongly named part comes
/// first, by its naming line, then the lowest place that no line names".
pub fn tree_fault(lines: &[Node]) -> Option<usize> {
    let mut named = vec![false; lines.len()];
    for (line, node) in lines.iter().enumerate() {
        for part in node.parts() {
            // "A place not below its naming line, or named before, is
            // wrongly named."
            if part >= line as u64 || named[part as usize] {
                return Some(line);
            }
            named[part as usize] = true;
        }
    }
    // "Every place but the last is named exactly once."
    (0..lines.len().saturating_sub(1)).find(|&place| !named[place])
}

fn numbers_are_good(node: &Node) -> bool {
    let kind_is_good = match node.kind {
        Kind::Letter => is_letter(node.x),
        // Both ends are letters, whatever lies between them.
        Kind::Range => is_letter(node.x) && is_letter(node.y) && node.x <= node.y,
        // Places are judged with the tree.
        Kind::Nothing | Kind::Sequence | Kind::Either | Kind::Rounds(_) => true,
    };
    // 02, Job 7: "the table's test in cause 2" follows the account field.
    kind_is_good && node.account <= MOST_ACCOUNT
}

/// "Each service tests the loaded table it is given; any departure from the
/// pattern rules, in its line count (1 to 64) or in a node below that count,
/// is 2", with 0 beside it.
pub fn judge(table: &Table) -> Result<(), Refusal> {
    let count_is_good = table.count >= 1 && table.count <= MOST_LINES as u64;
    if !count_is_good {
        return Err(Refusal::new(2, 0));
    }
    let lines = table.lines();
    if !lines.iter().all(numbers_are_good) || tree_fault(lines).is_some() {
        return Err(Refusal::new(2, 0));
    }
    Ok(())
}
