//! Loading a pattern text: causes 1 and 2, each with the line at fault.

use crate::table::{is_letter, tree_fault, Kind, Node, Refusal, Table, MOST_ACCOUNT, MOST_LINES};

/// What an account field says, if it has the form of one.
pub type AccountRule = fn(&[u8]) -> Option<u64>;

/// "Gives the table of the text: its line count, and each node as its line
/// says." Every form fault is looked for before the tree is looked at.
pub fn load(text: &[u8]) -> Result<Table, Refusal> {
    load_by(text, account)
}

/// The same with another rule for the account field.
pub fn load_by(text: &[u8], account: AccountRule) -> Result<Table, Refusal> {
    let nodes = forms(text, account)?;
    match tree_fault(&nodes) {
        Some(line) => Err(Refusal::new(2, line as u64)),
        None => Ok(Table::of_nodes(&nodes)),
    }
}

fn forms(text: &[u8], account: AccountRule) -> Result<Vec<Node>, Refusal> {
    // "Empty text is 1 with line 0."
    if text.is_empty() {
        return Err(Refusal::new(1, 0));
    }
    let mut nodes = Vec::new();
    for (line, (bytes, closed)) in lines(text).into_iter().enumerate() {
        // "a 65th line 1 with line 64", whatever is in it
        if line == MOST_LINES {
            return Err(Refusal::new(1, MOST_LINES as u64));
        }
        match node_of_line(line, bytes, account) {
            Some(node) if closed => nodes.push(node),
            _ => return Err(Refusal::new(1, line as u64)),
        }
    }
    Ok(nodes)
}

/// The lines, each with whether byte 10 ended it. Nothing after the last
/// byte 10 is no line.
fn lines(text: &[u8]) -> Vec<(&[u8], bool)> {
    let mut found = Vec::new();
    let mut start = 0;
    for (position, &byte) in text.iter().enumerate() {
        if byte == 10 {
            found.push((&text[start..position], true));
            start = position + 1;
        }
    }
    if start < text.len() {
        found.push((&text[start..], false));
    }
    found
}

/// "Fields: place, kind, account, then what the kind needs", parted by one
/// tab; no field more and none less.
fn node_of_line(line: usize, bytes: &[u8], account: AccountRule) -> Option<Node> {
    let fields: Vec<&[u8]> = bytes.split(|&byte| byte == 9).collect();
    if fields.len() < 3 || place(fields[0])? != line as u64 {
        return None;
    }
    let account = account(fields[2])?;
    let needs = &fields[3..];
    match (fields[1], needs) {
        (b"E", []) => Some(Node::new(Kind::Nothing, account, 0, 0)),
        (b"L", [one]) => Some(Node::new(Kind::Letter, account, letter(one)?, 0)),
        (b"R", [low, high]) => {
            let (low, high) = (letter(low)?, letter(high)?);
            // "the first not above the second"
            (low <= high).then(|| Node::new(Kind::Range, account, low, high))
        }
        (b"S", [first, second]) => Some(Node::new(
            Kind::Sequence,
            account,
            place(first)?,
            place(second)?,
        )),
        (b"A", [left, right]) => Some(Node::new(
            Kind::Either,
            account,
            place(left)?,
            place(right)?,
        )),
        (b"K", [child]) => Some(Node::new(Kind::GREEDY_STAR, account, place(child)?, 0)),
        (b"Z", [child]) => Some(Node::new(Kind::LAZY_STAR, account, place(child)?, 0)),
        _ => None,
    }
}

/// "Places are decimal, 0 to 63, without leading zeros."
fn place(field: &[u8]) -> Option<u64> {
    match field {
        [digit @ b'0'..=b'9'] => Some(u64::from(digit - b'0')),
        [ten @ b'1'..=b'9', one @ b'0'..=b'9'] => {
            let number = 10 * u64::from(ten - b'0') + u64::from(one - b'0');
            (number <= 63).then_some(number)
        }
        _ => None,
    }
}

/// 01: "Account is `-`" or, by 02, Job 7, "1 to 200, one to three digits without
/// leading zeros". Any other byte in the field, a sign or a space too, is at
/// fault, and so is 0, which `-` stands for.
pub fn account(field: &[u8]) -> Option<u64> {
    if field == b"-" {
        return Some(0);
    }
    let digits = field.iter().all(u8::is_ascii_digit);
    if !digits || !(1..=3).contains(&field.len()) || field[0] == b'0' {
        return None;
    }
    let more = |number, digit: &u8| 10 * number + u64::from(digit - b'0');
    let number = field.iter().fold(0, more);
    (number <= MOST_ACCOUNT).then_some(number)
}

/// "A letter is one byte": a letter that an editor writes in two is none.
fn letter(field: &[u8]) -> Option<u64> {
    match field {
        [byte] if is_letter(u64::from(*byte)) => Some(u64::from(*byte)),
        _ => None,
    }
}
