//! What is wrong with a line of a pattern text, in the words of the command tapelist.
//!
//! The words help a person; what is refused, and which line, the library decides. bin/tapelist has the same in awk and the Python
//! package in `_faults.py`: tests/tapelist/faults.tsv holds the three together.

use std::collections::HashMap;

/// So many bytes of a text are looked at, which are more than decide it.
const BYTES: usize = 4096;

/// Why a text is refused with 1 and this line.
pub fn form(text: &[u8], line: u32) -> String {
    let text = &text[..text.len().min(BYTES)];
    if text.is_empty() {
        return "the text is empty, and a pattern has 1 to 64 lines".to_owned();
    }
    format!("line {line}: {}", of_line(text, line as usize))
}

/// Why a text is refused with 2 and this line. Each line has the form of one.
pub fn tree(text: &[u8], line: u32) -> String {
    let text = &text[..text.len().min(BYTES)];
    format!("line {line}: {}", of_lines(text, line as usize))
}

/// A field as words show it: at most 24 letters, and a byte that is no letter of ASCII by its number.
fn shown(field: &[u8]) -> String {
    let mut shown = String::new();
    for &byte in field {
        if shown.len() >= 24 {
            break;
        }
        match byte {
            33..=126 => shown.push(byte.into()),
            _ => shown += &format!("<{byte}>"),
        }
    }
    shown
}

/// How many fields a line of this kind has.
fn takes(kind: &[u8]) -> Option<usize> {
    match kind {
        b"E" => Some(3),
        b"L" | b"K" | b"Z" => Some(4),
        b"R" | b"S" | b"A" => Some(5),
        _ => None,
    }
}

fn names_parts(kind: &[u8]) -> bool {
    matches!(kind, b"S" | b"A" | b"K" | b"Z")
}

fn is_account(field: &[u8]) -> bool {
    matches!(
        field,
        b"-" | b"200"
            | [b'1'..=b'9']
            | [b'1'..=b'9', b'0'..=b'9']
            | [b'1', b'0'..=b'9', b'0'..=b'9']
    )
}

/// The place that a field names, 0 to 63 without leading zeros.
fn place(field: &[u8]) -> Option<usize> {
    match *field {
        [one @ b'0'..=b'9'] => Some(usize::from(one - b'0')),
        [ten @ b'1'..=b'6', one @ b'0'..=b'9'] => {
            Some(10 * usize::from(ten - b'0') + usize::from(one - b'0')).filter(|&place| place < 64)
        }
        _ => None,
    }
}

/// Faults that editors make.
fn of_bytes(text: &[u8], line: usize, content: &[u8]) -> Option<&'static str> {
    let spaced =
        || content.contains(&b' ') && content.iter().filter(|&&byte| byte == b'\t').count() < 2;
    if line == 0 && text.starts_with(b"\xef\xbb\xbf") {
        Some("it begins with a byte order mark; save the file without one")
    } else if line == 0 && (text.starts_with(b"\xff\xfe") || text.starts_with(b"\xfe\xff")) {
        Some("it begins as UTF-16 does; save the file as plain text, one byte a letter")
    } else if content.is_empty() {
        Some("it is empty")
    } else if content.ends_with(b"\r") {
        Some("byte 13 stands at its end: a Windows line end?")
    } else if content.starts_with(b"#") {
        Some("it is a comment, and a pattern has none")
    } else if spaced() {
        Some("its fields are parted by spaces, and one tab (byte 9) is due")
    } else {
        None
    }
}

fn of_letters(ends: &[&[u8]]) -> Option<String> {
    let is_letter = |field: &[u8]| matches!(field, [33..=126] | [161..=254]);
    if let Some(field) = ends.iter().find(|field| !is_letter(field)) {
        let words = "is no letter, which is one byte from 33 to 126 or 161 to 254";
        return Some(format!("\"{}\" {words}", shown(field)));
    }
    match *ends {
        [first, last] if last < first => {
            let (first, last) = (shown(first), shown(last));
            Some(format!("the range from {first} to {last} is reversed"))
        }
        _ => None,
    }
}

fn of_parts(parts: &[&[u8]]) -> Option<String> {
    let part = shown(parts.iter().find(|part| place(part).is_none())?);
    Some(format!(
        "the part \"{part}\" is no place, which is 0 to 63 without leading zeros"
    ))
}

fn of_fields(line: usize, fields: &[&[u8]]) -> Option<String> {
    let kind = fields.get(1).copied().unwrap_or_default();
    if fields[0] != line.to_string().as_bytes() {
        let begins = shown(fields[0]);
        return Some(format!(
            "it begins with \"{begins}\", and its own place {line} is due"
        ));
    }
    let Some(due) = takes(kind) else {
        let kind = shown(kind);
        return Some(format!(
            "the kind \"{kind}\" is none of E, L, R, S, A, K and Z"
        ));
    };
    if let Some(account) = fields.get(2).filter(|account| !is_account(account)) {
        let account = shown(account);
        return Some(format!(
            "the account \"{account}\" is neither - nor 1 to 200 without leading zeros"
        ));
    }
    let (kind_shown, has) = (shown(kind), fields.len());
    if has != due {
        return Some(format!(
            "kind {kind_shown} takes {due} fields, and it has {has}"
        ));
    }
    if names_parts(kind) {
        of_parts(&fields[3..])
    } else {
        of_letters(&fields[3..])
    }
}

fn of_line(text: &[u8], line: usize) -> String {
    if line == 64 {
        return "it is the 65th, and a pattern has at most 64".to_owned();
    }
    let lines: Vec<&[u8]> = text.split(|&byte| byte == b'\n').collect();
    let content = lines.get(line).copied().unwrap_or_default();
    if let Some(words) = of_bytes(text, line, content) {
        return words.to_owned();
    }
    let fields: Vec<&[u8]> = content.split(|&byte| byte == b'\t').collect();
    match of_fields(line, &fields) {
        Some(words) => words,
        None if line + 1 == lines.len() => {
            "the last line is not ended: byte 10 is missing".to_owned()
        }
        None => "it has not the form of a line".to_owned(),
    }
}

/// The first part that a line names wrongly; the others go into `named_by`.
fn of_naming(
    line: usize,
    fields: &[&[u8]],
    named_by: &mut HashMap<usize, usize>,
) -> Option<String> {
    if !names_parts(fields.get(1)?) {
        return None;
    }
    for part in fields.iter().skip(3).filter_map(|part| place(part)) {
        if part >= line {
            return Some(format!(
                "the part {part} is not below its line: a part has the smaller number"
            ));
        }
        match named_by.insert(part, line) {
            None => {}
            Some(by) if by == line => return Some(format!("it names the part {part} twice")),
            Some(by) => {
                return Some(format!("the part {part} is named by line {by} already"));
            }
        }
    }
    None
}

fn of_lines(text: &[u8], line: usize) -> String {
    let mut named_by = HashMap::new();
    for (at, content) in text.split(|&byte| byte == b'\n').enumerate() {
        let fields: Vec<&[u8]> = content.split(|&byte| byte == b'\t').collect();
        match of_naming(at, &fields, &mut named_by) {
            Some(words) if at == line => return words,
            Some(_) => return "the lines are no tree".to_owned(),
            None => {}
        }
    }
    if named_by.contains_key(&line) {
        "the lines are no tree".to_owned()
    } else {
        "no line names it, and only the last line, the root, is named by none".to_owned()
    }
}
