//! Fields of the small files beside a tape. A field is bytes: no sign, no space, and no encoding is known.

/// What is known of a reading: the date of the first letter, the date on which the meter was read, and how many digits a day has, or 0 where
/// days differ.
pub struct Reading {
    pub start: u32,
    pub read: u32,
    pub digits: u32,
}

/// The only line of a file, without its line end.
pub fn line_of(file: &[u8]) -> &[u8] {
    file.strip_suffix(b"\n").unwrap_or(file)
}

/// So many fields, parted by tabs.
pub fn fields_of<const COUNT: usize>(line: &[u8]) -> Option<[&[u8]; COUNT]> {
    let fields: Vec<&[u8]> = line.split(|&byte| byte == b'\t').collect();
    fields.try_into().ok()
}

/// A number of so many digits, at most nine, and nothing else. `parse` alone would take a sign.
pub fn number(field: &[u8], least: usize, most: usize) -> Option<u32> {
    if !(least..=most).contains(&field.len()) || !field.iter().all(u8::is_ascii_digit) {
        return None;
    }
    std::str::from_utf8(field).ok()?.parse().ok()
}

/// Eight digits: 20240229 is 29 February 2024. The library tests whether there is such a day.
pub fn date(field: &[u8]) -> Option<u32> {
    number(field, 8, 8)
}

/// The fields of read.tsv; `Some(None)` for three times `-`, if nothing is known.
pub fn reading(line: &[u8]) -> Option<Option<Reading>> {
    let [start, read, digits] = fields_of(line)?;
    if [start, read, digits] == [b"-"; 3] {
        return Some(None);
    }
    Some(Some(Reading {
        start: date(start)?,
        read: date(read)?,
        digits: if digits == b"-" {
            0
        } else {
            number(digits, 1, 4)?
        },
    }))
}
