//! A code that is stored for later: with its bit count, its pattern, the dates of the reading, the library's version and a checksum.
//!
//! The library refuses with 8 what is not a whole code of the pattern. Many changed codes are whole codes: another digit is another code,
//! with other litres. So the checksum is tested first, and nothing is billed from a file that fails it.

use crate::fields::{number, reading, Reading};
use wumbyra::Code;

/// More bytes than the longest stored code has.
pub const MOST: usize = 262_144;
/// Bytes of the last line.
const ENDING: usize = 15;

pub struct Stored {
    pub library: u32,
    pub reading: Option<Reading>,
    pub code: Code,
    pub pattern: Vec<u8>,
}

pub enum Fault {
    Damaged,
    Malformed,
}

/// CRC-32 as zlib, gzip and PNG have it.
pub fn crc32(bytes: &[u8]) -> u32 {
    !bytes.iter().fold(!0, |crc, &byte| {
        (0..8).fold(crc ^ u32::from(byte), |crc, _| {
            (crc >> 1) ^ (0xedb8_8320 * (crc & 1))
        })
    })
}

/// The last line: the CRC-32 of all before it.
fn ending(body: &[u8]) -> Vec<u8> {
    format!("crc32\t{:08x}\n", crc32(body)).into_bytes()
}

impl Stored {
    pub fn body(&self) -> Vec<u8> {
        let known = match &self.reading {
            None => "-\t-\t-".to_string(),
            Some(known) => {
                let digits = Some(known.digits).filter(|&digits| digits > 0);
                let digits = digits.map_or("-".to_string(), |digits| digits.to_string());
                format!("{:08}\t{:08}\t{digits}", known.start, known.read)
            }
        };
        let code: String = self.code.bytes.iter().map(|b| format!("{b:02x}")).collect();
        let (library, bits) = (self.library, self.code.bits);
        let head = format!("library\t{library}\nread\t{known}\nbits\t{bits}\ncode\t{code}\n");
        [head.as_bytes(), &self.pattern].concat()
    }

    pub fn file(&self) -> Vec<u8> {
        let body = self.body();
        [&body[..], &ending(&body)].concat()
    }

    /// Damaged if the checksum is wrong, malformed if `file` did not write it.
    pub fn of(file: &[u8]) -> Result<Stored, Fault> {
        let (body, last) = file.split_at(file.len().saturating_sub(ENDING));
        if file.len() >= MOST || last != ending(body) {
            return Err(Fault::Damaged);
        }
        Stored::of_body(body).ok_or(Fault::Malformed)
    }

    fn of_body(body: &[u8]) -> Option<Stored> {
        let mut lines = body.splitn(5, |&byte| byte == b'\n');
        let mut value = |key: &[u8]| lines.next()?.strip_prefix(key);
        Some(Stored {
            library: number(value(b"library\t")?, 1, 9)?,
            reading: reading(value(b"read\t")?)?,
            code: Code {
                bits: number(value(b"bits\t")?, 1, 9)?,
                bytes: bytes_of(value(b"code\t")?)?,
            },
            pattern: lines.next()?.to_vec(),
        })
    }
}

fn bytes_of(field: &[u8]) -> Option<Vec<u8>> {
    let digit = |byte: &u8| match byte {
        b'0'..=b'9' => Some(byte - b'0'),
        b'a'..=b'f' => Some(byte - b'a' + 10),
        _ => None,
    };
    field
        .chunks(2)
        .map(|pair| Some(digit(&pair[0])? << 4 | digit(pair.get(1)?)?))
        .collect()
}
