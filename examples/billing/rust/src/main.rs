//! billing [--store] FOLDER: the litres of all flats under FOLDER, as one table on standard output. It has a column for each account that
//! some bill has litres on. billing --flip FILE: what one changed bit does to a stored code.
//!
//! Each flat is a folder with pattern.tsv and tape.txt, or with stored.tsv, which --store writes. read.tsv has the dates of the reading, and
//! term.tsv those of a bill for some days only. ../README.md has their forms. A flat with a fault gets no litres at all: it stands under the
//! table with the cause, and all others are billed. The exit status is 0 if all flats are billed, 1 if some are not, and 2 for trouble: a
//! folder that cannot be read, or output that cannot be written.

mod days;
mod fields;
mod flat;
mod flips;
mod output;
mod stored;

use flat::{fault, Bill, Flat, Unbilled};
use output::{complain, print_all};
use std::ffi::{OsStr, OsString};
use std::os::unix::ffi::{OsStrExt, OsStringExt};
use std::path::Path;
use std::process::ExitCode;
use std::{env, fs, io};
use stored::Stored;
use wumbyra::ACCOUNTS;

const USAGE: &str = "usage: billing [--store] FOLDER | billing --flip FILE";

/// A flat by name, and its bill or why it has none. A name is bytes, in no encoding.
type Billed = (Vec<u8>, Result<Bill, Unbilled>);

/// A name with a tab or a line end would make other columns and rows.
fn shown(name: &[u8]) -> Vec<u8> {
    let show = |&byte: &u8| if byte.is_ascii_control() { b'?' } else { byte };
    name.iter().map(show).collect()
}

fn bill_flat(folder: &Path, name: &[u8], store: bool) -> Result<Bill, Unbilled> {
    if name == b"flat" || name == b"sum" || name.iter().any(u8::is_ascii_control) {
        return Err(fault("its name cannot stand in the table"));
    }
    Flat(folder.join(OsStr::from_bytes(name))).bill(store)
}

fn row(out: &mut Vec<u8>, name: &[u8], fields: impl IntoIterator<Item = String>) {
    out.extend(name);
    for field in fields {
        out.push(b'\t');
        out.extend(field.as_bytes());
    }
    out.push(b'\n');
}

fn put_table(out: &mut Vec<u8>, bills: &[Billed]) {
    let billed = || {
        bills
            .iter()
            .filter_map(|(name, bill)| Some((name, bill.as_ref().ok()?.litres.map(u64::from))))
    };
    let mut sums = [0; ACCOUNTS];
    for (_, litres) in billed() {
        for (sum, l) in sums.iter_mut().zip(litres) {
            *sum += l;
        }
    }
    // A column where the sum is above 0.
    let columns: Vec<usize> = (0..ACCOUNTS).filter(|&a| sums[a] > 0).collect();
    let heads = columns.iter().map(usize::to_string);
    row(out, b"flat", heads.chain(["all".to_string()]));
    for (name, litres) in billed().chain([(&b"sum".to_vec(), sums)]) {
        let all: u64 = litres.iter().sum();
        let fields = columns.iter().map(|&account| litres[account]);
        row(out, name, fields.chain([all]).map(|l| l.to_string()));
    }
}

fn put_unbilled(out: &mut Vec<u8>, bills: &[Billed]) {
    out.extend(b"\nnot billed\n");
    for (name, bill) in bills {
        let why = match bill {
            Err(Unbilled::Fault(words)) => format!("-\t-\t{words}"),
            Err(Unbilled::Refused(why)) => format!("{}\t{}\t{why}", why.number(), why.value()),
            _ => continue,
        };
        row(out, &shown(name), [why]);
    }
}

fn put_warnings(out: &mut Vec<u8>, bills: &[Billed]) {
    out.extend(b"\nwarnings\n");
    for (name, bill) in bills {
        for words in bill.iter().flat_map(|bill| &bill.warnings) {
            row(out, name, [words.clone()]);
        }
    }
}

/// The names of all flats, sorted.
fn flats(folder: &Path) -> io::Result<Vec<Vec<u8>>> {
    let names: io::Result<Vec<Vec<u8>>> = fs::read_dir(folder)?
        .map(|entry| Ok(entry?.file_name().into_vec()))
        .collect();
    let mut names = names?;
    names.retain(|name| !name.starts_with(b"."));
    names.sort();
    Ok(names)
}

fn bill_folder(folder: &OsStr, store: bool) -> ExitCode {
    let Ok(names) = flats(Path::new(folder)) else {
        return complain(&[b"billing: ", folder.as_bytes(), b" cannot be read"].concat());
    };
    let mut bills = Vec::new();
    for name in names {
        let bill = bill_flat(Path::new(folder), &name, store);
        if let Err(Unbilled::Store) = bill {
            return complain(b"billing: a code cannot be stored");
        }
        bills.push((name, bill));
    }
    let mut out = Vec::new();
    put_table(&mut out, &bills);
    put_unbilled(&mut out, &bills);
    put_warnings(&mut out, &bills);
    let some_are_not = bills.iter().any(|(_, bill)| bill.is_err());
    print_all("billing", &out, u8::from(some_are_not))
}

fn flip_file(path: &OsStr) -> ExitCode {
    let complain_of = |words: &[u8]| complain(&[b"billing: ", path.as_bytes(), words].concat());
    let Ok(file) = fs::read(path) else {
        return complain_of(b" cannot be read");
    };
    match Stored::of(&file).ok().and_then(|s| flips::flips(s).ok()) {
        Some(counts) => print_all("billing", counts.as_bytes(), 0),
        None => complain_of(b" is not a stored code"),
    }
}

fn main() -> ExitCode {
    let arguments: Vec<OsString> = env::args_os().skip(1).collect();
    match &arguments[..] {
        [folder] => bill_folder(folder, false),
        [option, folder] if option == "--store" => bill_folder(folder, true),
        [option, file] if option == "--flip" => flip_file(file),
        _ => complain(USAGE.as_bytes()),
    }
}
