//! The subcommands; everything they print is made in the library.

use std::io::{self, BufWriter, Write};
use std::path::Path;
use std::process::ExitCode;
use wumbyra_reference::{listing, vectors};

fn main() -> ExitCode {
    let arguments: Vec<String> = std::env::args().skip(1).collect();
    let words: Vec<&str> = arguments.iter().map(String::as_str).collect();
    let mut out = BufWriter::new(io::stdout().lock());
    let done = match words.as_slice() {
        ["cases"] => print_lines(&vectors::lines(), &mut out),
        ["names"] => print_lines(&vectors::names(), &mut out),
        ["expected"] => print_lines(&vectors::answers(), &mut out),
        ["listing", folder] => print_listing(Path::new(folder), &mut out),
        _ => {
            eprintln!("usage: reference cases | names | expected | listing FOLDER");
            return ExitCode::from(2);
        }
    };
    match done.and_then(|()| out.flush()) {
        Ok(()) => ExitCode::SUCCESS,
        Err(error) => {
            eprintln!("reference: {error}");
            ExitCode::FAILURE
        }
    }
}

fn print_lines(lines: &[String], out: &mut impl Write) -> io::Result<()> {
    for line in lines {
        writeln!(out, "{line}")?;
    }
    Ok(())
}

/// Both files are read before anything is printed: without one of them
/// nothing goes to standard output.
fn print_listing(folder: &Path, out: &mut impl Write) -> io::Result<()> {
    let pattern = content(&folder.join("pattern.tsv"))?;
    let tape = content(&folder.join("tape.txt"))?;
    out.write_all(listing::listing(&pattern, &tape).as_bytes())
}

fn content(path: &Path) -> io::Result<Vec<u8>> {
    std::fs::read(path)
        .map_err(|error| io::Error::new(error.kind(), format!("{}: {error}", path.display())))
}
