//! Every date and every account, then random runs of page desks and random calls of the C interface, each compared with the reference.
//! Arguments: the number of cases, the seed, of how many cases one has a full tape, and the folder for a failing case and for the rows
//! of `subpatterns.py`.

mod calls;
mod case;
mod compare;
mod dates;
mod desks;
mod every_account;
mod every_date;
mod full;
mod letters;
mod pieces;
mod shrink;
mod subpatterns;

use case::{has_full_tape, random_case, Case, FULL_TAPES};
use compare::{compare, Counts, CALLS, LAST_CAUSE, NO_CAUSES};
use std::path::Path;
use wumbyra_reference::prng::Prng;

/// The header's version: the numbers of its three macros.
fn header_version() -> u32 {
    let header = include_str!("../../../include/wumbyra.h");
    let part = |name: &str| -> u32 {
        let line = format!("#define WUMBYRA_VERSION_{name} ");
        let number = header.lines().find_map(|text| text.strip_prefix(&line));
        number
            .and_then(|n| n.parse().ok())
            .expect("a macro with a number")
    };
    part("MAJOR") * 10_000 + part("MINOR") * 100 + part("PATCH")
}

fn main() {
    let words: Vec<String> = std::env::args().skip(1).collect();
    let [cases, seed, full, folder] = &words[..] else {
        eprintln!("usage: wumbyra-differential CASES SEED FULL FOLDER");
        std::process::exit(2);
    };
    let cases: u64 = cases.parse().expect("a number of cases");
    let seed: u64 = seed.parse().expect("a seed, in decimal");
    let full: usize = full.parse().expect("of how many cases one is full");
    assert!(
        full >= FULL_TAPES,
        "at most one case in {FULL_TAPES} has a full tape"
    );
    println!("cases {cases}, one in {full} with a full tape, seed {seed}");
    if calls::version() != header_version() {
        println!(
            "version: answered {}, the header has {}",
            calls::version(),
            header_version()
        );
        std::process::exit(1);
    }
    match every_date::calls() {
        Ok((dates, calls)) => println!("{dates} dates, {calls} calls: all equal"),
        Err(words) => {
            println!("{words}");
            std::process::exit(1);
        }
    }
    match every_account::calls() {
        Ok((fields, pairs, calls)) => {
            println!("{fields} account fields, {pairs} pairs of accounts, {calls} calls: all equal")
        }
        Err(words) => {
            println!("{words}");
            std::process::exit(1);
        }
    }
    let mut counts = Counts::default();
    match desks::runs(
        cases.div_ceil(desks::CASES_A_RUN),
        seed,
        &mut counts,
        Path::new(folder),
    ) {
        Ok(runs) => println!("{runs} runs of desks, {} calls: all equal", counts.calls()),
        Err(words) => {
            println!("{words}");
            std::process::exit(1);
        }
    }
    let mut seeds = Prng::new(seed);
    for index in 0..cases {
        // Each case has a seed of its own: with it, and 1 for the number of cases, it is made again alone.
        let own = match cases {
            1 => seed,
            _ => next_seed(&mut seeds, full),
        };
        let case = random_case(&mut Prng::new(own));
        if let Err(words) = compare(&case, &mut counts) {
            println!("case {index} (seed {own}): {words}");
            report(&case, Path::new(folder));
            std::process::exit(1);
        }
    }
    subpatterns::write(seed, Path::new(folder));
    show(&counts);
    println!("{} pieces of settled codes: all equal", counts.pieces);
    println!(
        "{cases} cases, {} calls, seed {seed}: all equal",
        counts.calls()
    );
}

/// A seed for a case. Those of full tapes are passed over but for so many that one case in `full` has such a tape.
fn next_seed(seeds: &mut Prng, full: usize) -> u64 {
    loop {
        let own = seeds.number();
        if !has_full_tape(own) || seeds.below(full) < FULL_TAPES {
            return own;
        }
    }
}

/// How often each call answered each number.
fn show(counts: &Counts) {
    let numbers = || (0..=LAST_CAUSE).filter(|number| !NO_CAUSES.contains(number));
    print!("{:13}", "number");
    numbers().for_each(|number| print!("{number:>8}"));
    println!();
    for (name, row) in CALLS.iter().zip(&counts.answers) {
        print!("{name:13}");
        numbers().for_each(|number| print!("{:>8}", row[number]));
        println!();
    }
}

/// The case made small, printed and written as files.
fn report(case: &Case, folder: &Path) {
    let fails = |case: &Case| compare(case, &mut Counts::default()).is_err();
    let small = shrink::shrink(case, &fails);
    let words = compare(&small, &mut Counts::default()).expect_err("it still fails");
    let hex: String = small
        .code
        .iter()
        .map(|byte| format!("{byte:02x}"))
        .collect();
    let rest = format!(
        "{words}\nbits {}\nown tape {}\nnode {} visit {} account {}\nstart {} first {} last {}\n\
         parse: words {} bytes {}\nletters {} words {} bytes {} accounts {}\nfilling {}\n",
        small.count,
        small.own_tape,
        small.node,
        small.visit,
        small.account,
        small.dates[0],
        small.dates[1],
        small.dates[2],
        small.parse_words,
        small.parse_bytes,
        small.letters,
        small.words,
        small.bytes,
        small.accounts,
        small.filling
    );
    let files: [(&str, Vec<u8>); 4] = [
        ("pattern.tsv", small.text.clone()),
        ("tape.txt", [&small.tape[..], b"\n"].concat()),
        ("code.hex", format!("{hex}\n").into_bytes()),
        ("case.txt", rest.into_bytes()),
    ];
    std::fs::create_dir_all(folder).expect("a folder for the case");
    for (name, bytes) in files {
        let path = folder.join(name);
        std::fs::write(&path, &bytes).expect("a file of the case");
        println!("-- {}\n{}", path.display(), shown(&bytes));
    }
}

/// Bytes as they are below 127, tabs and line ends too; the others as \x and two digits, since a letter is a byte.
fn shown(bytes: &[u8]) -> String {
    let shown = |&byte: &u8| match byte {
        9 | 10 | 32..=126 => char::from(byte).to_string(),
        _ => format!("\\x{byte:02x}"),
    };
    bytes.iter().map(shown).collect()
}
