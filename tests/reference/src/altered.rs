//! The cases of tables that no text gives: the table of a text with another
//! account on one line, handed to each service. 02, Job 7: "Line form in cause 1
//! and the table's test in cause 2 follow." A table has a byte for an account, so
//! 201 to 255 can be in one, and 256 cannot.

use crate::calendar::Date;
use crate::codes::{Code, Lent};
use crate::table::{Table, MOST_LINES};
use crate::tapes::table_of;
use crate::{breaks, codes, tapes, terms, visits};

/// ((a[0-9]|e)*)Z: a line of each kind, none with an account.
const TEXT: &str =
    "0\tL\t-\ta\n1\tR\t-\t0\t9\n2\tS\t-\t0\t1\n3\tE\t-\n4\tA\t-\t2\t3\n5\tK\t-\t4\n6\tZ\t-\t5\n";
const LINES: usize = 7;
/// The line of the range, which reads the digits.
const DIGITS: usize = 1;
/// The lines on the way to the digits; the others are the letter's and nothing's.
pub const ON_THE_WAY: [usize; 5] = [1, 2, 4, 5, 6];

/// A tape of 12 litres, and its settled code.
const TAPE: &[u8] = b"a5a7";
const BITS: &str = concat!("1", "00", "00110101", "00", "00110111", "1", "0");

/// Buffers just long enough for both.
const LENT: Lent = Lent {
    letters: 4,
    words: 10,
    bytes: 3,
};

/// What is asked of the table.
pub enum Service {
    Tape(tapes::Case),
    Code(codes::Case),
    Visit(visits::Case),
    Term(terms::Case),
    Break(breaks::Case),
}

pub struct Case {
    /// What the case is about; all before the colon is its sort.
    pub name: String,
    /// The line that has another account, and that account.
    pub line: usize,
    pub account: u64,
    pub service: Service,
    /// The number that each line of its answer begins with, by hand.
    pub number: u64,
}

pub fn all() -> Vec<Case> {
    let mut hand = Hand { cases: Vec::new() };
    each_account(&mut hand);
    each_line(&mut hand);
    no_line(&mut hand);
    before_others(&mut hand);
    breaks(&mut hand);
    hand.cases
}

impl Case {
    /// The line that the program reads: that of the service's own case, with
    /// line and account behind the text.
    pub fn line(&self) -> String {
        let own = match &self.service {
            Service::Tape(case) => case.line(),
            Service::Code(case) => case.line(),
            Service::Visit(case) => case.line(),
            Service::Term(case) => case.line(),
            Service::Break(case) => case.line(),
        };
        let fields: Vec<&str> = own.splitn(3, ' ').collect();
        let (kind, text, rest) = (fields[0], fields[1], fields[2]);
        format!("a {text} {} {} {kind} {rest}", self.line, self.account)
    }

    /// As many lines as the service's own case has.
    pub fn answers(&self) -> Vec<String> {
        let table = self.table();
        match &self.service {
            Service::Tape(case) => vec![case.answer_by(&table)],
            Service::Code(case) => case.answers_by(&table).to_vec(),
            Service::Visit(case) => vec![case.answer_by(&table)],
            Service::Term(case) => vec![case.answer_by(&table)],
            Service::Break(case) => vec![case.answer_by(&table)],
        }
    }

    /// A line that the table has no room for changes nothing.
    pub fn table(&self) -> Table {
        let mut table = table_of(self.text());
        if self.line < MOST_LINES {
            table.nodes[self.line].account = self.account;
        }
        table
    }

    fn text(&self) -> &[u8] {
        match &self.service {
            Service::Tape(case) => &case.text,
            Service::Code(case) => &case.text,
            Service::Visit(case) => &case.text,
            Service::Term(case) => &case.text,
            Service::Break(case) => &case.text,
        }
    }
}

fn tape(text: &str, letters: &[u8], lent: Lent) -> Service {
    Service::Tape(tapes::Case {
        name: String::new(),
        text: text.as_bytes().to_vec(),
        tape: letters.to_vec(),
        words: lent.words,
        bytes: lent.bytes,
        expected: None,
    })
}

fn code(text: &str, bits: &str, lent: Lent) -> Service {
    Service::Code(codes::Case {
        name: String::new(),
        text: text.as_bytes().to_vec(),
        code: Code::written(bits),
        lent,
        expected: None,
        litres: None,
    })
}

/// The second visit of the range: its digit is the last letter.
fn visit(text: &str, bits: &str) -> Service {
    Service::Visit(visits::Case {
        name: String::new(),
        text: text.as_bytes().to_vec(),
        tape: TAPE.to_vec(),
        code: Code::written(bits),
        node: DIGITS as u64,
        visit: 1,
        expected: None,
    })
}

/// All letters lie on the first day of the term.
fn term(text: &str, bits: &str, start: u32) -> Service {
    let day = Date::of_number(20_240_229);
    Service::Term(terms::Case {
        name: String::new(),
        text: text.as_bytes().to_vec(),
        code: Code::written(bits),
        start: Date::of_number(start),
        first: day,
        last: day,
        expected: None,
    })
}

/// Every service, by its name, on the tape or its code.
fn services(text: &str) -> [(&'static str, Service); 4] {
    [
        ("tape", tape(text, TAPE, LENT)),
        ("code", code(text, BITS, LENT)),
        ("visit", visit(text, BITS)),
        ("term", term(text, BITS, 20_240_229)),
    ]
}

/// Where a tape breaks.
fn broken(text: &str, letters: &[u8]) -> Service {
    Service::Break(breaks::Case {
        name: String::new(),
        text: text.as_bytes().to_vec(),
        tape: letters.to_vec(),
        expected: None,
    })
}

/// 2 for an account above 200.
fn number_of(account: u64) -> u64 {
    match account {
        0..=200 => 0,
        _ => 2,
    }
}

/// Collects cases.
struct Hand {
    cases: Vec<Case>,
}

impl Hand {
    fn add(&mut self, name: &str, line: usize, account: u64, service: Service, number: u64) {
        self.cases.push(Case {
            name: format!("altered: {account} on line {line}, {name}"),
            line,
            account,
            service,
            number,
        });
    }
}

/// Every account that a table has room for, on the line of the digits.
fn each_account(hand: &mut Hand) {
    for account in 0..=255 {
        let service = code(TEXT, BITS, LENT);
        hand.add("code", DIGITS, account, service, number_of(account));
    }
}

/// Accounts near the limit on a line of each kind, for every service.
fn each_line(hand: &mut Hand) {
    for line in 0..LINES {
        for account in [0, 1, 9, 10, 99, 199, 200, 201, 202, 210, 254, 255] {
            for (name, service) in services(TEXT) {
                hand.add(name, line, account, service, number_of(account));
            }
        }
    }
}

/// "Any departure from the pattern rules, in its line count (1 to 64) or in a
/// node below that count": what stands at or past the count is none. A table of
/// no lines is refused whatever stands in it.
fn no_line(hand: &mut Hand) {
    for line in [LINES, LINES + 1, 63, 64, 4_294_967_295] {
        for account in [200, 201, 255] {
            for (name, service) in services(TEXT) {
                hand.add(name, line, account, service, 0);
            }
        }
    }
    for account in [1, 201] {
        for (name, service) in services("0\tE\t201\n") {
            let name = format!("{name}, a text that does not load");
            hand.add(&name, 0, account, service, 2);
        }
    }
}

/// 2 comes first in every order.
fn before_others(hand: &mut Hand) {
    let none = Lent {
        letters: 0,
        words: 0,
        bytes: 0,
    };
    for (line, account) in [(0, 201), (DIGITS, 209), (LINES - 1, 255)] {
        let mut refused = |name: &str, service: Service| hand.add(name, line, account, service, 2);
        refused("tape, no buffers", tape(TEXT, TAPE, none));
        refused("tape, byte 127", tape(TEXT, b"a5\x7f", LENT));
        refused("tape, unreadable", tape(TEXT, b"aa", LENT));
        refused("tape, 3,601 letters", tape(TEXT, &[b'a'; 3_601], LENT));
        refused("code, no buffers", code(TEXT, BITS, none));
        refused("code, no code", code(TEXT, "11", LENT));
        refused("visit, no code", visit(TEXT, "11"));
        refused("term, no code", term(TEXT, "11", 20_240_229));
        refused("term, no date", term(TEXT, BITS, 20_240_230));
    }
}

/// Where a tape breaks does not depend on accounts, as long as they are good.
fn breaks(hand: &mut Hand) {
    for line in 0..LINES {
        for account in [0, 9, 200, 201, 255] {
            let number = number_of(account);
            hand.add("break", line, account, broken(TEXT, b"a5xa7"), number);
            hand.add("break, read", line, account, broken(TEXT, TAPE), number);
        }
    }
    for line in [LINES, 63, 64] {
        hand.add("break", line, 201, broken(TEXT, b"a5xa7"), 0);
    }
    for (name, tape) in [
        ("break, no letters", &b""[..]),
        ("break, byte 127", b"a5\x7f"),
        ("break, 3,601 letters", &[b'a'; 3_601]),
    ] {
        hand.add(name, DIGITS, 201, broken(TEXT, tape), 2);
    }
}
