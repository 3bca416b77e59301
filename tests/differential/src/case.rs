//! Random cases: a pattern text, a tape, a code, dates and the buffers lent.

use crate::dates::random_numbers;
use crate::full;
use wumbyra_reference::cases::mutated::{
    change, change_account, LIKELY_HOT_BYTES, LIKELY_MIXED_BYTES,
};
use wumbyra_reference::code::{encode, pack};
use wumbyra_reference::codes::damaged::{damage, damage_letter, other_byte};
use wumbyra_reference::codes::random::{put_in, sample};
use wumbyra_reference::codes::Code;
use wumbyra_reference::hot;
use wumbyra_reference::lazy;
use wumbyra_reference::load::load;
use wumbyra_reference::memo::preferred_reading;
use wumbyra_reference::patterns::{
    random, text_of, with_great_accounts, with_stale_part, LISTING, P1, P2, P3, P4, P5,
};
use wumbyra_reference::prng::Prng;
use wumbyra_reference::services::spelling::letters_of;
use wumbyra_reference::services::terms::DAY_END;
use wumbyra_reference::services::totals::ACCOUNTS;
use wumbyra_reference::table::{Kind, Node, Star, Table};
use wumbyra_reference::tapes::random::{HOT, MIXED, WITHOUT_Z};
use wumbyra_reference::terms::random::{
    day_ends, has_litres, rounds_of_days, HOT_DAYS, MIXED_DAYS, WITH_DAYS,
};
use wumbyra_reference::terms::{DAYS, LAZY_SEVENS, SEVENS};
use wumbyra_reference::value::{spell, Value};

#[derive(Clone, Debug, PartialEq, Eq)]
pub struct Case {
    pub text: Vec<u8>,
    pub tape: Vec<u8>,
    pub code: Vec<u8>,
    pub count: u32,
    /// The tape handed to `span`: the code's own where there is one, else `tape`.
    pub own_tape: bool,
    pub node: u32,
    pub visit: u32,
    pub account: u32,
    /// Start, first and last, each as callers from C write it.
    pub dates: [u32; 3],
    /// Cells lent: to `parse` words and bytes, to `flatten` and `canonicalize` letters, to `canonicalize` words and bytes, to
    /// `totals` and `term_totals` one for each account.
    pub parse_words: usize,
    pub parse_bytes: usize,
    pub letters: usize,
    pub words: usize,
    pub bytes: usize,
    pub accounts: usize,
    /// What the buffers hold before a call.
    pub filling: u64,
}

/// Letters of a sampled tape; longer ones are made of simple patterns only, since the reference is slow.
const MOST_SAMPLED: usize = 60;
const STAR: &str = "0\tL\t4\t7\n1\tK\t-\t0\n";
const LAZY_STAR: &str = "0\tL\t4\t7\n1\tZ\t-\t0\n";

/// Of so many cases one has a tape of about 3,600 letters.
pub const FULL_TAPES: usize = 10;

/// What a case is about is its first random number.
fn sort_of_case(rng: &mut Prng) -> usize {
    rng.below(100 * FULL_TAPES)
}

/// Whether the case of this seed has a tape of about 3,600 letters.
pub fn has_full_tape(seed: u64) -> bool {
    sort_of_case(&mut Prng::new(seed)) < 100
}

pub fn random_case(rng: &mut Prng) -> Case {
    let (table, value) = match sort_of_case(rng) {
        0..=4 => return long_case(rng),
        5..=99 => {
            let (text, tape, code) = full::random_parts(rng);
            return finished(rng, text, tape, code);
        }
        100..=109 => deep(rng),
        110..=189 => sampled(rng, by_hand),
        190..=374 => sampled(rng, nested),
        375..=599 => with_days(rng),
        _ => sampled(rng, sampled_pattern),
    };
    // Accounts have no part in reading, so the value is one of the changed pattern too.
    let table = match rng.below(3) {
        0 => with_stale_part(rng, &table),
        _ => table,
    };
    let table = match rng.below(3) {
        0 => table,
        _ => with_great_accounts(rng, &table),
    };
    let tape = tape_of(rng, &table, &value);
    let code = code_of(rng, &table, &value, &tape);
    let mut text = text_of(&table);
    if rng.below(6) == 0 {
        for _ in 0..1 + rng.below(3) {
            let likely = *rng.pick(&[LIKELY_MIXED_BYTES, LIKELY_HOT_BYTES]);
            text = match rng.below(3) {
                0 => change_account(rng, text),
                _ => change(rng, text, likely),
            };
        }
    }
    finished(rng, text, tape, code)
}

fn sampled(rng: &mut Prng, pattern: fn(&mut Prng) -> Table) -> (Table, Value) {
    let table = pattern(rng);
    let value = sampled_value(rng, &table);
    (table, value)
}

fn by_hand(rng: &mut Prng) -> Table {
    let text = match rng.below(3) {
        0 => rng.pick(&[LISTING, P1, P2, P3, P4, P5, STAR]).as_bytes(),
        1 => rng.pick(&lazy::ALL).1.as_bytes(),
        _ => rng.pick(&hot::ALL).1,
    };
    load(text).expect("a good pattern")
}

/// Four patterns in five may mix both kinds of stars, two in five have letters on both sides of the gap.
fn sampled_pattern(rng: &mut Prng) -> Table {
    let tastes = *rng.pick(&[&WITHOUT_Z, &MIXED, &MIXED, &HOT, &HOT]);
    let taste = *rng.pick(tastes);
    let count = line_count(rng);
    random(rng, count, taste)
}

/// Patterns that read digits and `D`, three in four with rounds enough for litres on several days, half of these with empty
/// rounds put in.
fn with_days(rng: &mut Prng) -> (Table, Value) {
    if rng.below(4) == 0 {
        return sampled(rng, day_pattern);
    }
    let taste = rng.pick(&[WITH_DAYS, MIXED_DAYS, HOT_DAYS])[0];
    loop {
        let lines = line_count(rng).max(2);
        let (table, value) = rounds_of_days(rng, taste, lines);
        let letters = spell(&value);
        if has_litres(&letters) && day_ends(&letters) > 0 {
            return match rng.below(2) {
                0 => (table, value),
                _ => {
                    let more = put_in(rng, &table, table.root(), &value);
                    (table, more)
                }
            };
        }
    }
}

/// One in eight reads every tape of days.
fn day_pattern(rng: &mut Prng) -> Table {
    if rng.below(8) == 0 {
        let text = *rng.pick(&[DAYS, SEVENS, LAZY_SEVENS]);
        return load(text.as_bytes()).expect("a good pattern");
    }
    let taste = rng.pick(&[WITH_DAYS, MIXED_DAYS, HOT_DAYS])[0];
    let lines = line_count(rng);
    random(rng, lines, taste)
}

fn line_count(rng: &mut Prng) -> usize {
    match rng.below(40) {
        0 => 64,
        1 => 40 + rng.below(24),
        _ => 1 + rng.below(24),
    }
}

/// Stars in stars over parts that may be empty, and repeated optional parts: what a search that goes back takes longest for.
/// Letters are three digits, or three of which two are on one side of the gap and one is on the other.
fn nested(rng: &mut Prng) -> Table {
    let letters = *rng.pick(&[b"012", b"012", b"}~\xa1"]);
    let mut nodes: Vec<Node> = Vec::new();
    let mut add = |kind, x: usize, y: usize| {
        nodes.push(Node::new(kind, (x + y) as u64 % 10, x as u64, y as u64));
        nodes.len() - 1
    };
    let mut whole = add(Kind::Letter, usize::from(*rng.pick(letters)), 0);
    for _ in 0..1 + rng.below(9) {
        let star = any_star(rng);
        whole = match rng.below(6) {
            0 | 1 => add(star, whole, 0),
            2 => {
                let empty = add(Kind::Nothing, 0, 0);
                add(Kind::Either, whole, empty)
            }
            3 => {
                let empty = add(Kind::Nothing, 0, 0);
                add(Kind::Either, empty, whole)
            }
            4 => {
                let other = add(
                    Kind::Range,
                    usize::from(letters[0]),
                    usize::from(letters[2]),
                );
                let other = add(star, other, 0);
                add(Kind::Sequence, whole, other)
            }
            _ => {
                let other = add(Kind::Letter, usize::from(*rng.pick(letters)), 0);
                let empty = add(Kind::Nothing, 0, 0);
                let other = add(Kind::Either, other, empty);
                add(Kind::Sequence, other, whole)
            }
        };
    }
    Table::of_nodes(&nodes)
}

fn any_star(rng: &mut Prng) -> Kind {
    *rng.pick(&[Kind::GREEDY_STAR, Kind::LAZY_STAR])
}

/// A range under as many stars as lines allow, or nearly: all of one kind, or of both. A random value would hardly get down to a
/// letter, so this one has letters from the start.
fn deep(rng: &mut Prng) -> (Table, Value) {
    let (low, high) = *rng.pick(&[(b'0', b'3'), (b'0', b'3'), (125, 162), (33, 254)]);
    let range = Node::new(Kind::Range, 3, u64::from(low), u64::from(high));
    let mut nodes = vec![range];
    let stars = 63 - rng.below(3) * rng.below(30);
    let same = any_star(rng);
    let mixed = rng.below(2) == 0;
    for place in 0..stars {
        let kind = if mixed { any_star(rng) } else { same };
        nodes.push(Node::new(kind, 0, place as u64, 0));
    }
    let letters: Vec<u8> = (0..rng.below(20))
        .map(|_| *rng.pick(&range.letters()))
        .collect();
    let value = deep_value(rng, &nodes, stars, &letters);
    let table = Table::of_nodes(&nodes);
    match rng.below(2) {
        0 => (table, value),
        _ => {
            let more = put_in(rng, &table, stars, &value);
            (table, more)
        }
    }
}

/// The letters in rounds of the star at this place: one each in the innermost star, further out mostly all in one round.
fn deep_value(rng: &mut Prng, nodes: &[Node], place: usize, letters: &[u8]) -> Value {
    let Kind::Rounds(star) = nodes[place].kind else {
        return Value::Letter(letters[0]);
    };
    let mut rounds = Vec::new();
    let mut rest = letters;
    while !rest.is_empty() {
        let length = match (place, rng.below(12)) {
            (1, _) => 1,
            (_, 0) => 1 + rng.below(rest.len()),
            _ => rest.len(),
        };
        let (round, behind) = rest.split_at(length);
        rounds.push(deep_value(rng, nodes, place - 1, round));
        rest = behind;
    }
    Value::Rounds(star, rounds)
}

/// A value that is not too long, with empty rounds put in half of the time.
fn sampled_value(rng: &mut Prng, table: &Table) -> Value {
    let root = table.root();
    let mut value = sample(rng, table, root, &mut 0);
    for _ in 0..rng.below(4) {
        let other = sample(rng, table, root, &mut 0);
        let letters = spell(&other).len();
        if letters <= MOST_SAMPLED && letters > spell(&value).len() {
            value = other;
        }
    }
    if rng.below(2) == 0 {
        value = put_in(rng, table, root, &value);
    }
    value
}

fn tape_of(rng: &mut Prng, table: &Table, value: &Value) -> Vec<u8> {
    let mut tape = spell(value);
    let letters = likely_letters(table);
    match rng.below(12) {
        0 => tape.clear(),
        // A byte that is no letter, at either end of the letters and in the gap.
        1 => {
            let at = rng.below(tape.len() + 1);
            tape.insert(at, *rng.pick(&[0, 9, 10, 32, 127, 128, 160, 255]));
        }
        2 => {
            let at = rng.below(tape.len() + 1);
            tape.insert(at, *rng.pick(&[33, 126, 161, 254]));
        }
        3 | 4 => {
            for _ in 0..1 + rng.below(3) {
                let at = rng.below(tape.len() + 1);
                match rng.below(3) {
                    0 if at < tape.len() => tape[at] = *rng.pick(letters),
                    1 if at < tape.len() => drop(tape.remove(at)),
                    _ => tape.insert(at, *rng.pick(letters)),
                }
            }
        }
        5 => tape = (0..rng.below(20)).map(|_| *rng.pick(letters)).collect(),
        _ => {}
    }
    tape
}

/// Letters that the pattern reads, or nearly.
fn likely_letters(table: &Table) -> &'static [u8] {
    let has = |asked: fn(u64) -> bool| {
        table.lines().iter().any(|node| match node.kind {
            Kind::Letter => asked(node.x),
            Kind::Range => asked(node.x) || asked(node.y),
            _ => false,
        })
    };
    if has(|letter| letter >= 161) {
        // Some of these are others with the highest bit turned.
        b"a09~\xa1\xb0\xb9\xe1\xe2\xe4\xfe"
    } else if has(|letter| letter == u64::from(DAY_END)) {
        b"DD0259W"
    } else if has(|letter| letter == u64::from(b'a')) {
        b"ab"
    } else {
        b"0123W"
    }
}

fn code_of(rng: &mut Prng, table: &Table, value: &Value, tape: &[u8]) -> Code {
    let bits = encode(table, value);
    match rng.below(20) {
        0..=2 if bits.len() >= 2 => {
            let which = rng.below(8);
            damage(rng, which, &bits)
        }
        3 => {
            let bytes: Vec<u8> = (0..rng.below(9)).map(|_| rng.number() as u8).collect();
            let count = rng.below(8 * bytes.len() + 2) as u64;
            Code { bytes, count }
        }
        // Counts that wrap or are far past the bytes.
        4 => Code {
            bytes: pack(&bits),
            count: *rng.pick(&[
                0,
                524_288,
                524_289,
                u64::from(u32::MAX),
                u64::from(u32::MAX) - 6,
            ]),
        },
        5 => match preferred_reading(table, tape) {
            Some(reading) => Code::of_bits(&encode(table, &reading)),
            None => Code::of_bits(&bits),
        },
        // Another byte for a letter of a range: often none, or none of the range.
        6 => {
            let byte = other_byte(rng);
            damage_letter(rng, table, value, byte).unwrap_or_else(|| Code::of_bits(&bits))
        }
        _ => Code::of_bits(&bits),
    }
}

/// Tapes and codes about 3,600 letters, and codes about 65,536 bytes.
fn long_case(rng: &mut Prng) -> Case {
    let (text, round, star, letter) = *rng.pick(&[
        (STAR.as_bytes(), "0", Star::Greedy, b'7'),
        (P1.as_bytes(), "00", Star::Greedy, b'a'),
        (P2.as_bytes(), "01", Star::Greedy, b'a'),
        (P3.as_bytes(), "0001", Star::Greedy, b'b'),
        (LAZY_STAR.as_bytes(), "1", Star::Lazy, b'7'),
        (lazy::Z2.as_bytes(), "10", Star::Lazy, b'a'),
        (lazy::Z3.as_bytes(), "11", Star::Lazy, b'a'),
        (lazy::Z13.as_bytes(), "1100", Star::Lazy, b'a'),
        (hot::H1, "00", Star::Greedy, 228),
        (hot::H2, "0101", Star::Greedy, 226),
        (hot::H5, "010100001", Star::Greedy, 161),
        (hot::H6, "111111110", Star::Lazy, 254),
        (SEVENS.as_bytes(), "01", Star::Greedy, b'D'),
        (SEVENS.as_bytes(), "0001", Star::Greedy, b'D'),
        (LAZY_SEVENS.as_bytes(), "11", Star::Lazy, b'D'),
    ]);
    let count = *rng.pick(&[3_599, 3_600, 3_601, 3_602]);
    let mut tape = vec![letter; count];
    if rng.below(4) == 0 {
        tape[rng.below(count)] = *rng.pick(&[32, 127, 160, 255]);
    }
    let rounds = match rng.below(3) {
        0 => *rng.pick(&[27_000, 524_287, 524_288]) / round.len(),
        _ => *rng.pick(&[3_599, 3_600, 3_601]),
    };
    let mut bits: Vec<bool> = round
        .repeat(rounds)
        .bytes()
        .map(|bit| bit == b'1')
        .collect();
    bits.push(star.stop_bit());
    finished(rng, text.into(), tape, Code::of_bits(&bits))
}

/// A buffer exact, one short, one longer, empty or a little longer than what is needed.
fn lent(rng: &mut Prng, needed: usize) -> usize {
    match rng.below(10) {
        0 | 1 => needed.saturating_sub(1),
        2 => needed + 1,
        3 => needed + rng.below(40),
        4 => rng.below(needed + 1),
        _ => needed,
    }
}

fn finished(rng: &mut Prng, text: Vec<u8>, tape: Vec<u8>, code: Code) -> Case {
    let mut case = Case {
        text,
        tape,
        code: code.bytes,
        count: u32::try_from(code.count).expect("a count of 32 bits"),
        own_tape: rng.below(6) != 0,
        node: 0,
        visit: 0,
        account: 0,
        dates: [0; 3],
        parse_words: 0,
        parse_bytes: 0,
        letters: 0,
        words: 0,
        bytes: 0,
        accounts: 0,
        filling: rng.number(),
    };
    let mut nodes = 64;
    let (mut parse_bytes, mut letters, mut bytes, mut days) = (0, 0, 0, 0);
    if let Ok(table) = load(&case.text) {
        nodes = table.count as usize;
        let needed = |tape: &[u8]| match tape.len() {
            0..=3_600 => preferred_reading(&table, tape)
                .map_or(0, |reading| encode(&table, &reading).len().div_ceil(8)),
            _ => 0,
        };
        parse_bytes = needed(&case.tape);
        if let Ok(spelled) = letters_of(&table, &case.code, u64::from(case.count)) {
            letters = spelled.len();
            days = day_ends(&spelled);
            // The reference is slow on long tapes, so none is read twice.
            bytes = match letters {
                0..=3_600 if spelled == case.tape => parse_bytes,
                0..=3_600 => needed(&spelled),
                _ => 0,
            };
        }
    }
    let letters_needed = letters.min(3_700);
    case.parse_words = lent(rng, 2 * (case.tape.len() + 1));
    case.parse_bytes = lent(rng, parse_bytes);
    case.letters = lent(rng, letters_needed);
    case.words = lent(rng, 2 * (letters_needed + 1));
    case.bytes = lent(rng, bytes);
    case.accounts = lent(rng, ACCOUNTS);
    case.node = match rng.below(12) {
        0 => *rng.pick(&[64, 65, 256, u32::MAX]),
        _ => rng.below(nodes + 1) as u32,
    };
    case.visit = match rng.below(12) {
        0 => *rng.pick(&[256, 3_600, u32::MAX]),
        _ => (rng.below(4) * rng.below(4)) as u32,
    };
    case.account = match rng.below(12) {
        0 => *rng.pick(&[201, 255, 256, 256 + 9, 456, 65_545, u32::MAX]),
        _ => rng.below(ACCOUNTS) as u32,
    };
    case.dates = random_numbers(rng, days);
    case
}

#[cfg(test)]
mod tests {
    use super::*;
    use wumbyra_reference::calendar::Date;
    use wumbyra_reference::code::{decode, unpack};
    use wumbyra_reference::load::load_by;
    use wumbyra_reference::services::terms::term_totals;
    use wumbyra_reference::services::totals::{totals, NO_LITRES};
    use wumbyra_reference::stale::moves_litres;
    use wumbyra_reference::table::is_letter;

    /// The letters and bytes that the README names come up, and often enough for a run of 20,000 cases to meet each many times.
    #[test]
    fn cases_have_hot_letters_and_bytes_of_the_gap() {
        let mut rng = Prng::new(17);
        let (mut across, mut faulty, mut no_codes) = (0, 0, 0);
        let mut on_tapes = [0; 256];
        for _ in 0..4_000 {
            let case = random_case(&mut rng);
            let mut seen = [false; 256];
            for &byte in &case.tape {
                seen[usize::from(byte)] = true;
            }
            for byte in 0..256 {
                on_tapes[byte] += usize::from(seen[byte]);
            }
            let Ok(table) = load(&case.text) else {
                let odd = |&byte: &u8| byte > 126 && !is_letter(u64::from(byte));
                faulty += usize::from(case.text.iter().any(odd));
                continue;
            };
            let wide = |node: &&Node| node.kind == Kind::Range && node.x < 127 && node.y > 160;
            let ranges = table.lines().iter().filter(wide).count();
            across += usize::from(ranges > 0);
            let whole = letters_of(&table, &case.code, u64::from(case.count)).is_ok();
            no_codes += usize::from(ranges > 0 && !whole);
        }
        for byte in [127, 128, 160, 161, 254, 255] {
            assert!(on_tapes[byte] >= 20, "{byte}: {}", on_tapes[byte]);
        }
        assert!(across >= 400, "{across}");
        // About 20 are usual.
        assert!(faulty >= 10, "{faulty}");
        assert!(no_codes >= 100, "{no_codes}");
    }

    /// Terms of every sort come up: litres, some of them left out, none, a date past the last one, bad dates.
    #[test]
    fn cases_have_terms_of_every_sort() {
        let mut rng = Prng::new(19);
        let [mut whole, mut part, mut none, mut past, mut start, mut term] = [0; 6];
        for _ in 0..4_000 {
            let case = random_case(&mut rng);
            let Ok(table) = load(&case.text) else {
                continue;
            };
            let bits = u64::from(case.count);
            let [from, first, last] = case.dates.map(Date::of_number);
            let all = totals(&table, &case.code, bits).unwrap_or(NO_LITRES);
            let counted = match term_totals(&table, &case.code, bits, from, first, last) {
                Ok(_) if all == NO_LITRES => continue,
                Ok(litres) if litres == all => &mut whole,
                Ok(litres) if litres == NO_LITRES => &mut none,
                Ok(_) => &mut part,
                Err(refusal) if refusal.number == 12 => &mut term,
                Err(refusal) if refusal.number != 11 => continue,
                Err(_) if from.is_date() => &mut past,
                Err(_) => &mut start,
            };
            *counted += 1;
        }
        for (sort, count) in [
            ("whole", whole),
            ("part", part),
            ("none", none),
            ("past", past),
            ("start", start),
            ("term", term),
        ] {
            assert!(count >= 25, "{sort}: {count}");
        }
    }

    /// A tenth of the tapes have about 3,600 letters. Of these many are read, some are one letter too long, and codes of all letters
    /// that a tape may have are settled, under stars of either kind. A case's seed tells which they are.
    #[test]
    fn cases_have_full_tapes() {
        let mut seeds = Prng::new(29);
        let [mut about, mut longer, mut most, mut greedy, mut lazy] = [0; 5];
        for _ in 0..1_000 {
            let own = seeds.number();
            let case = random_case(&mut Prng::new(own));
            let full = (3_575..=3_610).contains(&case.tape.len());
            assert_eq!(has_full_tape(own), full, "seed {own}");
            if !full {
                continue;
            }
            about += 1;
            longer += usize::from(case.tape.len() > 3_600);
            let table = load(&case.text).expect("a good pattern");
            let spelled = letters_of(&table, &case.code, u64::from(case.count));
            most += usize::from(spelled.is_ok_and(|letters| letters.len() == 3_600));
            if case.tape.len() == 3_600 && preferred_reading(&table, &case.tape).is_some() {
                match table.node(table.root()).kind {
                    Kind::Rounds(Star::Lazy) => lazy += 1,
                    _ => greedy += 1,
                }
            }
        }
        assert!((70..=130).contains(&about), "{about}");
        for (sort, count) in [
            ("longer", longer),
            ("most", most),
            ("greedy", greedy),
            ("lazy", lazy),
        ] {
            assert!(count >= 8, "{sort}: {count}");
        }
    }

    /// Account 9 stands above other accounts in one pattern of three, and that moves litres in many cases.
    #[test]
    fn cases_have_stale_litres() {
        let mut rng = Prng::new(23);
        let (mut nested, mut moved) = (0, 0);
        for _ in 0..4_000 {
            let case = random_case(&mut rng);
            let Ok(table) = load(&case.text) else {
                continue;
            };
            nested += usize::from(has_nested(&table, table.root(), false));
            let bits = unpack(&case.code, u64::from(case.count));
            let value = bits.and_then(|bits| decode(&table, &bits));
            moved += usize::from(value.is_some_and(|value| moves_litres(&table, &value)));
        }
        assert!(nested >= 1_000, "{nested}");
        assert!(moved >= 250, "{moved}");
    }

    /// Accounts above 9 have litres in many cases, the greatest too, and texts are refused for their accounts.
    #[test]
    fn cases_have_accounts_to_200() {
        let mut rng = Prng::new(27);
        let (mut great, mut greatest, mut faulty) = (0, 0, 0);
        let mut seen = [false; ACCOUNTS];
        for _ in 0..4_000 {
            let case = random_case(&mut rng);
            let Ok(table) = load(&case.text) else {
                faulty += usize::from(load_by(&case.text, |_| Some(0)).is_ok());
                continue;
            };
            for node in table.lines() {
                seen[node.account as usize] = true;
            }
            let litres = totals(&table, &case.code, u64::from(case.count)).unwrap_or(NO_LITRES);
            great += usize::from(litres[10..].iter().any(|&some| some > 0));
            greatest += usize::from(litres[ACCOUNTS - 1] > 0);
        }
        assert!(seen.iter().all(|&seen| seen));
        assert!(great >= 250, "{great}");
        assert!(greatest >= 10, "{greatest}");
        assert!(faulty >= 60, "{faulty}");
    }

    /// Whether a node of account 9 is above one of another account.
    fn has_nested(table: &Table, place: usize, stale: bool) -> bool {
        let node = table.node(place);
        if stale && node.account != 0 && node.account != 9 {
            return true;
        }
        let stale = stale || node.account == 9;
        let mut parts = node.parts().into_iter();
        parts.any(|part| has_nested(table, part as usize, stale))
    }
}
