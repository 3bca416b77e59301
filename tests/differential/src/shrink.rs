//! Makes a failing case smaller for as long as it still fails.

use crate::case::Case;
use crate::dates::plainer;
use crate::letters::{cool, narrower};
use wumbyra_reference::code::{decode, encode, pack, unpack};
use wumbyra_reference::load::load;
use wumbyra_reference::patterns::text_of;
use wumbyra_reference::table::{Kind, Node, Star, Table};
use wumbyra_reference::value::Value;

/// Calls of the test; a case that shrinks on is left as it is then.
const MOST_TRIES: usize = 20_000;
/// Candidates of one kind, since all of them are made before one is tried.
const MOST_PARTS: usize = 256;

pub fn shrink(case: &Case, fails: &dyn Fn(&Case) -> bool) -> Case {
    let mut best = case.clone();
    let mut tries = 0;
    loop {
        let smaller = candidates(&best).into_iter().find(|candidate| {
            tries += 1;
            tries <= MOST_TRIES && fails(candidate)
        });
        match smaller {
            Some(case) => best = case,
            None => return best,
        }
    }
}

/// Cases that are smaller in one respect, those that leave out most first.
fn candidates(case: &Case) -> Vec<Case> {
    let mut found = Vec::new();
    let mut add = |change: &dyn Fn(&mut Case)| {
        let mut smaller = case.clone();
        change(&mut smaller);
        if smaller != *case {
            found.push(smaller);
        }
    };
    for (text, code) in smaller_patterns(case) {
        add(&|smaller| {
            smaller.text = text.clone();
            if let Some(bits) = &code {
                smaller.count = bits.len() as u32;
                smaller.code = pack(bits);
            }
        });
    }
    add(&cool);
    for tape in shorter(&case.tape) {
        add(&|smaller| smaller.tape = tape.clone());
    }
    let bits: Vec<u8> = (0..(case.count as usize).min(8 * case.code.len()))
        .map(|at| case.code[at / 8] >> (7 - at % 8) & 1)
        .collect();
    for bits in shorter(&bits) {
        add(&|smaller| {
            smaller.count = bits.len() as u32;
            smaller.code = vec![0; bits.len().div_ceil(8)];
            for (at, bit) in bits.iter().enumerate() {
                smaller.code[at / 8] |= bit << (7 - at % 8);
            }
        });
    }
    for code in shorter(&case.code) {
        add(&|smaller| smaller.code = code.clone());
    }
    // A count of more bits than the bytes have is not shortened with them.
    add(&|smaller| smaller.count /= 2);
    add(&|smaller| smaller.count = smaller.count.saturating_sub(1));
    let fields: [fn(&mut Case) -> &mut usize; 6] = [
        |case| &mut case.parse_words,
        |case| &mut case.parse_bytes,
        |case| &mut case.letters,
        |case| &mut case.words,
        |case| &mut case.bytes,
        |case| &mut case.accounts,
    ];
    for field in fields {
        add(&|smaller| *field(smaller) = 0);
        add(&|smaller| *field(smaller) /= 2);
        add(&|smaller| *field(smaller) = field(smaller).saturating_sub(1));
    }
    let numbers: [fn(&mut Case) -> &mut u32; 3] = [
        |case| &mut case.node,
        |case| &mut case.visit,
        |case| &mut case.account,
    ];
    for number in numbers {
        add(&|smaller| *number(smaller) = 0);
        add(&|smaller| *number(smaller) = number(smaller).saturating_sub(1));
    }
    for dates in plainer(case.dates) {
        add(&|smaller| smaller.dates = dates);
    }
    found
}

/// The list without a half, a quarter, and so on down to one element, or to a part in MOST_PARTS of a long one.
fn shorter(list: &[u8]) -> Vec<Vec<u8>> {
    let mut found = Vec::new();
    let mut length = list.len();
    while length > 0 && list.len() / length <= MOST_PARTS {
        for start in (0..list.len()).step_by(length) {
            let end = (start + length).min(list.len());
            found.push([&list[..start], &list[end..]].concat());
        }
        length /= 2;
    }
    found
}

/// A good pattern with a node replaced by one of its parts or by nothing, and a whole code cut down with it or left as it is;
/// a narrower range; a code with fewer rounds; a pattern without lazy stars; of a text that does not load, fewer bytes.
fn smaller_patterns(case: &Case) -> Vec<(Vec<u8>, Option<Vec<bool>>)> {
    let Ok(table) = load(&case.text) else {
        return shorter(&case.text)
            .into_iter()
            .map(|text| (text, None))
            .collect();
    };
    let bits = unpack(&case.code, u64::from(case.count));
    let value = bits.and_then(|bits| decode(&table, &bits));
    let mut found = Vec::new();
    for place in (0..table.lines().len()).rev() {
        let node = table.node(place);
        let mut ways: Vec<Option<u64>> = node.parts().into_iter().map(Some).collect();
        if node.kind != Node::unused().kind {
            ways.push(None);
        }
        for to in ways {
            let by = to.map_or(Node::unused(), |part| table.node(part as usize));
            let small = without(&table, place, by);
            let cut = value
                .as_ref()
                .and_then(|value| cut(&table, table.root(), value, place, to));
            if let Some(value) = cut {
                found.push((text_of(&small), Some(encode(&small, &value))));
            }
            found.push((text_of(&small), None));
        }
        if node.account != 0 {
            let mut plain = table.clone();
            plain.nodes[place].account = 0;
            found.push((text_of(&plain), None));
        }
        // A lower account; 9, which has a rule of its own, is not made another one.
        for account in lower(node.account) {
            let mut changed = table.clone();
            changed.nodes[place].account = account;
            found.push((text_of(&changed), None));
        }
        for (low, high) in narrower(node) {
            let mut narrow = table.clone();
            (narrow.nodes[place].x, narrow.nodes[place].y) = (low, high);
            found.push((text_of(&narrow), None));
        }
    }
    for round in 0..value.as_ref().map_or(0, rounds).min(MOST_PARTS) {
        let value = value.as_ref().expect("it has rounds");
        let fewer = encode(&table, &without_round(value, &mut (round as i64)));
        found.push((case.text.clone(), Some(fewer)));
    }
    let greedy = with_greedy_stars(&table);
    if greedy != table {
        let bits = value.map(|value| encode(&greedy, &as_greedy(&value)));
        found.push((text_of(&greedy), bits));
    }
    found
}

/// Accounts below one, the lowest first: 1, the first of two digits and of three, half of it, one less.
fn lower(account: u64) -> Vec<u64> {
    let below = [1, 10, 100, account / 2, account.saturating_sub(1)];
    let fits = |&other: &u64| account != 9 && other != 9 && 0 < other && other < account;
    below.into_iter().filter(fits).collect()
}

/// Each `Z` made a `K`: a fault that needs no `Z` is shown without one.
fn with_greedy_stars(table: &Table) -> Table {
    let mut greedy = table.clone();
    for node in &mut greedy.nodes {
        if node.kind == Kind::LAZY_STAR {
            node.kind = Kind::GREEDY_STAR;
        }
    }
    greedy
}

fn as_greedy(value: &Value) -> Value {
    match value {
        Value::Nothing | Value::Letter(_) => value.clone(),
        Value::Pair(pair) => Value::pair(as_greedy(&pair.0), as_greedy(&pair.1)),
        Value::Left(side) => Value::Left(Box::new(as_greedy(side))),
        Value::Right(side) => Value::Right(Box::new(as_greedy(side))),
        Value::Rounds(_, list) => Value::Rounds(Star::Greedy, list.iter().map(as_greedy).collect()),
    }
}

/// What a value becomes where the node `target` gives way to its part `to`, or to nothing; none if it went another way there.
fn cut(
    table: &Table,
    place: usize,
    value: &Value,
    target: usize,
    to: Option<u64>,
) -> Option<Value> {
    let node = table.node(place);
    let part = |part: u64, value: &Value| cut(table, part as usize, value, target, to);
    if place == target {
        return match (to, value) {
            (None, _) => Some(Value::Nothing),
            (Some(to), Value::Pair(pair)) if to == node.x => Some(pair.0.clone()),
            (Some(_), Value::Pair(pair)) => Some(pair.1.clone()),
            (Some(to), Value::Left(side)) if to == node.x => Some((**side).clone()),
            (Some(to), Value::Right(side)) if to == node.y => Some((**side).clone()),
            (Some(_), Value::Rounds(_, rounds)) if rounds.len() == 1 => Some(rounds[0].clone()),
            _ => None,
        };
    }
    match value {
        Value::Nothing | Value::Letter(_) => Some(value.clone()),
        Value::Pair(pair) => Some(Value::pair(part(node.x, &pair.0)?, part(node.y, &pair.1)?)),
        Value::Left(side) => Some(Value::Left(Box::new(part(node.x, side)?))),
        Value::Right(side) => Some(Value::Right(Box::new(part(node.y, side)?))),
        Value::Rounds(star, rounds) => {
            let rounds: Option<Vec<Value>> =
                rounds.iter().map(|round| part(node.x, round)).collect();
            Some(Value::Rounds(*star, rounds?))
        }
    }
}

fn rounds(value: &Value) -> usize {
    match value {
        Value::Nothing | Value::Letter(_) => 0,
        Value::Pair(pair) => rounds(&pair.0) + rounds(&pair.1),
        Value::Left(side) | Value::Right(side) => rounds(side),
        Value::Rounds(_, list) => list.iter().map(|round| 1 + rounds(round)).sum(),
    }
}

/// The value without the round of this number, counted as the code goes.
fn without_round(value: &Value, number: &mut i64) -> Value {
    match value {
        Value::Nothing | Value::Letter(_) => value.clone(),
        Value::Pair(pair) => {
            let first = without_round(&pair.0, number);
            Value::pair(first, without_round(&pair.1, number))
        }
        Value::Left(side) => Value::Left(Box::new(without_round(side, number))),
        Value::Right(side) => Value::Right(Box::new(without_round(side, number))),
        Value::Rounds(star, list) => {
            let mut kept = Vec::new();
            for round in list {
                *number -= 1;
                if *number != -1 {
                    kept.push(without_round(round, number));
                }
            }
            Value::Rounds(*star, kept)
        }
    }
}

/// The table with another node at this place, and only the lines that the root still comes to.
fn without(table: &Table, place: usize, by: Node) -> Table {
    let mut changed = table.clone();
    changed.nodes[place] = by;
    let mut kept = vec![false; table.lines().len()];
    kept[table.root()] = true;
    for line in (0..kept.len()).rev() {
        if kept[line] {
            for part in changed.node(line).parts() {
                kept[part as usize] = true;
            }
        }
    }
    let mut numbers = vec![0; kept.len()];
    let mut nodes: Vec<Node> = Vec::new();
    for line in (0..kept.len()).filter(|&line| kept[line]) {
        let mut node = changed.node(line);
        match node.parts().len() {
            1 => node.x = numbers[node.x as usize],
            2 => {
                node.x = numbers[node.x as usize];
                node.y = numbers[node.y as usize];
            }
            _ => {}
        }
        numbers[line] = nodes.len() as u64;
        nodes.push(node);
    }
    Table::of_nodes(&nodes)
}

#[cfg(test)]
mod tests {
    use super::*;
    use crate::case::random_case;
    use wumbyra_reference::calendar::Date;
    use wumbyra_reference::prng::Prng;
    use wumbyra_reference::services::locate::{locate, Located};
    use wumbyra_reference::services::terms::term_totals;
    use wumbyra_reference::services::totals::{put, totals, CELLS_TOO_FEW};
    use wumbyra_reference::stale::moves_litres;
    use wumbyra_reference::value::{has_empty_round, spell};

    /// A fault in codes with an empty round comes down to one star and one round.
    #[test]
    fn a_code_is_cut_down_with_its_pattern() {
        let fails = |case: &Case| {
            let value = load(&case.text).ok().and_then(|table| {
                let bits = unpack(&case.code, u64::from(case.count))?;
                decode(&table, &bits)
            });
            value.is_some_and(|value| has_empty_round(&value))
        };
        let mut rng = Prng::new(5);
        let mut seen = 0;
        while seen < 20 {
            let case = random_case(&mut rng);
            // Long codes take too many tries.
            if case.code.len() < 100 && fails(&case) {
                seen += 1;
                let small = shrink(&case, &fails);
                assert_eq!(small.text, b"0\tE\t-\n1\tK\t-\t0\n");
                assert_eq!((&small.code[..], small.count), (&[0x40][..], 2));
            }
        }
    }

    /// A fault in codes in which a lazy star goes on keeps its lazy star.
    #[test]
    fn a_lazy_star_is_kept_where_it_is_needed() {
        let fails = |case: &Case| {
            let value = load(&case.text).ok().and_then(|table| {
                let bits = unpack(&case.code, u64::from(case.count))?;
                decode(&table, &bits)
            });
            value.is_some_and(|value| goes_on(&value))
        };
        let mut rng = Prng::new(7);
        let mut seen = 0;
        while seen < 20 {
            let case = random_case(&mut rng);
            if case.code.len() < 100 && fails(&case) {
                seen += 1;
                let small = shrink(&case, &fails);
                assert_eq!(small.text, b"0\tE\t-\n1\tZ\t-\t0\n");
                assert_eq!((&small.code[..], small.count), (&[0x80][..], 2));
            }
        }
    }

    /// A fault in ranges across the gap comes down to the two letters next to it.
    #[test]
    fn a_range_across_the_gap_is_made_narrow() {
        let fails = |case: &Case| {
            let across = |node: &Node| node.kind == Kind::Range && node.x < 127 && node.y > 160;
            load(&case.text).is_ok_and(|table| table.lines().iter().any(across))
        };
        let mut rng = Prng::new(9);
        let mut seen = 0;
        while seen < 20 {
            let case = random_case(&mut rng);
            if fails(&case) {
                seen += 1;
                let small = shrink(&case, &fails);
                assert_eq!(small.text, b"0\tR\t-\t~\t\xa1\n");
                assert_eq!((small.tape.len(), small.count), (0, 0));
            }
        }
    }

    /// A fault in codes that read a letter is shown with a cold letter, pattern and code together.
    #[test]
    fn a_fault_that_needs_no_hot_letter_is_shown_without_one() {
        let fails = |case: &Case| {
            let spelled = load(&case.text).ok().and_then(|table| {
                let bits = unpack(&case.code, u64::from(case.count))?;
                decode(&table, &bits).map(|value| spell(&value))
            });
            spelled.is_some_and(|letters| !letters.is_empty()) && case.tape.len() == 1
        };
        let mut rng = Prng::new(11);
        let mut seen = 0;
        while seen < 20 {
            let mut case = random_case(&mut rng);
            case.tape.truncate(1);
            let is_hot = |byte: &u8| *byte >= 161;
            if case.code.len() < 100 && case.text.iter().any(is_hot) && fails(&case) {
                seen += 1;
                let small = shrink(&case, &fails);
                assert!(!small.text.iter().any(is_hot), "{:?}", small.text);
                assert!(fails(&small));
            }
        }
    }

    /// One in a tape or in a code that needs a hot letter keeps it.
    #[test]
    fn a_hot_letter_is_kept_where_it_is_needed() {
        let fails = |case: &Case| case.tape.iter().any(|&byte| byte >= 161 && byte < 255);
        let mut rng = Prng::new(13);
        let mut seen = 0;
        while seen < 20 {
            let case = random_case(&mut rng);
            if fails(&case) {
                seen += 1;
                let small = shrink(&case, &fails);
                assert_eq!(small.tape.len(), 1);
                assert!((161..=254).contains(&small.tape[0]));
            }
        }
    }

    /// A fault in terms that leave litres out needs no late date.
    #[test]
    fn dates_are_made_plain() {
        let fails = |case: &Case| {
            let Ok(table) = load(&case.text) else {
                return false;
            };
            let bits = u64::from(case.count);
            let [start, first, last] = case.dates.map(Date::of_number);
            let some = term_totals(&table, &case.code, bits, start, first, last);
            some.is_ok() && some != totals(&table, &case.code, bits)
        };
        let mut rng = Prng::new(15);
        let mut seen = 0;
        while seen < 20 {
            let case = random_case(&mut rng);
            if case.code.len() < 100 && fails(&case) {
                seen += 1;
                let small = shrink(&case, &fails);
                let plain = [20_000_101, 20_000_102];
                let all_plain = small.dates.iter().all(|date| plain.contains(date));
                assert!(all_plain, "{:?} of {:?}", small.dates, case.dates);
            }
        }
    }

    /// A fault in dates past the last keeps its year.
    #[test]
    fn a_late_date_is_kept_where_it_is_needed() {
        let fails = |case: &Case| {
            let start = Date::of_number(case.dates[0]);
            start.is_date() && start.year == 2099
        };
        let mut rng = Prng::new(21);
        let mut seen = 0;
        while seen < 20 {
            let case = random_case(&mut rng);
            if case.code.len() < 100 && fails(&case) {
                seen += 1;
                let small = shrink(&case, &fails);
                assert_eq!(small.dates, [20_990_101, 0, 0]);
            }
        }
    }

    /// A fault in stale litres comes down to account 9, one other account below it, and one letter.
    #[test]
    fn stale_litres_are_shown_with_two_accounts() {
        let read = |case: &Case| {
            let table = load(&case.text).ok()?;
            let bits = unpack(&case.code, u64::from(case.count))?;
            decode(&table, &bits).map(|value| (table, value))
        };
        let fails =
            |case: &Case| read(case).is_some_and(|(table, value)| moves_litres(&table, &value));
        let mut rng = Prng::new(25);
        let mut seen = 0;
        while seen < 20 {
            let case = random_case(&mut rng);
            if case.code.len() < 100 && fails(&case) {
                seen += 1;
                let (table, value) = read(&shrink(&case, &fails)).expect("it is read");
                let accounts = table.lines().iter().map(|node| node.account);
                let accounts: Vec<u64> = accounts.filter(|&account| account != 0).collect();
                assert_eq!((accounts.len(), accounts.last()), (2, Some(&9)));
                assert_eq!(spell(&value).len(), 1);
                assert!(table.lines().len() <= 5, "{table:?}");
            }
        }
    }

    /// A fault in accounts from a limit on is shown with the lowest of them.
    #[test]
    fn accounts_are_made_low() {
        for limit in [1, 10, 20, 100, 150, 200] {
            let fails = |case: &Case| {
                let great = |node: &Node| node.account >= limit;
                load(&case.text).is_ok_and(|table| table.lines().iter().any(great))
            };
            let mut rng = Prng::new(29 + limit);
            let mut seen = 0;
            while seen < 10 {
                let case = random_case(&mut rng);
                if fails(&case) {
                    seen += 1;
                    let table = load(&shrink(&case, &fails).text).expect("it loads");
                    let accounts = table.lines().iter().map(|node| node.account);
                    let accounts: Vec<u64> = accounts.filter(|&account| account != 0).collect();
                    // A 9 stays, since it is not made another account.
                    let found = accounts == [limit] || limit == 1 && accounts == [9];
                    assert!(found, "{limit}: {accounts:?}");
                }
            }
        }
    }

    /// A fault in totals that lack a cell is shown with no cell and one leaf.
    #[test]
    fn a_missing_cell_is_shown_with_one_leaf() {
        let fails = |case: &Case| {
            let Ok(table) = load(&case.text) else {
                return false;
            };
            let all = totals(&table, &case.code, u64::from(case.count));
            let put = put(all, &mut vec![0; case.accounts]);
            put.is_err_and(|refusal| refusal.number == CELLS_TOO_FEW)
        };
        let mut rng = Prng::new(31);
        let mut seen = 0;
        while seen < 20 {
            let case = random_case(&mut rng);
            if case.code.len() < 100 && fails(&case) {
                seen += 1;
                let small = shrink(&case, &fails);
                let table = load(&small.text).expect("it loads");
                assert_eq!((table.lines().len(), small.accounts), (1, 0), "{small:?}");
            }
        }
    }

    fn located(case: &Case) -> Option<Located> {
        let table = load(&case.text).ok()?;
        locate(&table, &case.tape).ok()
    }

    /// A fault in tapes with a letter at which they break comes down to that letter.
    #[test]
    fn a_broken_tape_is_shown_with_one_letter() {
        let fails =
            |case: &Case| located(case).is_some_and(|located| located.reach < located.resume);
        let mut rng = Prng::new(33);
        let mut seen = 0;
        while seen < 20 {
            let case = random_case(&mut rng);
            if case.code.len() < 100 && case.tape.len() < 100 && fails(&case) {
                seen += 1;
                let small = shrink(&case, &fails);
                assert_eq!(small.text, b"0\tE\t-\n");
                assert_eq!(small.tape.len(), 1);
            }
        }
    }

    /// A fault in tapes that stop too early comes down to a short sequence. Not always to two letters and a tape of one: of ~!~ and ~! a
    /// letter less in the one or in the other is no such tape.
    #[test]
    fn a_tape_that_stops_too_early_is_made_small() {
        let fails = |case: &Case| {
            let early = |located: Located| {
                located.reach == case.tape.len() as u64 && located.resume == located.reach
            };
            !case.tape.is_empty() && located(case).is_some_and(early)
        };
        let mut rng = Prng::new(35);
        let mut seen = 0;
        while seen < 20 {
            let case = random_case(&mut rng);
            if case.code.len() < 100 && case.tape.len() < 100 && fails(&case) {
                seen += 1;
                let small = shrink(&case, &fails);
                let table = load(&small.text).expect("it loads");
                assert!(small.tape.len() <= 2, "{small:?}");
                assert!(table.lines().len() <= 5, "{small:?}");
            }
        }
    }

    fn goes_on(value: &Value) -> bool {
        match value {
            Value::Nothing | Value::Letter(_) => false,
            Value::Pair(pair) => goes_on(&pair.0) || goes_on(&pair.1),
            Value::Left(side) | Value::Right(side) => goes_on(side),
            Value::Rounds(star, list) => {
                *star == Star::Lazy && !list.is_empty() || list.iter().any(goes_on)
            }
        }
    }

    /// A fault that needs a star, two letters on the tape and a code becomes a case with these alone.
    #[test]
    fn a_fault_is_made_small() {
        let fails = |case: &Case| {
            let is_star = |node: &Node| matches!(node.kind, Kind::Rounds(_));
            let star = load(&case.text).is_ok_and(|table| table.lines().iter().any(is_star));
            star && case.tape.len() >= 2 && case.count >= 1
        };
        let mut rng = Prng::new(3);
        let mut seen = 0;
        while seen < 20 {
            let case = random_case(&mut rng);
            if case.code.len() < 100 && fails(&case) {
                seen += 1;
                let small = shrink(&case, &fails);
                assert_eq!(small.text, b"0\tE\t-\n1\tK\t-\t0\n");
                assert_eq!(small.tape.len(), 2);
                assert_eq!(small.count, 1);
            }
        }
    }
}
