//! Every date through the C interface, at the start of each run: random cases meet few of them.

use crate::calls;
use wumbyra_reference::calendar::{self, Date};
use wumbyra_reference::codes::Code;
use wumbyra_reference::services::totals::ACCOUNTS;
use wumbyra_reference::terms::{code_of, DAYS};

/// The account of digits in the pattern `DAYS`.
const ACCOUNT: usize = 1;

/// The numbers of dates and of calls, or what differs. `1D2` has 1 litre on the day that it starts on and 2 on the next; behind
/// the last date there is none.
pub fn calls() -> Result<(usize, u64), String> {
    let [none, one, two] = [&b""[..], b"1D", b"1D2"].map(|tape| code_of(DAYS.as_bytes(), tape));
    let mut asked = Asked { calls: 0 };
    for &date in calendar::all() {
        let today = number(date);
        let Some(next) = date.next() else {
            asked.expect(&two, [today, today, today], Err(11))?;
            asked.expect(&one, [today, today, today], Ok(1))?;
            asked.no_date(&none, today, today + 1)?;
            continue;
        };
        let tomorrow = number(next);
        asked.expect(&two, [today, today, today], Ok(1))?;
        asked.expect(&two, [today, tomorrow, tomorrow], Ok(2))?;
        // Behind a month there are numbers that are no date: the first and the last of them.
        if tomorrow > today + 1 {
            asked.no_date(&none, today, today + 1)?;
            asked.no_date(&none, today, tomorrow - 1)?;
        }
    }
    Ok((calendar::all().len(), asked.calls))
}

fn number(date: Date) -> u32 {
    date.number().expect("a date has a number")
}

struct Asked {
    calls: u64,
}

impl Asked {
    /// Litres of that account alone, or a refusal and no litres.
    fn expect(
        &mut self,
        code: &Code,
        dates: [u32; 3],
        expected: Result<u32, u64>,
    ) -> Result<(), String> {
        self.calls += 1;
        let mut litres = [u32::MAX; ACCOUNTS];
        let count = u32::try_from(code.count).expect("a short code");
        let answer = calls::term_totals(DAYS.as_bytes(), &code.bytes, count, dates, &mut litres);
        let mut right = [0; ACCOUNTS];
        right[ACCOUNT] = expected.unwrap_or(0);
        let number = expected.err().unwrap_or(0);
        if answer == number << 32 && litres == right {
            return Ok(());
        }
        let [start, first, last] = dates;
        let differs = litres
            .iter()
            .zip(&right)
            .position(|(found, due)| found != due);
        let cell = differs.map_or(String::new(), |at| {
            format!("; account {at} has {}, expected {}", litres[at], right[at])
        });
        Err(format!(
            "term_totals, start {start}, first {first}, last {last}, {} bits: answered {} and {}, expected {number} and 0{cell}",
            code.count,
            answer >> 32,
            answer as u32
        ))
    }

    /// A number that is no date, as the start (11) and at either end of a term (12).
    fn no_date(&mut self, code: &Code, good: u32, bad: u32) -> Result<(), String> {
        self.expect(code, [bad, good, good], Err(11))?;
        self.expect(code, [good, bad, good], Err(12))?;
        self.expect(code, [good, good, bad], Err(12))
    }
}
