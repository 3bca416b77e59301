//! Dates as callers from C write them: random ones for a case, and plainer ones for a case that differs.

use wumbyra_reference::calendar::{moved, Date};
use wumbyra_reference::prng::Prng;
use wumbyra_reference::terms::random::random_dates;

/// Start, first and last for a tape on which so many days end.
pub fn random_numbers(rng: &mut Prng, days: usize) -> [u32; 3] {
    random_dates(rng, days).map(|date| {
        // A month or day that no number has: another stands in, mostly one that is no date either.
        let any = rng.number() as u32;
        let other = *rng.pick(&[0, u32::MAX, 20_240_000, 20_241_301, any]);
        date.number().unwrap_or(other)
    })
}

/// Days by which dates are moved back, the most first: few tries lead to the first date of the calendar.
const BACK: [i64; 10] = [36_524, 10_000, 3_000, 1_000, 300, 100, 30, 10, 3, 1];

/// Plainer dates: all three earlier by as many days, then one of them earlier, 0, or another's. Each number is lower than the one
/// whose place it takes, or the same, so that making a case small comes to an end.
pub fn plainer(dates: [u32; 3]) -> Vec<[u32; 3]> {
    let mut found = Vec::new();
    for days in BACK {
        found.push(dates.map(|number| earlier(number, days)));
    }
    for place in 0..3 {
        let number = dates[place];
        let mut others = vec![0, dates[0], dates[1], number / 2, number.saturating_sub(1)];
        others.extend(BACK.map(|days| earlier(number, days)));
        for other in others {
            if other < number {
                let mut plain = dates;
                plain[place] = other;
                found.push(plain);
            }
        }
    }
    found
}

/// So many days earlier, or the first date; what is no date stays as it is.
fn earlier(number: u32, days: i64) -> u32 {
    let date = Date::of_number(number);
    if !date.is_date() {
        return number;
    }
    let before = moved(date, -days).unwrap_or(Date::FIRST);
    before.number().expect("a date has a number")
}

#[cfg(test)]
mod tests {
    use super::*;

    #[test]
    fn plainer_dates_are_lower() {
        let mut rng = Prng::new(23);
        for _ in 0..10_000 {
            let days = rng.below(40);
            let dates = random_numbers(&mut rng, days);
            for plain in plainer(dates) {
                assert!(plain.iter().zip(dates).all(|(&one, other)| one <= other));
            }
        }
        assert!(plainer([0; 3]).iter().all(|plain| *plain == [0; 3]));
    }
}
