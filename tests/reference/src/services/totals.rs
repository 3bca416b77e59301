//! Totalling litres.

use super::judge_length;
use crate::table::{judge, Refusal, Table, MOST_ACCOUNT, STALE_ACCOUNT};
use crate::walk::{walk, NotWhole, Step};

/// 02, Job 7: "There are 201 totals."
pub const ACCOUNTS: usize = MOST_ACCOUNT as usize + 1;

/// The litres of accounts 0 to 200.
pub type Totals = [u64; ACCOUNTS];

/// "refused, all are 0"; and no litres.
pub const NO_LITRES: Totals = [0; ACCOUNTS];

/// Totals written by hand: accounts with their litres, the others have none.
pub fn some_litres(some: &[(usize, u64)]) -> Totals {
    let mut totals = NO_LITRES;
    for &(account, litres) in some {
        totals[account] = litres;
    }
    totals
}

/// A letter that the code spells, and the account that it goes to.
#[derive(Clone, Copy, PartialEq, Eq, Debug)]
pub struct Entry {
    pub letter: u8,
    pub account: u64,
}

impl Entry {
    /// "Letters `0` to `9` count 0 to 9 litres, others none."
    fn litres(&self) -> u64 {
        match self.letter {
            b'0'..=b'9' => u64::from(self.letter - b'0'),
            _ => 0,
        }
    }
}

/// Where litres in a node go: `around` is where those of the node above it go,
/// and `own` its account, 0 where it has none.
///
/// 02, Job 5: "Litres at or under a node of account 9 are stale and go to
/// account 9, however deep they stand, even if an inner node has another
/// account." For all others 01 holds: "the account of the innermost node, the
/// leaf included, that has one; without one, to account 0".
fn account_in(around: u64, own: u64) -> u64 {
    if around == STALE_ACCOUNT || own == 0 {
        around
    } else {
        own
    }
}

/// The entries of a whole code, in the order of its letters.
pub fn entries(table: &Table, code: &[u8], bits: u64) -> Result<Vec<Entry>, NotWhole> {
    let mut entries = Vec::new();
    // Where litres in the nodes around the present one go, the innermost last.
    // A node that is left takes its account with it: what is beside it, in the
    // other part, the other side or the next round, has nothing of it.
    let mut accounts: Vec<u64> = Vec::new();
    walk(table, code, bits, &mut |step| {
        let around = accounts.last().copied().unwrap_or(0);
        match step {
            Step::Enter(place) => {
                let own = table.node(place).account;
                accounts.push(account_in(around, own));
            }
            Step::Leave(_) => drop(accounts.pop()),
            Step::Letter(letter) => entries.push(Entry {
                letter,
                account: around,
            }),
        }
    })?;
    Ok(entries)
}

/// The litres of these entries, account by account.
pub fn added<'a>(entries: impl IntoIterator<Item = &'a Entry>) -> Totals {
    let mut totals = NO_LITRES;
    for entry in entries {
        totals[entry.account as usize] += entry.litres();
    }
    totals
}

/// The checks 2, 8, 3, and the entries that are left to be added.
pub fn judged_entries(table: &Table, code: &[u8], bits: u64) -> Result<Vec<Entry>, Refusal> {
    judge(table)?;
    let entries = entries(table, code, bits).map_err(|NotWhole| Refusal::new(8, 0))?;
    judge_length(entries.len())?;
    Ok(entries)
}

/// Totalling litres: 2, 8, 3. Gives the totals of accounts 0 to 200; a caller
/// that needs totals beside a refusal takes `NO_LITRES`.
pub fn totals(table: &Table, code: &[u8], bits: u64) -> Result<Totals, Refusal> {
    let entries = judged_entries(table, code, bits)?;
    Ok(added(&entries))
}

/// Totalling into lent cells: 2, 8, 3, 20, and the value is 0.
pub fn totals_into(
    table: &Table,
    code: &[u8],
    bits: u64,
    litres: &mut [u32],
) -> Result<u64, Refusal> {
    put(totals(table, code, bits), litres)
}

/// A cause of the calls from C alone: "if an account without a cell has litres
/// above 0, the call is refused". Cell i is for account i, so the accounts from
/// the number of lent cells on have none.
pub const CELLS_TOO_FEW: u64 = 20;

/// As many totals are written, from account 0 on, as there are accounts and
/// cells; they are 0 if it is refused. Cells behind them keep what they hold. 20
/// comes last, after every cause of the service.
pub fn put(answer: Result<Totals, Refusal>, litres: &mut [u32]) -> Result<u64, Refusal> {
    let answer = answer.and_then(|all| {
        let mut without_a_cell = all.iter().skip(litres.len());
        match without_a_cell.any(|&total| total > 0) {
            true => Err(Refusal::new(CELLS_TOO_FEW, 0)),
            false => Ok(all),
        }
    });
    let all = answer.unwrap_or(NO_LITRES);
    for (account, total) in all.into_iter().enumerate() {
        if let Some(cell) = litres.get_mut(account) {
            *cell = u32::try_from(total).expect("at most 3,600 times 9 litres");
        }
    }
    answer.map(|_| 0)
}
