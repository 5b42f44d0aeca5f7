//! Ageing of the credit (order 3).

use crate::association::{Association, CREDIT_LIMIT, TIME_LIMIT};
use crate::reasons::Notes;

/// "Each whole 5 seconds is one ageing".
pub const AGEING_PERIOD: u64 = 5;

impl Association {
    /// "RFC 8046 ages at a constant period, so a tick 17 seconds after the last
    /// ageing holds three ageings: 1,000 becomes 669, and the last ageing stands
    /// at 15 seconds, leaving two towards the next."
    pub fn age(&mut self, notes: &mut Notes) {
        let passed = self.time - self.aged;
        let ageings = passed / AGEING_PERIOD;
        let left = aged_credit(self.credit, ageings);
        if left > 0 {
            notes.add(number_of_ageings(passed));
        }
        self.note_loss(ageings, left, notes);
        self.note_long_silence(notes);
        self.credit = left;
        self.aged += ageings * AGEING_PERIOD;
    }

    /// Notes what so many ageings leave of the credit.
    fn note_loss(&self, ageings: u64, left: u64, notes: &mut Notes) {
        let credit = self.credit;
        if credit == 0 {
            // Only the last ageing shows these.
            notes.add_if(ageings == 1, "tick: credit 0 ages once");
            notes.add_if(ageings > 1, "tick: credit 0 ages several times");
            return;
        }
        let once = rounded_once(credit, ageings);
        let other = once.is_some_and(|once| once != left);
        notes.add_if(other, "tick: rounding once would leave more");
        let full = credit == CREDIT_LIMIT;
        let lasts = full && ageings == 92 && left > 0;
        notes.add_if(lasts, "tick: 92 ageings from the limit leave credit");
        let spent = full && ageings == 93 && left == 0;
        notes.add_if(spent, "tick: 93 ageings from the limit leave 0");
        if left > 0 {
            return;
        }
        notes.add(match (ageings, aged_credit(credit, ageings - 1)) {
            (_, 0) => "tick: more ageings than the credit lasts",
            (1, _) => "tick: credit 1 ages to 0",
            (_, _) => "tick: the last of several ageings leaves 0",
        });
    }

    /// Notes silence of years, told by the time of the last ageing.
    fn note_long_silence(&self, notes: &mut Notes) {
        let passed = self.time - self.aged;
        let whole = self.credit > 0 && passed == TIME_LIMIT - 1;
        notes.add_if(whole, "tick: aged from time 0 to 2^40 - 1");
        let rest = !passed.is_multiple_of(AGEING_PERIOD);
        let many = passed / AGEING_PERIOD > u64::from(u32::MAX);
        notes.add_if(many && rest, "tick: over 2^32 ageings with a rest");
    }
}

/// Credit after so many ageings, one after the other: each turns c into
/// floor(7c / 8). From the credit limit the 93rd leaves 0, and 0 stays 0.
pub fn aged_credit(credit: u64, ageings: u64) -> u64 {
    let mut left = credit;
    for _ in 0..ageings {
        if left == 0 {
            break;
        }
        left = 7 * left / 8;
    }
    left
}

/// What 7^k c / 8^k rounded once would be, where 128 bits hold it; only to see
/// what the census asks about.
fn rounded_once(credit: u64, ageings: u64) -> Option<u64> {
    let ageings = u32::try_from(ageings).ok()?;
    let product = 7_u128.checked_pow(ageings)?.checked_mul(credit.into())?;
    let quotient = product.checked_shr(3 * ageings)?;
    u64::try_from(quotient).ok()
}

/// How many ageings so many seconds hold, and whether a rest is left.
fn number_of_ageings(passed: u64) -> &'static str {
    match (passed / AGEING_PERIOD, passed % AGEING_PERIOD) {
        (0, 4) => "tick: not aged after 4 seconds",
        (0, _) => "tick: not aged after 0 to 3 seconds",
        (1, 0) => "tick: aged once after 5 seconds",
        (1, 4) => "tick: aged once after 9 seconds",
        (1, _) => "tick: aged once after 6 to 8 seconds",
        (2, 0) => "tick: aged twice after 10 seconds",
        (2, _) => "tick: aged twice with a rest",
        (3, 0) => "tick: aged three times after 15 seconds",
        (3, _) => "tick: aged three times with a rest",
        (_, 0) => "tick: aged more often without a rest",
        (_, _) => "tick: aged more often with a rest",
    }
}
