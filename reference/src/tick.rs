//! The tick call: refusals 23 and 12, expiry, resends of checks and their end.
//! Ageing is in `ageing.rs`.

use crate::association::{Association, Locator, Status, SLOTS, TIME_LIMIT};
use crate::own_check::{moments_reached, OwnCheck, MOMENTS};
use crate::reasons::{Notes, Reasons};

/// "40 bytes each"
pub const RESEND_LENGTH: usize = 40;

/// "Tick now needs a 320-byte buffer": all eight slots may send again.
pub const SMALLEST_BUFFER: u64 = (SLOTS * RESEND_LENGTH) as u64;

/// What an accepted tick writes: one check after another.
#[derive(Clone, Debug, PartialEq, Eq)]
pub struct Resent {
    pub checks: usize,
    pub bytes: Vec<u8>,
}

/// What a tick does with a locator.
#[derive(Clone, Copy, Debug, PartialEq, Eq)]
enum Outcome {
    Stays,
    /// The check is sent again; its count becomes this.
    SendsAgain(usize),
    Expires,
    GivenUp,
}

/// "At the first accepted tick 16 or more seconds after issue the locator turns
/// DEPRECATED; that tick and one at or past expiry resend nothing for it."
fn outcome(locator: &Locator, time: u64) -> Outcome {
    if locator.is_deprecated() {
        return Outcome::Stays;
    }
    if time >= locator.expiry {
        return Outcome::Expires;
    }
    match locator.check() {
        Some(check) if check.is_over(time) => Outcome::GivenUp,
        Some(check) if check.is_due(time) => Outcome::SendsAgain(moments_reached(check.age(time))),
        Some(_) | None => Outcome::Stays,
    }
}

/// "Tick stores the time." Gives what is sent again, or a refusal.
pub fn tick(
    association: &mut Association,
    time: u64,
    buffer: u64,
    notes: &mut Notes,
) -> Result<Resent, u8> {
    let mut reasons = Reasons::default();
    reasons.add_if(association.is_unsound(), 0, "refusal 0");
    let small = buffer < SMALLEST_BUFFER;
    reasons.add_if(small, 23, "refusal 23: buffer below 320 bytes");
    let early = time < association.time;
    reasons.add_if(early, 12, "refusal 12: before the stored time");
    reasons.add_if(time >= TIME_LIMIT, 12, "refusal 12: 2^40 or more");
    if let Some(number) = reasons.first() {
        note_refusal(association, time, buffer, &reasons, notes);
        return Err(number);
    }
    notes.add_if(time == association.time, "tick: equal time");
    notes.add_if(time == TIME_LIMIT - 1, "tick: time 2^40 - 1");
    match buffer {
        320 => notes.add("tick: buffer 320"),
        321 => notes.add("tick: buffer 321"),
        65_535 => notes.add("tick: buffer 65,535"),
        _ => {}
    }
    Ok(accept(association, time, notes))
}

/// Stores the time, goes through the slots in their order, and ages the credit.
fn accept(association: &mut Association, time: u64, notes: &mut Notes) -> Resent {
    note_slots(association, time, notes);
    let mut resent = Resent {
        checks: 0,
        bytes: Vec::new(),
    };
    association.time = time;
    for locator in association.held.values_mut() {
        match (outcome(locator, time), &mut locator.status) {
            (Outcome::SendsAgain(count), Status::Unverified(check)) => {
                check.resends = count;
                resent.checks += 1;
                resent.bytes.extend(check.bytes(association.inbound, None));
            }
            (Outcome::Expires | Outcome::GivenUp, status) => *status = Status::Deprecated,
            (Outcome::Stays | Outcome::SendsAgain(_), _) => {}
        }
    }
    let aged = association.aged;
    association.age(notes);
    let ages = association.aged > aged;
    notes.add_if(ages && resent.checks > 0, "resend: in a tick that ages");
    resent
}

const RESENT: [&str; 9] = [
    "tick: resent 0",
    "tick: resent 1",
    "tick: resent 2",
    "tick: resent 3",
    "tick: resent 4",
    "tick: resent 5",
    "tick: resent 6",
    "tick: resent 7",
    "tick: resent 8",
];

/// Notes what an accepted tick will do, by the association before it.
fn note_slots(before: &Association, time: u64, notes: &mut Notes) {
    let with_outcome = |locator| (locator, outcome(locator, time));
    let slots: Vec<(&Locator, Outcome)> = before.held.values().map(with_outcome).collect();
    for (locator, outcome) in &slots {
        note_outcome(before, locator, *outcome, time, notes);
    }
    let number_of = |wanted: fn(&Outcome) -> bool| slots.iter().filter(|(_, f)| wanted(f)).count();
    let expiring = number_of(|outcome| *outcome == Outcome::Expires);
    notes.add_if(expiring > 1, "tick: several expire at once");
    let ending = number_of(|outcome| *outcome == Outcome::GivenUp);
    notes.add_if(ending > 1, "given up: several at once");
    let sending = number_of(|outcome| matches!(outcome, Outcome::SendsAgain(_)));
    notes.add(RESENT[sending]);
    note_between(&slots, notes);
    note_order(&slots, notes);
}

fn note_outcome(
    before: &Association,
    locator: &Locator,
    outcome: Outcome,
    time: u64,
    notes: &mut Notes,
) {
    let one_before = !locator.is_deprecated() && time + 1 == locator.expiry;
    match (outcome, locator.check()) {
        (Outcome::Stays, None) => notes.add_if(one_before, "tick: one before expiry"),
        (Outcome::Stays, Some(check)) => {
            notes.add_if(one_before, "tick: one before expiry");
            notes.add(not_due(check.age(time)));
        }
        (Outcome::SendsAgain(count), Some(check)) => {
            notes.add_if(one_before, "tick: one before expiry");
            note_resend(before, &check, count, time, notes);
            let signalling = !locator.is_carrier();
            notes.add_if(signalling, "resend: for a signalling locator");
        }
        (Outcome::GivenUp, Some(check)) => {
            note_given_up(&check, time, notes);
            notes.add_if(one_before, "given up: one before expiry");
        }
        (Outcome::Expires, check) => {
            notes.add_if(time == locator.expiry, "tick: exactly at expiry");
            notes.add_if(time > locator.expiry, "tick: past expiry");
            notes.add_if(locator.is_active(), "tick: ACTIVE expires");
            if let Some(check) = check {
                notes.add("tick: UNVERIFIED expires");
                note_expired_check(&check, locator.expiry, time, notes);
            }
        }
        (Outcome::SendsAgain(_) | Outcome::GivenUp, None) => unreachable!("there is a check"),
    }
}

/// A check that is not due has a count of all moments reached.
fn not_due(age: u64) -> &'static str {
    match age {
        0 => "no resend: 0 seconds after issue",
        1 => "no resend: again 1 second after issue",
        2 => "no resend: again 2 seconds after issue",
        3 => "no resend: 3 seconds after issue",
        4 => "no resend: again 4 seconds after issue",
        5..=6 => "no resend: 5 or 6 seconds after issue",
        7 => "no resend: 7 seconds after issue",
        8 => "no resend: again 8 seconds after issue",
        15 => "no resend: 15 seconds after issue",
        _ => "no resend: 9 to 14 seconds after issue",
    }
}

/// The count before and after a resend.
const COUNTS: [[&str; 4]; 4] = [
    [
        "resend: count 0 to 1",
        "resend: count 0 to 2",
        "resend: count 0 to 3",
        "resend: count 0 to 4",
    ],
    [
        "",
        "resend: count 1 to 2",
        "resend: count 1 to 3",
        "resend: count 1 to 4",
    ],
    ["", "", "resend: count 2 to 3", "resend: count 2 to 4"],
    ["", "", "", "resend: count 3 to 4"],
];

fn note_resend(before: &Association, check: &OwnCheck, count: usize, time: u64, notes: &mut Notes) {
    notes.add(match check.age(time) {
        1 => "resend: 1 second after issue",
        2 => "resend: 2 seconds after issue",
        3 => "resend: 3 seconds after issue",
        4 => "resend: 4 seconds after issue",
        5..=6 => "resend: 5 or 6 seconds after issue",
        7 => "resend: 7 seconds after issue",
        8 => "resend: 8 seconds after issue",
        15 => "resend: 15 seconds after issue",
        _ => "resend: 9 to 14 seconds after issue",
    });
    notes.add(COUNTS[check.resends][count - 1]);
    let later_ids = before.own_id > check.id + 1;
    notes.add_if(later_ids, "resend: own IDs taken since");
    notes.add_if(before.credit == 0, "resend: without credit");
    notes.add_if(check.issued == 0, "resend: issued at time 0");
    notes.add_if(time == TIME_LIMIT - 1, "resend: time 2^40 - 1");
}

fn note_given_up(check: &OwnCheck, time: u64, notes: &mut Notes) {
    let age = check.age(time);
    notes.add(match age {
        16 => "given up: 16 seconds after issue",
        17 => "given up: 17 seconds after issue",
        _ => "given up: over 17 seconds after issue",
    });
    notes.add(match check.resends {
        0 => "given up: count 0",
        1 => "given up: count 1",
        2 => "given up: count 2",
        3 => "given up: count 3",
        _ => "given up: count 4",
    });
    // As 8 or 16 bits these would be fewer than 16 seconds.
    notes.add_if(
        age > 255 && age % (1 << 8) < 16,
        "given up: after 256 seconds",
    );
    notes.add_if(
        age > 65_535 && age % (1 << 16) < 16,
        "given up: after 65,536 seconds",
    );
    notes.add_if(check.issued == 0, "given up: issued at time 0");
    notes.add_if(time == TIME_LIMIT - 1, "given up: time 2^40 - 1");
}

fn note_expired_check(check: &OwnCheck, expiry: u64, time: u64, notes: &mut Notes) {
    let age = check.age(time);
    notes.add(match (check.is_over(time), check.is_due(time)) {
        (false, false) => "expired check: no resend due",
        (false, true) => "expired check: a resend due",
        (true, _) => "expired check: 16 or more seconds after issue",
    });
    if time == expiry {
        let moment = MOMENTS.contains(&age);
        notes.add_if(moment, "expired check: in the second of a resend");
        notes.add_if(age == 15, "expired check: at 15 seconds");
        notes.add_if(age == 16, "expired check: at 16 seconds");
    }
}

/// Notes the slots that send nothing between two that do.
fn note_between(slots: &[(&Locator, Outcome)], notes: &mut Notes) {
    let sends = |(_, outcome): &(&Locator, Outcome)| matches!(outcome, Outcome::SendsAgain(_));
    let (first, last) = (slots.iter().position(sends), slots.iter().rposition(sends));
    let (Some(first), Some(last)) = (first, last) else {
        return;
    };
    for (locator, outcome) in &slots[first..=last] {
        match (outcome, locator.status) {
            (Outcome::SendsAgain(_), _) => {}
            (Outcome::Expires, _) => notes.add("resend: an expired slot between"),
            (Outcome::GivenUp, _) => notes.add("resend: a slot given up between"),
            (_, Status::Active) => notes.add("resend: an ACTIVE slot between"),
            (_, Status::Deprecated) => notes.add("resend: a DEPRECATED slot between"),
            (_, Status::Unverified(_)) => notes.add("resend: a check not due between"),
        }
    }
}

/// Notes how the checks of one tick differ.
fn note_order(slots: &[(&Locator, Outcome)], notes: &mut Notes) {
    let sending = slots.iter().filter_map(|(locator, outcome)| match outcome {
        Outcome::SendsAgain(count) => locator.check().map(|check| (check, *count)),
        _ => None,
    });
    let sending: Vec<(OwnCheck, usize)> = sending.collect();
    let pairs = || sending.windows(2).map(|pair| (pair[0], pair[1]));
    let falls = pairs().any(|((one, _), (next, _))| one.id > next.id);
    notes.add_if(falls, "resend: slot order unlike order of IDs");
    let differ = pairs().any(|((_, one), (_, next))| one != next);
    notes.add_if(differ, "resend: different counts in one tick");
}

/// Cases of a tick that is refused.
fn note_refusal(
    association: &Association,
    time: u64,
    buffer: u64,
    reasons: &Reasons,
    notes: &mut Notes,
) {
    reasons.note_clause(notes);
    reasons.note_order(&[(23, 12, "order: refusal 23 before 12")], notes);
    let waiting = !association.checks().is_empty();
    match reasons.first() {
        Some(12) => {
            notes.add_if(time == TIME_LIMIT, "refusal 12: exactly 2^40");
            notes.add_if(waiting, "refusal 12: with a check outstanding");
        }
        Some(23) => {
            notes.add_if(buffer == 0, "refusal 23: buffer 0");
            notes.add_if(buffer == 319, "refusal 23: buffer 319");
            if !reasons.has(12) {
                note_prevented(association, time, buffer, notes);
            }
        }
        _ => {}
    }
}

/// Notes what a tick would have done in a buffer long enough.
fn note_prevented(association: &Association, time: u64, buffer: u64, notes: &mut Notes) {
    let mut after = association.clone();
    let resent = accept(&mut after, time, &mut Notes::default());
    let fits = resent.bytes.len() as u64 <= buffer;
    notes.add(match (resent.checks, fits) {
        (0, _) => "refusal 23: nothing to write",
        (_, true) => "refusal 23: what is due would fit",
        (_, false) => "refusal 23: what is due would not fit",
    });
    notes.add_if(
        after.credit < association.credit,
        "refusal 23: an ageing due",
    );
    for locator in association.held.values() {
        match outcome(locator, time) {
            Outcome::Expires => notes.add("refusal 23: an expiry due"),
            Outcome::GivenUp => notes.add("refusal 23: a check to be given up"),
            Outcome::Stays | Outcome::SendsAgain(_) => {}
        }
    }
}
