//! What became of past checks and what came before, so that the census can
//! tell late echoes, resends, repeated messages and ageings apart. The
//! association itself keeps none of this.

use std::collections::BTreeMap;

use crate::ageing::AGEING_PERIOD;
use crate::association::{Association, Locator};
use crate::own_check::{moments_reached, OwnCheck, GIVEN_UP_AFTER};
use crate::packet::{content_of, echo_of, Content};
use crate::reasons::Notes;

#[derive(Clone, Copy, Debug, PartialEq, Eq)]
enum Ending {
    Answered,
    RetiredByMove,
    RetiredByExpiry,
    GivenUp,
    /// The address has another check since.
    Replaced,
    /// Another address holds the slot since.
    Refilled,
}

/// A check that has ended, with the slot and the address it was for.
#[derive(Clone, Debug)]
struct Ended {
    slot: usize,
    address: [u8; 16],
    check: OwnCheck,
    ending: Ending,
}

/// What came before and after the issue of a check under way.
#[derive(Clone, Debug)]
struct UnderWay {
    /// The inbound SPI at its issue, and when it was sent last.
    first_inbound: u32,
    last_inbound: u32,
    /// The expiry of its locator at its issue.
    expiry: u64,
    /// Whether the Move that gave it changed the outbound SPI.
    new_spi: bool,
    /// Whether the check of the same address before it was given up.
    after_giving_up: bool,
    /// Time of the latest Move that kept it.
    kept: Option<u64>,
    /// Whether a Move has kept it since the latest tick.
    just_kept: bool,
}

/// The message whose Update ID is the highest seen.
#[derive(Clone, Debug, PartialEq, Eq)]
enum Latest {
    Move,
    Check { opaque: Vec<u8> },
}

#[derive(Clone, Debug, Default)]
pub struct History {
    /// Ended checks by nonce.
    ended: BTreeMap<u64, Ended>,
    /// Checks under way by Update ID.
    under_way: BTreeMap<u64, UnderWay>,
    latest: Option<Latest>,
    /// Whether the inbound SPI is one that we announced in place of another.
    new_inbound: bool,
    /// Time of the latest tick that aged.
    ageing_tick: Option<u64>,
}

impl History {
    /// Takes in an accepted message.
    pub fn observe(
        &mut self,
        before: &Association,
        after: &Association,
        packet: &[u8],
        notes: &mut Notes,
    ) {
        let echo = echo_of(packet);
        for (slot, locator) in &before.held {
            let Some(check) = locator.check() else {
                continue;
            };
            if after.outstanding().contains(&check.nonce) {
                continue;
            }
            let ending = if echo.as_deref() == Some(&check.nonce.to_be_bytes()[..]) {
                Ending::Answered
            } else {
                Ending::RetiredByMove
            };
            self.end(*slot, locator, check, ending);
        }
        match content_of(packet) {
            Some(Content::Move(_)) => {
                self.take_in_checks(before, after, notes);
                self.latest = Some(Latest::Move);
            }
            Some(Content::Check(check)) => {
                let opaque = check.opaque;
                self.latest = Some(Latest::Check { opaque });
            }
            Some(Content::Reply { .. }) | None => {}
        }
    }

    fn end(&mut self, slot: usize, locator: &Locator, check: OwnCheck, ending: Ending) {
        let ended = Ended {
            slot,
            address: locator.address,
            check,
            ending,
        };
        self.ended.insert(check.nonce, ended);
        self.under_way.remove(&check.id);
    }

    /// The checks that a Move kept, and those that it gave.
    fn take_in_checks(&mut self, before: &Association, after: &Association, notes: &mut Notes) {
        for (slot, locator) in &after.held {
            let Some(check) = locator.check() else {
                continue;
            };
            if let Some(kept) = self.under_way.get_mut(&check.id) {
                kept.kept = Some(after.time);
                kept.just_kept = true;
                continue;
            }
            self.ended.remove(&check.nonce);
            let after_giving_up = self.replace(*slot, locator, notes);
            let issued = UnderWay {
                first_inbound: after.inbound,
                last_inbound: after.inbound,
                expiry: locator.expiry,
                new_spi: after.outbound != before.outbound,
                after_giving_up,
                kept: None,
                just_kept: false,
            };
            self.under_way.insert(check.id, issued);
        }
    }

    /// A new check in a slot replaces those that were retired there. True if the
    /// same address was given up.
    fn replace(&mut self, slot: usize, locator: &Locator, notes: &mut Notes) -> bool {
        let mut after_giving_up = false;
        for ended in self.ended.values_mut() {
            if ended.slot != slot || ended.ending == Ending::Answered {
                continue;
            }
            let same = ended.address == locator.address;
            if ended.ending == Ending::GivenUp {
                notes.add(if same {
                    "step 3: an address given up gets a new check"
                } else {
                    "step 5: refill of a slot given up"
                });
                after_giving_up |= same;
            }
            ended.ending = if same {
                Ending::Replaced
            } else {
                Ending::Refilled
            };
        }
        after_giving_up
    }

    /// Takes in an accepted tick.
    pub fn ticked(&mut self, before: &Association, after: &Association, notes: &mut Notes) {
        // Without credit an ageing hardly shows.
        if before.credit > 0 {
            self.note_rest(before, after, notes);
        }
        if after.aged > before.aged {
            self.ageing_tick = Some(after.time);
        }
        self.note_ended(after.time, notes);
        for (slot, locator) in &before.held {
            let Some(check) = locator.check() else {
                continue;
            };
            match after.held[slot].check() {
                Some(now) if now.resends > check.resends => {
                    self.note_resend(&check, after, notes);
                }
                Some(_) => self.note_kept_count(&check, notes),
                None => {
                    let ending = if after.time >= locator.expiry {
                        Ending::RetiredByExpiry
                    } else {
                        self.note_given_up(&check, after.time, notes);
                        Ending::GivenUp
                    };
                    self.end(*slot, locator, check, ending);
                }
            }
        }
        for check in self.under_way.values_mut() {
            check.just_kept = false;
        }
    }

    /// Notes checks that would be sent again had they not ended before.
    fn note_ended(&self, time: u64, notes: &mut Notes) {
        for ended in self.ended.values() {
            if ended.check.is_over(time) || !ended.check.is_due(time) {
                continue;
            }
            notes.add(match ended.ending {
                Ending::Answered => "no resend: answered before",
                Ending::RetiredByMove => "no resend: retired by a Move before",
                Ending::RetiredByExpiry => "no resend: expired before",
                Ending::Replaced => "no resend: replaced before",
                Ending::Refilled => "no resend: slot refilled before",
                Ending::GivenUp => unreachable!("it is over"),
            });
        }
    }

    /// Notes what a resend shows of the time since the issue.
    fn note_resend(&mut self, check: &OwnCheck, after: &Association, notes: &mut Notes) {
        let Some(issued) = self.under_way.get_mut(&check.id) else {
            return;
        };
        let inbound = after.inbound;
        notes.add(if inbound == issued.first_inbound {
            "resend: inbound SPI of the issue"
        } else {
            "resend: inbound SPI announced since the issue"
        });
        let again = check.resends > 0 && inbound != issued.last_inbound;
        notes.add_if(again, "resend: inbound SPI announced since a resend");
        issued.last_inbound = inbound;
        let longer = after.time >= issued.expiry;
        notes.add_if(longer, "resend: past the expiry of its issue");
        notes.add_if(issued.new_spi, "resend: given by a Move with a new SPI");
        let anew = issued.after_giving_up;
        notes.add_if(anew, "resend: of an address given up before");
        if let Some(kept) = issued.kept {
            notes.add("resend: kept by a Move");
            // Counted from that Move, no further moment would be reached.
            let first = moments_reached(after.time - kept) <= check.resends;
            notes.add_if(first, "resend: kept, by the first issue time");
        }
    }

    /// Notes a kept check whose count says that nothing is due.
    fn note_kept_count(&self, check: &OwnCheck, notes: &mut Notes) {
        let issued = self.under_way.get(&check.id);
        let just_kept = issued.is_some_and(|issued| issued.just_kept);
        let counts = just_kept && check.resends > 0;
        notes.add_if(counts, "no resend: kept, by the first count");
    }

    fn note_given_up(&self, check: &OwnCheck, time: u64, notes: &mut Notes) {
        let issued = self.under_way.get(&check.id);
        if let Some(kept) = issued.and_then(|issued| issued.kept) {
            notes.add("given up: kept by a Move");
            let first = time - kept < GIVEN_UP_AFTER;
            notes.add_if(first, "given up: kept, by the first issue time");
        }
    }

    /// Notes how seconds that earlier ticks left over count towards an ageing.
    fn note_rest(&self, before: &Association, after: &Association, notes: &mut Notes) {
        let ageings = (after.aged - before.aged) / AGEING_PERIOD;
        let soon = after.time - before.time < AGEING_PERIOD;
        let aged_soon = ageings > 0 && soon;
        notes.add_if(aged_soon, "tick: aged within 5 seconds of the tick before");
        let with_rest = self.ageing_tick.filter(|time| *time > before.aged);
        let Some(ageing_tick) = with_rest else {
            return;
        };
        match after.time - before.aged {
            4 if after.time > before.time => {
                notes.add("tick: 4 seconds with the rest of an ageing")
            }
            5 => notes.add("tick: 5 seconds with the rest of an ageing"),
            _ => {}
        }
        let without_rest = (after.time - ageing_tick) / AGEING_PERIOD;
        let one_more = ageings > 1 && ageings > without_rest && after.credit > 0;
        notes.add_if(one_more, "tick: several ageings, one by a rest");
    }

    /// Takes in an accepted announcement, with the inbound SPI before and after.
    pub fn announced(&mut self, before: u32, after: u32, notes: &mut Notes) {
        notes.add_if(self.new_inbound, "announcement: OLD SPI announced before");
        self.new_inbound |= before != after;
    }

    /// Notes whether new checks show an inbound SPI that we announced.
    pub fn note_checks(&self, checks: usize, notes: &mut Notes) {
        let shown = checks > 0 && self.new_inbound;
        notes.add_if(shown, "checks: with an announced inbound SPI");
    }

    /// Notes which message had a Repeated message's ID first.
    pub fn note_repeated(&self, packet: &[u8], notes: &mut Notes) {
        match (content_of(packet), &self.latest) {
            (Some(Content::Move(_)), Some(Latest::Move)) => {
                notes.add("repeated: Move with a Move's ID");
            }
            (Some(Content::Move(_)), Some(Latest::Check { .. })) => {
                notes.add("repeated: Move with a Check's ID");
            }
            (Some(Content::Check(_)), Some(Latest::Move)) => {
                notes.add("repeated: Check with a Move's ID");
            }
            (Some(Content::Check(check)), Some(Latest::Check { opaque })) => {
                notes.add(if check.opaque == *opaque {
                    "repeated: Check with the same opaque bytes"
                } else {
                    "repeated: Check with other opaque bytes"
                });
            }
            _ => {}
        }
    }

    /// Notes which messages refusal 7 compared.
    pub fn note_below(&self, packet: &[u8], notes: &mut Notes) {
        match (content_of(packet), &self.latest) {
            (Some(Content::Move(_)), Some(Latest::Move)) => {
                notes.add("refusal 7: Move below a Move");
            }
            (Some(Content::Move(_)), Some(Latest::Check { .. })) => {
                notes.add("refusal 7: Move below a Check");
            }
            (Some(Content::Check(_)), Some(Latest::Move)) => {
                notes.add("refusal 7: Check below a Move");
            }
            (Some(Content::Check(_)), Some(Latest::Check { .. })) => {
                notes.add("refusal 7: Check below a Check");
            }
            _ => {}
        }
    }

    /// Notes what refusal 8 was about.
    pub fn note_echo(&self, association: &Association, packet: &[u8], notes: &mut Notes) {
        let Some(echo) = echo_of(packet) else {
            return;
        };
        let none = association.outstanding().is_empty();
        notes.add_if(none, "refusal 8: no check outstanding");
        let Ok(eight) = <[u8; 8]>::try_from(echo.as_slice()) else {
            note_other_length(association, &echo, notes);
            return;
        };
        let ended = self.ended.get(&u64::from_be_bytes(eight));
        notes.add(match ended.map(|ended| ended.ending) {
            None => "refusal 8: a nonce never taken",
            Some(Ending::Answered) => "refusal 8: already answered",
            Some(Ending::RetiredByMove) => "refusal 8: check retired by a Move",
            Some(Ending::RetiredByExpiry) => "refusal 8: check retired by expiry",
            Some(Ending::GivenUp) => "refusal 8: check given up",
            Some(Ending::Replaced) => "refusal 8: check replaced",
            Some(Ending::Refilled) => "refusal 8: slot refilled",
        });
    }
}

fn note_other_length(association: &Association, echo: &[u8], notes: &mut Notes) {
    notes.add_if(echo.is_empty(), "refusal 8: empty echo");
    let outstanding = association.outstanding();
    let begins = outstanding.iter().any(|nonce| {
        let nonce = nonce.to_be_bytes();
        nonce.starts_with(echo) || echo.starts_with(&nonce)
    });
    let short = echo.len() < 8 && !echo.is_empty();
    notes.add_if(begins && short, "refusal 8: part of an outstanding nonce");
    let long = echo.len() > 8;
    notes.add_if(begins && long, "refusal 8: outstanding nonce and more");
}
