//! An association, and the calls start, arrival and send.

use std::collections::{BTreeMap, BTreeSet};

use crate::address::{not_legal, NotLegal};
use crate::own_check::{OwnCheck, MOMENTS};
use crate::reasons::{Notes, Reasons};
use crate::record::StartInputs;

pub const TIME_LIMIT: u64 = 1 << 40;
pub const CREDIT_LIMIT: u64 = 1_048_576;
pub const LARGEST_SIZE: u64 = 65_535;
pub const SLOTS: usize = 8;
/// Own Update IDs are 32-bit numbers; the next one may stand one past the last.
pub const OWN_ID_LIMIT: u64 = 1 << 32;

#[derive(Clone, Debug, PartialEq, Eq)]
pub struct Association {
    pub outbound: u32,
    pub inbound: u32,
    /// Stored time, in seconds.
    pub time: u64,
    /// Time of the last ageing.
    pub aged: u64,
    pub credit: u64,
    /// Highest Update ID of the peer, none at first.
    pub peer_id: Option<u32>,
    /// Next own Update ID.
    pub own_id: u64,
    pub preferred: Option<usize>,
    /// The slots that hold a locator; the others of the eight are empty.
    pub held: BTreeMap<usize, Locator>,
}

#[derive(Clone, Debug, PartialEq, Eq)]
pub struct Locator {
    pub address: [u8; 16],
    pub traffic: u8,
    pub expiry: u64,
    pub status: Status,
}

/// An UNVERIFIED locator carries its check.
#[derive(Clone, Copy, Debug, PartialEq, Eq)]
pub enum Status {
    Active,
    Deprecated,
    Unverified(OwnCheck),
}

impl Locator {
    /// "A locator of traffic type 0 or 2 carries payload": document 01 calls
    /// such a locator a carrier.
    pub fn is_carrier(&self) -> bool {
        self.traffic == 0 || self.traffic == 2
    }

    pub fn is_active(&self) -> bool {
        self.status == Status::Active
    }

    pub fn is_deprecated(&self) -> bool {
        self.status == Status::Deprecated
    }

    pub fn is_unverified(&self) -> bool {
        self.check().is_some()
    }

    /// The check under way of an UNVERIFIED locator.
    pub fn check(&self) -> Option<OwnCheck> {
        match self.status {
            Status::Unverified(check) => Some(check),
            Status::Active | Status::Deprecated => None,
        }
    }

    /// The outstanding nonce of an UNVERIFIED locator.
    pub fn nonce(&self) -> Option<u64> {
        self.check().map(|check| check.nonce)
    }
}

/// An SPI that may not be used, by us or by the peer.
pub fn is_unusable(spi: u32) -> bool {
    spi == 0
}

/// Begins an association, or gives refusal 16.
pub fn start(inputs: &StartInputs, notes: &mut Notes) -> Result<Association, u8> {
    let mut reasons = Reasons::default();
    let late = inputs.time >= TIME_LIMIT;
    reasons.add_if(late, 16, "refusal 16: time 2^40 or more");
    let outbound = is_unusable(inputs.outbound);
    reasons.add_if(outbound, 16, "refusal 16: outbound SPI 0");
    let inbound = is_unusable(inputs.inbound);
    reasons.add_if(inbound, 16, "refusal 16: inbound SPI 0");
    reasons.add_if(inputs.lifetime == 0, 16, "refusal 16: lifetime 0");
    if let Some(fault) = not_legal(&inputs.address) {
        reasons.add(16, clause_of(fault));
    }
    if let Some(number) = reasons.first() {
        reasons.note_clause(notes);
        return Err(number);
    }
    notes.add_if(inputs.time == 0, "start: time 0");
    notes.add_if(inputs.time == TIME_LIMIT - 1, "start: time 2^40 - 1");
    let locator = Locator {
        address: inputs.address,
        traffic: 0,
        expiry: inputs.time + u64::from(inputs.lifetime),
        status: Status::Active,
    };
    Ok(Association {
        outbound: inputs.outbound,
        inbound: inputs.inbound,
        time: inputs.time,
        aged: inputs.time,
        credit: 0,
        peer_id: None,
        own_id: 0,
        preferred: Some(0),
        held: BTreeMap::from([(0, locator)]),
    })
}

fn clause_of(fault: NotLegal) -> &'static str {
    match fault {
        NotLegal::FirstByteFf => "refusal 16: first byte 0xff",
        NotLegal::AllZero => "refusal 16: all zero",
        NotLegal::Ipv4Multicast => "refusal 16: IPv4 224 to 239",
        NotLegal::Ipv4Zero => "refusal 16: 0.0.0.0",
        NotLegal::Ipv4Broadcast => "refusal 16: 255.255.255.255",
    }
}

impl Association {
    /// Refusal 0's condition, tried first in every call but start. No sequence
    /// of calls from a start on leads to it.
    pub fn is_unsound(&self) -> bool {
        let addresses: BTreeSet<_> = self.held.values().map(|l| l.address).collect();
        let nonces: BTreeSet<_> = self.outstanding().into_iter().collect();
        self.time >= TIME_LIMIT
            || self.aged > self.time
            || self.credit > CREDIT_LIMIT
            || self.own_id > OWN_ID_LIMIT
            || self.preferred.is_some_and(|slot| slot >= SLOTS)
            || addresses.len() < self.held.len()
            || nonces.len() < self.outstanding().len()
            || self
                .checks()
                .iter()
                .any(|check| self.is_unsound_check(check))
    }

    /// "an issue time after the stored time or a count over 4"
    fn is_unsound_check(&self, check: &OwnCheck) -> bool {
        check.issued > self.time || check.resends > MOMENTS.len()
    }

    /// All checks under way, in slot order.
    pub fn checks(&self) -> Vec<OwnCheck> {
        self.held.values().filter_map(Locator::check).collect()
    }

    /// The nonces of all checks under way, in slot order.
    pub fn outstanding(&self) -> Vec<u64> {
        self.held.values().filter_map(Locator::nonce).collect()
    }

    /// The slot that holds an address.
    pub fn slot_of(&self, address: &[u8; 16]) -> Option<usize> {
        let mut slots = self.held.iter();
        let found = slots.find(|(_, locator)| locator.address == *address);
        found.map(|(slot, _)| *slot)
    }

    /// "Arrival adds its size, stopping at the limit."
    pub fn arrival(&mut self, size: u64, notes: &mut Notes) -> Result<(), u8> {
        let mut reasons = Reasons::default();
        reasons.add_if(self.is_unsound(), 0, "refusal 0");
        reasons.add_if(size == 0, 13, "refusal 13: arrival of 0");
        let large = size > LARGEST_SIZE;
        reasons.add_if(large, 13, "refusal 13: arrival over 65,535");
        if let Some(number) = reasons.first() {
            reasons.note_clause(notes);
            notes.add_if(size == 65_536, "refusal 13: arrival of 65,536");
            return Err(number);
        }
        let sum = self.credit + size;
        notes.add_if(size == 1, "arrival: size 1");
        notes.add_if(size == LARGEST_SIZE, "arrival: size 65,535");
        notes.add_if(sum == CREDIT_LIMIT, "arrival: reaches the limit exactly");
        notes.add_if(sum > CREDIT_LIMIT, "arrival: stops at the limit");
        let full = self.credit == CREDIT_LIMIT;
        notes.add_if(full, "arrival: already at the limit");
        self.credit = sum.min(CREDIT_LIMIT);
        Ok(())
    }

    /// Grants a payload packet on a slot. "Send tries 13, 14, 15."
    pub fn send(&mut self, size: u64, notes: &mut Notes) -> Result<usize, u8> {
        let path = self.path(true);
        let reasons = self.send_reasons(size, path);
        let (None, Some((slot, choice))) = (reasons.first(), path) else {
            reasons.note_clause(notes);
            notes.add_if(size == 65_536, "refusal 13: send of 65,536");
            let also = |number| reasons.has(13) && reasons.has(number);
            notes.add_if(also(14), "order: refusal 13 before 14");
            notes.add_if(also(15), "order: refusal 13 before 15");
            return Err(reasons.first().unwrap_or(14));
        };
        notes.add(choice);
        self.note_send(size, slot, notes);
        if self.held[&slot].is_unverified() {
            self.credit -= size;
        }
        Ok(slot)
    }

    fn send_reasons(&self, size: u64, path: Option<(usize, &str)>) -> Reasons {
        let mut reasons = Reasons::default();
        reasons.add_if(self.is_unsound(), 0, "refusal 0");
        reasons.add_if(size == 0, 13, "refusal 13: send of 0");
        reasons.add_if(size > LARGEST_SIZE, 13, "refusal 13: send over 65,535");
        if let Some((slot, _)) = path {
            // "granted exactly if credit is higher than its size"
            if self.held[&slot].is_unverified() {
                let credit = self.credit;
                reasons.add_if(credit == size, 15, "refusal 15: credit equal");
                reasons.add_if(credit < size, 15, "refusal 15: credit below");
            }
        } else if self.path(false).is_some() {
            reasons.add(14, "refusal 14: only signalling locators");
        } else {
            reasons.add(14, "refusal 14: all DEPRECATED");
        }
        reasons
    }

    /// The slot that send picks, and which of the four choices it was;
    /// `carriers_only` is false only to see what the census asks about.
    fn path(&self, carriers_only: bool) -> Option<(usize, &'static str)> {
        let slots_where = |wanted: fn(&Locator) -> bool| -> Vec<usize> {
            let fit = |l: &Locator| wanted(l) && (l.is_carrier() || !carriers_only);
            let found = self.held.iter().filter(|(_, l)| fit(l));
            found.map(|(slot, _)| *slot).collect()
        };
        let active = slots_where(Locator::is_active);
        let unverified = slots_where(Locator::is_unverified);
        let preferred_in = |slots: &[usize]| self.preferred.filter(|p| slots.contains(p));
        if let Some(slot) = preferred_in(&active) {
            return Some((slot, "send: preferred ACTIVE"));
        }
        if let Some(slot) = active.first() {
            return Some((*slot, "send: lowest ACTIVE"));
        }
        if let Some(slot) = preferred_in(&unverified) {
            return Some((slot, "send: preferred UNVERIFIED"));
        }
        let slot = unverified.first()?;
        Some((*slot, "send: lowest UNVERIFIED"))
    }

    fn note_send(&self, size: u64, slot: usize, notes: &mut Notes) {
        let locator = &self.held[&slot];
        notes.add_if(locator.traffic == 0, "send: carrier of traffic type 0");
        notes.add_if(locator.traffic == 2, "send: carrier of traffic type 2");
        let otherwise = self.path(false).map(|(slot, _)| slot);
        let passed_over = otherwise != Some(slot);
        notes.add_if(passed_over, "send: signalling locator passed over");
        notes.add_if(size == 1, "send: size 1");
        notes.add_if(size == LARGEST_SIZE, "send: size 65,535");
        if locator.is_active() {
            notes.add("send granted to ACTIVE");
            notes.add_if(self.credit == 0, "send: ACTIVE without credit");
        } else {
            notes.add("send granted to UNVERIFIED");
            notes.add_if(self.credit == size + 1, "send: credit one above");
        }
    }
}
