//! The message call: its refusals and the seven steps of a Move.

use std::collections::BTreeSet;

use crate::address::legal_edge;
use crate::association::{is_unusable, Association, Locator, Status, OWN_ID_LIMIT, SLOTS};
use crate::check::{accept_check, check_answer, note_check, note_refused, note_repeated_check};
use crate::own_check::OwnCheck;
use crate::packet::{
    acknowledgement, read_content, read_parameters, Content, Listed, Move, Parameter, ACK,
    ESP_INFO, HIP_MAC, HIP_SIGNATURE, HOST_ID, LOCATOR_SET,
};
use crate::reasons::{Notes, Reasons};
use crate::record::MessageInputs;

/// "Each message call brings eight nonces"; the reply never exceeds 8 checks
/// of 48 bytes.
pub const SMALLEST_BUFFER: u64 = 384;

#[derive(Clone, Debug, PartialEq, Eq)]
pub enum Answer {
    Accepted {
        reply: Vec<u8>,
        checks: usize,
        keymat: u16,
    },
    /// "A Move whose ID equals the highest seen is Repeated" (document 01's
    /// term), and so is a Check.
    Repeated {
        reply: Vec<u8>,
    },
    Refused(u8),
}

pub fn message(association: &mut Association, inputs: &MessageInputs, notes: &mut Notes) -> Answer {
    let mut reasons = Reasons::default();
    let parameters = read_parameters(&inputs.packet, &mut reasons);
    let content = judge(association, inputs, &parameters, &mut reasons);
    // An ID equal to the highest seen is Repeated, and nothing after refusal 7
    // is tried.
    if !reasons.has_up_to(7) {
        let again = |id| association.peer_id == Some(id);
        match &content {
            Some(Content::Move(content)) if again(content.update_id) => {
                note_repeated(association, content, &reasons, notes);
                let reply = acknowledgement(content.update_id);
                return Answer::Repeated { reply };
            }
            Some(Content::Check(content)) if again(content.update_id) => {
                note_repeated_check(&parameters, notes);
                let reply = check_answer(content);
                return Answer::Repeated { reply };
            }
            _ => {}
        }
    }
    if let Some(number) = reasons.first() {
        note_refusal(inputs, &reasons, notes);
        match &content {
            Some(Content::Move(content)) if number == 10 => {
                note_nonce_refusal(association, content, &inputs.nonces, notes);
            }
            Some(Content::Check(content)) => {
                note_refused(association, content, inputs, &parameters, number, notes);
            }
            _ => {}
        }
        return Answer::Refused(number);
    }
    let answer = match content.expect("no reason to refuse, so of one of the kinds") {
        Content::Move(content) => accept_move(association, &content, &inputs.nonces, notes),
        Content::Reply { echo } => accept_reply(association, &echo, &inputs.nonces, notes),
        Content::Check(content) => {
            note_check(association, &content, inputs, &parameters, notes);
            return accept_check(association, &content);
        }
    };
    if !matches!(answer, Answer::Refused(_)) {
        note_packet(inputs, &parameters, notes);
    }
    answer
}

/// What the message says, and every reason to refuse it but refusal 11.
fn judge(
    association: &Association,
    inputs: &MessageInputs,
    parameters: &[Parameter],
    reasons: &mut Reasons,
) -> Option<Content> {
    reasons.add_if(association.is_unsound(), 0, "refusal 0");
    let small = inputs.buffer < SMALLEST_BUFFER;
    reasons.add_if(small, 1, "refusal 1: buffer below 384 bytes");
    reasons.add_if(!inputs.authentic, 2, "refusal 2: not authentic");
    if reasons.has(3) {
        return None;
    }
    let content = read_content(parameters, reasons)?;
    let below = |id| association.peer_id.is_some_and(|highest| id < highest);
    match &content {
        Content::Move(content) => {
            let below = below(content.update_id);
            reasons.add_if(below, 7, "refusal 7: a Move's ID");
            if let Some(echo) = &content.echo {
                judge_echo(association, echo, "refusal 8: in a Move", reasons);
            }
            judge_spis(association, content, reasons);
            judge_nonces(association, &inputs.nonces, reasons);
        }
        Content::Reply { echo } => {
            judge_echo(association, echo, "refusal 8: in a Reply", reasons);
        }
        Content::Check(content) => {
            let below = below(content.update_id);
            reasons.add_if(below, 7, "refusal 7: a Check's ID");
        }
    }
    Some(content)
}

/// The slot whose outstanding nonce is these eight bytes.
pub fn slot_of_echo(association: &Association, echo: &[u8]) -> Option<usize> {
    let mut slots = association.held.iter();
    let answered = |locator: &Locator| {
        let nonce = locator.nonce();
        nonce.is_some_and(|nonce| nonce.to_be_bytes() == echo)
    };
    let found = slots.find(|(_, locator)| answered(locator));
    found.map(|(slot, _)| *slot)
}

fn judge_echo(association: &Association, echo: &[u8], clause: &'static str, reasons: &mut Reasons) {
    let matches_none = slot_of_echo(association, echo).is_none();
    reasons.add_if(matches_none, 8, clause);
}

fn judge_spis(association: &Association, content: &Move, reasons: &mut Reasons) {
    let other = content.old_spi != association.outbound;
    reasons.add_if(other, 9, "refusal 9: OLD SPI");
    let unusable = is_unusable(content.new_spi);
    reasons.add_if(unusable, 9, "refusal 9: NEW SPI 0");
    let spis = content.set.iter().filter_map(|listed| listed.spi);
    let stray = spis.into_iter().any(|spi| spi != content.new_spi);
    reasons.add_if(stray, 9, "refusal 9: SPI of a type 1 locator");
}

/// "the 8 offered nonces not distinct from each other and from those
/// outstanding before"
pub fn judge_nonces(association: &Association, nonces: &[u64], reasons: &mut Reasons) {
    let distinct: BTreeSet<u64> = nonces.iter().copied().collect();
    let twice = distinct.len() < nonces.len();
    reasons.add_if(twice, 10, "refusal 10: a nonce twice among the eight");
    let outstanding = association.outstanding();
    let taken = outstanding.iter().any(|nonce| distinct.contains(nonce));
    reasons.add_if(taken, 10, "refusal 10: a nonce outstanding");
}

/// "a Reply by step 1 alone"; it writes nothing.
fn accept_reply(
    association: &mut Association,
    echo: &[u8],
    nonces: &[u64],
    notes: &mut Notes,
) -> Answer {
    let mut reasons = Reasons::default();
    judge_nonces(association, nonces, &mut reasons);
    notes.add_if(reasons.has(10), "reply: accepted with refusal 10's nonces");
    let several = association.outstanding().len() > 1;
    notes.add_if(several, "step 1: one of several outstanding answered");
    verify(association, echo, notes);
    notes.add("reply accepted");
    Answer::Accepted {
        reply: Vec::new(),
        checks: 0,
        keymat: 0,
    }
}

/// The count of resends of a check when its answer comes.
const ANSWERED: [&str; 5] = [
    "step 1: answered with count 0",
    "step 1: answered with count 1",
    "step 1: answered with count 2",
    "step 1: answered with count 3",
    "step 1: answered with count 4",
];

/// Step 1: the slot that an echo response verifies turns ACTIVE.
/// Gives the slot and its check.
fn verify(
    association: &mut Association,
    echo: &[u8],
    notes: &mut Notes,
) -> Option<(usize, OwnCheck)> {
    let slot = slot_of_echo(association, echo)?;
    let locator = association.held.get_mut(&slot)?;
    let check = locator.check()?;
    notes.add(ANSWERED[check.resends]);
    let late = check.age(association.time) == 15;
    notes.add_if(late, "step 1: answered 15 seconds after issue");
    locator.status = Status::Active;
    Some((slot, check))
}

fn accept_move(
    association: &mut Association,
    content: &Move,
    nonces: &[u64],
    notes: &mut Notes,
) -> Answer {
    let mut after = association.clone();
    let mut met = Notes::default();
    let new_checks = arrange(&mut after, content, &mut met);
    if after.own_id + new_checks.len() as u64 > OWN_ID_LIMIT {
        return Answer::Refused(11);
    }
    note_move(association, &after, content, &new_checks, &mut met);
    let reply = deal_checks(&mut after, content, &new_checks, nonces);
    step_seven(&mut after, content, &mut met);
    *association = after;
    met.iter().for_each(|name| notes.add(name));
    Answer::Accepted {
        reply,
        checks: new_checks.len(),
        keymat: content.keymat,
    }
}

/// Steps 1 to 6. Returns the slots that get a new check; they stand as
/// DEPRECATED until `deal_checks` hands out the nonces.
fn arrange(after: &mut Association, content: &Move, notes: &mut Notes) -> BTreeSet<usize> {
    let verified = step_one(after, content, notes);
    step_two(after, content, notes);
    let mut new_checks = step_three(after, content, verified, notes);
    step_four(after, content, notes);
    new_checks.extend(step_five(after, content, notes));
    step_six(after, content, notes);
    new_checks
}

fn lists(content: &Move, address: &[u8; 16]) -> bool {
    content.set.iter().any(|listed| listed.address == *address)
}

/// "An echo response of 8 bytes equal to an outstanding nonce turns that slot
/// ACTIVE. What follows in the same message may retire it again."
fn step_one(after: &mut Association, content: &Move, notes: &mut Notes) -> Option<usize> {
    let Some(echo) = &content.echo else {
        notes.add("step 1: Move without an echo");
        return None;
    };
    let (slot, check) = verify(after, echo, notes)?;
    let again = check.resends > 0;
    notes.add_if(again, "step 1: a Move answers a check sent again");
    let listed = lists(content, &after.held[&slot].address);
    let new_spi = content.new_spi != after.outbound;
    notes.add(match (new_spi, listed) {
        (false, true) => "step 1: verified in a Move and kept",
        (false, false) => "step 1: verified in a Move that does not list it",
        (true, true) => "step 1: verified in a Move with a new SPI",
        (true, false) => "step 1: verified in a Move with a new SPI, not listed",
    });
    Some(slot)
}

/// "If NEW SPI differs, it becomes the outbound SPI and every held locator
/// turns DEPRECATED".
fn step_two(after: &mut Association, content: &Move, notes: &mut Notes) {
    if content.new_spi == after.outbound {
        notes.add("step 2: SPI the same");
        return;
    }
    notes.add(match after.held.len() {
        1 => "step 2: SPI changed with one held",
        8 => "step 2: SPI changed with eight held",
        _ => "step 2: SPI changed with several held",
    });
    for locator in after.held.values_mut() {
        notes.add(match locator.status {
            Status::Active => "step 2: ACTIVE retired",
            Status::Unverified(_) => "step 2: UNVERIFIED retired",
            Status::Deprecated => "step 2: DEPRECATED stays",
        });
        locator.status = Status::Deprecated;
    }
    after.outbound = content.new_spi;
}

/// "Each listed address already held takes the new traffic type and expiry =
/// stored time + lifetime. DEPRECATED turns UNVERIFIED with a new check;
/// ACTIVE stays; UNVERIFIED keeps its check."
fn step_three(
    after: &mut Association,
    content: &Move,
    verified: Option<usize>,
    notes: &mut Notes,
) -> BTreeSet<usize> {
    let mut new_checks = BTreeSet::new();
    for listed in &content.set {
        let Some(slot) = after.slot_of(&listed.address) else {
            continue;
        };
        let expiry = after.time + u64::from(listed.lifetime);
        let locator = after.held.get_mut(&slot).expect("the slot is held");
        note_renewal(locator, listed, expiry, notes);
        locator.traffic = listed.traffic;
        locator.expiry = expiry;
        match locator.status {
            Status::Active => {
                notes.add("step 3: ACTIVE stays");
                notes.add_if(verified == Some(slot), "step 3: just verified stays");
            }
            Status::Unverified(check) => {
                notes.add("step 3: UNVERIFIED keeps its check");
                let again = check.resends > 0;
                notes.add_if(again, "step 3: UNVERIFIED keeps a check sent again");
            }
            Status::Deprecated => {
                new_checks.insert(slot);
            }
        }
    }
    new_checks
}

fn note_renewal(locator: &Locator, listed: &Listed, expiry: u64, notes: &mut Notes) {
    let traffic = listed.traffic != locator.traffic;
    notes.add_if(traffic, "step 3: traffic type changed");
    notes.add_if(expiry > locator.expiry, "step 3: expiry later");
    notes.add_if(expiry < locator.expiry, "step 3: expiry earlier");
    notes.add_if(expiry == locator.expiry, "step 3: expiry the same");
    notes.add_if(
        listed.spi.is_some(),
        "step 3: held address listed as type 1",
    );
}

/// "Held addresses not listed turn DEPRECATED."
fn step_four(after: &mut Association, content: &Move, notes: &mut Notes) {
    for locator in after.held.values_mut() {
        if lists(content, &locator.address) {
            continue;
        }
        notes.add(match locator.status {
            Status::Active => "step 4: ACTIVE not listed",
            Status::Unverified(_) => "step 4: UNVERIFIED not listed",
            Status::Deprecated => "step 4: DEPRECATED not listed",
        });
        locator.status = Status::Deprecated;
    }
}

/// "Each other listed address, in listed order, takes the lowest slot that is
/// empty or holds a DEPRECATED address not listed, and is UNVERIFIED."
fn step_five(after: &mut Association, content: &Move, notes: &mut Notes) -> BTreeSet<usize> {
    let mut taken = BTreeSet::new();
    for listed in &content.set {
        if after.slot_of(&listed.address).is_some() {
            continue;
        }
        let free = |slot: &usize| match after.held.get(slot) {
            None => true,
            Some(locator) => locator.is_deprecated() && !lists(content, &locator.address),
        };
        let slot = (0..SLOTS).find(free).expect("room is always found");
        if after.held.contains_key(&slot) {
            notes.add("step 5: DEPRECATED slot refilled");
            let full = after.held.len() == SLOTS;
            notes.add_if(full, "step 5: refill with all eight held");
            // "A preference for a refilled slot is dropped."
            if after.preferred == Some(slot) {
                notes.add("step 5: refill drops the preference");
                after.preferred = None;
            }
        } else {
            notes.add("step 5: empty slot taken");
        }
        let locator = Locator {
            address: listed.address,
            traffic: listed.traffic,
            expiry: after.time + u64::from(listed.lifetime),
            status: Status::Deprecated,
        };
        after.held.insert(slot, locator);
        taken.insert(slot);
    }
    notes.add_if(taken.len() > 1, "step 5: several new addresses");
    notes.add_if(taken.len() == SLOTS, "step 5: eight new addresses");
    taken
}

/// "The locator with P becomes preferred; without P the preference stays."
fn step_six(after: &mut Association, content: &Move, notes: &mut Notes) {
    let before = after.preferred;
    let with_p = content.set.iter().find(|listed| listed.preferred);
    let Some(listed) = with_p else {
        notes.add_if(before.is_some(), "step 6: without P the preference stays");
        notes.add_if(before.is_none(), "step 6: without P no preference");
        return;
    };
    after.preferred = after.slot_of(&listed.address);
    notes.add_if(before.is_none(), "step 6: P sets the preference");
    let same = before.is_some() && before == after.preferred;
    notes.add_if(same, "step 6: P on the preferred slot");
    let moves = before.is_some() && before != after.preferred;
    notes.add_if(moves, "step 6: P moves the preference");
}

/// "New checks, in slot order, take them in order and own Update IDs in
/// order." Returns the reply: 48 bytes for each check, or an ACK alone.
fn deal_checks(
    after: &mut Association,
    content: &Move,
    new_checks: &BTreeSet<usize>,
    nonces: &[u64],
) -> Vec<u8> {
    if new_checks.is_empty() {
        return acknowledgement(content.update_id);
    }
    let mut reply = Vec::new();
    for (slot, nonce) in new_checks.iter().zip(nonces) {
        let check = OwnCheck {
            nonce: *nonce,
            id: after.own_id,
            issued: after.time,
            resends: 0,
        };
        let locator = after.held.get_mut(slot).expect("the slot is held");
        locator.status = Status::Unverified(check);
        after.own_id += 1;
        reply.extend(check.bytes(after.inbound, Some(content.update_id)));
    }
    reply
}

/// "The peer's Update ID is stored."
fn step_seven(after: &mut Association, content: &Move, notes: &mut Notes) {
    let id = content.update_id;
    let first = after.peer_id.is_none();
    notes.add_if(first, "step 7: first ID");
    notes.add_if(!first, "step 7: higher ID");
    notes.add_if(id == 0, "step 7: ID 0");
    notes.add_if(id == u32::MAX, "step 7: ID 2^32 - 1");
    notes.add_if(first && id == u32::MAX, "step 7: first ID 2^32 - 1");
    after.peer_id = Some(id);
}

const CHECK_COUNTS: [&str; 9] = [
    "checks 0", "checks 1", "checks 2", "checks 3", "checks 4", "checks 5", "checks 6", "checks 7",
    "checks 8",
];

/// Cases seen by looking at the Move and the association before and after.
fn note_move(
    before: &Association,
    after: &Association,
    content: &Move,
    new_checks: &BTreeSet<usize>,
    notes: &mut Notes,
) {
    notes.add(CHECK_COUNTS[new_checks.len()]);
    notes.add(if new_checks.is_empty() {
        "move without checks"
    } else {
        "move with checks"
    });
    let new_spi = content.new_spi != before.outbound;
    for listed in &content.set {
        notes.add_if(listed.lifetime == 1, "set: lifetime 1");
        notes.add_if(listed.lifetime == u32::MAX, "set: lifetime 2^32 - 1");
        notes.add_if(listed.spi.is_some(), "set: type 1 locator");
        if let Some(edge) = legal_edge(&listed.address) {
            notes.add(edge);
        }
        let status = before
            .slot_of(&listed.address)
            .map(|s| before.held[&s].status);
        match status {
            Some(Status::Active) if new_spi => notes.add("step 3: ACTIVE under a new SPI"),
            Some(Status::Unverified(_)) if new_spi => {
                notes.add("step 3: UNVERIFIED under a new SPI");
            }
            Some(Status::Deprecated) if new_spi => notes.add("step 3: DEPRECATED under a new SPI"),
            Some(Status::Deprecated) => notes.add("step 3: DEPRECATED gets a new check"),
            _ => {}
        }
    }
    notes.add_if(content.set.len() == SLOTS, "set: eight locators");
    notes.add_if(content.keymat == 0, "move: KEYMAT Index 0");
    notes.add_if(content.keymat == u16::MAX, "move: KEYMAT Index 65,535");
    note_refills(before, after, notes);
    note_passed_over(before, after, content, notes);
    note_deal_order(before, content, notes);
}

/// Whether a refilled slot was DEPRECATED before or only by this Move.
fn note_refills(before: &Association, after: &Association, notes: &mut Notes) {
    for (slot, locator) in &before.held {
        if after.held[slot].address != locator.address {
            notes.add(if locator.is_deprecated() {
                "step 5: refill of a slot retired before"
            } else {
                "step 5: refill of a slot that the same Move retires"
            });
        }
    }
}

/// A new address that went to a higher slot because a lower one held a
/// DEPRECATED address which a later entry of the set lists.
fn note_passed_over(before: &Association, after: &Association, content: &Move, notes: &mut Notes) {
    for (place, listed) in content.set.iter().enumerate() {
        if before.slot_of(&listed.address).is_some() {
            continue;
        }
        let later = &content.set[place + 1..];
        let slot = after.slot_of(&listed.address);
        let passed_over = before.held.iter().any(|(lower, locator)| {
            let listed_later = later.iter().any(|l| l.address == locator.address);
            locator.is_deprecated() && listed_later && Some(*lower) < slot
        });
        notes.add_if(
            passed_over,
            "step 5: DEPRECATED slot listed later passed over",
        );
    }
}

/// Checks go out in slot order also where the set lists them otherwise.
fn note_deal_order(before: &Association, content: &Move, notes: &mut Notes) {
    let slots: Vec<usize> = content
        .set
        .iter()
        .filter_map(|listed| before.slot_of(&listed.address))
        .filter(|slot| before.held[slot].is_deprecated())
        .collect();
    let falls = slots.windows(2).any(|pair| pair[0] > pair[1]);
    notes.add_if(falls, "checks: slot order unlike listed order");
}

/// Cases of an accepted message that its bytes show.
fn note_packet(inputs: &MessageInputs, parameters: &[Parameter], notes: &mut Notes) {
    let packet = &inputs.packet;
    notes.add_if(packet.len() == 2048, "packet: 2,048 bytes accepted");
    notes.add_if(packet[3] & 0x0e != 0, "packet: reserved bits of byte 3");
    let unjudged = packet[4..40].iter().any(|byte| *byte != 0);
    notes.add_if(unjudged, "packet: checksum, controls and HITs not zero");
    match inputs.buffer {
        384 => notes.add("buffer: 384 bytes accepted"),
        385 => notes.add("buffer: 385 bytes accepted"),
        65_535 => notes.add("buffer: 65,535 bytes accepted"),
        _ => {}
    }
    for parameter in parameters {
        note_parameter(parameter, notes);
    }
}

fn note_parameter(parameter: &Parameter, notes: &mut Notes) {
    let padded = parameter.padding.iter().any(|byte| *byte != 0);
    notes.add_if(padded, "packet: padding not zero");
    let body = &parameter.body;
    match parameter.kind {
        ESP_INFO => {
            let reserved = body[..2] != [0, 0];
            notes.add_if(reserved, "packet: reserved bits of ESP_INFO");
        }
        LOCATOR_SET => {
            notes.add_if(body[3] & 0xfe != 0, "packet: reserved bits of a locator");
        }
        ACK if body.len() > 4 => notes.add("packet: ACK with several IDs"),
        ACK => notes.add("packet: ACK with one ID"),
        HOST_ID => notes.add("packet: HOST_ID stepped over"),
        HIP_MAC => notes.add("packet: HIP_MAC stepped over"),
        HIP_SIGNATURE => notes.add("packet: HIP_SIGNATURE stepped over"),
        kind if kind % 2 == 0 => notes.add("packet: unknown even type stepped over"),
        _ => {}
    }
}

/// Pairs of refusals whose conditions hold together; the first one answers.
const ORDER: [(u8, u8, &str); 18] = [
    (1, 2, "order: refusal 1 before 2"),
    (1, 3, "order: refusal 1 before 3"),
    (2, 3, "order: refusal 2 before 3"),
    (3, 4, "order: refusal 3 before 4"),
    (4, 5, "order: refusal 4 before 5"),
    (4, 6, "order: refusal 4 before 6"),
    (1, 22, "order: refusal 1 before 22"),
    (2, 22, "order: refusal 2 before 22"),
    (3, 22, "order: refusal 3 before 22"),
    (4, 22, "order: refusal 4 before 22"),
    (5, 22, "order: refusal 5 before 22"),
    (22, 7, "order: refusal 22 before 7"),
    (5, 6, "order: refusal 5 before 6"),
    (6, 7, "order: refusal 6 before 7"),
    (6, 8, "order: refusal 6 before 8"),
    (7, 8, "order: refusal 7 before 8"),
    (8, 9, "order: refusal 8 before 9"),
    (9, 10, "order: refusal 9 before 10"),
];

fn note_refusal(inputs: &MessageInputs, reasons: &Reasons, notes: &mut Notes) {
    reasons.note_clause(notes);
    reasons.note_order(&ORDER, notes);
    if reasons.first() == Some(1) {
        notes.add_if(inputs.buffer == 0, "refusal 1: buffer 0");
        notes.add_if(inputs.buffer == 383, "refusal 1: buffer 383");
    }
}

fn note_nonce_refusal(
    association: &Association,
    content: &Move,
    nonces: &[u64],
    notes: &mut Notes,
) {
    let new_checks = arrange(&mut association.clone(), content, &mut Notes::default());
    notes.add_if(
        new_checks.is_empty(),
        "refusal 10: in a Move without new checks",
    );
    let echoed = |nonce: &u64| content.echo.as_deref() == Some(&nonce.to_be_bytes()[..]);
    notes.add_if(
        nonces.iter().any(echoed),
        "refusal 10: the nonce that the Move's echo answers",
    );
}

fn note_repeated(association: &Association, content: &Move, reasons: &Reasons, notes: &mut Notes) {
    notes.add("Move repeated");
    let echo = content.echo.as_deref();
    let good_echo = echo.is_some_and(|echo| slot_of_echo(association, echo).is_some());
    notes.add_if(good_echo, "repeated: an outstanding nonce's echo unused");
    notes.add_if(reasons.has(8), "order: Repeated before refusal 8");
    notes.add_if(reasons.has(9), "order: Repeated before refusal 9");
    notes.add_if(reasons.has(10), "order: Repeated before refusal 10");
}
