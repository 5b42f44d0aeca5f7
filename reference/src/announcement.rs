//! The announcing call: refusals 17 to 21, and the Move that it writes.

use crate::address::{not_legal, NotLegal};
use crate::association::{is_unusable, Association, OWN_ID_LIMIT};
use crate::packet::{
    bytes_in_all, esp_info_body, read_set, write_parameter, SetFault, ESP_INFO, LOCATOR_SET, SEQ,
};
use crate::reasons::{Notes, Reasons};
use crate::record::{AnnouncementInputs, Entry};

/// Writes ESP_INFO, LOCATOR_SET and SEQ of a Move of ours, or gives a refusal.
pub fn announce(
    association: &mut Association,
    inputs: &AnnouncementInputs,
    notes: &mut Notes,
) -> Result<Vec<u8>, u8> {
    let reasons = judge(association, inputs);
    if let Some(number) = reasons.first() {
        note_refusal(number, inputs, &reasons, notes);
        return Err(number);
    }
    let id = u32::try_from(association.own_id).expect("refusal 20 keeps own IDs below 2^32");
    let info = esp_info_body(inputs.keymat, association.inbound, inputs.inbound);
    let mut bytes = write_parameter(ESP_INFO, &info);
    let set = set_body(&inputs.list, inputs.inbound);
    bytes.extend(write_parameter(LOCATOR_SET, &set));
    bytes.extend(write_parameter(SEQ, &id.to_be_bytes()));
    note_accepted(association, inputs, &bytes, notes);
    association.inbound = inputs.inbound;
    association.own_id += 1;
    Ok(bytes)
}

/// How many bytes an announcement of this list writes: ESP_INFO takes 16, SEQ
/// takes 8.
pub fn bytes_to_write(list: &[Entry]) -> usize {
    let lengths = list.iter().map(|entry| 8 + 4 * usize::from(words(entry)));
    16 + bytes_in_all(lengths.sum()) + 8
}

/// A locator's length in units of 4 bytes. A type other than 0 and 1 is
/// written like type 0, so that refusal 6 finds it unknown.
fn words(entry: &Entry) -> u8 {
    match entry.locator_type {
        1 => 5,
        _ => 4,
    }
}

/// The body of the LOCATOR_SET that lists these entries under an SPI.
fn set_body(list: &[Entry], spi: u32) -> Vec<u8> {
    let mut body = Vec::new();
    for entry in list {
        let p = u8::from(entry.preferred);
        body.extend([entry.traffic, entry.locator_type, words(entry), p]);
        body.extend(entry.lifetime.to_be_bytes());
        if entry.locator_type == 1 {
            body.extend(spi.to_be_bytes());
        }
        body.extend(entry.address);
    }
    body
}

fn judge(association: &Association, inputs: &AnnouncementInputs) -> Reasons {
    let mut reasons = Reasons::default();
    reasons.add_if(association.is_unsound(), 0, "refusal 0");
    let count = inputs.list.len();
    reasons.add_if(count == 0, 17, "refusal 17: no entry");
    reasons.add_if(count > 8, 17, "refusal 17: over 8 entries");
    let (_, faults) = read_set(&set_body(&inputs.list, inputs.inbound));
    for clause in faults.into_iter().filter_map(clause_of) {
        reasons.add(18, clause);
    }
    let unusable = is_unusable(inputs.inbound);
    reasons.add_if(unusable, 19, "refusal 19: new inbound SPI 0");
    let used_up = association.own_id == OWN_ID_LIMIT;
    reasons.add_if(used_up, 20, "refusal 20");
    let short = inputs.buffer < bytes_to_write(&inputs.list) as u64;
    reasons.add_if(short, 21, "refusal 21: buffer too short");
    reasons
}

/// The clause of refusal 18 for what refusal 6 finds wrong with the set. None
/// where refusal 17 comes before, or where no set that is written so has it.
fn clause_of(fault: SetFault) -> Option<&'static str> {
    match fault {
        SetFault::Empty | SetFault::OverEight => None,
        SetFault::NotFilled | SetFault::LengthOfType0 | SetFault::LengthOfType1 => None,
        SetFault::Traffic => Some("refusal 18: unknown traffic type"),
        SetFault::LocatorType => Some("refusal 18: unknown locator type"),
        SetFault::Lifetime => Some("refusal 18: lifetime 0"),
        SetFault::Address(NotLegal::FirstByteFf) => Some("refusal 18: first byte 0xff"),
        SetFault::Address(NotLegal::AllZero) => Some("refusal 18: all zero"),
        SetFault::Address(NotLegal::Ipv4Multicast) => Some("refusal 18: IPv4 224 to 239"),
        SetFault::Address(NotLegal::Ipv4Zero) => Some("refusal 18: 0.0.0.0"),
        SetFault::Address(NotLegal::Ipv4Broadcast) => Some("refusal 18: 255.255.255.255"),
        SetFault::AddressTwice => Some("refusal 18: address twice"),
        SetFault::PTwice => Some("refusal 18: P twice"),
    }
}

/// Pairs of refusals whose conditions hold together; the first one answers.
const ORDER: [(u8, u8, &str); 6] = [
    (17, 18, "order: refusal 17 before 18"),
    (17, 19, "order: refusal 17 before 19"),
    (17, 21, "order: refusal 17 before 21"),
    (18, 19, "order: refusal 18 before 19"),
    (18, 21, "order: refusal 18 before 21"),
    (19, 21, "order: refusal 19 before 21"),
];

fn note_refusal(number: u8, inputs: &AnnouncementInputs, reasons: &Reasons, notes: &mut Notes) {
    reasons.note_clause(notes);
    reasons.note_order(&ORDER, notes);
    let count = inputs.list.len();
    let length = bytes_to_write(&inputs.list) as u64;
    match number {
        17 => {
            notes.add_if(count == 9, "refusal 17: nine entries");
            // As 8 bits these counts would be from 1 to 8.
            let wrapped = (1..=8).contains(&(count % 256)) && count > 8;
            notes.add_if(wrapped, "refusal 17: over 256 entries");
        }
        18 => {
            let (_, before) = read_set(&set_body(&inputs.list[..count - 1], inputs.inbound));
            let eighth = count == 8 && before.is_empty();
            notes.add_if(eighth, "refusal 18: by the eighth entry");
            let bad =
                |entry: &Entry| entry.locator_type == 1 && not_legal(&entry.address).is_some();
            let any = inputs.list.iter().any(bad);
            notes.add_if(any, "refusal 18: address of a type 1 entry");
        }
        21 => {
            notes.add_if(inputs.buffer + 1 == length, "refusal 21: one byte short");
            notes.add_if(inputs.buffer == 0, "refusal 21: buffer 0");
        }
        _ => {}
    }
}

fn note_accepted(
    association: &Association,
    inputs: &AnnouncementInputs,
    bytes: &[u8],
    notes: &mut Notes,
) {
    let list = &inputs.list;
    for entry in list {
        notes.add(match entry.locator_type {
            0 => "announcement: type 0 entry",
            _ => "announcement: type 1 entry",
        });
        notes.add(match entry.traffic {
            0 => "announcement: traffic type 0",
            1 => "announcement: traffic type 1",
            _ => "announcement: traffic type 2",
        });
        notes.add_if(entry.lifetime == 1, "announcement: lifetime 1");
        notes.add_if(
            entry.lifetime == u32::MAX,
            "announcement: lifetime 2^32 - 1",
        );
    }
    let types_1 = list.iter().filter(|entry| entry.locator_type == 1).count();
    let mixed = types_1 > 0 && types_1 < list.len();
    notes.add_if(mixed, "announcement: both types");
    // Each type 1 entry takes 28 bytes, four more than a multiple of 8.
    notes.add(if types_1 % 2 == 0 {
        "announcement: set padded"
    } else {
        "announcement: set without padding"
    });
    match list.iter().position(|entry| entry.preferred) {
        None => notes.add("announcement: P clear"),
        Some(0) => notes.add("announcement: P on the first entry"),
        Some(_) => notes.add("announcement: P on a later entry"),
    }
    notes.add_if(list.len() == 1, "announcement: one entry");
    notes.add_if(list.len() == 8, "announcement: eight entries");
    notes.add_if(bytes.len() == 56, "announcement: 56 bytes");
    notes.add_if(bytes.len() == 256, "announcement: 256 bytes");
    let room = inputs.buffer - bytes.len() as u64;
    notes.add_if(room == 0, "announcement: buffer exact");
    notes.add_if(room > 0, "announcement: buffer longer");
    notes.add(if association.own_id == 0 {
        "announcement: first own ID"
    } else {
        "announcement: later own ID"
    });
    notes.add(if inputs.inbound == association.inbound {
        "announcement: inbound SPI the same"
    } else {
        "announcement: new inbound SPI"
    });
    notes.add_if(inputs.inbound == 1, "announcement: new inbound SPI 1");
    let largest = inputs.inbound == u32::MAX;
    notes.add_if(largest, "announcement: new inbound SPI 2^32 - 1");
    notes.add_if(inputs.keymat == 0, "announcement: KEYMAT Index 0");
    notes.add_if(
        inputs.keymat == u16::MAX,
        "announcement: KEYMAT Index 65,535",
    );
    let waiting = !association.outstanding().is_empty();
    notes.add_if(waiting, "announcement: with a check outstanding");
    // Our own addresses are not kept: they may be any, the peer's too.
    let held = |entry: &Entry| association.slot_of(&entry.address).is_some();
    notes.add_if(list.iter().any(held), "announcement: an address held");
}
