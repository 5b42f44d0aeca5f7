//! The records of a trace, and what makes one malformed.

use std::io::{ErrorKind, Read};

/// One record as it stands in the file: three runs of bytes.
#[derive(Clone, Debug, Default)]
pub struct Sections {
    pub numbers: Vec<u8>,
    pub bytes: Vec<u8>,
    pub nonces: Vec<u8>,
}

/// What the reader finds next in a trace.
pub enum Next {
    Record(Sections),
    End,
    Torn,
}

/// One of the six calls, with all its inputs.
#[derive(Clone, Debug)]
pub enum Call {
    Start(StartInputs),
    Message(MessageInputs),
    Arrival {
        size: u64,
    },
    Send {
        size: u64,
    },
    /// With the length of the lent buffer.
    Tick {
        time: u64,
        buffer: u64,
    },
    Announcement(AnnouncementInputs),
}

#[derive(Clone, Debug)]
pub struct StartInputs {
    pub time: u64,
    pub outbound: u32,
    pub inbound: u32,
    pub lifetime: u32,
    pub address: [u8; 16],
}

#[derive(Clone, Debug)]
pub struct MessageInputs {
    pub authentic: bool,
    /// Length of the lent reply buffer.
    pub buffer: u64,
    pub packet: Vec<u8>,
    /// The eight offered nonces.
    pub nonces: Vec<u64>,
}

#[derive(Clone, Debug)]
pub struct AnnouncementInputs {
    /// Length of the lent buffer.
    pub buffer: u64,
    pub list: Vec<Entry>,
    /// The new inbound SPI.
    pub inbound: u32,
    pub keymat: u16,
}

/// One entry of our list.
#[derive(Clone, Debug, PartialEq, Eq)]
pub struct Entry {
    pub locator_type: u8,
    pub traffic: u8,
    pub lifetime: u32,
    pub preferred: bool,
    pub address: [u8; 16],
}

/// Reads one record; a file that ends inside it, or fails, is torn.
pub fn next(reader: &mut impl Read) -> Next {
    let numbers = match count(reader) {
        Ok(None) => return Next::End,
        Ok(Some(length)) => section(reader, length),
        Err(_) => return Next::Torn,
    };
    let bytes = counted_section(reader);
    let nonces = counted_section(reader);
    match (numbers, bytes, nonces) {
        (Some(numbers), Some(bytes), Some(nonces)) => Next::Record(Sections {
            numbers,
            bytes,
            nonces,
        }),
        _ => Next::Torn,
    }
}

/// A 16-bit count, or nothing where the file ends before it.
fn count(reader: &mut impl Read) -> std::io::Result<Option<usize>> {
    let mut first = [0];
    loop {
        match reader.read(&mut first) {
            Ok(0) => return Ok(None),
            Ok(_) => break,
            Err(error) if error.kind() == ErrorKind::Interrupted => {}
            Err(error) => return Err(error),
        }
    }
    let mut second = [0];
    reader.read_exact(&mut second)?;
    Ok(Some(u16::from_be_bytes([first[0], second[0]]).into()))
}

fn section(reader: &mut impl Read, length: usize) -> Option<Vec<u8>> {
    let mut bytes = vec![0; length];
    reader.read_exact(&mut bytes).ok()?;
    Some(bytes)
}

fn counted_section(reader: &mut impl Read) -> Option<Vec<u8>> {
    let length = count(reader).ok()??;
    section(reader, length)
}

/// The call of a record, or every way in which the record is malformed.
pub fn understand(record: &Sections) -> Result<Call, Vec<&'static str>> {
    if record.numbers.is_empty() {
        return Err(vec!["malformed: no numbers"]);
    }
    if !record.numbers.len().is_multiple_of(8) {
        return Err(vec!["malformed: numbers not a multiple of 8 bytes"]);
    }
    let numbers = big_endian_numbers(&record.numbers);
    match (numbers[0], &numbers[1..]) {
        (0, [time, outbound, inbound, lifetime]) => {
            start(record, *time, [*outbound, *inbound, *lifetime])
        }
        (1, [authentic, buffer]) => message(record, *authentic, *buffer),
        (2, [size]) => {
            let faults = other_sections(record, ARRIVAL_BYTES);
            unless_faulty(Call::Arrival { size: *size }, faults)
        }
        (3, [size]) => {
            let faults = other_sections(record, SEND_BYTES);
            unless_faulty(Call::Send { size: *size }, faults)
        }
        (4, [time, buffer]) => tick(record, *time, *buffer),
        (5, [buffer, list @ .., inbound, keymat]) if list.len() % 4 == 0 => {
            announcement(record, list, [*buffer, *inbound, *keymat])
        }
        (0, _) => Err(vec!["malformed: count of a start's numbers"]),
        (1, _) => Err(vec!["malformed: count of a message's numbers"]),
        (2, _) => Err(vec!["malformed: count of an arrival's numbers"]),
        (3, _) => Err(vec!["malformed: count of a send's numbers"]),
        (4, [_]) => Err(vec!["malformed: tick without a buffer"]),
        (4, _) => Err(vec!["malformed: count of a tick's numbers"]),
        (5, _) => Err(vec!["malformed: count of an announcement's numbers"]),
        _ => Err(vec!["malformed: unknown call"]),
    }
}

pub fn big_endian_numbers(bytes: &[u8]) -> Vec<u64> {
    bytes
        .chunks_exact(8)
        .map(|eight| eight.iter().fold(0, |n, b| n << 8 | u64::from(*b)))
        .collect()
}

fn start(
    record: &Sections,
    time: u64,
    [outbound, inbound, lifetime]: [u64; 3],
) -> Result<Call, Vec<&'static str>> {
    let mut faults = Vec::new();
    let mut narrow = |number: u64, fault| {
        u32::try_from(number).unwrap_or_else(|_| {
            faults.push(fault);
            0
        })
    };
    let outbound = narrow(outbound, "malformed: outbound SPI over 32 bits");
    let inbound = narrow(inbound, "malformed: inbound SPI over 32 bits");
    let lifetime = narrow(lifetime, "malformed: lifetime over 32 bits");
    let address = match <[u8; 16]>::try_from(record.bytes.as_slice()) {
        Ok(address) => address,
        Err(_) if record.bytes.len() < 16 => {
            faults.push("malformed: address shorter than 16 bytes");
            [0; 16]
        }
        Err(_) => {
            faults.push("malformed: address longer than 16 bytes");
            [0; 16]
        }
    };
    if !record.nonces.is_empty() {
        faults.push("malformed: section three of a start");
    }
    let inputs = StartInputs {
        time,
        outbound,
        inbound,
        lifetime,
        address,
    };
    unless_faulty(Call::Start(inputs), faults)
}

fn message(record: &Sections, authentic: u64, buffer: u64) -> Result<Call, Vec<&'static str>> {
    let mut faults = Vec::new();
    if authentic > 1 {
        faults.push("malformed: authentic over 1");
    }
    if buffer > 65_535 {
        faults.push("malformed: buffer over 65,535");
    }
    if record.nonces.len() < 64 {
        faults.push("malformed: nonces shorter than 64 bytes");
    }
    if record.nonces.len() > 64 {
        faults.push("malformed: nonces longer than 64 bytes");
    }
    let inputs = MessageInputs {
        authentic: authentic == 1,
        buffer,
        packet: record.bytes.clone(),
        nonces: big_endian_numbers(&record.nonces),
    };
    unless_faulty(Call::Message(inputs), faults)
}

/// What may be wrong with the numbers of an entry, in their order: of one of
/// the first eight entries, and of a later one.
const ENTRY_FAULTS: [[&str; 4]; 2] = [
    [
        "malformed: locator type over 255",
        "malformed: traffic type over 255",
        "malformed: entry's lifetime over 32 bits",
        "malformed: P over 1",
    ],
    [
        "malformed: locator type over 255 past the eighth",
        "malformed: traffic type over 255 past the eighth",
        "malformed: entry's lifetime over 32 bits past the eighth",
        "malformed: P over 1 past the eighth",
    ],
];

/// `5 buffer (kind traffic lifetime P)* inbound keymat`, 16 address bytes for
/// each entry in section two.
fn announcement(
    record: &Sections,
    list: &[u64],
    [buffer, inbound, keymat]: [u64; 3],
) -> Result<Call, Vec<&'static str>> {
    let mut faults = Vec::new();
    if buffer > 65_535 {
        faults.push("malformed: announcement's buffer over 65,535");
    }
    if u32::try_from(inbound).is_err() {
        faults.push("malformed: new inbound SPI over 32 bits");
    }
    if keymat > 65_535 {
        faults.push("malformed: KEYMAT Index over 65,535");
    }
    let limits = [255, 255, u64::from(u32::MAX), 1];
    for (place, entry) in list.chunks_exact(4).enumerate() {
        for ((number, limit), fault) in entry
            .iter()
            .zip(limits)
            .zip(ENTRY_FAULTS[usize::from(place >= 8)])
        {
            if *number > limit {
                faults.push(fault);
            }
        }
    }
    let wanted = list.len() / 4 * 16;
    if record.bytes.len() < wanted {
        faults.push("malformed: too few bytes of addresses");
    }
    if record.bytes.len() > wanted {
        faults.push("malformed: too many bytes of addresses");
    }
    if !record.nonces.is_empty() {
        faults.push("malformed: section three of an announcement");
    }
    let addresses = record.bytes.chunks_exact(16);
    let entries = list.chunks_exact(4).zip(addresses);
    // The casts lose nothing where there is no fault.
    let inputs = AnnouncementInputs {
        buffer,
        list: entries
            .map(|(numbers, address)| Entry {
                locator_type: numbers[0] as u8,
                traffic: numbers[1] as u8,
                lifetime: numbers[2] as u32,
                preferred: numbers[3] == 1,
                address: address.try_into().expect("16 bytes"),
            })
            .collect(),
        inbound: inbound as u32,
        keymat: keymat as u16,
    };
    unless_faulty(Call::Announcement(inputs), faults)
}

const ARRIVAL_BYTES: [&str; 2] = [
    "malformed: section two of an arrival",
    "malformed: section three of an arrival",
];
const SEND_BYTES: [&str; 2] = [
    "malformed: section two of a send",
    "malformed: section three of a send",
];
const TICK_BYTES: [&str; 2] = [
    "malformed: section two of a tick",
    "malformed: section three of a tick",
];

/// Arrival, send and tick use neither section two nor section three.
fn other_sections(record: &Sections, [two, three]: [&'static str; 2]) -> Vec<&'static str> {
    let mut faults = Vec::new();
    if !record.bytes.is_empty() {
        faults.push(two);
    }
    if !record.nonces.is_empty() {
        faults.push(three);
    }
    faults
}

/// `4 time buffer`
fn tick(record: &Sections, time: u64, buffer: u64) -> Result<Call, Vec<&'static str>> {
    let mut faults = other_sections(record, TICK_BYTES);
    if buffer > 65_535 {
        faults.push("malformed: tick's buffer over 65,535");
    }
    unless_faulty(Call::Tick { time, buffer }, faults)
}

fn unless_faulty(call: Call, faults: Vec<&'static str>) -> Result<Call, Vec<&'static str>> {
    if faults.is_empty() {
        Ok(call)
    } else {
        Err(faults)
    }
}
