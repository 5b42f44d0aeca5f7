//! Writing packets and records, for the generators and the tests.

use crate::packet::{
    esp_info_body, write_parameter, Listed, ACK, ECHO_REQUEST_SIGNED, ECHO_RESPONSE_SIGNED,
    ESP_INFO, HEADER_LENGTH, LOCATOR_SET, SEQ,
};
use crate::reasons::Notes;
use crate::record::{AnnouncementInputs, Call, MessageInputs, Sections, StartInputs};
use crate::replay::{Answer, Player};

/// Type and body of a parameter to write.
pub type Written = (u16, Vec<u8>);

/// All that a Move says, to be written as a packet.
#[derive(Clone, Debug)]
pub struct MoveText {
    pub keymat: u16,
    pub old_spi: u32,
    pub new_spi: u32,
    pub update_id: u32,
    pub set: Vec<Listed>,
    pub echo: Option<Vec<u8>>,
    /// The IDs of an ACK; none where there are no IDs.
    pub acks: Vec<u32>,
    pub others: Vec<Written>,
}

impl MoveText {
    /// The parameters, in rising order of type.
    pub fn parameters(&self) -> Vec<Written> {
        let mut parameters = vec![
            esp_info(self.keymat, self.old_spi, self.new_spi),
            locator_set(&self.set),
            seq(self.update_id),
        ];
        if !self.acks.is_empty() {
            parameters.push(ack(&self.acks));
        }
        if let Some(echo) = &self.echo {
            parameters.push(echo_response(echo));
        }
        parameters.extend(self.others.clone());
        parameters.sort_by_key(|(kind, _)| *kind);
        parameters
    }

    pub fn packet(&self) -> Vec<u8> {
        packet(&self.parameters())
    }
}

/// All that a Check says, to be written as a packet.
#[derive(Clone, Debug)]
pub struct CheckText {
    /// KEYMAT Index, OLD SPI and NEW SPI of an ESP_INFO, if there is one.
    pub info: Option<(u16, u32, u32)>,
    pub update_id: u32,
    /// The IDs of an ACK; none where there are no IDs.
    pub acks: Vec<u32>,
    pub opaque: Vec<u8>,
    pub others: Vec<Written>,
}

impl CheckText {
    /// The parameters, in rising order of type.
    pub fn parameters(&self) -> Vec<Written> {
        let mut parameters = vec![seq(self.update_id), echo_request(&self.opaque)];
        if let Some((keymat, old_spi, new_spi)) = self.info {
            parameters.push(esp_info(keymat, old_spi, new_spi));
        }
        if !self.acks.is_empty() {
            parameters.push(ack(&self.acks));
        }
        parameters.extend(self.others.clone());
        parameters.sort_by_key(|(kind, _)| *kind);
        parameters
    }

    pub fn packet(&self) -> Vec<u8> {
        packet(&self.parameters())
    }
}

pub fn esp_info(keymat: u16, old_spi: u32, new_spi: u32) -> Written {
    (ESP_INFO, esp_info_body(keymat, old_spi, new_spi))
}

pub fn locator_set(set: &[Listed]) -> Written {
    (LOCATOR_SET, set.iter().flat_map(locator).collect())
}

/// A locator of type 1 where it has an SPI, else of type 0.
pub fn locator(listed: &Listed) -> Vec<u8> {
    let (kind, length) = match listed.spi {
        None => (0, 4),
        Some(_) => (1, 5),
    };
    let mut bytes = vec![listed.traffic, kind, length, u8::from(listed.preferred)];
    bytes.extend(listed.lifetime.to_be_bytes());
    bytes.extend(listed.spi.into_iter().flat_map(u32::to_be_bytes));
    bytes.extend(listed.address);
    bytes
}

pub fn seq(id: u32) -> Written {
    (SEQ, id.to_be_bytes().to_vec())
}

pub fn ack(ids: &[u32]) -> Written {
    (ACK, ids.iter().flat_map(|id| id.to_be_bytes()).collect())
}

pub fn echo_request(opaque: &[u8]) -> Written {
    (ECHO_REQUEST_SIGNED, opaque.to_vec())
}

pub fn echo_response(echo: &[u8]) -> Written {
    (ECHO_RESPONSE_SIGNED, echo.to_vec())
}

/// A packet with these parameters, in this order.
pub fn packet(parameters: &[Written]) -> Vec<u8> {
    let written = parameters
        .iter()
        .flat_map(|(kind, body)| write_parameter(*kind, body));
    behind_header(&written.collect::<Vec<u8>>())
}

/// A packet whose parameters are these bytes.
pub fn behind_header(parameters: &[u8]) -> Vec<u8> {
    let mut bytes = vec![0; HEADER_LENGTH];
    bytes[..4].copy_from_slice(&[59, 0, 16, 0x21]);
    bytes.extend(parameters);
    set_header_length(&mut bytes);
    bytes
}

/// Makes the header length fit. Past 2,048 bytes only its low eight bits
/// stand, as a careless reader would take them.
pub fn set_header_length(packet: &mut [u8]) {
    let units = (packet.len() / 8).wrapping_sub(1);
    packet[1] = (units & 0xff) as u8;
}

/// A record from its call numbers and the bytes of its other sections.
pub fn sections(numbers: &[u64], bytes: &[u8], nonces: &[u64]) -> Sections {
    Sections {
        numbers: numbers.iter().flat_map(|n| n.to_be_bytes()).collect(),
        bytes: bytes.to_vec(),
        nonces: nonces.iter().flat_map(|n| n.to_be_bytes()).collect(),
    }
}

pub fn record_of(call: &Call) -> Sections {
    match call {
        Call::Start(StartInputs {
            time,
            outbound,
            inbound,
            lifetime,
            address,
        }) => {
            let spis = [u64::from(*outbound), u64::from(*inbound)];
            let numbers = [0, *time, spis[0], spis[1], u64::from(*lifetime)];
            sections(&numbers, address, &[])
        }
        Call::Message(MessageInputs {
            authentic,
            buffer,
            packet,
            nonces,
        }) => sections(&[1, u64::from(*authentic), *buffer], packet, nonces),
        Call::Arrival { size } => sections(&[2, *size], &[], &[]),
        Call::Send { size } => sections(&[3, *size], &[], &[]),
        Call::Tick { time, buffer } => sections(&[4, *time, *buffer], &[], &[]),
        Call::Announcement(inputs) => announcement_record(inputs),
    }
}

fn announcement_record(inputs: &AnnouncementInputs) -> Sections {
    let mut numbers = vec![5, inputs.buffer];
    let mut addresses = Vec::new();
    for entry in &inputs.list {
        numbers.push(entry.locator_type.into());
        numbers.push(entry.traffic.into());
        numbers.push(entry.lifetime.into());
        numbers.push(entry.preferred.into());
        addresses.extend(entry.address);
    }
    numbers.push(inputs.inbound.into());
    numbers.push(inputs.keymat.into());
    sections(&numbers, &addresses, &[])
}

/// The bytes of a record in a trace.
pub fn record_bytes(record: &Sections) -> Vec<u8> {
    let mut bytes = Vec::new();
    for section in [&record.numbers, &record.bytes, &record.nonces] {
        let length = u16::try_from(section.len()).expect("a section has a 16-bit count");
        bytes.extend(length.to_be_bytes());
        bytes.extend(section);
    }
    bytes
}

/// Writes a trace and runs it at the same time, so that what is written next
/// can depend on the association reached.
#[derive(Default)]
pub struct Tracer {
    pub player: Player,
    pub bytes: Vec<u8>,
    pub records: u64,
}

impl Tracer {
    pub fn record(&mut self, record: &Sections) -> Answer {
        self.bytes.extend(record_bytes(record));
        self.records += 1;
        self.player.run(record, &mut Notes::default())
    }

    pub fn call(&mut self, call: &Call) -> Answer {
        self.record(&record_of(call))
    }
}
