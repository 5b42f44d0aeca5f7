//! The trace that meets every case of the census: short runs of calls that lead
//! to each case, then random calls.

use crate::ageing::AGEING_PERIOD;
use crate::announcement::bytes_to_write;
use crate::association::{Association, CREDIT_LIMIT, LARGEST_SIZE, TIME_LIMIT};
use crate::compose::{
    ack, echo_request, echo_response, esp_info, locator, locator_set, packet, sections, seq,
    set_header_length, CheckText, MoveText, Tracer, Written,
};
use crate::packet::{
    Listed, ACK, ECHO_RESPONSE_SIGNED, ESP_INFO, HIP_MAC, HIP_SIGNATURE, HOST_ID, LOCATOR_SET, SEQ,
};
use crate::random::{address, write_trace, NOT_LEGAL};
use crate::record::{AnnouncementInputs, Call, Entry, MessageInputs, Sections, StartInputs};
use crate::tick::SMALLEST_BUFFER;

/// Seeds and lengths of the random parts.
const RANDOM_PARTS: [(u64, u64); 6] = [
    (101, 250),
    (102, 250),
    (103, 250),
    (104, 250),
    (105, 250),
    (106, 250),
];

/// The end of the trace: an arrival's record, torn after its number.
pub fn torn_end() -> Vec<u8> {
    let mut tracer = Tracer::default();
    tracer.record(&sections(&[2, 1], &[], &[]));
    tracer.bytes.truncate(2 + 16 + 2);
    tracer.bytes
}

pub fn trace() -> Vec<u8> {
    let mut script = Script::default();
    before_a_start(&mut script);
    malformed_records(&mut script);
    malformed_announcements(&mut script);
    refused_starts(&mut script);
    buffers_and_marks(&mut script);
    headers(&mut script);
    parameter_lengths(&mut script);
    every_byte_changed(&mut script);
    other_types(&mut script);
    neither_move_nor_reply(&mut script);
    faulty_sets(&mut script);
    update_ids(&mut script);
    late_echoes(&mut script);
    odd_echoes(&mut script);
    spis(&mut script);
    nonces(&mut script);
    refusals_together(&mut script);
    echoes_in_moves(&mut script);
    new_spis(&mut script);
    renewals(&mut script);
    refills(&mut script);
    numbers_of_checks(&mut script);
    preferences(&mut script);
    legal_addresses(&mut script);
    unjudged_bits(&mut script);
    packet_sizes(&mut script);
    credit(&mut script);
    paths(&mut script);
    ageing(&mut script);
    steady_ticks(&mut script);
    rounding(&mut script);
    ageing_without_credit(&mut script);
    ageing_from_the_limit(&mut script);
    silence(&mut script);
    silence_up_to_the_time_limit(&mut script);
    expiry(&mut script);
    end_of_time(&mut script);
    opaque_lengths(&mut script);
    parameters_of_checks(&mut script);
    every_byte_of_a_check_changed(&mut script);
    of_no_kind(&mut script);
    ids_of_checks(&mut script);
    unjudged_in_checks(&mut script);
    refused_checks(&mut script);
    lengths_of_lists(&mut script);
    announced_values(&mut script);
    faulty_lists(&mut script);
    refused_announcements(&mut script);
    announcements_between(&mut script);
    buffers_of_ticks(&mut script);
    seconds_after_issue(&mut script);
    long_after_issue(&mut script);
    resends_at_the_ends_of_time(&mut script);
    answers_between_resends(&mut script);
    kept_checks(&mut script);
    announcements_before_resends(&mut script);
    expiry_of_checks(&mut script);
    checks_given_up(&mut script);
    numbers_of_resends(&mut script);
    slots_between(&mut script);
    resends_after_a_new_spi(&mut script);
    checks_that_are_gone(&mut script);
    let mut bytes = script.tracer.bytes;
    for (seed, calls) in RANDOM_PARTS {
        write_trace(seed, calls, &mut bytes).expect("a vector takes all bytes");
    }
    bytes
}

/// 2001:db8::n
fn number(n: u8) -> [u8; 16] {
    let mut number = address("2001:db8::");
    number[15] = n;
    number
}

fn listed(n: u8) -> Listed {
    Listed {
        address: number(n),
        traffic: 0,
        lifetime: 60,
        preferred: false,
        spi: None,
    }
}

fn set_of(numbers: &[u8]) -> Vec<Listed> {
    numbers.iter().map(|n| listed(*n)).collect()
}

fn preferring(n: u8, mut set: Vec<Listed>) -> Vec<Listed> {
    for one in &mut set {
        one.preferred = one.address == number(n);
    }
    set
}

fn with_traffic(traffic: u8, mut set: Vec<Listed>) -> Vec<Listed> {
    for one in &mut set {
        one.traffic = traffic;
    }
    set
}

fn lasting(lifetime: u32, mut set: Vec<Listed>) -> Vec<Listed> {
    for one in &mut set {
        one.lifetime = lifetime;
    }
    set
}

/// A set whose lifetimes end long after its checks are given up.
fn long_set(numbers: &[u8]) -> Vec<Listed> {
    lasting(100_000, set_of(numbers))
}

/// A type 0 entry of our list.
fn entry(n: u8) -> Entry {
    Entry {
        locator_type: 0,
        traffic: 0,
        lifetime: 60,
        preferred: false,
        address: number(n),
    }
}

fn list_of(numbers: &[u8]) -> Vec<Entry> {
    numbers.iter().map(|n| entry(*n)).collect()
}

/// Opaque bytes that are all different.
fn opaque(length: usize) -> Vec<u8> {
    (1..=length).map(|n| n as u8).collect()
}

#[derive(Default)]
struct Script {
    tracer: Tracer,
    /// The last nonce given out.
    nonce: u64,
}

impl Script {
    fn call(&mut self, call: Call) {
        self.tracer.call(&call);
    }

    fn record(&mut self, record: Sections) {
        self.tracer.record(&record);
    }

    fn association(&self) -> &Association {
        let association = self.tracer.player.association.as_ref();
        association.expect("a start came before")
    }

    fn start_at(&mut self, time: u64, lifetime: u32) {
        self.call(Call::Start(StartInputs {
            time,
            outbound: 0x2001,
            inbound: 0x1001,
            lifetime,
            address: number(1),
        }));
    }

    /// A new association at time 100 whose address 1 lasts for 60 seconds.
    fn start(&mut self) {
        self.start_at(100, 60);
    }

    /// A new association whose addresses are those numbered, all UNVERIFIED but
    /// address 1.
    fn start_with(&mut self, numbers: &[u8]) {
        self.start();
        self.list(set_of(numbers));
    }

    /// A new association at time 100 with these addresses for a long time, all
    /// UNVERIFIED but address 1. The checks are issued at 100.
    fn start_waiting(&mut self, numbers: &[u8]) {
        self.start_at(100, 100_000);
        self.list(long_set(numbers));
    }

    fn arrive(&mut self, size: u64) {
        self.call(Call::Arrival { size });
    }

    /// Arrivals up to the credit limit.
    fn fill(&mut self) {
        while self.association().credit < CREDIT_LIMIT {
            self.arrive(LARGEST_SIZE);
        }
    }

    fn send(&mut self, size: u64) {
        self.call(Call::Send { size });
    }

    /// A tick with a buffer that is just long enough.
    fn tick(&mut self, time: u64) {
        self.tick_with(time, SMALLEST_BUFFER);
    }

    fn tick_with(&mut self, time: u64, buffer: u64) {
        self.call(Call::Tick { time, buffer });
    }

    /// Eight nonces that were not offered before.
    fn fresh_nonces(&mut self) -> Vec<u64> {
        let first = self.nonce + 1;
        self.nonce += 8;
        (first..first + 8).collect()
    }

    fn packet(&mut self, packet: Vec<u8>) {
        let nonces = self.fresh_nonces();
        self.packet_with(packet, nonces);
    }

    fn packet_with(&mut self, packet: Vec<u8>, nonces: Vec<u64>) {
        self.call(Call::Message(MessageInputs {
            authentic: true,
            buffer: 384,
            packet,
            nonces,
        }));
    }

    fn parameters(&mut self, parameters: &[Written]) {
        self.packet(packet(parameters));
    }

    /// An Update ID of the peer that was not seen, if one is left.
    fn next_id(&self) -> u32 {
        let highest = self.association().peer_id;
        highest.map_or(0, |id| id.saturating_add(1))
    }

    /// A Move in order, with the next Update ID.
    fn text(&self, set: Vec<Listed>) -> MoveText {
        let association = self.association();
        MoveText {
            keymat: 7,
            old_spi: association.outbound,
            new_spi: association.outbound,
            update_id: self.next_id(),
            set,
            echo: None,
            acks: Vec::new(),
            others: Vec::new(),
        }
    }

    /// A Move that lists this set.
    fn list(&mut self, set: Vec<Listed>) {
        self.changed(set, |_| {});
    }

    /// A Move with something changed.
    fn changed(&mut self, set: Vec<Listed>, change: impl FnOnce(&mut MoveText)) {
        let mut text = self.text(set);
        change(&mut text);
        self.packet(text.packet());
    }

    fn changed_with(
        &mut self,
        set: Vec<Listed>,
        nonces: Vec<u64>,
        change: impl FnOnce(&mut MoveText),
    ) {
        let mut text = self.text(set);
        change(&mut text);
        self.packet_with(text.packet(), nonces);
    }

    /// The outstanding nonce of a slot.
    fn nonce_of(&self, slot: usize) -> u64 {
        let locator = self.association().held.get(&slot);
        locator.and_then(|l| l.nonce()).expect("a check under way")
    }

    fn echo(&mut self, nonce: u64) {
        self.parameters(&[echo_response(&nonce.to_be_bytes())]);
    }

    /// A Check in order, with the next Update ID.
    fn check_text(&self, opaque: Vec<u8>) -> CheckText {
        let outbound = self.association().outbound;
        CheckText {
            info: Some((0, outbound, outbound)),
            update_id: self.next_id(),
            acks: vec![0],
            opaque,
            others: Vec::new(),
        }
    }

    /// A Check with something changed.
    fn check(&mut self, opaque: Vec<u8>, change: impl FnOnce(&mut CheckText)) {
        let mut text = self.check_text(opaque);
        change(&mut text);
        self.packet(text.packet());
    }

    /// An announcement in order but for something changed; the buffer is exact.
    fn announce(&mut self, list: Vec<Entry>, change: impl FnOnce(&mut AnnouncementInputs)) {
        let mut inputs = AnnouncementInputs {
            buffer: bytes_to_write(&list) as u64,
            list,
            inbound: self.association().inbound,
            keymat: 0,
        };
        change(&mut inputs);
        self.call(Call::Announcement(inputs));
    }
}

fn before_a_start(s: &mut Script) {
    s.record(sections(&[6], &[], &[]));
    s.record(sections(&[5], &[], &[]));
    s.record(sections(&[5, 256, 1, 0], &[], &[]));
    s.record(sections(&[5, 256, 0, 0, 60, 1, 1, 0], &number(1), &[]));
    s.record(sections(&[4, 100], &[], &[]));
    s.record(sections(&[4, 100, 65_536], &[], &[]));
    s.arrive(1);
    s.send(1);
    s.tick(100);
    s.tick_with(100, 0);
    s.packet(packet(&[]));
    s.arrive(0);
    s.send(0);
    s.tick(u64::MAX);
    s.start_at(TIME_LIMIT, 60);
    s.arrive(1);
}

fn malformed_records(s: &mut Script) {
    s.start();
    let place = number(1);
    let wide = 1 << 32;
    for call in [6, 7, 255, 256, 261, 1 << 32, u64::MAX] {
        s.record(sections(&[call, 1], &[], &[]));
    }
    s.record(sections(&[], &[], &[]));
    s.record(sections(&[], &place, &[0; 8]));
    for length in [1, 7, 9, 15, 17] {
        let mut record = sections(&[2, 1, 1], &[], &[]);
        record.numbers.truncate(length);
        s.record(record);
    }
    for call in 0..5 {
        s.record(sections(&[call], &[], &[]));
        s.record(sections(&[call, 1, 1, 1], &[], &[]));
        s.record(sections(&[call, 1, 1, 1, 1, 1], &[], &[]));
    }
    for numbers in [[1, wide, 1, 1], [1, 1, wide, 1], [1, 1, 1, wide]] {
        let [time, outbound, inbound, lifetime] = numbers;
        s.record(sections(
            &[0, time, outbound, inbound, lifetime],
            &place,
            &[],
        ));
    }
    s.record(sections(&[0, 1, u64::MAX, u64::MAX, u64::MAX], &place, &[]));
    for length in [0, 1, 15] {
        s.record(sections(&[0, 1, 1, 1, 1], &place[..length], &[]));
    }
    s.record(sections(&[0, 1, 1, 1, 1], &[1; 17], &[]));
    s.record(sections(&[0, 1, 1, 1, 1], &place, &[1]));
    let good = s.text(set_of(&[1])).packet();
    let nonces = s.fresh_nonces();
    s.record(sections(&[1, 2, 384], &good, &nonces));
    s.record(sections(&[1, u64::MAX, 384], &good, &nonces));
    s.record(sections(&[1, 1, 65_536], &good, &nonces));
    s.record(sections(&[1, 1, u64::MAX], &good, &nonces));
    s.record(sections(&[1, 1, 384], &good, &[]));
    s.record(sections(&[1, 1, 384], &good, &nonces[..7]));
    s.record(sections(
        &[1, 1, 384],
        &good,
        &[nonces.clone(), vec![0]].concat(),
    ));
    for length in [63, 65] {
        let mut record = sections(&[1, 1, 384], &good, &[nonces.clone(), vec![0]].concat());
        record.nonces.truncate(length);
        s.record(record);
    }
    for numbers in [&[2, 200][..], &[3, 200], &[4, 200, 320], &[4, 200]] {
        s.record(sections(numbers, &[0], &[]));
        s.record(sections(numbers, &[], &[0]));
        s.record(sections(numbers, &[0], &[0]));
    }
    malformed_ticks(s);
    s.record(Sections {
        numbers: vec![0; 65_535],
        bytes: vec![1; 65_535],
        nonces: vec![2; 65_535],
    });
    s.record(sections(&[1, 1, 384], &good, &nonces));
}

/// A tick without its buffer, with a number too many, and with buffers that are
/// too long; the longest that fits is accepted.
fn malformed_ticks(s: &mut Script) {
    for numbers in [
        &[4, 100][..],
        &[4, 320],
        &[4, 100, 320, 0],
        &[4, 100, 320, 320],
    ] {
        s.record(sections(numbers, &[], &[]));
    }
    for buffer in [65_535, 65_536, 65_537, 65_856, (1 << 32) + 320, u64::MAX] {
        s.record(sections(&[4, 100, buffer], &[], &[]));
    }
    s.record(sections(&[4, 100, 65_536], &[0], &[]));
    for length in [17, 23, 25] {
        let mut record = sections(&[4, 100, 320, 0], &[], &[]);
        record.numbers.truncate(length);
        s.record(record);
    }
}

/// Announcements in which something does not fit.
fn malformed_announcements(s: &mut Script) {
    s.start();
    // An entry has four numbers; three stand around the list.
    for count in 0..=12 {
        let numbers = [&[5][..], &vec![1; count]].concat();
        s.record(sections(&numbers, &number(1), &[]));
    }
    for entries in [1, 9] {
        let mut numbers = vec![5, 256];
        let mut addresses = Vec::new();
        for n in 1..=entries as u8 {
            numbers.extend([0, 0, 60, 0]);
            addresses.extend(number(n));
        }
        numbers.extend([0x1002, 7]);
        let last = numbers.len() - 1;
        // Buffer, inbound SPI, KEYMAT Index and the last entry's numbers: the
        // largest that fits, and larger ones.
        for (place, limit) in [
            (1, 65_535),
            (last - 1, u64::from(u32::MAX)),
            (last, 65_535),
            (last - 5, 255),
            (last - 4, 255),
            (last - 3, u64::from(u32::MAX)),
            (last - 2, 1),
        ] {
            for number in [limit, limit + 1, (1 << 32) + 1, u64::MAX] {
                let mut changed = numbers.clone();
                changed[place] = number;
                s.record(sections(&changed, &addresses, &[]));
            }
        }
        for length in [0, 1, 15, 17, 16 * entries - 1, 16 * entries + 1] {
            let mut bytes = addresses.clone();
            bytes.resize(length, 1);
            s.record(sections(&numbers, &bytes, &[]));
        }
        for bytes in [&addresses[16..], &[addresses.clone(), vec![1; 16]].concat()] {
            s.record(sections(&numbers, bytes, &[]));
        }
        s.record(sections(&numbers, &addresses, &[1]));
        let mut record = sections(&numbers, &addresses, &[]);
        record.nonces.push(0);
        s.record(record);
    }
}

fn refused_starts(s: &mut Script) {
    s.start();
    s.arrive(500);
    let good = StartInputs {
        time: 7,
        outbound: 1,
        inbound: 2,
        lifetime: 1,
        address: number(9),
    };
    let mut starts = vec![good.clone(); 7];
    starts[0].time = TIME_LIMIT;
    starts[1].time = u64::MAX;
    starts[2].outbound = 0;
    starts[3].inbound = 0;
    starts[4].lifetime = 0;
    starts[5].outbound = 0;
    starts[5].time = TIME_LIMIT + 1;
    for text in NOT_LEGAL {
        let address = address(text);
        starts.insert(0, StartInputs { address, ..good });
    }
    for inputs in starts {
        s.call(Call::Start(inputs));
    }
    s.start_at(0, 1);
    s.tick(0);
    s.tick(1);
    s.start_at(TIME_LIMIT - 1, u32::MAX);
    s.list(set_of(&[1, 2]));
}

fn buffers_and_marks(s: &mut Script) {
    s.start();
    for (authentic, buffer) in [
        (true, 0),
        (true, 48),
        (true, 383),
        (false, 384),
        (false, 383),
        (true, 384),
        (true, 385),
        (true, 65_535),
    ] {
        let packet = s.text(set_of(&[1, 2])).packet();
        let nonces = s.fresh_nonces();
        s.call(Call::Message(MessageInputs {
            authentic,
            buffer,
            packet,
            nonces,
        }));
    }
}

/// Every bit of the judged header bytes, and lengths of packets.
fn headers(s: &mut Script) {
    s.start();
    let good = s.text(set_of(&[1])).packet();
    for place in 0..4 {
        for bit in 0..8 {
            // Accepted or Repeated where the bit is not judged.
            let mut packet = good.clone();
            packet[place] ^= 1 << bit;
            s.packet(packet);
        }
    }
    for length in [0, 1, 8, 32, 39, 40, 41, 47, 48, good.len() - 1] {
        s.packet(good[..length].to_vec());
        let mut packet = good[..length].to_vec();
        if length > 1 {
            set_header_length(&mut packet);
        }
        s.packet(packet);
    }
    for more in [1, 4, 8] {
        let mut packet = good.clone();
        packet.resize(good.len() + more, 0);
        s.packet(packet.clone());
        set_header_length(&mut packet);
        s.packet(packet);
    }
}

/// Lengths L of each parameter that is read.
fn parameter_lengths(s: &mut Script) {
    s.start_with(&[1, 2]);
    for kind in [ESP_INFO, LOCATOR_SET, SEQ, ACK, ECHO_RESPONSE_SIGNED] {
        for length in [
            0, 1, 2, 3, 4, 5, 7, 8, 9, 11, 12, 13, 16, 23, 24, 25, 28, 48,
        ] {
            let mut text = s.text(set_of(&[2]));
            text.acks = vec![1];
            text.echo = Some(s.association().outstanding()[0].to_be_bytes().to_vec());
            let mut parameters = text.parameters();
            let wanted = parameters.iter_mut().find(|(other, _)| *other == kind);
            wanted.expect("it is there").1.resize(length, 0);
            if kind == ECHO_RESPONSE_SIGNED && length == 8 {
                continue;
            }
            s.parameters(&parameters);
            if s.association().outstanding().is_empty() {
                s.start_with(&[1, 2]);
            }
        }
    }
    // A last parameter whose length leads past the end.
    for length in [5, 12, 13, 100, 65_535_u16] {
        let mut packet = s.text(set_of(&[1])).packet();
        let place = packet.len() - 6;
        packet[place..place + 2].copy_from_slice(&length.to_be_bytes());
        s.packet(packet);
    }
}

/// One bit of every byte of a Move changed; a new association where the Move is
/// still accepted.
fn every_byte_changed(s: &mut Script) {
    s.start_with(&[1, 2]);
    for place in 0.. {
        let mut text = s.text(preferring(3, set_of(&[1, 3])));
        text.echo = Some(s.nonce_of(1).to_be_bytes().to_vec());
        text.acks = vec![3];
        text.set[0].spi = Some(text.new_spi);
        let mut packet = text.packet();
        if place == packet.len() {
            break;
        }
        packet[place] ^= 1 << (place * 5 % 8);
        s.packet(packet);
        if s.association().peer_id != Some(0) {
            s.start_with(&[1, 2]);
        }
    }
}

/// Types beside the known ones, and all that are stepped over.
fn other_types(s: &mut Script) {
    s.start();
    for kind in [
        1, 63, 67, 191, 195, 387, 451, 703, 707, 895, 899, 959, 963, 61503, 61507, 61695, 61699,
        65535,
    ] {
        s.changed(set_of(&[1]), |text| text.others.push((kind, vec![0; 8])));
    }
    for kind in [
        0, 2, 64, 66, 194, 386, 450, 705, 898, 962, 32768, 61505, 61697, 65534,
    ] {
        s.changed(set_of(&[1]), |text| text.others.push((kind, vec![0; 9])));
    }
    // Twice the same type is not a falling type.
    s.changed(set_of(&[1]), |text| {
        text.others = vec![
            (66, vec![]),
            (66, vec![1]),
            (HOST_ID, vec![]),
            (HOST_ID, vec![2]),
        ];
    });
    // The types of a Move in each order but the right one.
    let right = s.text(set_of(&[1])).parameters();
    for (first, second) in [(0, 1), (0, 2), (1, 2)] {
        let mut parameters = right.clone();
        parameters.swap(first, second);
        s.parameters(&parameters);
    }
}

fn neither_move_nor_reply(s: &mut Script) {
    s.start_with(&[1, 2]);
    let nonce = s.nonce_of(1).to_be_bytes();
    let text = s.text(set_of(&[1, 2]));
    let [info, set, id] = <[Written; 3]>::try_from(text.parameters()).expect("three of them");
    let (response, seen) = (echo_response(&nonce), ack(&[4]));
    let host = (HOST_ID, vec![1; 20]);
    let runs: [&[&Written]; 21] = [
        &[],
        &[&host],
        &[&seen],
        &[&seen, &host],
        &[&set, &id],
        &[&info, &id],
        &[&info, &set],
        &[&info],
        &[&set],
        &[&id],
        &[&info, &info, &set, &id],
        &[&info, &set, &set, &id],
        &[&info, &set, &id, &id],
        &[&info, &set, &id, &response, &response],
        &[&info, &set, &id, &seen, &seen],
        &[&response, &response],
        &[&seen, &seen, &response],
        &[&info, &response],
        &[&set, &response],
        &[&id, &response],
        &[&info, &set, &response],
    ];
    for run in runs {
        let parameters: Vec<Written> = run.iter().map(|one| (*one).clone()).collect();
        s.parameters(&parameters);
    }
    s.parameters(&[seen.clone(), host.clone(), response.clone()]);
    s.start_with(&[1, 2]);
    let response = echo_response(&s.nonce_of(1).to_be_bytes());
    s.parameters(&[seen, host, response, (HIP_MAC, vec![0; 20])]);
}

/// Refusal 6, clause by clause.
fn faulty_sets(s: &mut Script) {
    s.start();
    for count in [0, 9, 10, 8] {
        let numbers: Vec<u8> = (1..=count).collect();
        s.list(set_of(&numbers));
    }
    s.start();
    for text in NOT_LEGAL {
        let mut set = set_of(&[1, 2]);
        set[1].address = address(text);
        s.list(set.clone());
        set[1].spi = Some(s.association().outbound);
        s.list(set);
    }
    for traffic in [3, 4, 128, 255] {
        s.list(with_traffic(traffic, set_of(&[2])));
    }
    s.list(set_of(&[1, 2, 1]));
    let mut twice = set_of(&[3, 3]);
    twice[1].spi = Some(s.association().outbound);
    s.list(twice);
    let mut both = preferring(1, set_of(&[1, 2]));
    both[1].preferred = true;
    s.list(both);
    let mut brief = set_of(&[1, 2]);
    brief[1].lifetime = 0;
    s.list(brief);
    locator_fields(s);
    set_lengths(s);
}

/// Each locator type with each length.
fn locator_fields(s: &mut Script) {
    for kind in [0, 1, 2, 3, 255] {
        for length in [0, 3, 4, 5, 6, 255] {
            let mut body = locator(&listed(2));
            body[1] = kind;
            body[2] = length;
            body.resize(8 + usize::from(length) * 4, 1);
            if kind == 1 && length == 5 {
                continue;
            }
            set_body(s, body.clone());
            // The same length, with too few bytes for it.
            body.truncate(20);
            set_body(s, body);
        }
    }
}

/// Sets that their locators do not fill exactly.
fn set_lengths(s: &mut Script) {
    let (_, two) = locator_set(&set_of(&[1, 2]));
    for length in [1, 4, 7, 8, 12, 23, 25, 31, 32, 44, 47] {
        set_body(s, two[..length].to_vec());
    }
    for more in [1, 4, 7, 8] {
        set_body(s, [two.clone(), vec![0; more]].concat());
    }
}

/// A Move whose LOCATOR_SET has this body.
fn set_body(s: &mut Script, body: Vec<u8>) {
    let mut parameters = s.text(set_of(&[1])).parameters();
    parameters[1] = (LOCATOR_SET, body);
    s.parameters(&parameters);
}

fn update_ids(s: &mut Script) {
    let ids = [
        &[0, 0, 5, 4, 5, 6, 0][..],
        &[1, 0, 1, 2, u32::MAX - 1, u32::MAX, u32::MAX, u32::MAX - 1],
        &[u32::MAX, u32::MAX, 0, 1 << 31],
        &[1 << 31, (1 << 31) - 1, (1 << 31) + 1],
    ];
    for run in ids {
        s.start();
        for (place, id) in run.iter().enumerate() {
            let n = 2 + place as u8;
            s.changed(set_of(&[1, n]), |text| text.update_id = *id);
        }
    }
}

/// Echoes of checks that have ended.
fn late_echoes(s: &mut Script) {
    s.start();
    s.echo(1);
    s.list(set_of(&[1, 2, 3]));
    let (second, third) = (s.nonce_of(1), s.nonce_of(2));
    s.echo(u64::MAX);
    s.echo(second);
    s.echo(second);
    // Retired, then listed again, then its slot given to another address.
    s.list(set_of(&[1, 2]));
    s.echo(third);
    s.changed(set_of(&[1, 2]), |text| {
        text.echo = Some(third.to_be_bytes().to_vec())
    });
    s.list(set_of(&[1, 2, 3]));
    s.echo(third);
    let third = s.nonce_of(2);
    s.list(set_of(&[1, 2, 4]));
    s.echo(third);
    let fourth = s.nonce_of(2);
    s.changed(set_of(&[1, 2, 4]), |text| text.new_spi += 1);
    s.echo(fourth);
    let fourth = s.nonce_of(2);
    s.echo(fourth);
    // Retired by expiry, then listed again.
    s.start();
    s.list(lasting(10, set_of(&[1, 2])));
    let second = s.nonce_of(1);
    s.tick(109);
    s.tick(110);
    s.echo(second);
    s.list(set_of(&[1, 2]));
    s.echo(second);
    let second = s.nonce_of(1);
    s.echo(second);
    s.echo(second);
    // A nonce that was answered before may be offered again.
    s.changed_with(set_of(&[1, 2, 3]), (second..second + 8).collect(), |_| {});
    s.echo(second);
}

/// Echoes of other lengths, and one among many.
fn odd_echoes(s: &mut Script) {
    s.start_with(&[1, 2, 3, 4, 5]);
    let nonce = s.nonce_of(2);
    let bytes = [&nonce.to_be_bytes()[..], &[0; 8]].concat();
    for length in [0, 1, 4, 7, 9, 12, 16] {
        s.parameters(&[echo_response(&bytes[..length])]);
        s.changed(set_of(&[1, 2, 3]), |text| {
            text.echo = Some(bytes[..length].to_vec())
        });
    }
    s.echo(nonce.swap_bytes());
    s.echo(nonce ^ 1 << 63);
    // A Reply takes no nonces, so it may be offered any.
    s.packet_with(
        packet(&[echo_response(&nonce.to_be_bytes())]),
        vec![nonce; 8],
    );
    for slot in [4, 1, 3] {
        let nonce = s.nonce_of(slot);
        s.echo(nonce);
    }
}

fn spis(s: &mut Script) {
    s.start();
    for old_spi in [0, 1, 0x1001, 0x2000, u32::MAX] {
        s.changed(set_of(&[1]), |text| text.old_spi = old_spi);
    }
    s.changed(set_of(&[1]), |text| text.new_spi = 0);
    for spi in [0, 0x1001, 0x2000, 0x2001] {
        s.changed(set_of(&[1, 2]), |text| text.set[1].spi = Some(spi));
    }
    // With another NEW SPI the locator's SPI is that one, not the old.
    for spi in [0x2001, 0x3001] {
        s.changed(set_of(&[1, 2]), |text| {
            text.new_spi = 0x3001;
            text.set[0].spi = Some(spi);
        });
    }
}

fn nonces(s: &mut Script) {
    s.start_with(&[1, 2]);
    let nonce = s.nonce_of(1);
    for (first, second) in [(0, 7), (0, 1), (6, 7), (3, 4)] {
        let mut nonces = s.fresh_nonces();
        nonces[first] = nonces[second];
        s.changed_with(set_of(&[1, 3]), nonces.clone(), |_| {});
        s.changed_with(set_of(&[1]), nonces.clone(), |text| text.update_id = 0);
        s.changed_with(set_of(&[1, 2]), nonces, |_| {});
    }
    for place in [0, 4, 7] {
        let mut nonces = s.fresh_nonces();
        nonces[place] = nonce;
        s.changed_with(set_of(&[1, 3]), nonces.clone(), |_| {});
        s.changed_with(set_of(&[1, 2]), nonces.clone(), |text| {
            text.echo = Some(nonce.to_be_bytes().to_vec());
        });
        s.changed_with(set_of(&[1]), nonces, |text| text.new_spi = 9);
    }
    s.changed_with(
        set_of(&[1, 2, 3]),
        vec![0, u64::MAX, 1 << 63, 1, 2, 3, 4, 5],
        |_| {},
    );
    s.echo(0);
    s.changed_with(
        set_of(&[1, 2, 3, 4]),
        vec![u64::MAX, 0, 6, 7, 8, 9, 10, 11],
        |_| {},
    );
}

/// Messages for which several refusals hold: the one tried first answers.
fn refusals_together(s: &mut Script) {
    s.start_with(&[1, 2]);
    s.list(set_of(&[1, 2]));
    let bad_echo = Some(vec![9; 8]);
    let equal = vec![5; 8];
    let mut good = s.text(set_of(&[1, 2]));
    good.update_id = 1;
    let cut = vec![0; 39];
    for (authentic, buffer, packet) in [
        (false, 383, good.packet()),
        (true, 383, cut.clone()),
        (false, 384, cut),
        (false, 0, vec![]),
    ] {
        s.call(Call::Message(MessageInputs {
            authentic,
            buffer,
            packet,
            nonces: equal.clone(),
        }));
    }
    // Refusal 3 judges all parameters before refusal 4 is tried.
    s.parameters(&[(1, vec![]), (SEQ, vec![0; 5])]);
    s.parameters(&[(1, vec![]), (ACK, vec![])]);
    s.parameters(&[(899, vec![]), (2, vec![])]);
    s.parameters(&[(899, vec![])]);
    s.changed(set_of(&[]), |text| text.others.push((3, vec![])));
    s.parameters(&[esp_info(0, 1, 1), locator_set(&[])]);
    s.parameters(&[locator_set(&set_of(&[1, 1])), seq(0)]);
    s.changed(set_of(&[]), |text| text.update_id = 0);
    s.changed(set_of(&[1, 1]), |text| text.update_id = 1);
    s.changed(set_of(&[]), |text| text.echo = bad_echo.clone());
    for update_id in [0, 1, 2] {
        for (echo, old_spi) in [
            (bad_echo.clone(), 0x2001),
            (None, 4),
            (bad_echo.clone(), 4),
            (None, 0x2001),
        ] {
            s.changed_with(set_of(&[1, 2]), equal.clone(), |text| {
                text.update_id = update_id;
                text.echo = echo;
                text.old_spi = old_spi;
            });
        }
    }
    // A Repeated Move's echo verifies nothing.
    let nonce = s.nonce_of(1);
    s.changed(set_of(&[3]), |text| {
        text.update_id = 1;
        text.echo = Some(nonce.to_be_bytes().to_vec());
        text.new_spi = 4;
    });
    s.echo(nonce);
}

/// Step 1 in a Move, and what the same Move then does to the address.
fn echoes_in_moves(s: &mut Script) {
    for (set, new_spi) in [
        (&[1, 2, 3][..], 0x2001),
        (&[1, 3], 0x2001),
        (&[1, 2, 3], 0x4001),
        (&[1, 3], 0x4001),
        (&[4, 5], 0x2001),
        (&[4, 2], 0x4001),
    ] {
        s.start_with(&[1, 2, 3]);
        let nonce = s.nonce_of(1);
        s.changed(set_of(set), |text| {
            text.echo = Some(nonce.to_be_bytes().to_vec());
            text.new_spi = new_spi;
        });
        s.echo(nonce);
        s.send(100);
    }
}

fn new_spis(s: &mut Script) {
    s.start();
    s.changed(set_of(&[1]), |text| text.new_spi = 1);
    s.changed(set_of(&[1]), |text| text.new_spi = u32::MAX);
    s.start();
    s.changed(set_of(&[2]), |text| text.new_spi = 1);
    // ACTIVE, UNVERIFIED and DEPRECATED, listed and not.
    for set in [&[1, 2, 3][..], &[3], &[2, 4], &[3, 2, 1, 5], &[6, 7]] {
        s.start_with(&[1, 2, 3]);
        s.list(set_of(&[1, 2]));
        s.changed(set_of(set), |text| text.new_spi = 0x3001);
        s.changed(set_of(set), |text| text.new_spi = 0x2001);
    }
    s.start_with(&[1, 2, 3, 4, 5, 6, 7, 8]);
    s.changed(set_of(&[8, 7, 6, 5, 4, 3, 2, 1]), |text| {
        text.new_spi = 0x3001
    });
    s.changed(set_of(&[9]), |text| text.new_spi = 0x2001);
}

/// Step 3: listed addresses that are held.
fn renewals(s: &mut Script) {
    s.start_with(&[1, 2]);
    s.tick(110);
    for lifetime in [50, 60, 1, 2, u32::MAX] {
        for traffic in [0, 1, 2] {
            let mut set = with_traffic(traffic, set_of(&[1, 2]));
            set[0].lifetime = lifetime;
            s.list(set.clone());
            set[1].spi = Some(s.association().outbound);
            s.list(set);
        }
    }
    // DEPRECATED does not turn ACTIVE because it once was.
    s.list(set_of(&[2]));
    s.list(set_of(&[1, 2]));
    let nonce = s.nonce_of(0);
    s.echo(nonce);
    s.list(set_of(&[1, 2]));
    s.list(set_of(&[1]));
    s.list(set_of(&[1]));
    s.list(set_of(&[2, 1]));
}

/// Step 5: where new addresses go.
fn refills(s: &mut Script) {
    s.start_with(&[1, 2, 3]);
    s.list(set_of(&[3]));
    // Slots 0 and 1 are DEPRECATED, and a later entry lists what slot 0 holds.
    s.list(set_of(&[4, 1, 3]));
    s.list(set_of(&[3]));
    s.list(set_of(&[5, 6, 4, 7]));
    s.start_with(&[1, 2, 3, 4, 5, 6, 7, 8]);
    s.list(set_of(&[8, 7, 6, 5, 4, 3, 2]));
    s.list(set_of(&[9, 2, 3, 4, 5, 6, 7, 1]));
    s.list(set_of(&[9, 10, 11, 12, 13, 14, 15, 16]));
    s.list(set_of(&[1, 2, 3, 4, 5, 6, 7, 8]));
    s.list(set_of(&[20]));
    s.list(set_of(&[21]));
    s.list(set_of(&[8, 22, 7, 23, 6]));
    s.list(set_of(&[24, 23, 25, 22, 26, 8, 27, 7]));
}

/// 0 to 8 checks in one message, also from seven held addresses.
fn numbers_of_checks(s: &mut Script) {
    for count in 0..=8 {
        s.start();
        let numbers: Vec<u8> = (2..2 + count).collect();
        if count < 8 {
            s.list(set_of(&[&[1][..], &numbers].concat()));
        } else {
            s.list(set_of(&numbers));
        }
        s.changed(set_of(&numbers), |text| text.new_spi = 0x3001);
    }
}

/// Step 6, and preferences that a refill drops.
fn preferences(s: &mut Script) {
    s.start();
    s.list(set_of(&[2]));
    s.list(set_of(&[2, 3]));
    s.list(preferring(3, set_of(&[2, 3])));
    s.list(preferring(3, set_of(&[2, 3])));
    s.list(preferring(2, set_of(&[2, 3])));
    s.list(set_of(&[3]));
    s.list(set_of(&[3, 2]));
    s.list(set_of(&[3]));
    s.list(set_of(&[4, 3]));
    s.list(preferring(5, set_of(&[5, 3])));
    s.list(preferring(6, set_of(&[6])));
    s.changed(set_of(&[6]), |text| text.new_spi = 4);
    s.changed(preferring(7, set_of(&[7])), |text| text.new_spi = 5);
    s.changed(set_of(&[8]), |text| text.new_spi = 6);
}

/// Legal addresses beside those that are not.
const LEGAL_EDGES: [&str; 20] = [
    "fe00::",
    "fe80::1",
    "feff:ffff:ffff:ffff:ffff:ffff:ffff:ffff",
    "::1",
    "::100",
    "100::",
    "::ffff:223.255.255.255",
    "::ffff:240.0.0.0",
    "::ffff:0.0.0.1",
    "::ffff:1.0.0.0",
    "::ffff:255.255.255.254",
    "::ffff:254.255.255.255",
    "::ffff:127.0.0.1",
    "::fffe:e000:1",
    "::fffe:0:0",
    "::fefe:e000:1",
    "::e000:1",
    "1::ffff:e000:1",
    "::1:ffff:e000:1",
    "::1:ffff:0:0",
];

fn legal_addresses(s: &mut Script) {
    for text in LEGAL_EDGES {
        s.start();
        s.changed(set_of(&[2, 3]), |text_of_move| {
            text_of_move.set[0].address = address(text);
            text_of_move.set[1].address = address(text);
            text_of_move.set[1].address[15] ^= 2;
        });
        s.call(Call::Start(StartInputs {
            time: 5,
            outbound: 1,
            inbound: 1,
            lifetime: 1,
            address: address(text),
        }));
    }
}

/// Bits that are not judged, and parameters that are not used.
fn unjudged_bits(s: &mut Script) {
    s.start();
    let mut packet = s.text(set_of(&[1])).packet();
    packet[3] = 0x2f;
    packet[4..40].fill(0xff);
    // ESP_INFO's reserved bytes.
    packet[44..46].fill(0xff);
    // The locator's reserved bits, and the padding of LOCATOR_SET.
    packet[63] = 0xfe;
    packet[84..88].fill(0xff);
    s.packet(packet);
    for keymat in [0, 1, 255, 256, u16::MAX] {
        s.changed(set_of(&[1]), |text| text.keymat = keymat);
    }
    for ids in [&[7][..], &[1, 2], &[0; 8]] {
        s.changed(set_of(&[1]), |text| text.acks = ids.to_vec());
    }
    s.changed(set_of(&[1]), |text| {
        text.others = vec![
            (HOST_ID, vec![1; 30]),
            (HIP_MAC, vec![2; 32]),
            (HIP_SIGNATURE, vec![3; 65]),
        ];
    });
    // The locator with the reserved bits all set and P too.
    let mut body = locator(&listed(1));
    body[3] = 0xff;
    set_body(s, body);
}

/// Packets that are as long as they may be, and longer.
fn packet_sizes(s: &mut Script) {
    s.start();
    for length in [2032, 2040, 2048, 2056, 2064, 2088, 4096, 65_528] {
        let text = s.text(set_of(&[1, 2]));
        let room = length - text.packet().len();
        s.changed(set_of(&[1, 2]), |text| {
            text.others.push((65_534, vec![1; room - 4]));
        });
    }
    // 2,088 bytes with the header length of 40.
    let mut long = packet(&[(65_534, vec![0; 2044])]);
    long[1] = 4;
    s.packet(long);
}

fn credit(s: &mut Script) {
    s.start_with(&[2]);
    s.send(1);
    s.arrive(1);
    s.send(1);
    s.arrive(1);
    s.send(1);
    s.arrive(999);
    for size in [
        0,
        65_536,
        1 << 32,
        (1 << 32) + 1,
        u64::MAX,
        65_535,
        1000,
        999,
        1,
    ] {
        s.send(size);
    }
    for size in [0, 65_536, 1 << 32, (1 << 32) + 1, u64::MAX] {
        s.arrive(size);
    }
    for _ in 0..16 {
        s.arrive(LARGEST_SIZE);
    }
    let left = CREDIT_LIMIT - s.association().credit;
    s.arrive(left - 1);
    s.arrive(1);
    s.arrive(1);
    s.send(LARGEST_SIZE);
    s.arrive(65_534);
    s.arrive(2);
    s.arrive(LARGEST_SIZE);
    s.send(1);
    s.arrive(576);
    s.send(576);
    s.arrive(1500);
    s.start();
    s.send(LARGEST_SIZE);
    s.send(1);
    s.send(0);
}

/// The four choices of a path, among carriers.
fn paths(s: &mut Script) {
    s.start_with(&[1, 2, 3]);
    s.arrive(5000);
    s.send(10);
    s.list(preferring(3, set_of(&[1, 2, 3])));
    s.send(10);
    let nonce = s.nonce_of(2);
    s.echo(nonce);
    s.send(10);
    // No ACTIVE slot: the preferred one, then the lowest.
    s.changed(set_of(&[1, 2, 3]), |text| text.new_spi = 4);
    s.send(10);
    s.list(set_of(&[1, 2]));
    s.send(10);
    s.send(5000);
    s.tick(160);
    s.send(10);
    s.send(0);
    // Each traffic type in each of three slots, ACTIVE and UNVERIFIED ones.
    for types in [
        [1, 0, 2],
        [1, 2, 0],
        [0, 1, 1],
        [1, 1, 2],
        [1, 1, 1],
        [2, 1, 0],
    ] {
        for preferred in [0, 1, 2, 3] {
            s.start();
            s.arrive(2000);
            let mut set = preferring(preferred, set_of(&[1, 2, 3]));
            for (one, traffic) in set.iter_mut().zip(types) {
                one.traffic = traffic;
            }
            s.list(set.clone());
            s.send(100);
            let nonce = s.nonce_of(1);
            s.echo(nonce);
            s.send(100);
            s.changed(set.clone(), |text| text.new_spi = 4);
            s.send(100);
            s.list(set.drain(1..).collect());
            s.send(100);
        }
    }
}

/// Ticks that hold no ageing, one and several, with and without a rest.
fn ageing(s: &mut Script) {
    // The last are more ageings than 8, 16 and 32 bits count.
    let many = [24, 25, 26, 40, 5 << 8, 5 << 16, 5 << 32];
    for passed in (0..=21).chain(many) {
        ageing_after(s, passed, 100, 1000);
    }
    for (begin, credit) in [
        (0, 1001),
        (3, LARGEST_SIZE),
        ((1 << 32) - 8, 20),
        (TIME_LIMIT - 40, 9),
    ] {
        for passed in [4, 5, 6, 9, 10, 11, 14, 15, 17] {
            ageing_after(s, passed, begin, credit);
        }
    }
}

/// A tick so long after a start, then the rest made up to 4 seconds and to 5,
/// then a tick that is refused.
fn ageing_after(s: &mut Script, passed: u64, begin: u64, credit: u64) {
    s.start_at(begin, 60);
    s.arrive(credit);
    s.tick(begin + passed);
    let aged = s.association().aged;
    s.tick(aged + 4);
    s.tick(aged + 5);
    s.tick(aged + 4);
}

/// Ticks at even steps: what one leaves over counts towards the next ageing.
fn steady_ticks(s: &mut Script) {
    for step in [1, 2, 3, 4, 6, 7, 9, 11, 13] {
        s.start();
        s.arrive(1000);
        for n in 1..=8 {
            s.tick(100 + step * n);
        }
    }
    s.start();
    s.arrive(20);
    for n in 1..=20 {
        s.tick(100 + AGEING_PERIOD * n);
    }
}

/// Several ageings in one tick, each rounded; small credits are soon gone.
fn rounding(s: &mut Script) {
    for credit in [1, 2, 3, 7, 8, 9, 15, 16, 17, 1000, 1001, LARGEST_SIZE] {
        for ageings in [1, 2, 3, 8] {
            s.start();
            s.arrive(credit);
            s.tick(100 + AGEING_PERIOD * ageings);
        }
    }
}

/// The last ageing moves without credit too: what arrives after a silence does
/// not age for it.
fn ageing_without_credit(s: &mut Script) {
    for passed in [4, 5, 9, 10, 17, 40_000] {
        s.start();
        s.tick(100 + passed);
        s.arrive(1000);
        let aged = s.association().aged;
        s.tick(aged + 4);
        s.tick(aged + 5);
    }
}

/// The 93rd ageing from the credit limit leaves 0.
fn ageing_from_the_limit(s: &mut Script) {
    s.start();
    for (ageings, rest) in [
        (1, 0),
        (91, 4),
        (92, 0),
        (92, 4),
        (93, 0),
        (93, 4),
        (94, 0),
        (500, 2),
    ] {
        s.fill();
        let aged = s.association().aged;
        s.tick(aged + AGEING_PERIOD * ageings + rest);
        let aged = s.association().aged;
        s.tick(aged + 5);
        s.tick(aged + 10);
    }
}

/// What may be sent to an UNVERIFIED address before and after a silence. Where
/// the check is given up meanwhile, the address is listed again.
fn silence(s: &mut Script) {
    for passed in [4, 5, 10, 17, 60, 300, 1 << 20] {
        s.start();
        let set = lasting(u32::MAX, set_of(&[2]));
        s.list(set.clone());
        s.arrive(2000);
        s.send(999);
        s.tick(100 + passed);
        s.send(1);
        s.list(set.clone());
        // What could be sent before, what is left, and one less.
        let credit = s.association().credit;
        s.send(1000);
        s.send(credit.max(1));
        s.send(credit.saturating_sub(1).max(1));
        s.arrive(1000);
        s.send(500);
        s.tick(110 + passed);
        s.list(set);
        s.send(500);
        s.send(300);
    }
}

/// Silence up to the last second, in one tick and in two, and calls after it.
fn silence_up_to_the_time_limit(s: &mut Script) {
    let last = TIME_LIMIT - 1;
    for begin in [0, 1, 3] {
        s.start_at(begin, u32::MAX);
        s.fill();
        s.tick(last);
        s.arrive(1000);
        s.list(set_of(&[1, 2]));
        s.send(1000);
        s.send(999);
        s.tick(last);
        s.send(1);
        s.tick(last - 1);
        s.tick(TIME_LIMIT);
    }
    for begin in 0..=5 {
        s.start_at(begin, u32::MAX);
        s.arrive(1000);
        s.tick(last - 5);
        s.arrive(1000);
        s.tick(last - 1);
        s.tick(last);
    }
}

fn expiry(s: &mut Script) {
    for time in [159, 160, 161, 1000] {
        s.start_with(&[1, 2, 3]);
        let mut set = set_of(&[1, 2, 3]);
        set[2].lifetime = 61;
        s.list(set);
        s.tick(time);
        s.tick(time);
        s.tick(time + 1);
        s.list(set_of(&[1]));
        s.list(set_of(&[4, 2]));
    }
}

fn end_of_time(s: &mut Script) {
    s.start_at(TIME_LIMIT - 10, 9);
    s.arrive(100);
    s.list(set_of(&[1, 2]));
    s.changed(set_of(&[1, 2]), |text| text.set[1].lifetime = u32::MAX);
    for time in [
        TIME_LIMIT,
        TIME_LIMIT + 1,
        u64::MAX,
        TIME_LIMIT - 11,
        TIME_LIMIT - 2,
        TIME_LIMIT - 1,
        TIME_LIMIT - 1,
        TIME_LIMIT,
    ] {
        s.tick(time);
    }
    s.list(set_of(&[1, 2]));
    s.send(1);
}

/// Checks with 0 to 72 opaque bytes and many more, some of them repeated.
fn opaque_lengths(s: &mut Script) {
    s.start();
    for length in (0..=72).chain([100, 128, 255, 256, 257, 264, 320, 321, 512, 1024, 1960]) {
        s.check(opaque(length), |_| {});
        if [0, 1, 4, 8, 63, 64, 65].contains(&length) {
            let highest = s.association().peer_id.unwrap_or(0);
            for id in [highest, highest.saturating_sub(1)] {
                s.check(opaque(length), |text| text.update_id = id);
                s.check(vec![0xaa; length], |text| text.update_id = id);
            }
        }
    }
}

/// Checks with and without each parameter that they may hold; lengths L of
/// those that are read.
fn parameters_of_checks(s: &mut Script) {
    s.start();
    for held in 0..32 {
        s.check(opaque(8), |text| {
            if held & 1 == 0 {
                text.info = None;
            }
            if held & 2 == 0 {
                text.acks.clear();
            }
            for (bit, kind) in [(4, HOST_ID), (8, HIP_MAC), (16, HIP_SIGNATURE)] {
                if held & bit != 0 {
                    text.others.push((kind, vec![1; 20]));
                }
            }
        });
    }
    for kind in [0, 66, 896, 898, 962, 65534] {
        s.check(opaque(8), |text| text.others.push((kind, vec![0; 9])));
    }
    for held in 0..4 {
        for step in [0, 1] {
            let id = s.association().peer_id.unwrap_or(0) - step;
            s.check(opaque(8), |text| {
                text.update_id = id;
                text.info = text.info.filter(|_| held & 1 != 0);
                text.acks.truncate(held / 2);
            });
        }
    }
    for kind in [ESP_INFO, SEQ, ACK] {
        for length in [0, 1, 3, 4, 5, 8, 11, 12, 13, 16, 24] {
            let mut parameters = s.check_text(opaque(8)).parameters();
            let wanted = parameters.iter_mut().find(|(other, _)| *other == kind);
            wanted.expect("it is there").1.resize(length, 0);
            s.parameters(&parameters);
        }
    }
    // A last parameter whose length leads past the end, or stops short of it.
    for length in [0, 4, 5, 12, 13, 100, 65_535_u16] {
        let mut packet = s.check_text(opaque(8)).packet();
        let place = packet.len() - 14;
        packet[place..place + 2].copy_from_slice(&length.to_be_bytes());
        s.packet(packet);
    }
    for length in [2040, 2048, 2056] {
        let room = length - s.check_text(opaque(8)).packet().len();
        s.check(opaque(8), |text| {
            text.others.push((65_534, vec![1; room - 4]))
        });
    }
}

/// One bit of every byte of a Check changed.
fn every_byte_of_a_check_changed(s: &mut Script) {
    s.start();
    let length = s.check_text(opaque(8)).packet().len();
    for place in 0..length {
        if s.association().peer_id > Some(1000) {
            s.start();
        }
        let mut packet = s.check_text(opaque(8)).packet();
        packet[place] ^= 1 << (place * 5 % 8);
        s.packet(packet);
    }
}

/// Messages of none of the three kinds for an 897: one too many, or with it
/// what a Check may not hold, or missing.
fn of_no_kind(s: &mut Script) {
    for length in [8, 65] {
        s.start_with(&[1, 2]);
        let nonce = s.nonce_of(1).to_be_bytes();
        let text = s.text(set_of(&[1, 2, 3]));
        let [info, set, id] = <[Written; 3]>::try_from(text.parameters()).expect("three of them");
        let (request, response) = (echo_request(&opaque(length)), echo_response(&nonce));
        let (seen, host) = (ack(&[4]), (HOST_ID, vec![1; 20]));
        let runs: [&[&Written]; 25] = [
            // A Move, a Reply and a Check with one too many.
            &[&info, &set, &id, &request],
            &[&info, &set, &id, &seen, &request, &response],
            &[&request, &response],
            &[&seen, &host, &request, &response],
            &[&id, &request, &request],
            &[&info, &id, &seen, &request, &request],
            // A Check that lacks something.
            &[&request],
            &[&host, &request],
            &[&seen, &request],
            &[&info, &request],
            &[&info, &seen, &request],
            &[&id],
            &[&id, &seen],
            &[&info, &id, &seen],
            // A Check with something that it may not hold.
            &[&id, &id, &request],
            &[&info, &id, &id, &seen, &request],
            &[&set, &id, &request],
            &[&set, &id, &seen, &request],
            &[&set, &request],
            &[&id, &request, &response],
            &[&info, &id, &seen, &request, &response],
            &[&info, &info, &id, &request],
            &[&info, &info, &id, &seen, &request],
            &[&id, &seen, &seen, &request],
            &[&info, &id, &seen, &seen, &request],
        ];
        for run in runs {
            let parameters: Vec<Written> = run.iter().map(|one| (*one).clone()).collect();
            s.parameters(&parameters);
        }
        s.echo(u64::from_be_bytes(nonce));
    }
}

/// The IDs of Moves and Checks are one sequence.
fn ids_of_checks(s: &mut Script) {
    enum Sent {
        Move(u32),
        Check(u32),
    }
    use Sent::{Check, Move};
    let (half, top) = (1 << 31, u32::MAX);
    let runs = [
        &[
            Check(0),
            Check(0),
            Move(0),
            Check(5),
            Check(4),
            Move(4),
            Move(5),
        ][..],
        &[
            Move(3),
            Check(3),
            Check(2),
            Check(4),
            Move(3),
            Move(5),
            Check(4),
        ],
        &[Check(1), Check(0), Check(top - 1), Check(top)],
        &[Check(top), Check(top), Move(top), Check(0), Move(0)],
        &[Move(top), Check(top), Check(half)],
        &[Check(half), Check(half - 1), Check(half + 1)],
    ];
    for run in runs {
        s.start();
        for (place, sent) in run.iter().enumerate() {
            let n = 2 + place as u8;
            match sent {
                Move(id) => s.changed(set_of(&[1, n]), |text| text.update_id = *id),
                Check(id) => s.check(vec![n; 8], |text| text.update_id = *id),
            }
        }
    }
}

/// What a Check holds or comes with and is not judged.
fn unjudged_in_checks(s: &mut Script) {
    s.start_with(&[1, 2]);
    let outbound = s.association().outbound;
    for info in [
        (0, 0, 0),
        (0, outbound, 0),
        (0, 0, outbound),
        (u16::MAX, outbound, outbound),
        (1, outbound, 0x3001),
        (u16::MAX, u32::MAX, u32::MAX),
    ] {
        s.check(opaque(8), |text| text.info = Some(info));
    }
    for ids in [&[7][..], &[1, 2], &[0; 8]] {
        s.check(opaque(8), |text| text.acks = ids.to_vec());
    }
    let mut packet = s.check_text(opaque(9)).packet();
    packet[3] = 0x2f;
    packet[4..40].fill(0xff);
    // ESP_INFO's reserved bytes, and the padding of 897.
    packet[44..46].fill(0xff);
    let padding = packet.len() - 3;
    packet[padding..].fill(0xff);
    s.packet(packet);
    // A Check takes no nonces, so these may be any.
    let nonce = s.nonce_of(1);
    for nonces in [vec![0; 8], vec![nonce; 8]] {
        let packet = s.check_text(opaque(8)).packet();
        s.packet_with(packet, nonces);
    }
    // A nonce of ours that the peer sends as its own verifies nothing.
    for _ in 0..2 {
        s.check(nonce.to_be_bytes().to_vec(), |_| {});
    }
    s.echo(nonce);
    // Nothing else of a Check is stored: payload goes where it went.
    s.send(100);
}

/// Checks that are refused, also for several reasons at once.
fn refused_checks(s: &mut Script) {
    s.start_with(&[1, 2]);
    for length in [8, 64, 65] {
        for (authentic, buffer) in [
            (true, 0),
            (true, 16),
            (true, 79),
            (true, 80),
            (true, 383),
            (false, 384),
            (false, 80),
            (true, 384),
            (true, 385),
            (true, 65_535),
        ] {
            let packet = s.check_text(opaque(length)).packet();
            let nonces = s.fresh_nonces();
            s.call(Call::Message(MessageInputs {
                authentic,
                buffer,
                packet,
                nonces,
            }));
        }
        let highest = s.association().peer_id.unwrap_or(0);
        for id in [highest - 1, highest, highest + 1] {
            // Nothing else wrong, an odd type, a wrong length, a falling type.
            for (kind, body) in [(66, 4), (3, 4), (899, 0), (ACK, 6), (SEQ, 4)] {
                let mut parameters = s.check_text(opaque(length)).parameters();
                parameters[1] = seq(id);
                parameters.push((kind, vec![0; body]));
                if kind != SEQ {
                    parameters.sort_by_key(|(kind, _)| *kind);
                }
                s.parameters(&parameters);
            }
        }
    }
}

/// Lists of 0 to 10 entries of type 0, of type 1 and of both, into a buffer
/// that is exact and one that is a byte short; then much longer lists.
fn lengths_of_lists(s: &mut Script) {
    s.start();
    for types in [[0, 0], [1, 1], [0, 1]] {
        for count in 0..=10 {
            let numbers: Vec<u8> = (1..=count).collect();
            let mut list = list_of(&numbers);
            for (place, entry) in list.iter_mut().enumerate() {
                entry.locator_type = types[place % 2];
            }
            s.announce(list.clone(), |inputs| inputs.buffer -= 1);
            s.announce(list, |inputs| inputs.inbound += 1);
        }
    }
    // The last is the longest list that a record can hold.
    for count in [257, 264, 2046] {
        let long = |n: u16| {
            let mut entry = entry(0);
            entry.address[14..].copy_from_slice(&n.to_be_bytes());
            entry
        };
        let list: Vec<Entry> = (1..=count).map(long).collect();
        s.announce(list, |inputs| inputs.buffer = 65_535);
    }
}

/// What may stand in an announcement.
fn announced_values(s: &mut Script) {
    s.start();
    for buffer in [0, 1, 55, 56, 57, 255, 256, 65_535] {
        s.announce(list_of(&[1]), |inputs| inputs.buffer = buffer);
    }
    for buffer in [0, 56, 255, 256, 257, 65_535] {
        let mut list = list_of(&[1, 2, 3, 4, 5, 6, 7, 8]);
        list.iter_mut().for_each(|entry| entry.locator_type = 1);
        s.announce(list, |inputs| inputs.buffer = buffer);
    }
    for inbound in [1, 2, 0x1001, 0x1001, 0x2001, 1 << 31, u32::MAX, 0x1001] {
        for locator_type in [0, 1] {
            let mut list = list_of(&[9]);
            list[0].locator_type = locator_type;
            s.announce(list, |inputs| inputs.inbound = inbound);
        }
    }
    for keymat in [0, 1, 255, 256, u16::MAX] {
        s.announce(list_of(&[9]), |inputs| inputs.keymat = keymat);
    }
    for lifetime in [1, 255, 256, 1 << 31, u32::MAX] {
        s.announce(list_of(&[9, 8]), |inputs| {
            inputs.list[1].lifetime = lifetime
        });
    }
    for traffic in [0, 1, 2] {
        for preferred in 0..3 {
            let mut list = list_of(&[7, 8]);
            list[1].locator_type = 1;
            list[1].traffic = traffic;
            if let Some(entry) = list.get_mut(preferred) {
                entry.preferred = true;
            }
            s.announce(list, |_| {});
        }
    }
    for text in LEGAL_EDGES {
        let mut list = list_of(&[1, 2, 3]);
        list[1].address = address(text);
        list[2].address = address(text);
        list[2].address[15] ^= 2;
        list[2].locator_type = 1;
        s.announce(list, |_| {});
    }
}

/// Refusal 18, clause by clause.
fn faulty_lists(s: &mut Script) {
    s.start();
    let mut faulty = Vec::new();
    for locator_type in [0, 1] {
        let good = Entry {
            locator_type,
            ..entry(8)
        };
        for traffic in [3, 4, 128, 255] {
            faulty.push(Entry {
                traffic,
                ..good.clone()
            });
        }
        faulty.push(Entry {
            lifetime: 0,
            ..good.clone()
        });
        for text in NOT_LEGAL {
            faulty.push(Entry {
                address: address(text),
                ..good.clone()
            });
        }
    }
    for locator_type in [2, 3, 128, 255] {
        faulty.push(Entry {
            locator_type,
            ..entry(8)
        });
    }
    for entry in faulty {
        s.announce(vec![entry.clone()], |_| {});
        let mut list = list_of(&[1, 2, 3, 4, 5, 6, 7]);
        list.push(entry);
        s.announce(list, |_| {});
    }
    for (first, second) in [(0, 1), (0, 7), (6, 7)] {
        let good = list_of(&[1, 2, 3, 4, 5, 6, 7, 8]);
        for locator_type in [0, 1] {
            let mut list = good.clone();
            list[second].address = list[first].address;
            list[second].locator_type = locator_type;
            s.announce(list, |_| {});
        }
        let mut list = good;
        list[first].preferred = true;
        list[second].preferred = true;
        s.announce(list, |_| {});
    }
}

/// Announcements that are refused, also for several reasons at once.
fn refused_announcements(s: &mut Script) {
    s.start();
    let nine = list_of(&[1, 2, 3, 4, 5, 6, 7, 8, 9]);
    let mut faulty = list_of(&[1]);
    faulty[0].lifetime = 0;
    // A ninth entry that refusal 18 would find fault with.
    let mut both = nine.clone();
    both[8].traffic = 3;
    for list in [list_of(&[1]), vec![], nine, both, faulty] {
        for inbound in [0x1002, 0] {
            for short in [0, 1, 56] {
                s.announce(list.clone(), |inputs| {
                    inputs.inbound = inbound;
                    inputs.buffer = inputs.buffer.saturating_sub(short);
                });
            }
        }
    }
}

/// Announcements among other calls: checks show the new inbound SPI, own IDs
/// are one sequence, all else stays.
fn announcements_between(s: &mut Script) {
    s.start_with(&[1, 2]);
    s.arrive(1000);
    let nonce = s.nonce_of(1);
    s.announce(list_of(&[1, 2, 9]), |inputs| inputs.inbound = 0x5001);
    s.list(set_of(&[1, 2, 3]));
    s.echo(nonce);
    s.announce(list_of(&[9]), |inputs| inputs.inbound = 0x5002);
    s.announce(list_of(&[9]), |_| {});
    s.announce(list_of(&[9]), |inputs| inputs.inbound = 0);
    s.changed(set_of(&[1, 4, 5]), |text| text.new_spi = 0x3001);
    s.check(opaque(8), |_| {});
    s.announce(list_of(&[9]), |inputs| inputs.inbound = 0x1001);
    s.tick(110);
    s.list(set_of(&[6]));
    s.send(100);
    s.tick(200);
    s.announce(list_of(&[9]), |_| {});
    s.start();
    s.list(set_of(&[2]));
}

/// Buffers of ticks at which a resend, an ageing, the end of a check or an
/// expiry is due, and of ticks that are refused anyway.
fn buffers_of_ticks(s: &mut Script) {
    for buffer in [0, 40, 79, 80, 319, 320, 321, 65_535] {
        s.start_waiting(&[1, 2, 3]);
        s.arrive(1000);
        for time in [100, 101, 101, 99, TIME_LIMIT, u64::MAX, 105, 116, 100_100] {
            s.tick_with(time, buffer);
        }
        // What a refused tick left to be done is done now.
        s.tick(116);
    }
    // Eight resends fill the shortest buffer.
    s.start_at(100, 60);
    s.list(long_set(&[2, 3, 4, 5, 6, 7, 8, 9]));
    for buffer in [0, 280, 319, 320, 320] {
        s.tick_with(101, buffer);
    }
    s.tick_with(102, 65_535);
    // Refused ticks before a moment, in it and after it.
    s.start_waiting(&[1, 2]);
    for time in [100, 101, 102, 103, 104, 108, 115] {
        s.tick_with(time, 319);
        s.tick_with(99, 320);
        s.tick_with(time, 320);
    }
    s.tick_with(116, 319);
    let nonce = s.nonce_of(1);
    s.echo(nonce);
    s.tick(116);
}

/// Seconds after issue beside the moments of resending and the end.
const AGES: [u64; 12] = [0, 1, 2, 3, 4, 5, 7, 8, 9, 15, 16, 17];

/// Ticks at each second, then at each two of the seconds above.
fn seconds_after_issue(s: &mut Script) {
    s.start_waiting(&[1, 2]);
    for age in 0..=18 {
        s.tick(100 + age);
    }
    s.start_waiting(&[1, 2]);
    for age in AGES {
        s.tick(100 + age);
        s.tick(100 + age);
    }
    for (place, first) in AGES.iter().enumerate() {
        for second in &AGES[place..] {
            s.start_waiting(&[1, 2]);
            s.tick(100 + first);
            s.tick(100 + second);
        }
    }
}

/// Checks that no tick met in time. As 8 or 16 bits some ages would be short.
fn long_after_issue(s: &mut Script) {
    for age in [
        18, 20, 24, 31, 32, 48, 255, 256, 257, 260, 264, 271, 272, 65_535, 65_536, 65_537, 65_544,
        65_551, 65_552, 99_999, 100_000,
    ] {
        s.start_waiting(&[1, 2]);
        let nonce = s.nonce_of(1);
        s.tick(100 + age);
        s.echo(nonce);
    }
    // The same after an early resend.
    for age in [16, 18, 256 + 8, 65_536 + 8] {
        s.start_waiting(&[1, 2]);
        s.tick(101);
        s.tick(100 + age);
    }
}

/// Checks issued at the first second, about 2^32, and up to the last second.
fn resends_at_the_ends_of_time(s: &mut Script) {
    let last = TIME_LIMIT - 1;
    for begin in [0, (1 << 32) - 5, last - 16, last - 8, last - 1] {
        for ages in [&[1, 2, 4, 8, 15, 16][..], &[3], &[16]] {
            s.start_at(begin, u32::MAX);
            s.list(lasting(u32::MAX, set_of(&[1, 2])));
            s.tick(begin);
            for age in ages {
                s.tick(begin + age);
            }
        }
    }
}

/// One of two checks is answered between resends: the other goes on.
fn answers_between_resends(s: &mut Script) {
    for age in [0, 1, 2, 3, 4, 7, 8, 15] {
        for in_a_move in [false, true] {
            s.start_waiting(&[1, 2, 3]);
            s.tick(100 + age);
            let nonce = s.nonce_of(1);
            if in_a_move {
                s.changed(long_set(&[1, 2, 3]), |text| {
                    text.echo = Some(nonce.to_be_bytes().to_vec());
                });
            } else {
                s.echo(nonce);
            }
            s.echo(nonce);
            for later in [1, 2, 4, 8, 15, 16] {
                if later > age {
                    s.tick(100 + later);
                }
            }
        }
    }
    // Answered, retired and listed again: a new check with a new Update ID.
    s.start_waiting(&[1, 2]);
    s.tick(102);
    let nonce = s.nonce_of(1);
    s.echo(nonce);
    s.list(long_set(&[1]));
    s.list(long_set(&[1, 2]));
    for time in [103, 104, 106, 108, 116, 117, 118] {
        s.tick(time);
    }
}

/// Moves that list the address of a check under way: it keeps its issue time and
/// its count.
fn kept_checks(s: &mut Script) {
    for kept in [0, 1, 3, 4, 8, 15] {
        for next in AGES.into_iter().filter(|next| *next >= kept) {
            s.start_waiting(&[1, 2]);
            s.tick(100 + kept);
            s.list(with_traffic(2, lasting(200_000, set_of(&[2, 1]))));
            s.tick(100 + next);
        }
    }
    // Kept at every second.
    s.start_waiting(&[1, 2, 3]);
    for time in 100..=117 {
        s.list(long_set(&[1, 2, 3]));
        s.tick(time);
        s.list(long_set(&[3, 2, 1]));
    }
    // A lifetime that ends before the check does, and one that outlasts the first.
    for (first, second) in [(3, 100), (100, 1), (100, 2), (100, 13), (100, 14), (15, 14)] {
        s.start();
        s.list(lasting(first, set_of(&[1, 2])));
        s.tick(102);
        s.list(lasting(second, set_of(&[1, 2])));
        for time in [103, 104, 108, 114, 115, 116] {
            s.tick(time);
        }
    }
    // A Repeated Move, a Check and messages that are refused keep it too.
    s.start_waiting(&[1, 2]);
    s.tick(102);
    s.changed(long_set(&[1]), |text| text.update_id = 0);
    s.check(opaque(8), |_| {});
    s.changed(long_set(&[1]), |text| text.old_spi += 1);
    s.echo(u64::MAX);
    for time in [103, 104, 108, 116] {
        s.tick(time);
    }
}

/// A resend shows the inbound SPI now held, and its first Update ID.
fn announcements_before_resends(s: &mut Script) {
    for when in [0, 1, 2, 4, 7, 8] {
        s.start_waiting(&[1, 2]);
        for age in [0, 1, 2, 4, 7, 8, 16] {
            s.tick(100 + age);
            if age == when {
                s.announce(list_of(&[9]), |inputs| inputs.inbound = 0x5001);
            }
        }
    }
    // Another at each moment, then the first again.
    s.start_waiting(&[1, 2]);
    for (age, inbound) in [(0, 1), (1, u32::MAX), (2, 0x5001), (4, 0x1001), (8, 7)] {
        s.tick(100 + age);
        s.announce(list_of(&[9]), |inputs| inputs.inbound = inbound);
    }
    s.tick(115);
    s.tick(116);
    // Announcements of the same SPI, and refused ones.
    s.start_waiting(&[1, 2]);
    for inbound in [0x1001, 0] {
        s.announce(list_of(&[9]), |inputs| inputs.inbound = inbound);
    }
    s.announce(list_of(&[9]), |inputs| {
        inputs.inbound = 0x5001;
        inputs.buffer = 0;
    });
    s.tick(101);
    // Checks of before and after an announcement in one tick.
    s.announce(list_of(&[9]), |inputs| inputs.inbound = 0x5001);
    s.list(long_set(&[1, 2, 3]));
    s.announce(list_of(&[9]), |inputs| inputs.inbound = 0x5002);
    for time in [102, 104, 108, 109, 116, 117] {
        s.tick(time);
    }
}

/// Lifetimes that end before a check is given up, with it, and after it.
fn expiry_of_checks(s: &mut Script) {
    for lifetime in [1, 2, 3, 4, 8, 15, 16, 17] {
        let end = 100 + u64::from(lifetime);
        for time in [end - 1, end, end + 1] {
            s.start_at(100, 100_000);
            s.list(lasting(lifetime, set_of(&[1, 2])));
            let nonce = s.nonce_of(1);
            s.tick(time);
            s.tick(end);
            s.echo(nonce);
        }
        // After the resends before.
        s.start_at(100, 100_000);
        s.list(lasting(lifetime, set_of(&[1, 2])));
        for time in [101, 102, 104, 108, 115, 116] {
            s.tick(time);
        }
    }
}

/// Checks that are given up, late answers to them, and what the next Moves do
/// with the address and its slot.
fn checks_given_up(s: &mut Script) {
    for end in [116, 117, 130] {
        s.start_waiting(&[1, 2]);
        let first = s.nonce_of(1);
        s.tick(108);
        s.tick(end);
        s.echo(first);
        s.changed(long_set(&[1, 2]), |text| {
            text.echo = Some(first.to_be_bytes().to_vec());
        });
        s.list(long_set(&[1, 2]));
        s.echo(first);
        for age in [1, 2, 4] {
            s.tick(end + age);
        }
        let second = s.nonce_of(1);
        s.tick(end + 16);
        s.echo(second);
        s.list(long_set(&[2]));
        s.echo(second);
        s.tick(end + 17);
        let third = s.nonce_of(1);
        s.echo(third);
        s.tick(end + 32);
        // Another address in the slot of one that was given up.
        s.list(long_set(&[1, 2]));
        s.tick(end + 48);
        let slot = s.association().slot_of(&number(1)).expect("it is held");
        s.list(long_set(&[2, 7]));
        s.tick(end + 49);
        let fourth = s.nonce_of(slot);
        s.echo(first);
        s.echo(fourth);
    }
    // Several at once, then a new SPI for some of them.
    s.start_waiting(&[1, 2, 3, 4]);
    s.tick(104);
    s.tick(116);
    s.changed(long_set(&[1, 2, 5]), |text| text.new_spi = 0x3001);
    s.tick(117);
    // The only address: nothing carries payload until it is listed again.
    for traffic in [0, 1, 2] {
        s.start();
        let set = with_traffic(traffic, long_set(&[2]));
        s.list(set.clone());
        s.arrive(5000);
        s.send(100);
        s.tick(115);
        s.send(100);
        s.tick(116);
        s.send(100);
        s.list(set.clone());
        s.send(100);
        s.tick(117);
    }
}

/// 0 to 8 checks in one tick.
fn numbers_of_resends(s: &mut Script) {
    for count in 0..=8 {
        s.start_at(100, 100_000);
        let numbers: Vec<u8> = (2..2 + count).collect();
        if count < 8 {
            s.list(long_set(&[&[1][..], &numbers].concat()));
        } else {
            s.list(long_set(&numbers));
        }
        for time in [101, 103, 105, 115, 116] {
            s.tick(time);
        }
    }
}

/// Slots that send nothing between those that do; checks of different age.
fn slots_between(s: &mut Script) {
    // ACTIVE, then DEPRECATED, then with later checks.
    s.start_waiting(&[1, 2, 3, 4, 5, 6, 7, 8]);
    let nonce = s.nonce_of(2);
    s.echo(nonce);
    s.tick(101);
    s.list(long_set(&[8, 7, 6, 4, 3, 2, 1]));
    s.tick(102);
    s.list(long_set(&[1, 2, 3, 4, 5, 6, 7, 8]));
    for time in 103..=105 {
        s.tick(time);
    }
    s.list(long_set(&[1, 2, 3, 4, 5, 7, 8]));
    s.list(long_set(&[1, 2, 3, 4, 5, 6, 7, 8]));
    for time in 106..=121 {
        s.tick(time);
    }
    // Given up between two that are issued later.
    s.start_waiting(&[1, 2, 3, 4]);
    s.tick(108);
    s.list(long_set(&[1, 3]));
    s.list(long_set(&[1, 2, 3, 4]));
    s.tick(116);
    // Expired between, ACTIVE and UNVERIFIED.
    for verified in [false, true] {
        s.start_at(100, 100_000);
        let mut set = long_set(&[1, 2, 3, 4]);
        set[2].lifetime = 4;
        s.list(set);
        if verified {
            let nonce = s.nonce_of(2);
            s.echo(nonce);
        }
        s.tick(103);
        s.tick(104);
    }
    // Slot order is not the order of issue.
    s.start_waiting(&[1, 2, 3, 4]);
    s.list(long_set(&[1, 3, 4]));
    s.list(long_set(&[4, 2, 3, 1]));
    s.tick(101);
    s.list(long_set(&[2, 3, 4]));
    s.list(long_set(&[3, 1, 2, 4]));
    for time in [102, 104, 108, 116, 117] {
        s.tick(time);
    }
}

/// A new SPI retires the checks under way; those that the same Move gives have
/// issue times of their own.
fn resends_after_a_new_spi(s: &mut Script) {
    for age in [0, 1, 3, 7, 9, 15] {
        s.start_waiting(&[1, 2]);
        let nonce = s.nonce_of(1);
        s.tick(100 + age);
        s.changed(long_set(&[1, 2]), |text| text.new_spi = 0x3001);
        s.echo(nonce);
        for later in [1, 2, 3, 8, 16] {
            s.tick(100 + age + later);
        }
    }
}

/// Nothing is sent again for checks that ended otherwise, nor for those of an
/// association before this one.
fn checks_that_are_gone(s: &mut Script) {
    for set in [&[1][..], &[1, 4], &[4, 5, 6]] {
        s.start_waiting(&[1, 2, 3]);
        s.tick(101);
        s.list(long_set(set));
        for time in [102, 104, 108, 116, 117] {
            s.tick(time);
        }
    }
    s.start_waiting(&[1, 2]);
    s.start();
    for time in [101, 102, 116] {
        s.tick(time);
    }
    // A start that is refused leaves the check.
    s.start_waiting(&[1, 2]);
    s.start_at(TIME_LIMIT, 60);
    s.tick(101);
    s.start_at(100, 0);
    s.tick(116);
}
