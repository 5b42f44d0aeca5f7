//! Random traces. The association is run alongside, so that most calls are
//! accepted and the others fail close to the edge.

use std::io::{self, Write};
use std::net::Ipv6Addr;

use crate::ageing::{aged_credit, AGEING_PERIOD};
use crate::announcement::bytes_to_write;
use crate::association::{Association, Locator, CREDIT_LIMIT, LARGEST_SIZE, TIME_LIMIT};
use crate::compose::{
    ack, echo_request, echo_response, esp_info, packet, record_of, sections, seq,
    set_header_length, CheckText, MoveText, Tracer, Written,
};
use crate::own_check::OwnCheck;
use crate::packet::{
    bytes_in_all, Listed, ACK, ECHO_REQUEST_SIGNED, ECHO_RESPONSE_SIGNED, ESP_INFO, HEADER_LENGTH,
    HIP_MAC, HIP_SIGNATURE, HOST_ID, LOCATOR_SET, SEQ,
};
use crate::record::{AnnouncementInputs, Call, Entry, MessageInputs, Sections, StartInputs};
use crate::replay::Answer;
use crate::tick::SMALLEST_BUFFER;

/// Writes a random trace; the same seed gives the same bytes.
pub fn write_trace(seed: u64, calls: u64, out: &mut impl Write) -> io::Result<()> {
    let mut generator = Generator::new(seed);
    for _ in 0..calls {
        generator.one_record();
        out.write_all(&std::mem::take(&mut generator.tracer.bytes))?;
    }
    Ok(())
}

/// The splitmix64 generator.
pub struct Random(pub u64);

impl Random {
    fn number(&mut self) -> u64 {
        self.0 = self.0.wrapping_add(0x9e37_79b9_7f4a_7c15);
        let mut z = self.0;
        z = (z ^ (z >> 30)).wrapping_mul(0xbf58_476d_1ce4_e5b9);
        z = (z ^ (z >> 27)).wrapping_mul(0x94d0_49bb_1331_11eb);
        z ^ (z >> 31)
    }

    pub fn below(&mut self, limit: u64) -> u64 {
        self.number() % limit
    }

    fn index(&mut self, length: usize) -> usize {
        self.below(length as u64) as usize
    }

    fn byte(&mut self) -> u8 {
        self.number() as u8
    }

    fn percent(&mut self, chance: u64) -> bool {
        self.below(100) < chance
    }

    pub fn pick<T: Clone>(&mut self, choices: &[T]) -> T {
        choices[self.index(choices.len())].clone()
    }

    fn shuffle<T>(&mut self, items: &mut [T]) {
        for last in (1..items.len()).rev() {
            items.swap(last, self.index(last + 1));
        }
    }
}

const LEGAL: [&str; 26] = [
    "2001:db8::1",
    "2001:db8::2",
    "2001:db8::3",
    "2001:db8::4",
    "2001:db8::5",
    "2001:db8::6",
    "2001:db8::7",
    "2001:db8::8",
    "2001:db8::9",
    "2001:db8:1::1",
    "2001:db8:1::2",
    "fe80::1",
    "feff:ffff:ffff:ffff:ffff:ffff:ffff:ffff",
    "::1",
    "::2",
    "100::",
    "::ffff:223.255.255.255",
    "::ffff:240.0.0.0",
    "::ffff:0.0.0.1",
    "::ffff:255.255.255.254",
    "::ffff:254.255.255.255",
    "::ffff:192.0.2.1",
    "::fffe:e000:1",
    "::fffe:0:0",
    "1::ffff:e000:1",
    "::1:ffff:ffff:ffff",
];

pub const NOT_LEGAL: [&str; 9] = [
    "ff02::1",
    "ff00::",
    "ffff:ffff:ffff:ffff:ffff:ffff:ffff:ffff",
    "::",
    "::ffff:224.0.0.0",
    "::ffff:231.1.2.3",
    "::ffff:239.255.255.255",
    "::ffff:0.0.0.0",
    "::ffff:255.255.255.255",
];

pub fn address(text: &str) -> [u8; 16] {
    let address: Ipv6Addr = text.parse().expect("an address");
    address.octets()
}

/// How the calls on one association are spread.
struct Style {
    /// Addresses that its Moves list; few, so that they come back.
    pool: Vec<[u8; 16]>,
    /// Percentage of messages that are Checks.
    checks: u64,
    /// Percentage of the others that answer a check.
    answers: u64,
    /// Percentage of Moves with another SPI.
    new_spis: u64,
    /// Percentage of messages and announcements that something is wrong with.
    spoilt: u64,
    /// Percentage of arrivals that begin a run of large ones.
    bursts: u64,
    /// Percentage of calls that are ticks, beside those that any style has.
    ticks: u64,
    first_id: u32,
    /// Calls until the next start.
    calls: u64,
}

/// A Move or Reply before its bytes are written.
struct Draft {
    text: MoveText,
    /// A Reply: only the echo response and the ACK are written.
    reply: bool,
    authentic: bool,
    buffer: u64,
    nonces: Vec<u64>,
}

/// A message whose bytes are to be written.
struct Composed {
    parameters: Vec<Written>,
    authentic: bool,
    buffer: u64,
    nonces: Vec<u64>,
}

struct Generator {
    random: Random,
    tracer: Tracer,
    style: Style,
    /// Nonces that once were outstanding.
    past_nonces: Vec<u64>,
    /// Those of them whose check the latest change ended.
    just_ended: Vec<u64>,
    past_packets: Vec<Vec<u8>>,
    /// Large arrivals still to come, to reach the credit limit.
    burst: u64,
}

impl Generator {
    fn new(seed: u64) -> Generator {
        let mut random = Random(seed);
        let style = Style::new(&mut random);
        Generator {
            random,
            tracer: Tracer::default(),
            style,
            past_nonces: Vec::new(),
            just_ended: Vec::new(),
            past_packets: Vec::new(),
            burst: 0,
        }
    }

    fn one_record(&mut self) {
        let before = self.outstanding();
        let record = self.choose_record();
        let answer = self.tracer.record(&record);
        self.style.calls = self.style.calls.saturating_sub(1);
        if answer == Answer::Start(Ok(())) {
            self.past_nonces.clear();
            self.just_ended.clear();
            self.past_packets.clear();
            self.burst = 0;
        }
        let association = self.tracer.player.association.as_ref();
        if association.is_some_and(|a| a.time + 400 >= TIME_LIMIT) {
            // The clock soon stands still.
            self.style.calls = self.style.calls.min(200);
        }
        self.remember_nonces(&before);
    }

    fn outstanding(&self) -> Vec<u64> {
        let association = self.tracer.player.association.as_ref();
        association.map_or(Vec::new(), Association::outstanding)
    }

    fn remember_nonces(&mut self, before: &[u64]) {
        let now = self.outstanding();
        let ended = before.iter().filter(|nonce| !now.contains(nonce));
        let ended: Vec<u64> = ended.copied().collect();
        if !ended.is_empty() {
            self.just_ended = ended;
        }
        for nonce in now {
            if !self.past_nonces.contains(&nonce) {
                self.past_nonces.push(nonce);
            }
        }
        if self.past_nonces.len() > 64 {
            self.past_nonces.remove(0);
        }
    }

    fn choose_record(&mut self) -> Sections {
        let Some(association) = self.tracer.player.association.clone() else {
            return self.without_association();
        };
        if self.style.calls == 0 {
            self.style = Style::new(&mut self.random);
            return record_of(&self.start());
        }
        if self.burst > 0 {
            self.burst -= 1;
            return record_of(&self.large_arrival(&association));
        }
        if self.random.percent(self.style.ticks) {
            return record_of(&self.tick(&association));
        }
        let call = match self.random.below(100) {
            0..=2 => return self.malformed(),
            3 => self.refused_start(),
            4..=50 => self.message(&association),
            51..=56 => self.announcement(&association),
            57..=69 => self.arrival(&association),
            70..=85 => self.send(&association),
            _ => self.tick(&association),
        };
        record_of(&call)
    }

    fn without_association(&mut self) -> Sections {
        let call = match self.random.below(9) {
            0 => return self.malformed(),
            1 => self.refused_start(),
            2 => Call::Arrival { size: 1 },
            3 => Call::Send { size: 0 },
            4 => Call::Tick {
                time: 100,
                buffer: self.random.pick(&[0, 320]),
            },
            5 => Call::Message(MessageInputs {
                authentic: true,
                buffer: 384,
                packet: packet(&[]),
                nonces: vec![0; 8],
            }),
            6 => Call::Announcement(AnnouncementInputs {
                buffer: 256,
                list: Vec::new(),
                inbound: 1,
                keymat: 0,
            }),
            _ => self.start(),
        };
        record_of(&call)
    }

    fn start(&mut self) -> Call {
        let r = &mut self.random;
        let time = match r.below(10) {
            0 => 0,
            1 => TIME_LIMIT - 1,
            2 => TIME_LIMIT - 1 - r.below(400),
            _ => r.below(1_000_000),
        };
        Call::Start(StartInputs {
            time,
            outbound: r.pick(&[1, 2, 0x2001, u32::MAX]),
            inbound: r.pick(&[1, 0x1001, u32::MAX]),
            lifetime: lifetime(r),
            address: r.pick(&self.style.pool),
        })
    }

    fn refused_start(&mut self) -> Call {
        let Call::Start(mut inputs) = self.start() else {
            unreachable!("a start");
        };
        let r = &mut self.random;
        match r.below(5) {
            0 => inputs.time = r.pick(&[TIME_LIMIT, TIME_LIMIT + 1, u64::MAX]),
            1 => inputs.outbound = 0,
            2 => inputs.inbound = 0,
            3 => inputs.lifetime = 0,
            _ => inputs.address = address(r.pick(&NOT_LEGAL)),
        }
        Call::Start(inputs)
    }

    fn large_arrival(&mut self, association: &Association) -> Call {
        let left = CREDIT_LIMIT - association.credit;
        let exact = left.clamp(1, LARGEST_SIZE);
        let size = match self.random.below(3) {
            0 if left < 2 * LARGEST_SIZE => exact,
            1 if left < 2 * LARGEST_SIZE => exact.saturating_sub(1).max(1),
            _ => LARGEST_SIZE,
        };
        Call::Arrival { size }
    }

    fn arrival(&mut self, association: &Association) -> Call {
        let r = &mut self.random;
        if r.percent(self.style.bursts) {
            self.burst = 10 + r.below(12);
        }
        let left = CREDIT_LIMIT - association.credit;
        let size = match r.below(20) {
            0 => 0,
            1 => 65_536,
            2 => r.number(),
            3 => 1,
            4 => LARGEST_SIZE,
            5 => left.clamp(1, LARGEST_SIZE),
            _ => 1 + r.below(3000),
        };
        Call::Arrival { size }
    }

    fn send(&mut self, association: &Association) -> Call {
        let r = &mut self.random;
        let credit = association.credit;
        let size = match r.below(20) {
            0 => r.pick(&[0, 65_536, u64::MAX, 1 << 32]),
            1..=2 => LARGEST_SIZE,
            3..=5 if credit <= LARGEST_SIZE => credit,
            6..=8 if credit <= LARGEST_SIZE => credit.saturating_sub(1),
            9 if credit < LARGEST_SIZE => credit + 1,
            10 => 1,
            _ => 1 + r.below(1500),
        };
        Call::Send { size }
    }

    fn tick(&mut self, association: &Association) -> Call {
        let r = &mut self.random;
        let buffer = match r.below(20) {
            0 => r.pick(&[0, 1, 40, 280, 318, 319, 319, 319]),
            1 => 320 + r.below(100),
            2 => 65_535,
            3 => 321,
            _ => SMALLEST_BUFFER,
        };
        let checks = association.checks();
        let time = if checks.is_empty() || r.percent(45) {
            self.time_of_tick(association)
        } else {
            let check = r.pick(&checks);
            beside_a_moment(r, &check, association.time)
        };
        Call::Tick { time, buffer }
    }

    fn time_of_tick(&mut self, association: &Association) -> u64 {
        let r = &mut self.random;
        let (now, aged) = (association.time, association.aged);
        let live = association.held.values().filter(|l| !l.is_deprecated());
        let soon = live.filter(|l| l.expiry < now + 3000);
        let expiries: Vec<u64> = soon.map(|l| l.expiry).collect();
        match r.below(40) {
            0 => now.saturating_sub(1),
            1 => r.below(now + 1),
            2 => r.pick(&[TIME_LIMIT, TIME_LIMIT + 1, u64::MAX]),
            3 => now,
            4 if now + 500 > TIME_LIMIT => TIME_LIMIT - 1,
            5 if r.percent(10) => far_ahead(r, now),
            5 => now + 10 + r.below(2000),
            6..=8 => aged + 4,
            9..=13 => aged + 5,
            14..=15 => aged + 6,
            16..=21 if !expiries.is_empty() => r.pick(&expiries) + r.below(3) - 1,
            22..=27 => periods_later(r, association),
            _ => now + r.below(4),
        }
    }

    fn message(&mut self, association: &Association) -> Call {
        if !self.past_packets.is_empty() && self.random.percent(4) {
            return self.old_packet();
        }
        let mut spoils = 0;
        if self.random.percent(self.style.spoilt) {
            spoils = 1 + usize::from(self.random.percent(25));
        }
        let kinds: Vec<u64> = (0..spoils).map(|_| self.random.below(10)).collect();
        let wrong = kinds.iter().filter(|kind| **kind < 6).count();
        let Composed {
            mut parameters,
            authentic,
            buffer,
            nonces,
        } = if self.random.percent(self.style.checks) {
            self.check(association, wrong)
        } else {
            self.move_or_reply(association, wrong)
        };
        self.colour_parameters(&mut parameters);
        if kinds.contains(&6) || kinds.contains(&7) {
            self.spoil_parameters(&mut parameters);
        }
        let mut packet = packet(&parameters);
        self.colour_bytes(&mut packet, &parameters);
        if kinds.contains(&8) || kinds.contains(&9) {
            self.damage(&mut packet);
        }
        self.past_packets.push(packet.clone());
        if self.past_packets.len() > 20 {
            self.past_packets.remove(0);
        }
        Call::Message(MessageInputs {
            authentic,
            buffer,
            packet,
            nonces,
        })
    }

    /// A Move or a Reply, with this many things wrong.
    fn move_or_reply(&mut self, association: &Association, wrong: usize) -> Composed {
        let mut draft = self.draft(association);
        for _ in 0..wrong {
            self.spoil_draft(&mut draft, association);
        }
        Composed {
            parameters: draft.parameters(),
            authentic: draft.authentic,
            buffer: draft.buffer,
            nonces: draft.nonces,
        }
    }

    /// The next Update ID of the peer.
    fn next_id(&mut self, association: &Association) -> u32 {
        let step = 1 + self.random.below(3) as u32;
        let next_id = association.peer_id.map(|id| id.saturating_add(step));
        if association.peer_id == Some(u32::MAX) {
            // Only repeats are left, so a new association comes soon.
            self.style.calls = self.style.calls.min(20);
        }
        next_id.unwrap_or(self.style.first_id)
    }

    /// A Check, with this many things wrong. Its ESP_INFO and its nonces are not
    /// judged, so they may be anything.
    fn check(&mut self, association: &Association, wrong: usize) -> Composed {
        let update_id = self.next_id(association);
        let others = self.others();
        let r = &mut self.random;
        let outbound = association.outbound;
        let spis = [outbound, outbound, 0, r.number() as u32];
        let any = r.index(65);
        let length = r.pick(&[0, 1, 4, 7, 8, 8, 8, 9, 63, 64, 64, any, any, any]);
        let mut opaque: Vec<u8> = (0..length).map(|_| r.byte()).collect();
        let outstanding = association.outstanding();
        if !outstanding.is_empty() && r.percent(10) {
            opaque = r.pick(&outstanding).to_be_bytes().to_vec();
        }
        let keymat = r.pick(&[0, 0, 1, u16::MAX]);
        let (old_spi, new_spi) = (r.pick(&spis), r.pick(&spis));
        let acks = r.pick(&[0, 1, 1, 2, 5]);
        let mut text = CheckText {
            info: r.percent(60).then_some((keymat, old_spi, new_spi)),
            update_id,
            acks: (0..acks).map(|_| r.number() as u32).collect(),
            opaque,
            others,
        };
        let mut nonces: Vec<u64> = (0..8).map(|_| r.number()).collect();
        if r.percent(10) {
            nonces.fill(r.number());
        }
        let mut authentic = true;
        let mut buffer = r.pick(&[384, 384, 385, 1000, 65_535]);
        let last_id = association.peer_id.unwrap_or(0);
        for _ in 0..wrong {
            match r.below(10) {
                0..=3 => text.update_id = last_id,
                4..=5 => text.update_id = last_id.saturating_sub(1 + r.below(3) as u32),
                6 => text.opaque.resize(65, 1),
                7 => {
                    let length = r.pick(&[66, 72, 128, 256, 257, 300, 320, 321, 1500]);
                    text.opaque.resize(length, 2);
                }
                8 => authentic = false,
                _ => buffer = r.pick(&[0, 16, 79, 80, 383, 383]),
            }
        }
        Composed {
            parameters: text.parameters(),
            authentic,
            buffer,
            nonces,
        }
    }

    fn announcement(&mut self, association: &Association) -> Call {
        let r = &mut self.random;
        let mut addresses: Vec<[u8; 16]> = LEGAL.iter().map(|text| address(text)).collect();
        r.shuffle(&mut addresses);
        addresses.truncate(r.pick(&[1, 1, 2, 3, 5, 7, 8, 8]));
        let preferred = r.percent(60).then(|| r.index(addresses.len()));
        let types = r.pick(&[[0, 0], [1, 1], [0, 1]]);
        let mut list = Vec::new();
        for (place, address) in addresses.into_iter().enumerate() {
            list.push(Entry {
                locator_type: r.pick(&types),
                traffic: r.pick(&[0, 0, 0, 1, 2]),
                lifetime: lifetime(r),
                preferred: preferred == Some(place),
                address,
            });
        }
        let same = association.inbound;
        let other = r.number() as u32 | 1;
        let mut inputs = AnnouncementInputs {
            buffer: 0,
            list,
            inbound: r.pick(&[same, same, 1, 0x1001, u32::MAX, other]),
            keymat: r.pick(&[0, 1, 0x1234, u16::MAX]),
        };
        let mut short = false;
        if r.percent(self.style.spoilt) {
            for _ in 0..1 + r.below(2) {
                short |= self.spoil_announcement(&mut inputs);
            }
        }
        let r = &mut self.random;
        let exact = bytes_to_write(&inputs.list) as u64;
        inputs.buffer = if short {
            let any = r.below(exact);
            r.pick(&[0, 1, 55, exact - 1, exact - 1, exact - 8, any])
        } else {
            r.pick(&[exact, exact, exact + 1, 256.max(exact), 65_535])
        };
        Call::Announcement(inputs)
    }

    /// One thing wrong with an announcement; true if it is to be the buffer.
    fn spoil_announcement(&mut self, inputs: &mut AnnouncementInputs) -> bool {
        let r = &mut self.random;
        let Some(first) = inputs.list.first().cloned() else {
            return r.percent(50);
        };
        let place = r.index(inputs.list.len());
        let entry = &mut inputs.list[place];
        match r.below(13) {
            0 => inputs.list.clear(),
            1 => {
                for n in inputs.list.len()..r.pick(&[9, 9, 10, 16, 40]) {
                    inputs.list.push(Entry {
                        preferred: false,
                        address: [0x30 + n as u8; 16],
                        ..first.clone()
                    });
                }
            }
            2 => entry.traffic = r.pick(&[3, 4, 255]),
            3 => entry.locator_type = r.pick(&[2, 3, 128, 255]),
            4 => entry.lifetime = 0,
            5..=6 => entry.address = address(r.pick(&NOT_LEGAL)),
            7 => {
                let twice = entry.clone();
                inputs.list.insert(0, twice);
            }
            8 => {
                for entry in &mut inputs.list {
                    entry.preferred = true;
                }
            }
            9..=10 => inputs.inbound = 0,
            _ => return true,
        }
        false
    }

    /// A packet that came before, often the last one, with other nonces.
    fn old_packet(&mut self) -> Call {
        let count = self.past_packets.len();
        let mut place = count - 1;
        if self.random.percent(50) {
            place = self.random.index(count);
        }
        let packet = self.past_packets[place].clone();
        Call::Message(MessageInputs {
            authentic: true,
            buffer: 384,
            packet,
            nonces: (0..8).map(|_| self.random.number()).collect(),
        })
    }

    /// A Move or Reply with nothing wrong.
    fn draft(&mut self, association: &Association) -> Draft {
        let update_id = self.next_id(association);
        let outstanding = association.outstanding();
        let r = &mut self.random;
        let mut echo = None;
        if !outstanding.is_empty() {
            echo = Some(r.pick(&outstanding).to_be_bytes().to_vec());
        }
        let reply = echo.is_some() && r.percent(self.style.answers);
        if !reply && r.percent(60) {
            echo = None;
        }
        let outbound = association.outbound;
        let mut new_spi = outbound;
        if r.percent(self.style.new_spis) {
            new_spi = r.pick(&[1, 2, 3, 0x2001, u32::MAX]);
        }
        let acks = r.pick(&[0, 0, 1, 1, 2, 5]);
        let acks = (0..acks).map(|_| r.number() as u32).collect();
        let text = MoveText {
            keymat: r.pick(&[0, 1, 0x1234, u16::MAX]),
            old_spi: outbound,
            new_spi,
            update_id,
            acks,
            echo,
            set: Vec::new(),
            others: Vec::new(),
        };
        let mut draft = Draft {
            text,
            reply,
            authentic: true,
            buffer: r.pick(&[384, 384, 385, 1000, 65_535]),
            nonces: (0..8).map(|_| r.number()).collect(),
        };
        draft.text.set = self.set(association, new_spi);
        draft.text.others = self.others();
        self.vary_nonces(&mut draft, &outstanding);
        draft
    }

    /// Now and then a nonce that is special, or that was used before.
    fn vary_nonces(&mut self, draft: &mut Draft, outstanding: &[u64]) {
        let r = &mut self.random;
        if !r.percent(10) {
            return;
        }
        let nonce = if self.past_nonces.is_empty() || r.percent(30) {
            r.pick(&[0, 1, u64::MAX, 1 << 63])
        } else {
            r.pick(&self.past_nonces)
        };
        if !outstanding.contains(&nonce) {
            draft.nonces[r.index(3)] = nonce;
        }
        if draft.reply {
            // A Reply takes no nonces, so these may be anything.
            draft.nonces = vec![r.pick(&self.past_nonces); 8];
        }
    }

    /// The locators of a Move.
    fn set(&mut self, association: &Association, new_spi: u32) -> Vec<Listed> {
        let addresses = self.set_addresses(association);
        let r = &mut self.random;
        let preferred = r.percent(50).then(|| r.index(addresses.len()));
        let mut set = Vec::new();
        for (place, address) in addresses.into_iter().enumerate() {
            set.push(Listed {
                address,
                traffic: r.pick(&[0, 0, 0, 0, 0, 1, 1, 2]),
                lifetime: lifetime(r),
                preferred: preferred == Some(place),
                spi: r.percent(15).then_some(new_spi),
            });
        }
        set
    }

    fn set_addresses(&mut self, association: &Association) -> Vec<[u8; 16]> {
        let r = &mut self.random;
        let mut pool = self.style.pool.clone();
        r.shuffle(&mut pool);
        let count = match r.below(10) {
            0 => 1,
            1..=2 => 8,
            _ => 1 + r.index(8),
        };
        let live = |l: &&Locator| !l.is_deprecated();
        let held = association.held.values();
        let mut addresses: Vec<[u8; 16]> = match r.below(10) {
            // All that are in use stay.
            0..=4 => held.filter(live).map(|l| l.address).collect(),
            // Some that are held, DEPRECATED ones too.
            5..=6 => held.map(|l| l.address).filter(|_| r.percent(60)).collect(),
            _ => Vec::new(),
        };
        if addresses.is_empty() || r.percent(60) {
            let wanted = count.max(addresses.len());
            for address in pool {
                if addresses.len() < wanted && !addresses.contains(&address) {
                    addresses.push(address);
                }
            }
        }
        if r.percent(70) {
            r.shuffle(&mut addresses);
        }
        addresses
    }

    /// Parameters that are stepped over.
    fn others(&mut self) -> Vec<Written> {
        let mut others = Vec::new();
        let r = &mut self.random;
        for kind in [HOST_ID, HIP_MAC, HIP_SIGNATURE, 2, 128, 1000, 65_534] {
            if r.percent(6) {
                let length = r.index(40);
                others.push((kind, (0..length).map(|_| r.byte()).collect()));
            }
        }
        others
    }

    /// One thing wrong with what the message says or comes with.
    fn spoil_draft(&mut self, draft: &mut Draft, association: &Association) {
        let r = &mut self.random;
        let text = &mut draft.text;
        if text.set.is_empty() {
            return;
        }
        let place = r.index(text.set.len());
        let last_id = association.peer_id.unwrap_or(0);
        let outstanding = association.outstanding();
        match r.below(27) {
            0..=2 => text.update_id = last_id,
            3 => text.update_id = last_id.saturating_sub(1 + r.below(3) as u32),
            4 => text.old_spi = text.old_spi.wrapping_add(1),
            5 => text.new_spi = 0,
            6 => text.set[place].spi = Some(text.new_spi ^ 1),
            7 => text.set[place].lifetime = 0,
            8 => text.set[place].traffic = r.pick(&[3, 4, 255]),
            9..=10 => text.set[place].address = address(r.pick(&NOT_LEGAL)),
            11 => {
                let twice = text.set[place].clone();
                text.set.push(twice);
            }
            12 => {
                for listed in &mut text.set {
                    listed.preferred = true;
                }
            }
            13 => text.set.clear(),
            14 => {
                for n in text.set.len() as u8..9 {
                    let mut listed = text.set[0].clone();
                    listed.address = [0x30 + n; 16];
                    listed.preferred = false;
                    text.set.push(listed);
                }
            }
            15 => draft.nonces[r.index(7) + 1] = draft.nonces[0],
            16 if !outstanding.is_empty() => draft.nonces[r.index(8)] = r.pick(&outstanding),
            17 => draft.authentic = false,
            18..=19 => draft.buffer = r.pick(&[0, 1, 47, 48, 383, 383]),
            20 => text.echo = Some((0..8).map(|_| r.byte()).collect()),
            21 => text.echo = Some((0..r.index(20)).map(|_| r.byte()).collect()),
            22 if text.echo.is_some() => {
                // An outstanding nonce, cut short or with more after it.
                let mut echo = text.echo.clone().unwrap_or_default();
                echo.resize(r.pick(&[0, 4, 7, 9, 12, 16]), 0);
                text.echo = Some(echo);
            }
            _ if !self.past_nonces.is_empty() => {
                let mut choices = &self.past_nonces;
                if !self.just_ended.is_empty() && r.percent(50) {
                    choices = &self.just_ended;
                }
                draft.reply = r.percent(60);
                text.echo = Some(r.pick(choices).to_be_bytes().to_vec());
            }
            _ => draft.authentic = false,
        }
    }

    /// One thing wrong with the run of parameters.
    fn spoil_parameters(&mut self, parameters: &mut Vec<Written>) {
        let r = &mut self.random;
        let place = r.index(parameters.len());
        let set = parameters.iter_mut().find(|(kind, _)| *kind == LOCATOR_SET);
        if let (Some((_, body)), true) = (set, r.percent(20)) {
            // Traffic type, locator type, length and P of the first locator.
            if body.len() > 3 {
                body[r.index(4)] = r.pick(&[0, 1, 2, 3, 4, 5, 6, 255]);
            }
            return;
        }
        match r.below(9) {
            0 => {
                parameters.remove(place);
            }
            1 => parameters.insert(place, parameters[place].clone()),
            2 => parameters.swap(place, 0),
            3 => {
                let kinds = [1, 63, 67, 195, 513, 899, 963, 61_507, 65_535];
                parameters.push((r.pick(&kinds), vec![0; r.index(12)]));
                parameters.sort_by_key(|(kind, _)| *kind);
            }
            4 => {
                // One too many for most messages.
                parameters.push(match r.below(10) {
                    0 => esp_info(0, 1, 1),
                    1 => seq(r.number() as u32),
                    2 => ack(&[1]),
                    3 => echo_response(&[2; 8]),
                    4 => (LOCATOR_SET, Vec::new()),
                    _ => echo_request(&vec![1; r.pick(&[0, 8, 64, 65])]),
                });
                parameters.sort_by_key(|(kind, _)| *kind);
            }
            5 => {
                let length = r.pick(&[0, 0, 1, 3, 4, 6, 8, 11, 13, 16, 24]);
                parameters[place].1.resize(length, 0);
            }
            6 => {
                let extra = r.index(9);
                parameters[place].1.extend(vec![r.byte(); extra]);
            }
            7 => {
                let kind = r.pick(&[
                    ESP_INFO,
                    LOCATOR_SET,
                    SEQ,
                    ACK,
                    ECHO_REQUEST_SIGNED,
                    ECHO_RESPONSE_SIGNED,
                ]);
                parameters.retain(|(other, _)| *other != kind);
            }
            _ => parameters.clear(),
        }
    }

    /// Sets reserved bits, which are not judged; now and then fills the packet
    /// up to the largest size or past it.
    fn colour_parameters(&mut self, parameters: &mut Vec<Written>) {
        let r = &mut self.random;
        for (kind, body) in parameters.iter_mut() {
            if r.percent(5) && *kind == ESP_INFO {
                body[r.index(2)] = r.byte();
            }
            if r.percent(5) && *kind == LOCATOR_SET && body.len() > 3 {
                body[3] |= r.byte() & 0xfe;
            }
        }
        let length = packet(parameters).len();
        if r.percent(1) && length < 2000 {
            let room = r.pick(&[2040, 2048, 2048, 2056]) - length;
            parameters.push((65_532, vec![7; room - 4]));
            parameters.sort_by_key(|(kind, _)| *kind);
        }
    }

    /// Sets header bits and padding, which are not judged.
    fn colour_bytes(&mut self, packet: &mut [u8], parameters: &[Written]) {
        let r = &mut self.random;
        if r.percent(20) {
            packet[3] |= r.byte() & 0x0e;
            packet[4 + r.index(36)] = r.byte();
        }
        if r.percent(90) {
            return;
        }
        let mut place = HEADER_LENGTH;
        for (_, body) in parameters {
            let next = place + bytes_in_all(body.len());
            packet[place + 4 + body.len()..next].fill(r.byte());
            place = next;
        }
    }

    /// Changes bytes anywhere, or the length.
    fn damage(&mut self, packet: &mut Vec<u8>) {
        let r = &mut self.random;
        match r.below(10) {
            0..=2 => {
                let place = r.index(packet.len());
                packet[place] ^= 1 << r.below(8);
            }
            3..=4 if packet.len() > 40 => {
                let place = 40 + r.index(packet.len() - 40);
                packet[place] ^= 1 << r.below(8);
            }
            5 => {
                let place = r.index(packet.len());
                packet[place] = r.byte();
            }
            6 => {
                let place = r.index(4);
                packet[place] ^= 1 << r.below(8);
            }
            7 => {
                let length = r.index(packet.len() + 1);
                packet.truncate(length);
            }
            8 => {
                let units = r.index(packet.len() / 8 + 1);
                packet.truncate(units * 8);
                if packet.len() > 1 {
                    set_header_length(packet);
                }
            }
            _ => {
                let more = r.pick(&[1, 4, 8, 16, 24, 2048]);
                let length = packet.len() + more;
                packet.resize(length, 0);
                if r.percent(70) {
                    set_header_length(packet);
                }
            }
        }
    }

    /// A record whose sections do not fit its call.
    fn malformed(&mut self) -> Sections {
        if self.random.percent(25) {
            return self.malformed_announcement();
        }
        let r = &mut self.random;
        let good = [1; 16];
        let wide = 1 << 32;
        match r.below(19) {
            0 => sections(&[], &[], &[]),
            1 => sections(&[6 + r.below(3)], &[], &[]),
            2 => sections(&[0, 1, 1, 1], &good, &[]),
            3 => sections(&[0, 1, wide, 1, 1], &good, &[]),
            4 => sections(&[0, 1, 1, wide, 1], &good, &[]),
            5 => sections(&[0, 1, 1, 1, wide], &good, &[]),
            6 if r.percent(50) => sections(&[0, 1, 1, 1, 1], &good[..r.index(16)], &[]),
            6 => sections(&[0, 1, 1, 1, 1], &[1; 17], &[]),
            7 => sections(&[0, 1, 1, 1, 1], &good, &[1]),
            8 => sections(&[1, 2, 384], &good, &[1; 8]),
            9 => sections(&[1, 1, 65_536], &good, &[1; 8]),
            10 => sections(&[1, 1, 384], &good, &vec![1; r.pick(&[0, 7, 9])]),
            11 => sections(&plain_numbers(r), &[1], &[]),
            12 => sections(&plain_numbers(r), &[], &[1]),
            13 => sections(&[1 + r.below(4)], &[], &[]),
            14 => sections(&[u64::MAX, 1], &[], &[]),
            15 => sections(&[4, r.below(1000)], &[], &[]),
            16 => sections(&[4, 1, r.pick(&[65_536, 65_856, u64::MAX])], &[], &[]),
            17 => sections(&[4, 1, 320, r.below(400)], &[], &[]),
            _ => {
                let mut record = sections(&[2 + r.below(4), 1], &[], &[]);
                record.numbers.truncate(1 + r.index(15));
                if record.numbers.len() == 8 {
                    record.numbers.push(0);
                }
                record
            }
        }
    }

    /// An announcement of 0 to 11 entries with a number, a section or the count
    /// of numbers wrong.
    fn malformed_announcement(&mut self) -> Sections {
        let r = &mut self.random;
        let entries = r.pick(&[0, 1, 2, 5, 8, 9, 10, 11]);
        let mut numbers = vec![5, 256];
        for _ in 0..entries {
            numbers.extend([r.below(2), r.below(3), 60, 0]);
        }
        numbers.extend([0x1001, 7]);
        let mut bytes: Vec<u8> = (0..16 * entries).map(|_| r.byte()).collect();
        let mut nonces = Vec::new();
        let last = numbers.len() - 1;
        match r.below(11) {
            0 => numbers[1] = r.pick(&[65_536, u64::MAX]),
            1 => numbers[last - 1] = r.pick(&[1 << 32, u64::MAX]),
            2 => numbers[last] = r.pick(&[65_536, u64::MAX]),
            3..=6 if entries > 0 => {
                let any = r.index(entries);
                let place = 2 + 4 * r.pick(&[0, entries - 1, any]);
                let field = r.index(4);
                let limits = [255, 255, u64::from(u32::MAX), 1];
                numbers[place + field] = r.pick(&[limits[field] + 1, 1 << 32, u64::MAX]);
            }
            7 => numbers.truncate(1 + r.index(last)),
            8 if entries > 0 => bytes.truncate(r.pick(&[0, 16 * entries - 1, 16 * entries - 16])),
            9 => nonces.push(r.number()),
            _ => bytes.extend(vec![1; r.pick(&[1, 15, 16])]),
        }
        sections(&numbers, &bytes, &nonces)
    }
}

impl Draft {
    fn parameters(&self) -> Vec<Written> {
        if !self.reply {
            return self.text.parameters();
        }
        let mut parameters = self.text.others.clone();
        if !self.text.acks.is_empty() {
            parameters.push(ack(&self.text.acks));
        }
        if let Some(echo) = &self.text.echo {
            parameters.push(echo_response(echo));
        }
        parameters.sort_by_key(|(kind, _)| *kind);
        parameters
    }
}

impl Style {
    fn new(r: &mut Random) -> Style {
        let mut pool: Vec<[u8; 16]> = LEGAL.iter().map(|text| address(text)).collect();
        r.shuffle(&mut pool);
        pool.truncate(r.pick(&[4, 9, 12, 12, 26]));
        Style {
            pool,
            checks: r.pick(&[5, 15, 15, 40]),
            answers: r.pick(&[5, 30, 40, 60]),
            new_spis: r.pick(&[0, 10, 10, 30]),
            spoilt: r.pick(&[10, 45, 55, 60]),
            bursts: r.pick(&[0, 0, 3, 3]),
            ticks: r.pick(&[0, 0, 20, 50]),
            first_id: match r.below(8) {
                0 => 0,
                1 => u32::MAX - r.below(40) as u32,
                2 => u32::MAX - r.below(2) as u32,
                3 => r.number() as u32,
                _ => 1 + r.below(100) as u32,
            },
            calls: r.pick(&[20, 100, 100, 300, 1000]),
        }
    }
}

/// The numbers of an arrival, a send or a tick.
fn plain_numbers(r: &mut Random) -> Vec<u64> {
    r.pick(&[vec![2, 1], vec![3, 1], vec![4, 1, 320]])
}

/// A time beside a whole number of periods after the last ageing: mostly few,
/// now and then about as many as the credit lasts.
fn periods_later(r: &mut Random, association: &Association) -> u64 {
    let spent = |ageings: &u64| aged_credit(association.credit, *ageings) == 0;
    let lasts = (0..).find(spent).expect("the credit is gone at last");
    let periods = match r.below(10) {
        0 => (lasts + r.below(3)).max(2) - 1,
        1 => 1 + r.below(400),
        2 => 1 + r.below(30),
        _ => 1 + r.below(4),
    };
    association.aged + periods * AGEING_PERIOD + r.below(3) - 1
}

/// A second after issue of a check under way, beside a moment of resending or
/// its end: mostly one that comes soon.
fn beside_a_moment(r: &mut Random, check: &OwnCheck, now: u64) -> u64 {
    let ages = [0, 1, 2, 3, 4, 5, 7, 8, 9, 15, 16, 17];
    let times = ages.iter().map(|age| check.issued + age);
    // A check is given up at 16 seconds, so those are still to come.
    let ahead: Vec<u64> = times.filter(|time| *time >= now).collect();
    let near = ahead.len().min(3);
    // Now and then later by what 8 or 16 bits do not show.
    match r.below(30) {
        0 => r.pick(&ahead) + r.pick(&[1 << 8, 1 << 16]),
        1..=5 => r.pick(&ahead),
        _ => r.pick(&ahead[..near]),
    }
}

/// A time after months or years of silence.
fn far_ahead(r: &mut Random, now: u64) -> u64 {
    let last = TIME_LIMIT - 1;
    let some = r.below(1 << 33);
    let near_the_end = last - r.below(400);
    r.pick(&[now + some, now + some / 1000, near_the_end, last])
}

fn lifetime(r: &mut Random) -> u32 {
    match r.below(12) {
        0 => 1,
        1..=2 => 1 + r.below(20) as u32,
        3..=5 => 60,
        6..=9 => 200 + r.below(2000) as u32,
        10 => r.number() as u32 | 1,
        _ => u32::MAX,
    }
}
