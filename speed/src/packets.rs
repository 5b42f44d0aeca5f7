//! Writing packets: whole ones of every kind, and damage to each of their
//! fields. Everything follows from the seed.

pub const ESP_INFO: u16 = 65;
pub const LOCATOR_SET: u16 = 193;
pub const SEQ: u16 = 385;
pub const ACK: u16 = 449;
pub const HOST_ID: u16 = 705;
pub const ECHO_REQUEST_SIGNED: u16 = 897;
pub const ECHO_RESPONSE_SIGNED: u16 = 961;
pub const HIP_MAC: u16 = 61505;
pub const HIP_SIGNATURE: u16 = 61697;

const KNOWN: [u16; 9] = [
    ESP_INFO,
    LOCATOR_SET,
    SEQ,
    ACK,
    HOST_ID,
    ECHO_REQUEST_SIGNED,
    ECHO_RESPONSE_SIGNED,
    HIP_MAC,
    HIP_SIGNATURE,
];

pub const HEADER: usize = 40;
const LONGEST: usize = 2048;

/// The xorshift64* generator.
pub struct Random(u64);

impl Random {
    pub fn new(seed: u64) -> Random {
        // The state must not be zero; a few steps part seeds that are close.
        let mut random = Random(seed.wrapping_mul(0x9e37_79b9_7f4a_7c15) | 1);
        for _ in 0..8 {
            random.number();
        }
        random
    }

    pub fn number(&mut self) -> u64 {
        self.0 ^= self.0 >> 12;
        self.0 ^= self.0 << 25;
        self.0 ^= self.0 >> 27;
        self.0.wrapping_mul(0x2545_f491_4f6c_dd1d)
    }

    /// A number below `limit`.
    pub fn below(&mut self, limit: usize) -> usize {
        (((self.number() >> 32) * limit as u64) >> 32) as usize
    }

    /// True `percent` times in a hundred.
    pub fn chance(&mut self, percent: usize) -> bool {
        self.below(100) < percent
    }

    pub fn pick<T: Copy>(&mut self, of: &[T]) -> T {
        of[self.below(of.len())]
    }

    pub fn bytes(&mut self, count: usize) -> Vec<u8> {
        (0..count).map(|_| self.number() as u8).collect()
    }
}

/// One locator as it is written; nothing in it need be right.
#[derive(Clone, Debug)]
pub struct Locator {
    pub traffic: u8,
    pub kind: u8,
    /// In units of four bytes.
    pub length: u8,
    /// Seven reserved bits and P.
    pub flags: u8,
    pub lifetime: u32,
    pub spi: u32,
    pub address: [u8; 16],
}

impl Locator {
    pub fn new(kind: u8, spi: u32, address: [u8; 16]) -> Locator {
        Locator {
            traffic: 0,
            kind,
            length: if kind == 1 { 5 } else { 4 },
            flags: 0,
            lifetime: 3600,
            spi,
            address,
        }
    }

    fn write(&self, out: &mut Vec<u8>) {
        out.extend([self.traffic, self.kind, self.length, self.flags]);
        out.extend(self.lifetime.to_be_bytes());
        if self.kind == 1 {
            out.extend(self.spi.to_be_bytes());
        }
        out.extend(self.address);
    }
}

/// The body of a LOCATOR_SET.
pub fn set_body(set: &[Locator]) -> Vec<u8> {
    let mut body = Vec::new();
    for one in set {
        one.write(&mut body);
    }
    body
}

/// The body of an ESP_INFO.
pub fn info_body(keymat: u16, old_spi: u32, new_spi: u32) -> Vec<u8> {
    let mut body = vec![0, 0];
    body.extend(keymat.to_be_bytes());
    body.extend(old_spi.to_be_bytes());
    body.extend(new_spi.to_be_bytes());
    body
}

/// A parameter: its type and its body.
pub type Parameter = (u16, Vec<u8>);

/// A packet before it is written.
#[derive(Clone, Debug, Default)]
pub struct Draft {
    pub parameters: Vec<Parameter>,
}

impl Draft {
    pub fn with(mut self, kind: u16, body: impl Into<Vec<u8>>) -> Draft {
        self.parameters.push((kind, body.into()));
        self
    }

    /// Puts a parameter where its type belongs.
    pub fn put(&mut self, kind: u16, body: Vec<u8>) {
        let place = self.parameters.partition_point(|(other, _)| *other <= kind);
        self.parameters.insert(place, (kind, body));
    }

    /// The packet, its padding and all that is not judged zero.
    pub fn packet(&self) -> Vec<u8> {
        let mut packet = vec![0; HEADER];
        packet[..4].copy_from_slice(&[59, 0, 16, 0x21]);
        for (kind, body) in &self.parameters {
            packet.extend(kind.to_be_bytes());
            packet.extend((body.len() as u16).to_be_bytes());
            packet.extend(body);
            packet.resize(packet.len().next_multiple_of(8), 0);
        }
        mend(&mut packet);
        packet
    }
}

/// Sets the header length to what the packet's length asks for, where one does.
pub fn mend(packet: &mut [u8]) {
    if packet.len() >= 8 {
        packet[1] = (packet.len() / 8 - 1) as u8;
    }
}

/// Where the parameters of a whole packet start.
pub fn starts(packet: &[u8]) -> Vec<usize> {
    let mut starts = Vec::new();
    let mut at = HEADER;
    while at + 4 <= packet.len() {
        starts.push(at);
        let length = usize::from(packet[at + 2]) << 8 | usize::from(packet[at + 3]);
        at += (length + 4).next_multiple_of(8);
    }
    starts
}

/// A legal address: mostly IPv6 of a few prefixes, some IPv4, some that lie
/// beside one that is not legal.
pub fn legal_address(random: &mut Random) -> [u8; 16] {
    let mut address = [0; 16];
    match random.below(10) {
        0..=4 => {
            address[..4].copy_from_slice(&[0x20, 1, 0xd, 0xb8]);
            address[7] = random.below(4) as u8;
            let low = random.number();
            address[8..].copy_from_slice(&low.to_be_bytes());
        }
        5 => {
            // The same last eight bytes under different prefixes.
            let high = random.number() >> 8 | 1;
            address[..8].copy_from_slice(&high.to_be_bytes());
            address[15] = 1;
        }
        6 | 7 => {
            address[10..12].fill(0xff);
            let ipv4 = (random.number() as u32) | 1 << 8;
            address[12..].copy_from_slice(&ipv4.to_be_bytes());
            address[12] = match address[12] {
                224..=239 => 10,
                a => a,
            };
        }
        8 => {
            let high = (random.number() >> 1).max(1);
            let low = random.number();
            address[..8].copy_from_slice(&high.to_be_bytes());
            address[8..].copy_from_slice(&low.to_be_bytes());
        }
        _ => {
            address = legal_edge(random.below(10));
        }
    }
    address
}

/// Legal addresses that lie beside one that is not.
fn legal_edge(which: usize) -> [u8; 16] {
    let ipv4 = |a, b, c, d| [0, 0, 0, 0, 0, 0, 0, 0, 0, 0, 0xff, 0xff, a, b, c, d];
    match which {
        0 => ipv4(223, 255, 255, 255),
        1 => ipv4(240, 0, 0, 0),
        2 => ipv4(0, 0, 0, 1),
        3 => ipv4(255, 255, 255, 254),
        4 => ipv4(0, 255, 0, 0),
        5 => [0, 0, 0, 0, 0, 0, 0, 0, 0, 0, 0, 0, 0, 0, 0, 1],
        6 => [0, 0, 0, 0, 0, 0, 0, 0, 0, 0, 0xff, 0xfe, 0, 0, 0, 0],
        7 => [0, 0, 0, 0, 0, 0, 0, 0, 0, 1, 0xff, 0xff, 224, 0, 0, 1],
        8 => [0, 0, 0, 0, 0, 0, 0, 1, 0, 0, 0xff, 0xff, 0, 0, 0, 0],
        _ => [0xfe, 0xff, 0, 0, 0, 0, 0, 0, 0, 0, 0, 0, 0, 0, 0, 0],
    }
}

/// Addresses that are not legal, one of each kind and its edges.
pub fn illegal_address(random: &mut Random) -> [u8; 16] {
    let mut address = [0; 16];
    match random.below(7) {
        0 => {
            address.copy_from_slice(&random.bytes(16));
            address[0] = 0xff;
        }
        1 => {}
        2 => {
            address[10..12].fill(0xff);
            address[12..].copy_from_slice(&random.bytes(4));
            address[12] = 224 + random.below(16) as u8;
        }
        3 => {
            address[10..12].fill(0xff);
            address[12] = random.pick(&[224, 239]);
            address[13..].fill(random.pick(&[0, 0xff]));
        }
        4 => address[10..12].fill(0xff),
        5 => address[10..].fill(0xff),
        _ => address[0] = 0xff,
    }
    address
}

/// A set of legal locators with different addresses, of one type or of both.
pub fn legal_set(random: &mut Random, count: usize, kind: Option<u8>, spi: u32) -> Vec<Locator> {
    let mut set: Vec<Locator> = Vec::new();
    while set.len() < count {
        let address = legal_address(random);
        if set.iter().any(|one| one.address == address) {
            continue;
        }
        let kind = kind.unwrap_or_else(|| random.below(2) as u8);
        let mut one = Locator::new(kind, spi, address);
        one.traffic = random.below(3) as u8;
        one.lifetime = match random.below(4) {
            0 => random.pick(&[1, u32::MAX, 0x0001_0000, 0x0100_0000, 1 << 31]),
            1 => (random.number() as u32).max(1),
            _ => random.below(86_400) as u32 + 1,
        };
        // The reserved bits are not judged.
        one.flags = if random.chance(20) {
            random.number() as u8 & !1
        } else {
            0
        };
        set.push(one);
    }
    if random.chance(60) {
        let preferred = random.below(count);
        set[preferred].flags |= 1;
    }
    set
}

/// Adds what may stand in a message of any kind: ACK, HOST_ID, MAC, signature
/// and even types.
fn add_others(random: &mut Random, draft: &mut Draft) {
    if random.chance(50) {
        let ids = 1 + random.below(3);
        draft.put(ACK, random.bytes(4 * ids));
    }
    if random.chance(20) {
        let length = random.below(60);
        draft.put(HOST_ID, random.bytes(length));
    }
    if random.chance(60) {
        let length = random.pick(&[20, 32, 0, 7]);
        draft.put(HIP_MAC, random.bytes(length));
    }
    if random.chance(60) {
        let length = random.pick(&[64, 72, 129, 0]);
        draft.put(HIP_SIGNATURE, random.bytes(length));
    }
    while random.chance(25) {
        let kind = random.number() as u16 >> random.below(12) & !1;
        let length = random.below(24);
        draft.put(kind, random.bytes(length));
    }
}

/// The opaque bytes of an echo: mostly eight.
fn echo_body(random: &mut Random) -> Vec<u8> {
    let length = match random.below(10) {
        0..=5 => 8,
        6 => 0,
        7 => random.pick(&[4, 7, 9, 12]),
        _ => random.below(70),
    };
    random.bytes(length)
}

pub fn whole_move(random: &mut Random, count: usize, kind: Option<u8>) -> Draft {
    let (keymat, old) = (random.number() as u16, random.number() as u32);
    let new = if random.chance(50) {
        old
    } else {
        random.number() as u32
    };
    let mut info = info_body(keymat, old, new);
    if random.chance(20) {
        info[0] = random.number() as u8;
    }
    let set = legal_set(random, count, kind, new);
    let mut draft = Draft::default()
        .with(ESP_INFO, info)
        .with(LOCATOR_SET, set_body(&set))
        .with(SEQ, random.bytes(4));
    if random.chance(50) {
        draft.put(ECHO_RESPONSE_SIGNED, echo_body(random));
    }
    add_others(random, &mut draft);
    draft
}

pub fn whole_reply(random: &mut Random) -> Draft {
    let mut draft = Draft::default().with(ECHO_RESPONSE_SIGNED, echo_body(random));
    add_others(random, &mut draft);
    draft
}

pub fn whole_check(random: &mut Random) -> Draft {
    let mut draft = Draft::default().with(SEQ, random.bytes(4));
    if random.chance(50) {
        draft.put(ESP_INFO, random.bytes(12));
    }
    draft.put(ECHO_REQUEST_SIGNED, echo_body(random));
    add_others(random, &mut draft);
    draft
}

/// Any parameters in rising order, mostly known ones with right lengths.
fn any_parameters(random: &mut Random) -> Draft {
    let mut draft = Draft::default();
    for _ in 0..random.below(7) {
        match random.pick(&KNOWN) {
            ESP_INFO => draft.put(ESP_INFO, random.bytes(12)),
            LOCATOR_SET => {
                let count = 1 + random.below(3);
                let set = legal_set(random, count, None, 7);
                draft.put(LOCATOR_SET, set_body(&set));
            }
            SEQ => draft.put(SEQ, random.bytes(4)),
            ACK => draft.put(ACK, random.bytes(4)),
            kind => draft.put(kind, random.bytes(8)),
        }
    }
    draft
}

/// A whole Move with one or two faults in its set.
fn faulty_set(random: &mut Random) -> Draft {
    let count = 1 + random.below(8);
    let mut draft = whole_move(random, count, None);
    let spi = random.number() as u32;
    let mut set = legal_set(random, count, None, spi);
    let faults = if random.chance(80) { 1 } else { 2 };
    let mut cut = None;
    for _ in 0..faults {
        let at = random.below(set.len().max(1));
        let other = random.below(set.len().max(1));
        let Some(one) = set.get(at).cloned() else {
            break;
        };
        match random.below(13) {
            0 => set[at].traffic = random.pick(&[3, 4, 0x80, 0xff]),
            1 => set[at].kind = random.pick(&[2, 3, 0x80, 0xff]),
            2 => set[at].length = random.pick(&[0, 3, 4, 5, 6, 9, 0xff]),
            3 => set[at].kind ^= 1,
            4 => set[at].lifetime = 0,
            5 => set[at].address = illegal_address(random),
            6 => set[at].address = set[other].address,
            7 => {
                set[at].flags |= 1;
                set[other].flags |= 1;
            }
            8 => {
                // Nine and more.
                while set.len() < 9 {
                    let mut more = one.clone();
                    more.flags = 0;
                    more.address = legal_address(random);
                    set.push(more);
                }
            }
            9 => set.clear(),
            10 => cut = Some(true),
            11 => cut = Some(false),
            _ => {
                // The same address under another type and SPI.
                let mut more = one;
                more.kind ^= 1;
                more.length ^= 1;
                more.spi ^= 1;
                more.flags = 0;
                set.insert(other, more);
            }
        }
    }
    let mut body = set_body(&set);
    match cut {
        Some(true) => body.truncate(random.below(body.len() + 1)),
        Some(false) => {
            let more = 1 + random.below(30);
            body.extend(random.bytes(more));
        }
        None => {}
    }
    for (kind, old) in &mut draft.parameters {
        if *kind == LOCATOR_SET {
            *old = std::mem::take(&mut body);
        }
    }
    draft
}

/// Faults in the row of parameters: one missing, twice, moved, of another type
/// or of another length.
fn faulty_row(random: &mut Random, draft: &mut Draft) {
    let row = &mut draft.parameters;
    if row.is_empty() {
        return;
    }
    let at = random.below(row.len());
    let other = random.below(row.len());
    match random.below(8) {
        0 => {
            row.remove(at);
        }
        1 => {
            let again = row[at].clone();
            row.insert(at, again);
        }
        2 => row.swap(at, other),
        3 => {
            let again = row[at].clone();
            row.push(again);
        }
        4 => {
            row[at].0 = match random.below(4) {
                0 => row[at].0.wrapping_add(1),
                1 => row[at].0.wrapping_sub(1),
                2 => random.pick(&KNOWN),
                _ => random.number() as u16,
            }
        }
        5 => {
            let length = random.below(30);
            row[at].1 = random.bytes(length);
        }
        6 => {
            let kind = random.number() as u16 >> random.below(8) | 1;
            let length = random.below(16);
            draft.put(kind, random.bytes(length));
        }
        _ => {
            let kind = random.pick(&KNOWN);
            let length = random.pick(&[4, 8, 12, 24]);
            draft.put(kind, random.bytes(length));
        }
    }
}

/// Fills what is not judged: checksum, controls, HITs and padding.
fn fill_unjudged(random: &mut Random, packet: &mut [u8]) {
    for byte in &mut packet[4..HEADER] {
        *byte = random.number() as u8;
    }
    packet[3] = 0x21 | random.number() as u8 & 0x0e;
    for at in starts(packet) {
        let length = usize::from(packet[at + 2]) << 8 | usize::from(packet[at + 3]);
        let end = packet.len().min((at + 4 + length).next_multiple_of(8));
        for byte in packet.iter_mut().take(end).skip(at + 4 + length) {
            *byte = random.number() as u8;
        }
    }
}

/// Damage to the bytes of a packet.
fn damage(random: &mut Random, packet: &mut Vec<u8>) {
    let all = starts(packet);
    let start = if all.is_empty() { 0 } else { random.pick(&all) };
    match random.below(10) {
        0 => {
            let at = random.below(4);
            packet[at] ^= 1 << random.below(8);
        }
        1 => {
            let at = random.below(4);
            packet[at] = random.number() as u8;
        }
        2 => {
            // A parameter's type or length.
            let at = start + random.below(4);
            packet[at] ^= 1 << random.below(8);
        }
        3 => {
            let at = start + 3;
            let by = random.pick(&[1, 4, 8, 252, 248, 255]);
            packet[at] = packet[at].wrapping_add(by);
        }
        4 => {
            let length = random.below(packet.len());
            packet.truncate(length);
        }
        5 => {
            let length = random.below(packet.len() / 8) * 8;
            packet.truncate(length);
            mend(packet);
        }
        6 => {
            let more = 1 + random.below(24);
            packet.extend(random.bytes(more));
        }
        7 => {
            let more = 8 * (1 + random.below(3));
            let mut tail = random.bytes(more);
            if random.chance(60) {
                // What follows is a parameter of a high type.
                tail[0] = 0xff;
                tail[2] = 0;
                tail[3] = (more - 8) as u8 + random.below(8) as u8;
            }
            packet.extend(tail);
            mend(packet);
        }
        _ => {
            for _ in 0..1 + random.below(3) {
                let at = random.below(packet.len());
                packet[at] ^= 1 << random.below(8);
            }
            mend(packet);
        }
    }
}

/// A packet of any sort: about half are whole.
pub fn any_packet(random: &mut Random) -> Vec<u8> {
    let mut draft = match random.below(20) {
        0..=8 => {
            let count = 1 + random.below(8);
            let kind = random.pick(&[None, Some(0), Some(1)]);
            whole_move(random, count, kind)
        }
        9..=12 => faulty_set(random),
        13..=15 => whole_reply(random),
        16..=18 => whole_check(random),
        _ => any_parameters(random),
    };
    let faults = random.below(20);
    if faults < 5 {
        faulty_row(random, &mut draft);
    }
    let mut packet = draft.packet();
    if random.chance(70) {
        fill_unjudged(random, &mut packet);
    }
    if (4..10).contains(&faults) {
        damage(random, &mut packet);
    }
    if random.chance(1) {
        // Beyond the longest packet that a header can tell of.
        let length = LONGEST - 8 + random.below(24);
        packet.resize(length, 0);
        mend(&mut packet);
    }
    packet
}
