//! Reading the bytes of a packet: refusals 3 to 6, and 22.

use crate::address::{not_legal, NotLegal};
use crate::reasons::Reasons;

pub const ESP_INFO: u16 = 65;
pub const LOCATOR_SET: u16 = 193;
pub const SEQ: u16 = 385;
pub const ACK: u16 = 449;
pub const HOST_ID: u16 = 705;
pub const ECHO_REQUEST_SIGNED: u16 = 897;
pub const ECHO_RESPONSE_SIGNED: u16 = 961;
pub const HIP_MAC: u16 = 61505;
pub const HIP_SIGNATURE: u16 = 61697;

pub const HEADER_LENGTH: usize = 40;

/// The most opaque bytes of a Check that are echoed.
pub const OPAQUE_LIMIT: usize = 64;

/// Odd types that are read or stepped over.
const KNOWN_ODD_TYPES: [u16; 9] = [
    ESP_INFO,
    LOCATOR_SET,
    SEQ,
    ACK,
    HOST_ID,
    ECHO_REQUEST_SIGNED,
    ECHO_RESPONSE_SIGNED,
    HIP_MAC,
    HIP_SIGNATURE,
];

#[derive(Clone, Debug, PartialEq, Eq)]
pub struct Parameter {
    pub kind: u16,
    pub body: Vec<u8>,
    pub padding: Vec<u8>,
}

/// An accepted message is a Move or a Reply (document 01's terms) or a Check
/// (order 1's).
#[derive(Clone, Debug)]
pub enum Content {
    Move(Move),
    Reply { echo: Vec<u8> },
    Check(Check),
}

/// A Move (document 01's term): ESP_INFO, LOCATOR_SET and SEQ, perhaps with an
/// echo response.
#[derive(Clone, Debug)]
pub struct Move {
    pub keymat: u16,
    pub old_spi: u32,
    pub new_spi: u32,
    pub set: Vec<Listed>,
    pub update_id: u32,
    pub echo: Option<Vec<u8>>,
}

/// A Check (order 1's term): the peer verifies an address of ours by SEQ and
/// one ECHO_REQUEST_SIGNED. Its ESP_INFO and ACK are not used.
#[derive(Clone, Debug)]
pub struct Check {
    pub update_id: u32,
    pub opaque: Vec<u8>,
}

/// One locator as a set lists it.
#[derive(Clone, Debug, PartialEq, Eq)]
pub struct Listed {
    pub address: [u8; 16],
    pub traffic: u8,
    pub lifetime: u32,
    pub preferred: bool,
    /// The SPI of a type 1 locator.
    pub spi: Option<u32>,
}

/// "One takes 11 + L - (L + 3) mod 8 bytes in all."
pub fn bytes_in_all(length: usize) -> usize {
    11 + length - (length + 3) % 8
}

/// The body of an ESP_INFO, its reserved bits zero.
pub fn esp_info_body(keymat: u16, old_spi: u32, new_spi: u32) -> Vec<u8> {
    let mut body = vec![0, 0];
    body.extend(keymat.to_be_bytes());
    body.extend(old_spi.to_be_bytes());
    body.extend(new_spi.to_be_bytes());
    body
}

/// One parameter as it is written, its padding zero.
pub fn write_parameter(kind: u16, body: &[u8]) -> Vec<u8> {
    let length = u16::try_from(body.len()).expect("a parameter's body has a 16-bit length");
    let mut bytes = kind.to_be_bytes().to_vec();
    bytes.extend(length.to_be_bytes());
    bytes.extend(body);
    bytes.resize(bytes_in_all(body.len()), 0);
    bytes
}

/// An ACK of one Update ID of the peer.
pub fn acknowledgement(peer_id: u32) -> Vec<u8> {
    write_parameter(ACK, &peer_id.to_be_bytes())
}

pub fn u16_at(bytes: &[u8], place: usize) -> u16 {
    u16::from_be_bytes([bytes[place], bytes[place + 1]])
}

pub fn u32_at(bytes: &[u8], place: usize) -> u32 {
    u32::from(u16_at(bytes, place)) << 16 | u32::from(u16_at(bytes, place + 2))
}

/// The parameters of a packet, as far as they can be read, with the reasons
/// for refusals 3, 4 and 22.
pub fn read_parameters(packet: &[u8], reasons: &mut Reasons) -> Vec<Parameter> {
    if packet.len() < HEADER_LENGTH {
        reasons.add(3, "refusal 3: under 40 bytes");
        return Vec::new();
    }
    judge_header(packet, reasons);
    let parameters = walk(packet, reasons);
    judge_lengths(&parameters, reasons);
    judge_types(&parameters, reasons);
    judge_opaque(&parameters, reasons);
    parameters
}

/// "Header (RFC 7401), 40 bytes: ..."
fn judge_header(packet: &[u8], reasons: &mut Reasons) {
    reasons.add_if(packet[0] != 59, 3, "refusal 3: next header");
    if packet.len() > 2048 {
        // No header length of one byte can fit.
        reasons.add(3, "refusal 3: longer than 2,048 bytes");
    } else {
        let right = (usize::from(packet[1]) + 1) * 8 == packet.len();
        reasons.add_if(!right, 3, "refusal 3: header length");
    }
    reasons.add_if(packet[2] != 16, 3, "refusal 3: packet type");
    reasons.add_if(packet[3] >> 4 != 2, 3, "refusal 3: high bits of byte 3");
    reasons.add_if(packet[3] & 1 != 1, 3, "refusal 3: low bit of byte 3");
}

fn walk(packet: &[u8], reasons: &mut Reasons) -> Vec<Parameter> {
    let mut parameters: Vec<Parameter> = Vec::new();
    let mut rest = &packet[HEADER_LENGTH..];
    while !rest.is_empty() {
        let Some((parameter, after)) = split_parameter(rest) else {
            reasons.add(3, "refusal 3: parameter past the end");
            break;
        };
        if let Some(before) = parameters.last() {
            let falls = parameter.kind < before.kind;
            reasons.add_if(falls, 3, "refusal 3: falling type");
        }
        parameters.push(parameter);
        rest = after;
    }
    parameters
}

/// The first parameter and the bytes after it; nothing if it does not fit.
fn split_parameter(bytes: &[u8]) -> Option<(Parameter, &[u8])> {
    if bytes.len() < 4 {
        return None;
    }
    let length = usize::from(u16_at(bytes, 2));
    let in_all = bytes_in_all(length);
    if in_all > bytes.len() {
        return None;
    }
    let parameter = Parameter {
        kind: u16_at(bytes, 0),
        body: bytes[4..4 + length].to_vec(),
        padding: bytes[4 + length..in_all].to_vec(),
    };
    Some((parameter, &bytes[in_all..]))
}

/// "wrong L for 65, 385, 449"
fn judge_lengths(parameters: &[Parameter], reasons: &mut Reasons) {
    for parameter in parameters {
        let length = parameter.body.len();
        match parameter.kind {
            ESP_INFO => reasons.add_if(length != 12, 3, "refusal 3: L of ESP_INFO"),
            SEQ => reasons.add_if(length != 4, 3, "refusal 3: L of SEQ"),
            ACK => {
                reasons.add_if(length == 0, 3, "refusal 3: L of ACK zero");
                let odd = length % 4 != 0;
                reasons.add_if(odd, 3, "refusal 3: L of ACK not a multiple of 4");
            }
            _ => {}
        }
    }
}

/// "odd type not known"
fn judge_types(parameters: &[Parameter], reasons: &mut Reasons) {
    let strange = |kind: u16| kind % 2 == 1 && !KNOWN_ODD_TYPES.contains(&kind);
    let any = parameters.iter().any(|p| strange(p.kind));
    reasons.add_if(any, 4, "refusal 4: odd type not known");
}

/// "Opaque over 64 gets one too". Only a Check may hold an 897: in any other
/// message refusal 5 is tried first.
fn judge_opaque(parameters: &[Parameter], reasons: &mut Reasons) {
    for opaque in bodies(parameters, ECHO_REQUEST_SIGNED) {
        let long = opaque.len() > OPAQUE_LIMIT;
        reasons.add_if(long, 22, "refusal 22: over 64 opaque bytes");
    }
}

/// The bodies of all parameters of one type.
fn bodies(parameters: &[Parameter], kind: u16) -> Vec<&[u8]> {
    let of_kind = parameters.iter().filter(|p| p.kind == kind);
    of_kind.map(|p| p.body.as_slice()).collect()
}

/// How often a kind of message holds parameters of one type, with the clauses
/// of refusal 5 for one that holds fewer or more.
enum Share {
    One(u16, &'static str, &'static str),
    AtMostOne(u16, &'static str),
    Never(u16, &'static str),
}

impl Share {
    fn fault(&self, parameters: &[Parameter]) -> Option<&'static str> {
        let (Share::One(kind, ..) | Share::AtMostOne(kind, _) | Share::Never(kind, _)) = self;
        match (self, bodies(parameters, *kind).len()) {
            (Share::One(_, without, _), 0) => Some(without),
            (Share::One(_, _, twice) | Share::AtMostOne(_, twice), 2..) => Some(twice),
            (Share::Never(_, with), 1..) => Some(with),
            _ => None,
        }
    }
}

/// "A Move has exactly one each of ESP_INFO, LOCATOR_SET and SEQ, at most one
/// echo response and one ACK"; "a Move or Reply holds no 897".
const MOVE: [Share; 6] = [
    Share::One(
        ESP_INFO,
        "refusal 5: Move without ESP_INFO",
        "refusal 5: Move with ESP_INFO twice",
    ),
    Share::One(
        LOCATOR_SET,
        "refusal 5: Move without LOCATOR_SET",
        "refusal 5: Move with LOCATOR_SET twice",
    ),
    Share::One(
        SEQ,
        "refusal 5: Move without SEQ",
        "refusal 5: Move with SEQ twice",
    ),
    Share::AtMostOne(ACK, "refusal 5: Move with ACK twice"),
    Share::Never(ECHO_REQUEST_SIGNED, "refusal 5: Move with an 897"),
    Share::AtMostOne(ECHO_RESPONSE_SIGNED, "refusal 5: Move with echo twice"),
];

/// "A Reply has exactly one echo response, none of those three, at most one
/// ACK."
fn reply_shares(parameters: &[Parameter]) -> [Share; 6] {
    let without = if parameters.is_empty() {
        "refusal 5: no parameters"
    } else if !bodies(parameters, ACK).is_empty() {
        "refusal 5: ACK without an echo"
    } else {
        "refusal 5: only parameters that are stepped over"
    };
    [
        Share::Never(ESP_INFO, "refusal 5: Reply with ESP_INFO"),
        Share::Never(LOCATOR_SET, "refusal 5: Reply with LOCATOR_SET"),
        Share::Never(SEQ, "refusal 5: Reply with SEQ"),
        Share::AtMostOne(ACK, "refusal 5: Reply with ACK twice"),
        Share::Never(ECHO_REQUEST_SIGNED, "refusal 5: Reply with an 897"),
        Share::One(
            ECHO_RESPONSE_SIGNED,
            without,
            "refusal 5: Reply with echo twice",
        ),
    ]
}

/// "a Check (SEQ and one 897, at most one each of ESP_INFO and ACK, nothing
/// else known but 705, MAC and signature)"
const CHECK: [Share; 6] = [
    Share::AtMostOne(ESP_INFO, "refusal 5: Check with ESP_INFO twice"),
    Share::Never(LOCATOR_SET, "refusal 5: Check with LOCATOR_SET"),
    Share::One(
        SEQ,
        "refusal 5: Check without SEQ",
        "refusal 5: Check with SEQ twice",
    ),
    Share::AtMostOne(ACK, "refusal 5: Check with ACK twice"),
    Share::One(
        ECHO_REQUEST_SIGNED,
        "refusal 5: Check without 897",
        "refusal 5: Check with 897 twice",
    ),
    Share::Never(ECHO_RESPONSE_SIGNED, "refusal 5: Check with an echo"),
];

/// The clauses by which a message is not of this kind.
fn faults(shares: &[Share], parameters: &[Parameter]) -> Vec<&'static str> {
    let all = shares.iter().filter_map(|share| share.fault(parameters));
    all.collect()
}

/// What the message says, with the reasons for refusals 5 and 6. The
/// parameters have passed refusal 3.
pub fn read_content(parameters: &[Parameter], reasons: &mut Reasons) -> Option<Content> {
    let mut set = Vec::new();
    for body in bodies(parameters, LOCATOR_SET) {
        let (listed, set_faults) = read_set(body);
        for fault in set_faults {
            reasons.add(6, clause_of(fault));
        }
        set = listed;
    }
    let of_move = faults(&MOVE, parameters);
    let of_reply = faults(&reply_shares(parameters), parameters);
    let of_check = faults(&CHECK, parameters);
    // A message of no kind has the clauses of the kind that it is nearest to.
    let all = [&of_move, &of_reply, &of_check];
    let nearest = all.into_iter().min_by_key(|clauses| clauses.len());
    for clause in nearest.into_iter().flatten() {
        reasons.add(5, clause);
    }
    let body = |kind| bodies(parameters, kind).first().copied();
    let echo = body(ECHO_RESPONSE_SIGNED).map(<[u8]>::to_vec);
    if of_move.is_empty() {
        let (info, seq) = (body(ESP_INFO)?, body(SEQ)?);
        return Some(Content::Move(Move {
            keymat: u16_at(info, 2),
            old_spi: u32_at(info, 4),
            new_spi: u32_at(info, 8),
            set,
            update_id: u32_at(seq, 0),
            echo,
        }));
    }
    if of_reply.is_empty() {
        return echo.map(|echo| Content::Reply { echo });
    }
    if of_check.is_empty() {
        return Some(Content::Check(Check {
            update_id: u32_at(body(SEQ)?, 0),
            opaque: body(ECHO_REQUEST_SIGNED)?.to_vec(),
        }));
    }
    None
}

/// What refusal 6 finds wrong with a set.
#[derive(Clone, Copy, Debug, PartialEq, Eq)]
pub enum SetFault {
    Empty,
    OverEight,
    NotFilled,
    Traffic,
    LocatorType,
    LengthOfType0,
    LengthOfType1,
    Lifetime,
    Address(NotLegal),
    AddressTwice,
    PTwice,
}

/// The locators of a set, and every fault in it.
pub fn read_set(body: &[u8]) -> (Vec<Listed>, Vec<SetFault>) {
    let mut listed = Vec::new();
    let mut faults = Vec::new();
    let mut count = 0;
    let mut rest = body;
    while !rest.is_empty() {
        let Some((head, locator, after)) = split_locator(rest) else {
            faults.push(SetFault::NotFilled);
            break;
        };
        listed.extend(read_locator(head, locator, &mut faults));
        count += 1;
        rest = after;
    }
    if body.is_empty() {
        faults.push(SetFault::Empty);
    }
    if count > 8 {
        faults.push(SetFault::OverEight);
    }
    faults.extend(repeats(&listed));
    (listed, faults)
}

/// The eight bytes that head a locator, the locator, and what follows;
/// nothing if its length leads past the end of the set.
fn split_locator(bytes: &[u8]) -> Option<(&[u8], &[u8], &[u8])> {
    if bytes.len() < 8 {
        return None;
    }
    let (head, rest) = bytes.split_at(8);
    let length = usize::from(head[2]) * 4;
    if length > rest.len() {
        return None;
    }
    let (locator, after) = rest.split_at(length);
    Some((head, locator, after))
}

fn read_locator(head: &[u8], locator: &[u8], faults: &mut Vec<SetFault>) -> Option<Listed> {
    let lifetime = u32_at(head, 4);
    if head[0] > 2 {
        faults.push(SetFault::Traffic);
    }
    if lifetime == 0 {
        faults.push(SetFault::Lifetime);
    }
    let (spi, address) = match (head[1], locator.len()) {
        (0, 16) => (None, locator),
        (1, 20) => (Some(u32_at(locator, 0)), &locator[4..]),
        (kind, _) => {
            faults.push(match kind {
                0 => SetFault::LengthOfType0,
                1 => SetFault::LengthOfType1,
                _ => SetFault::LocatorType,
            });
            return None;
        }
    };
    let address: [u8; 16] = address.try_into().expect("16 bytes are left");
    faults.extend(not_legal(&address).map(SetFault::Address));
    Some(Listed {
        address,
        traffic: head[0],
        lifetime,
        preferred: head[3] & 1 == 1,
        spi,
    })
}

/// "an address twice, P twice"
fn repeats(listed: &[Listed]) -> Vec<SetFault> {
    let mut faults = Vec::new();
    let twice = listed
        .iter()
        .enumerate()
        .any(|(i, one)| listed[..i].iter().any(|other| other.address == one.address));
    if twice {
        faults.push(SetFault::AddressTwice);
    }
    if listed.iter().filter(|one| one.preferred).count() > 1 {
        faults.push(SetFault::PTwice);
    }
    faults
}

fn clause_of(fault: SetFault) -> &'static str {
    match fault {
        SetFault::Empty => "refusal 6: empty",
        SetFault::OverEight => "refusal 6: over 8",
        SetFault::NotFilled => "refusal 6: not filled exactly",
        SetFault::Traffic => "refusal 6: unknown traffic type",
        SetFault::LocatorType => "refusal 6: unknown locator type",
        SetFault::LengthOfType0 => "refusal 6: length of type 0",
        SetFault::LengthOfType1 => "refusal 6: length of type 1",
        SetFault::Lifetime => "refusal 6: lifetime 0",
        SetFault::Address(NotLegal::FirstByteFf) => "refusal 6: first byte 0xff",
        SetFault::Address(NotLegal::AllZero) => "refusal 6: all zero",
        SetFault::Address(NotLegal::Ipv4Multicast) => "refusal 6: IPv4 224 to 239",
        SetFault::Address(NotLegal::Ipv4Zero) => "refusal 6: 0.0.0.0",
        SetFault::Address(NotLegal::Ipv4Broadcast) => "refusal 6: 255.255.255.255",
        SetFault::AddressTwice => "refusal 6: address twice",
        SetFault::PTwice => "refusal 6: P twice",
    }
}

/// The body of a packet's only echo response, for the census.
pub fn echo_of(packet: &[u8]) -> Option<Vec<u8>> {
    let parameters = read_parameters(packet, &mut Reasons::default());
    let echoes = bodies(&parameters, ECHO_RESPONSE_SIGNED);
    echoes.first().map(|echo| echo.to_vec())
}

/// What a packet that passed refusals 3 to 5 says, for the census.
pub fn content_of(packet: &[u8]) -> Option<Content> {
    let mut reasons = Reasons::default();
    let parameters = read_parameters(packet, &mut reasons);
    if reasons.has_up_to(5) {
        return None;
    }
    read_content(&parameters, &mut reasons)
}
