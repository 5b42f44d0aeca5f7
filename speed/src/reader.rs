//! Reading a packet by rows 3 to 6, written for speed: no heap, no copy of the
//! packet, and nothing looked at twice that can be looked at once.
//!
//! Every parameter starts at a multiple of eight bytes, so the walk goes over
//! the packet in words of eight bytes. Types never fall along a packet, so one
//! pass judges row 3 and notes what rows 4 and 5 need; the locators are read
//! after it, when only row 6 is left.

const HEADER_WORDS: usize = 5;

const ESP_INFO: u16 = 65;
const LOCATOR_SET: u16 = 193;
const SEQ: u16 = 385;
const ACK: u16 = 449;
const HOST_ID: u16 = 705;
const ECHO_REQUEST_SIGNED: u16 = 897;
const ECHO_RESPONSE_SIGNED: u16 = 961;
const HIP_MAC: u16 = 61505;
const HIP_SIGNATURE: u16 = 61697;

/// The most locators that a set lists.
pub const MOST: usize = 8;

/// One locator of a set. The address is held as two numbers, its first eight
/// bytes and its last eight.
#[derive(Clone, Copy, Debug, PartialEq, Eq)]
pub struct Listed {
    pub high: u64,
    pub low: u64,
    pub lifetime: u32,
    /// 0 for a locator of type 0.
    pub spi: u32,
    pub traffic: u8,
    pub kind: u8,
    pub preferred: bool,
}

impl Listed {
    pub const BLANK: Listed = Listed {
        high: 0,
        low: 0,
        lifetime: 0,
        spi: 0,
        traffic: 0,
        kind: 0,
        preferred: false,
    };
}

/// The echo response: only one of eight bytes can be a nonce.
#[derive(Clone, Copy, Debug, PartialEq, Eq)]
pub enum Echo {
    Absent,
    Nonce(u64),
    Other,
}

#[derive(Clone, Copy, Debug, PartialEq, Eq)]
pub struct MoveFields {
    pub keymat: u16,
    pub old_spi: u32,
    pub new_spi: u32,
    pub id: u32,
    /// How many locators are listed, 1 to 8.
    pub count: u8,
    pub echo: Echo,
}

#[derive(Clone, Copy, Debug, PartialEq, Eq)]
pub enum Message {
    /// Refused by this row, 3 to 6.
    Refused(u8),
    Move(MoveFields),
    Reply(Echo),
    /// The opaque bytes are `len` bytes of the packet from `body` on.
    Check {
        id: u32,
        body: u16,
        len: u16,
    },
}

/// The answer by value: the listed locators first, blanks after them.
#[derive(Clone, Copy, Debug, PartialEq, Eq)]
pub struct Reading {
    pub message: Message,
    pub listed: [Listed; MOST],
}

// What a packet holds: how many of each type that matters to rows 4 and 5, a
// byte for each. A packet has room for 251 parameters, so no byte overflows.
const INFO: u64 = 1;
const SET: u64 = 1 << 8;
const NUMBER: u64 = 1 << 16;
const ACKED: u64 = 1 << 24;
const REQUEST: u64 = 1 << 32;
const RESPONSE: u64 = 1 << 40;
/// Odd types that are not known.
const STRANGE: u64 = 1 << 48;

/// Reads a packet; only entries of `listed` below the count of a Move have a
/// meaning afterwards.
#[inline(always)]
fn read_message<const BY_VALUE: bool>(packet: &[u8], listed: &mut [Listed; MOST]) -> Message {
    let (words, _) = packet.as_chunks::<8>();
    if words.len() < HEADER_WORDS {
        return Message::Refused(3);
    }
    // Next header 59, header length, UPDATE, version 2 and the low bit set.
    let header = (u64::from_be_bytes(words[0]) >> 32) as u32;
    if header & 0xff00_fff1 != 0x3b00_1021
        || ((header >> 16 & 0xff) as usize + 1) * 8 != packet.len()
    {
        return Message::Refused(3);
    }

    let mut held = 0u64;
    let mut before = 0;
    let (mut info, mut set, mut seq, mut echo) = (0, 0, 0, 0);
    let mut at = HEADER_WORDS;
    while let Some(word) = words.get(at) {
        let kind = u16::from_be_bytes([word[0], word[1]]);
        let length = u16::from_be_bytes([word[2], word[3]]);
        let next = at + (usize::from(length) + 11) / 8;
        if kind < before || next > words.len() {
            return Message::Refused(3);
        }
        // All known types are odd.
        if kind & 1 == 1 {
            match kind {
                ESP_INFO => {
                    if length != 12 {
                        return Message::Refused(3);
                    }
                    info = at;
                    held += INFO;
                }
                LOCATOR_SET => {
                    set = at;
                    held += SET;
                }
                SEQ => {
                    if length != 4 {
                        return Message::Refused(3);
                    }
                    seq = at;
                    held += NUMBER;
                }
                ACK => {
                    if length == 0 || length % 4 != 0 {
                        return Message::Refused(3);
                    }
                    held += ACKED;
                }
                ECHO_REQUEST_SIGNED => {
                    echo = at;
                    held += REQUEST;
                }
                ECHO_RESPONSE_SIGNED => {
                    echo = at;
                    held += RESPONSE;
                }
                HOST_ID | HIP_MAC | HIP_SIGNATURE => {}
                _ => held += STRANGE,
            }
        }
        before = kind;
        at = next;
    }

    if held >= STRANGE {
        return Message::Refused(4);
    }
    const MOVE: u64 = INFO + SET + NUMBER;
    const MOVE_WITH_ECHO: u64 = MOVE + RESPONSE;
    const CHECK: u64 = NUMBER + REQUEST;
    const CHECK_WITH_INFO: u64 = CHECK + INFO;
    // Any kind may hold one ACK.
    match held & !ACKED {
        kind @ (MOVE | MOVE_WITH_ECHO) => {
            let body = set * 8 + 4;
            let set = &packet[body..body + length_at(words, set)];
            let count = read_set::<BY_VALUE>(set, listed);
            if count == 0 {
                return Message::Refused(6);
            }
            let spis = word_at(words, info + 1);
            Message::Move(MoveFields {
                keymat: word_at(words, info) as u16,
                old_spi: (spis >> 32) as u32,
                new_spi: spis as u32,
                id: word_at(words, seq) as u32,
                count,
                echo: if kind == MOVE {
                    Echo::Absent
                } else {
                    read_echo(words, echo)
                },
            })
        }
        RESPONSE => Message::Reply(read_echo(words, echo)),
        CHECK | CHECK_WITH_INFO => Message::Check {
            id: word_at(words, seq) as u32,
            body: (echo * 8 + 4) as u16,
            len: length_at(words, echo) as u16,
        },
        _ => Message::Refused(5),
    }
}

#[inline(always)]
fn word_at(words: &[[u8; 8]], at: usize) -> u64 {
    u64::from_be_bytes(words[at])
}

/// The length of the parameter that starts at a word.
#[inline(always)]
fn length_at(words: &[[u8; 8]], at: usize) -> usize {
    (word_at(words, at) >> 32) as usize & 0xffff
}

#[inline(always)]
fn read_echo(words: &[[u8; 8]], at: usize) -> Echo {
    if length_at(words, at) == 8 {
        Echo::Nonce(word_at(words, at) << 32 | word_at(words, at + 1) >> 32)
    } else {
        Echo::Other
    }
}

/// Reads a set while judging it by row 6: how many it lists, 0 if that row
/// refuses it. By value, what a refused set has left in the array is blanked.
#[inline(never)]
fn read_set<const BY_VALUE: bool>(body: &[u8], listed: &mut [Listed; MOST]) -> u8 {
    match read_locators(body, listed) {
        Some(count) => count,
        None => {
            if BY_VALUE {
                *listed = [Listed::BLANK; MOST];
            }
            0
        }
    }
}

/// The locators of a set and how many they are; nothing if row 6 refuses it.
#[inline(always)]
fn read_locators(body: &[u8], listed: &mut [Listed; MOST]) -> Option<u8> {
    const P: u64 = 1 << 32;
    let mut rest = body;
    // All heads so far, for P, and the bits of all addresses so far.
    let mut heads = 0;
    let mut seen = 0;
    for place in 0..MOST {
        // Traffic type, locator type, length, P, lifetime.
        let head = u64::from_be_bytes(*rest.first_chunk()?);
        let spi;
        let address: &[u8; 16];
        match head >> 40 & 0xffff {
            0x0105 => {
                let (locator, after) = rest.split_first_chunk::<28>()?;
                spi = u32::from_be_bytes(*locator[8..].first_chunk()?);
                address = locator.last_chunk()?;
                rest = after;
            }
            0x0004 => {
                let (locator, after) = rest.split_first_chunk::<24>()?;
                spi = 0;
                address = locator.last_chunk()?;
                rest = after;
            }
            _ => return None,
        }
        let high = u64::from_be_bytes(*address.first_chunk()?);
        let low = u64::from_be_bytes(*address.last_chunk()?);
        if head >= 3 << 56 || head as u32 == 0 || head & heads & P != 0 || !is_legal(high, low) {
            return None;
        }
        // One bit of 64 stands for the address: only where it stands already
        // can the address be listed, and the list is searched.
        let bit = 1u64 << ((low ^ high).wrapping_mul(0x9e37_79b9_7f4a_7c15) >> 58);
        if seen & bit != 0 && holds(&listed[..place], high, low) {
            return None;
        }
        seen |= bit;
        heads |= head;
        listed[place] = Listed {
            high,
            low,
            lifetime: head as u32,
            spi,
            traffic: (head >> 56) as u8,
            kind: (head >> 48) as u8,
            preferred: head & P != 0,
        };
        if rest.is_empty() {
            return Some(place as u8 + 1);
        }
    }
    None
}

/// Whether an address is listed.
#[inline(never)]
fn holds(listed: &[Listed], high: u64, low: u64) -> bool {
    listed
        .iter()
        .any(|other| other.low == low && other.high == high)
}

/// Not legal: first byte 0xff; all zero; IPv4 (::ffff:a.b.c.d) with a from 224
/// to 239; 0.0.0.0; 255.255.255.255.
#[inline(always)]
fn is_legal(high: u64, low: u64) -> bool {
    // Not 0, and no 0xff in front: most addresses need no more than this.
    if high.wrapping_sub(1) < (0xff << 56) - 1 {
        return true;
    }
    let ipv4 = low as u32;
    high == 0
        && match low >> 32 {
            0 => ipv4 != 0,
            0xffff => ipv4 >> 28 != 0xe && ipv4 != 0 && ipv4 != u32::MAX,
            _ => true,
        }
}

// Both forms are functions of their own, as the proved reader is, which has two
// callers: an answer by value crosses a call.

/// The lean form: fills the caller's array and writes nothing where nothing is
/// listed. Entries from the count on, and all entries where the message is no
/// Move, have no meaning.
#[inline(never)]
pub fn read_into(packet: &[u8], listed: &mut [Listed; MOST]) -> Message {
    read_message::<false>(packet, listed)
}

/// The form by value: the whole answer, blanks included.
#[inline(never)]
pub fn read(packet: &[u8]) -> Reading {
    let mut reading = Reading {
        message: Message::Refused(3),
        listed: [Listed::BLANK; MOST],
    };
    reading.message = read_message::<true>(packet, &mut reading.listed);
    reading
}

/// One step of the fold of an answer to a number.
#[inline(always)]
pub fn mix(h: u64, x: u64) -> u64 {
    h.wrapping_mul(5).wrapping_add(x)
}

#[inline(always)]
fn mix_echo(h: u64, echo: Echo) -> u64 {
    let (case, nonce) = match echo {
        Echo::Absent => (0, 0),
        Echo::Nonce(nonce) => (1, nonce),
        Echo::Other => (2, 0),
    };
    mix(mix(h, case), nonce)
}

/// The whole answer as one number.
#[inline(always)]
fn fold(message: &Message, listed: &[Listed; MOST]) -> u64 {
    match *message {
        Message::Refused(row) => mix(4, row.into()),
        Message::Move(fields) => {
            let mut h = mix(1, fields.keymat.into());
            h = mix(h, fields.old_spi.into());
            h = mix(h, fields.new_spi.into());
            h = mix(h, fields.id.into());
            h = mix(h, fields.count.into());
            h = mix_echo(h, fields.echo);
            for one in listed.iter().take(fields.count.into()) {
                h = mix(h, one.high);
                h = mix(h, one.low);
                h = mix(h, u64::from(one.spi) << 32 | u64::from(one.lifetime));
                let bits = u64::from(one.traffic) << 9
                    | u64::from(one.kind) << 1
                    | u64::from(one.preferred);
                h = mix(h, bits);
            }
            h
        }
        Message::Reply(echo) => mix_echo(2, echo),
        Message::Check { id, body, len } => mix(mix(mix(3, id.into()), body.into()), len.into()),
    }
}

/// The fold of the answer by value.
#[inline(never)]
pub fn fold_value(packet: &[u8]) -> u64 {
    let reading = read(packet);
    fold(&reading.message, &reading.listed)
}

/// The fold of the lean answer. The array stays with the caller, who hands in
/// the same one for every packet.
#[inline(never)]
pub fn fold_lean(packet: &[u8], listed: &mut [Listed; MOST]) -> u64 {
    let message = read_into(packet, listed);
    fold(&message, listed)
}
