//! The file of packets for the gate, and the numbers expected of it.
//!
//! One byte tells how many base packets there are; each stands after its 16-bit
//! length. Then come edits of six bytes: which base packet, how many bytes of it
//! are taken, an offset, and a byte for the exclusive or with the byte there (no
//! change at or past the taken length). Each edit stands for one packet. Numbers
//! are big-endian.

use crate::packets::{
    info_body, mend, set_body, starts, Draft, Locator, ACK, ECHO_REQUEST_SIGNED,
    ECHO_RESPONSE_SIGNED, ESP_INFO, HEADER, HIP_MAC, HIP_SIGNATURE, HOST_ID, LOCATOR_SET, SEQ,
};
use crate::reader::{fold_value, mix};

const ALL_XORS: [u8; 4] = [1, 2, 0x80, 0xff];
const TWO_XORS: [u8; 2] = [1, 0x80];

/// Which bytes of a base packet are damaged, besides those that every one has
/// damaged: the types and lengths of its parameters.
#[derive(Clone, Copy, PartialEq)]
enum Care {
    /// No others.
    Little,
    /// The header's judged bytes, and the head and the outer bytes of the
    /// address of each locator.
    Locators,
    /// The header's judged bytes and all after the header; also cut at every
    /// byte, and at every eighth with the header length mended.
    Full,
}

/// The locators of the base packets have these addresses.
fn address(end: u8) -> [u8; 16] {
    [0x20, 1, 0xd, 0xb8, 0, 0, 0, 1, 0, 0, 0, 0, 0, 0, 2, end]
}

fn ipv4(bytes: [u8; 4]) -> [u8; 16] {
    let mut address = [0; 16];
    address[10..12].fill(0xff);
    address[12..].copy_from_slice(&bytes);
    address
}

fn locator(kind: u8, address: [u8; 16]) -> Locator {
    let mut one = Locator::new(kind, 0x0a0b_0c0d, address);
    one.lifetime = 0x0102_0304;
    one
}

/// So many locators, of types that a function tells of the place.
fn locators(count: u8, kind: fn(u8) -> u8) -> Vec<Locator> {
    (0..count).map(|i| locator(kind(i), address(i))).collect()
}

fn move_of_body(body: Vec<u8>) -> Draft {
    Draft::default()
        .with(ESP_INFO, info_body(0x1112, 0x2122_2324, 0x3132_3334))
        .with(LOCATOR_SET, body)
        .with(SEQ, [0x41, 0x42, 0x43, 0x44])
}

fn move_of(set: &[Locator]) -> Draft {
    move_of_body(set_body(set))
}

fn one_address(address: [u8; 16]) -> Draft {
    move_of(&[locator(0, address)])
}

/// Bytes that rise from a first one.
fn rising(from: u8, count: u8) -> Vec<u8> {
    (from..from + count).collect()
}

fn reply(length: u8) -> Draft {
    Draft::default().with(ECHO_RESPONSE_SIGNED, rising(0x51, length))
}

fn check(length: u8) -> Draft {
    Draft::default()
        .with(SEQ, [0x61, 0x62, 0x63, 0x64])
        .with(ECHO_REQUEST_SIGNED, rising(0x71, length))
}

fn with(mut draft: Draft, kind: u16, body: Vec<u8>) -> Draft {
    draft.put(kind, body);
    draft
}

fn signed(draft: Draft) -> Draft {
    let draft = with(draft, HIP_MAC, rising(0x81, 20));
    with(draft, HIP_SIGNATURE, rising(0xa1, 24))
}

/// The base packets.
fn bases() -> Vec<(Vec<u8>, Care)> {
    let mut all = Vec::new();
    for (draft, care) in accepted() {
        all.push((draft.packet(), care));
    }
    for draft in of_no_kind().into_iter().chain(sets()).chain(addresses()) {
        all.push((draft.packet(), Care::Little));
    }
    all.extend(walks().map(|packet| (packet, Care::Little)));
    all
}

/// Messages of every kind.
fn accepted() -> Vec<(Draft, Care)> {
    let mut three = locators(3, |i| (i + 1) % 2);
    three[1].address = ipv4([10, 0, 0, 1]);
    three[1].flags = 0xff;
    three[1].lifetime = 0x0001_0000;
    // One bit parts the last address from the first.
    three[2].address = three[0].address;
    three[2].address[7] ^= 1;
    three[2].traffic = 2;
    three[2].lifetime = 0x0100_0000;
    let three = with(move_of(&three), ACK, rising(0x11, 4));
    let eight = with(
        move_of(&locators(8, |_| 1)),
        ECHO_RESPONSE_SIGNED,
        rising(1, 8),
    );
    let mixed = with(
        move_of(&locators(8, |i| i % 2)),
        ECHO_RESPONSE_SIGNED,
        rising(1, 7),
    );
    let reply_with_all = with(reply(8), ACK, rising(0x11, 8));
    let check_with_all = with(check(10), ESP_INFO, rising(0x21, 12));
    let check_with_all = with(check_with_all, ACK, rising(0x11, 4));
    vec![
        (move_of(&locators(1, |_| 1)), Care::Full),
        (with(three, ECHO_RESPONSE_SIGNED, rising(1, 8)), Care::Full),
        (signed(eight), Care::Locators),
        (move_of(&locators(8, |_| 0)), Care::Locators),
        (mixed, Care::Little),
        (reply(8), Care::Full),
        (
            signed(with(reply_with_all, HOST_ID, rising(1, 30))),
            Care::Little,
        ),
        (reply(0), Care::Little),
        (check(8), Care::Full),
        (signed(check_with_all), Care::Full),
        (check(0), Care::Little),
        (check(65), Care::Little),
    ]
}

/// Row 5, and even types.
fn of_no_kind() -> Vec<Draft> {
    let one = || move_of(&locators(1, |_| 0));
    let without = |kind| {
        let mut draft = one();
        draft.parameters.retain(|(other, _)| *other != kind);
        draft
    };
    let even = with(one(), 2, rising(1, 3));
    vec![
        Draft::default(),
        with(even, 0xfffe, rising(1, 9)),
        with(one(), ESP_INFO, rising(1, 12)),
        with(one(), LOCATOR_SET, set_body(&locators(1, |_| 0))),
        with(one(), SEQ, rising(1, 4)),
        with(with(one(), ACK, rising(1, 4)), ACK, rising(1, 8)),
        with(
            with(one(), ECHO_RESPONSE_SIGNED, rising(1, 8)),
            ECHO_RESPONSE_SIGNED,
            rising(1, 8),
        ),
        with(one(), ECHO_REQUEST_SIGNED, rising(1, 8)),
        with(check(8), ECHO_RESPONSE_SIGNED, rising(1, 8)),
        with(check(8), LOCATOR_SET, set_body(&locators(1, |_| 0))),
        with(check(8), ECHO_REQUEST_SIGNED, rising(1, 8)),
        with(
            with(check(8), ESP_INFO, rising(1, 12)),
            ESP_INFO,
            rising(1, 12),
        ),
        without(ESP_INFO),
        without(LOCATOR_SET),
        without(SEQ),
        // Refused by 4 before 5 and 6.
        with(without(SEQ), 3, vec![]),
    ]
}

/// Row 6, but for the addresses.
fn sets() -> Vec<Draft> {
    let two = |change: fn(&mut [Locator])| {
        let mut set = locators(2, |i| i);
        change(&mut set);
        move_of(&set)
    };
    let mut long = set_body(&locators(2, |_| 1));
    long.extend([0; 4]);
    let mut short = set_body(&locators(2, |_| 0));
    short.truncate(45);
    let mut over = locators(9, |_| 0);
    over[8].flags = 1;
    vec![
        move_of(&over),
        move_of_body(vec![]),
        move_of_body(long),
        move_of_body(short),
        two(|set| set[1].address = set[0].address),
        two(|set| set.iter_mut().for_each(|one| one.flags = 1)),
        two(|set| set[1].lifetime = 0),
        two(|set| set[1].traffic = 3),
        two(|set| set[0].kind = 2),
        two(|set| set[1].length = 4),
        // Type 0 with the length of type 1, filled.
        {
            let mut body = set_body(&locators(1, |_| 1));
            body[1] = 0;
            move_of_body(body)
        },
        // Type 1 with the length of type 0, filled.
        {
            let mut body = set_body(&locators(1, |_| 0));
            body[1] = 1;
            move_of_body(body)
        },
    ]
}

/// Addresses that are not legal, and those beside them.
fn addresses() -> Vec<Draft> {
    let mut ones = [0; 16];
    ones[15] = 1;
    let mut multicast = address(1);
    multicast[0] = 0xff;
    let mut beside = address(1);
    beside[0] = 0xfe;
    [
        [0; 16],
        ones,
        multicast,
        beside,
        ipv4([224, 0, 0, 0]),
        ipv4([239, 255, 255, 255]),
        ipv4([223, 255, 255, 255]),
        ipv4([240, 0, 0, 0]),
        ipv4([0; 4]),
        ipv4([0, 0, 0, 1]),
        ipv4([255; 4]),
        ipv4([255, 255, 255, 254]),
    ]
    .map(one_address)
    .to_vec()
}

/// Row 3: falling types, lengths, ends; and the longest packets.
fn walks() -> [Vec<u8>; 8] {
    let mut falling = check(8);
    falling.parameters.reverse();
    let mut past = reply(8).packet();
    past.truncate(48);
    mend(&mut past);
    // The whole Move is there if the last eight bytes are not taken.
    let mut longer = move_of(&locators(1, |_| 1)).packet();
    longer.extend([0; 8]);
    let odd_first = with(move_of(&locators(1, |_| 1)), 1, vec![]);
    let mut odd_then_short = odd_first.packet();
    odd_then_short.extend([0xff, 0xff, 0, 5, 0, 0, 0, 0]);
    mend(&mut odd_then_short);
    let many = |kind: u16| {
        let mut draft = Draft::default();
        for _ in 0..251 {
            draft = draft.with(kind, [0; 4]);
        }
        draft.packet()
    };
    [
        falling.packet(),
        past,
        longer,
        odd_then_short,
        with(reply(8), ACK, vec![]).packet(),
        with(reply(8), ACK, rising(1, 6)).packet(),
        many(2),
        many(SEQ),
    ]
}

/// One base packet's edits.
struct Edits {
    base: u8,
    length: u16,
    bytes: Vec<u8>,
}

impl Edits {
    fn add(&mut self, taken: usize, offset: usize, xor: u8) {
        self.bytes.push(self.base);
        self.bytes.extend((taken as u16).to_be_bytes());
        self.bytes.extend((offset as u16).to_be_bytes());
        self.bytes.push(xor);
    }

    fn damage(&mut self, offset: usize, xors: &[u8]) {
        for xor in xors {
            self.add(self.length.into(), offset, *xor);
        }
    }
}

fn edits(base: u8, packet: &[u8], care: Care) -> Vec<u8> {
    let length = packet.len();
    let mut edits = Edits {
        base,
        length: length as u16,
        bytes: Vec::new(),
    };
    edits.add(length, length, 0);
    if care == Care::Little {
        edits.add(length - 8, length, 0);
    } else {
        for offset in 0..5 {
            edits.damage(offset, &ALL_XORS);
        }
    }
    // Of the longest packets, a few parameters.
    let all = starts(packet);
    let few = all.iter().take(4).chain(all.iter().skip(4).last());
    for start in few.copied().filter(|_| care != Care::Full) {
        for offset in (start..start + 4).filter(|offset| *offset < length) {
            edits.damage(offset, &TWO_XORS);
        }
    }
    if care == Care::Full {
        for offset in HEADER..length {
            edits.damage(offset, &ALL_XORS);
        }
        for taken in 0..length {
            edits.add(taken, length, 0);
        }
        for words in 1..length / 8 {
            edits.add(words * 8, 1, packet[1] ^ (words - 1) as u8);
        }
    }
    if care == Care::Locators {
        let mut at = all[1] + 4;
        for _ in 0..8 {
            let end = at + if packet[at + 1] == 1 { 28 } else { 24 };
            for offset in (at..at + 8).chain([end - 16, end - 1]) {
                edits.damage(offset, &ALL_XORS);
            }
            at = end;
        }
    }
    edits.bytes
}

/// The file; always the same.
pub fn file() -> Vec<u8> {
    let bases = bases();
    let mut file = vec![bases.len() as u8];
    for (packet, _) in &bases {
        file.extend((packet.len() as u16).to_be_bytes());
        file.extend(packet);
    }
    for (base, (packet, care)) in bases.iter().enumerate() {
        file.extend(edits(base as u8, packet, *care));
    }
    file
}

/// The base packets of a file that is not torn, and its edits.
pub fn parts(file: &[u8]) -> (Vec<&[u8]>, &[[u8; 6]]) {
    let (mut bases, mut rest) = (Vec::new(), &file[1..]);
    for _ in 0..file[0] {
        let length = usize::from(rest[0]) << 8 | usize::from(rest[1]);
        bases.push(&rest[2..2 + length]);
        rest = &rest[2 + length..];
    }
    (bases, rest.as_chunks().0)
}

/// The packet that an edit stands for.
pub fn edited(bases: &[&[u8]], edit: &[u8; 6]) -> Vec<u8> {
    let [base, taken_high, taken_low, offset_high, offset_low, xor] = *edit;
    let taken = usize::from(u16::from_be_bytes([taken_high, taken_low]));
    let offset = usize::from(u16::from_be_bytes([offset_high, offset_low]));
    let mut packet = bases[usize::from(base)][..taken].to_vec();
    if let Some(byte) = packet.get_mut(offset) {
        *byte ^= xor;
    }
    packet
}

/// The text that is expected: for each base packet the fold of its edits'
/// numbers, then how many edits there are.
pub fn numbers(file: &[u8]) -> String {
    let (bases, edits) = parts(file);
    let mut folds = vec![0; bases.len()];
    for edit in edits {
        let fold = &mut folds[usize::from(edit[0])];
        *fold = mix(*fold, fold_value(&edited(&bases, edit)));
    }
    let lines: String = folds.iter().map(|fold| format!("{fold}\n")).collect();
    format!("{lines}{}\n", edits.len())
}
