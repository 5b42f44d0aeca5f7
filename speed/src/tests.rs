//! The two forms of the reader against each other, against packets made by
//! hand, and the limits of the gate's file.

use crate::equal::{compare, difference, Answers};
use crate::gate;
use crate::packets::{
    info_body, set_body, Draft, Locator, ACK, ECHO_REQUEST_SIGNED, ECHO_RESPONSE_SIGNED, ESP_INFO,
    HIP_MAC, LOCATOR_SET, SEQ,
};
use crate::reader::{fold_value, mix, read, Echo, Listed, Message, MoveFields, MOST};

#[test]
fn both_forms_agree() {
    let answers = compare(20_000, 5).expect("no difference");
    assert!(answers.least_share() > 0.03, "an answer is seldom met");
}

/// Bytes from hexadecimal digits; spaces part them.
fn bytes(hex: &str) -> Vec<u8> {
    let digits: Vec<char> = hex.chars().filter(|c| !c.is_whitespace()).collect();
    let pairs = digits.chunks(2);
    pairs
        .map(|pair| u8::from_str_radix(&pair.iter().collect::<String>(), 16).expect("digits"))
        .collect()
}

const HITS: &str = "00000000 00000000 00000000 00000000 00000000 00000000 00000000 00000000";

/// A packet whose header tells of `words` words of eight bytes in all.
fn packet(words: u8, parameters: &str) -> Vec<u8> {
    bytes(&format!(
        "3b{:02x}1021 00000000 {HITS} {parameters}",
        words - 1
    ))
}

fn folded(numbers: &[u64]) -> u64 {
    numbers.iter().fold(0, |h, x| mix(h, *x))
}

const INFO: &str = "0041000c 00000102 00002001 00003001";
const SET: &str = "00c1001c 00010501 00000e10 00003001 20010db8 00000000 00000000 00000001";
const NUMBER: &str = "01810004 00000007";

#[test]
fn a_move_by_hand() {
    let packet = packet(12, &format!("{INFO}{SET}{NUMBER}"));
    let reading = read(&packet);
    let fields = MoveFields {
        keymat: 0x102,
        old_spi: 0x2001,
        new_spi: 0x3001,
        id: 7,
        count: 1,
        echo: Echo::Absent,
    };
    assert_eq!(reading.message, Message::Move(fields));
    let one = Listed {
        high: 0x2001_0db8_0000_0000,
        low: 1,
        lifetime: 3600,
        spi: 0x3001,
        traffic: 0,
        kind: 1,
        preferred: true,
    };
    assert_eq!(reading.listed[0], one);
    assert_eq!(reading.listed[1..], [Listed::BLANK; MOST - 1]);
    let expected = [
        1,
        0x102,
        0x2001,
        0x3001,
        7,
        1,
        0,
        0,
        one.high,
        one.low,
        (0x3001 << 32) + 3600,
        3,
    ];
    assert_eq!(fold_value(&packet), folded(&expected));
}

#[test]
fn a_reply_by_hand() {
    let eight = packet(7, "03c10008 01020304 05060708 00000000");
    let nonce = 0x0102_0304_0506_0708;
    assert_eq!(read(&eight).message, Message::Reply(Echo::Nonce(nonce)));
    assert_eq!(fold_value(&eight), folded(&[2, 1, nonce]));
    let four = packet(6, "03c10004 01020304");
    assert_eq!(read(&four).message, Message::Reply(Echo::Other));
    assert_eq!(fold_value(&four), folded(&[2, 2, 0]));
}

#[test]
fn a_check_by_hand() {
    let check = packet(8, &format!("{NUMBER} 03810008 01020304 05060708 00000000"));
    let expected = Message::Check {
        id: 7,
        body: 52,
        len: 8,
    };
    assert_eq!(read(&check).message, expected);
    assert_eq!(fold_value(&check), folded(&[3, 7, 52, 8]));
}

/// The row that refuses a packet, 0 if none does.
fn row(packet: &[u8]) -> u8 {
    if let Some(text) = difference(packet, &mut Answers::default()) {
        panic!("{text}");
    }
    match read(packet).message {
        Message::Refused(row) => row,
        _ => 0,
    }
}

#[test]
fn rows_by_hand() {
    assert_eq!(row(&[]), 3);
    assert_eq!(row(&packet(5, "")), 5);
    assert_eq!(row(&packet(5, "")[..39]), 3);
    assert_eq!(row(&packet(6, "")), 3);
    // Types fall; an unknown odd type before it does not matter.
    assert_eq!(row(&packet(7, "00030000 00000000 00020000 00000000")), 3);
    assert_eq!(row(&packet(6, "00030000 00000000")), 4);
    assert_eq!(row(&packet(6, "00020000 00000000")), 5);
    // L of SEQ, of ACK, and past the end.
    assert_eq!(row(&packet(6, "01810003 00000000")), 3);
    assert_eq!(row(&packet(6, "01c10000 00000000")), 3);
    assert_eq!(row(&packet(6, "00020005 00000000")), 3);
    // A packet of 2,048 bytes is the longest.
    let many = |count| {
        let mut draft = Draft::default();
        for _ in 0..count {
            draft = draft.with(2, [0; 4]);
        }
        draft.packet()
    };
    assert_eq!(row(&many(251)), 5);
    assert_eq!(row(&many(252)), 3);
    assert_eq!(fold_value(&many(251)), 25);
}

fn locator(end: u8) -> Locator {
    let mut address = [0; 16];
    address[0] = 0x20;
    address[15] = end;
    Locator::new(end % 2, 9, address)
}

fn move_of(set: &[Locator]) -> Draft {
    Draft::default()
        .with(ESP_INFO, info_body(0, 1, 2))
        .with(LOCATOR_SET, set_body(set))
        .with(SEQ, [0; 4])
}

#[test]
fn sets_by_hand() {
    let of = |count| (0..count).map(locator).collect::<Vec<_>>();
    let changed = |change: fn(&mut [Locator])| {
        let mut set = of(8);
        change(&mut set);
        row(&move_of(&set).packet())
    };
    assert_eq!(row(&move_of(&of(0)).packet()), 6);
    assert_eq!(row(&move_of(&of(8)).packet()), 0);
    assert_eq!(row(&move_of(&of(9)).packet()), 6);
    assert_eq!(changed(|set| set[7].address = set[0].address), 6);
    assert_eq!(changed(|set| set[7].address[0] = 0xff), 6);
    assert_eq!(changed(|set| set[7].address[0] = 0xfe), 0);
    assert_eq!(changed(|set| set[3].address = [0; 16]), 6);
    assert_eq!(changed(|set| set[3].lifetime = 0), 6);
    assert_eq!(changed(|set| set[3].traffic = 3), 6);
    assert_eq!(changed(|set| set[3].flags = 1), 0);
    assert_eq!(changed(|set| set[3].flags = 0xfe), 0);
    assert_eq!(
        changed(|set| {
            set[3].flags = 1;
            set[6].flags = 0xff;
        }),
        6
    );
    for (a, expected) in [(223, 0), (224, 6), (239, 6), (240, 0)] {
        let mut set = of(2);
        set[1].address = [0, 0, 0, 0, 0, 0, 0, 0, 0, 0, 0xff, 0xff, a, 0, 0, 0];
        assert_eq!(row(&move_of(&set).packet()), expected);
    }
}

#[test]
fn kinds_by_hand() {
    let whole = move_of(&[locator(1)]);
    let with = |kind, length| {
        let mut draft = whole.clone();
        draft.put(kind, vec![0; length]);
        row(&draft.packet())
    };
    assert_eq!(with(ACK, 8), 0);
    assert_eq!(with(HIP_MAC, 3), 0);
    assert_eq!(with(ECHO_RESPONSE_SIGNED, 8), 0);
    assert_eq!(with(ECHO_REQUEST_SIGNED, 8), 5);
    assert_eq!(with(SEQ, 4), 5);
    assert_eq!(with(7, 4), 4);
}

#[test]
fn the_gate_file_keeps_its_limits() {
    let file = gate::file();
    let (bases, edits) = gate::parts(&file);
    assert!(file.len() <= 40_000, "{} bytes", file.len());
    assert!(bases.len() <= 60, "{} base packets", bases.len());
    assert!((3_500..4_500).contains(&edits.len()), "{}", edits.len());
    let in_all: usize = bases.iter().map(|base| base.len() + 2).sum();
    assert_eq!(file.len(), 1 + in_all + 6 * edits.len());
    let mut answers = Answers::default();
    for edit in edits {
        let packet = gate::edited(&bases, edit);
        assert_eq!(difference(&packet, &mut answers), None);
    }
    assert!(answers.least_share() > 0.005, "an answer is seldom met");
    assert_eq!(gate::numbers(&file).lines().count(), bases.len() + 1);
}
