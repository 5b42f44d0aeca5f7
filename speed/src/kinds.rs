//! The kinds of packets whose reading is timed, several variants of each.

use crate::packets::{
    illegal_address, info_body, legal_set, set_body, Draft, Locator, Random, ACK,
    ECHO_REQUEST_SIGNED, ECHO_RESPONSE_SIGNED, ESP_INFO, HIP_MAC, HIP_SIGNATURE, LOCATOR_SET, SEQ,
};

/// How many variants of a kind are read in turn.
pub const VARIANTS: usize = 64;

pub const NAMES: [&str; 14] = [
    "move-8-type-1",
    "move-8-type-0",
    "move-1-type-1",
    "reply",
    "check",
    "bad-last-address",
    "address-twice",
    "p-twice",
    "wrong-length",
    "lifetime-0",
    "damaged-mixed",
    "even-248",
    "refused-by-3",
    "refused-by-4",
];

/// What is told of a kind in the tables.
pub fn title(name: &str) -> &'static str {
    match name {
        "move-8-type-1" => "Move, 8 locators of type 1",
        "move-8-type-0" => "Move, 8 locators of type 0",
        "move-1-type-1" => "Move, 1 locator of type 1",
        "reply" => "Reply",
        "check" => "Check",
        "bad-last-address" => "8 locators, last address not legal",
        "address-twice" => "8 locators, an address twice",
        "p-twice" => "8 locators, P twice",
        "wrong-length" => "8 locators, a wrong length",
        "lifetime-0" => "8 locators, a lifetime 0",
        "damaged-mixed" => "8 locators, these five mixed",
        "even-248" => "248 even parameters of no use",
        "refused-by-3" => "refused by 3, header",
        "refused-by-4" => "refused by 4, 8 locators",
        _ => "",
    }
}

/// The variants of a kind; nothing if there is no such kind.
pub fn packets(name: &str) -> Option<Vec<Vec<u8>>> {
    let kind = NAMES.iter().position(|other| *other == name)?;
    let mut random = Random::new(100 + kind as u64);
    Some(
        (0..VARIANTS)
            .map(|i| variant(name, i, &mut random))
            .collect(),
    )
}

fn variant(name: &str, number: usize, random: &mut Random) -> Vec<u8> {
    let mut packet = match name {
        "move-8-type-1" => a_move(random, 8, 1, |_, _| {}),
        "move-8-type-0" => a_move(random, 8, 0, |_, _| {}),
        "move-1-type-1" => a_move(random, 1, 1, |_, _| {}),
        "reply" => {
            let mut draft = Draft::default();
            maybe_ack(random, &mut draft);
            draft.put(ECHO_RESPONSE_SIGNED, random.bytes(8));
            sign(random, draft)
        }
        "check" => {
            let mut draft = Draft::default();
            if random.chance(50) {
                draft.put(ESP_INFO, random.bytes(12));
            }
            draft.put(SEQ, random.bytes(4));
            maybe_ack(random, &mut draft);
            let length = random.pick(&[8, 8, 8, 16, 20, 64]);
            draft.put(ECHO_REQUEST_SIGNED, random.bytes(length));
            sign(random, draft)
        }
        "damaged-mixed" => {
            let which = random.below(DAMAGES.len());
            a_move(random, 8, 1, DAMAGES[which].1)
        }
        "even-248" => {
            let mut draft = Draft::default();
            for _ in 0..248 {
                draft = draft.with(2, random.bytes(4));
            }
            draft.packet()
        }
        "refused-by-3" => {
            let mut packet = a_move(random, 8, 1, |_, _| {});
            packet[number % 4] ^= [1, 1, 1, 0x10][number % 4];
            packet
        }
        "refused-by-4" => {
            let mut packet = a_move(random, 8, 1, |_, _| {});
            let odd = Draft::default().with(random.pick(&[1, 3, 63]), random.bytes(4));
            packet.splice(40..40, odd.packet().split_off(40));
            crate::packets::mend(&mut packet);
            packet
        }
        name => {
            let damage = DAMAGES.iter().find(|(other, _)| *other == name);
            a_move(
                random,
                8,
                1,
                damage.map_or(|_, _| {}, |(_, damage)| *damage),
            )
        }
    };
    for byte in &mut packet[4..40] {
        *byte = random.number() as u8;
    }
    packet
}

type Damage = fn(&mut Random, &mut Vec<Locator>);

const DAMAGES: [(&str, Damage); 5] = [
    ("bad-last-address", |random, set| {
        set[7].address = illegal_address(random);
    }),
    ("address-twice", |random, set| {
        let (one, other) = two(random);
        set[one].address = set[other].address;
    }),
    ("p-twice", |random, set| {
        let (one, other) = two(random);
        for locator in set.iter_mut() {
            locator.flags = 0;
        }
        set[one].flags = 1;
        set[other].flags = 1;
    }),
    ("wrong-length", |random, set| {
        set[random.below(8)].length = random.pick(&[0, 4, 6, 10]);
    }),
    ("lifetime-0", |random, set| {
        set[random.below(8)].lifetime = 0;
    }),
];

/// Two different places in a set of eight.
fn two(random: &mut Random) -> (usize, usize) {
    let one = random.below(8);
    (one, (one + 1 + random.below(7)) % 8)
}

/// A Move as a peer sends it: perhaps with an ACK and an echo, signed.
fn a_move(random: &mut Random, count: usize, kind: u8, damage: Damage) -> Vec<u8> {
    let old = random.number() as u32;
    let new = random.number() as u32;
    let mut set = legal_set(random, count, Some(kind), new);
    damage(random, &mut set);
    let mut draft = Draft::default()
        .with(ESP_INFO, info_body(random.number() as u16, old, new))
        .with(LOCATOR_SET, set_body(&set))
        .with(SEQ, random.bytes(4));
    maybe_ack(random, &mut draft);
    if random.chance(50) {
        draft.put(ECHO_RESPONSE_SIGNED, random.bytes(8));
    }
    sign(random, draft)
}

fn maybe_ack(random: &mut Random, draft: &mut Draft) {
    if random.chance(50) {
        draft.put(ACK, random.bytes(4));
    }
}

fn sign(random: &mut Random, mut draft: Draft) -> Vec<u8> {
    draft.put(HIP_MAC, random.bytes(32));
    draft.put(HIP_SIGNATURE, random.bytes(72));
    draft.packet()
}
