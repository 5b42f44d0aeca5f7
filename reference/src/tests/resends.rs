//! Order 4: checks that are sent again, and their end after 16 seconds.

use std::collections::{BTreeMap, BTreeSet};

use super::*;
use crate::own_check::moments_reached;
use crate::tick::RESEND_LENGTH;

/// An address listed for a long time.
fn lasting(n: u8) -> Listed {
    Listed {
        lifetime: 100_000,
        ..listed(n)
    }
}

/// Started at 100; address 2 alone, UNVERIFIED by a check issued at 100 with
/// nonce 100 and Update ID 0.
fn checked() -> Tracer {
    let mut tracer = begun();
    accept(&mut tracer, &move_of(0, vec![lasting(2)]), nonces(1));
    tracer
}

/// The check of an UNVERIFIED slot.
fn check_in(tracer: &Tracer, slot: usize) -> OwnCheck {
    match status(tracer, slot) {
        Status::Unverified(check) => check,
        other => panic!("no check: {other:?}"),
    }
}

fn association(tracer: &Tracer) -> &Association {
    tracer.player.association.as_ref().unwrap()
}

/// Update ID and nonce of each check that a tick writes.
fn ids_and_nonces(resent: &Resent) -> Vec<(u32, u64)> {
    let checks = resent.bytes.chunks(RESEND_LENGTH).map(|bytes| {
        let id = u32::from_be_bytes(bytes[20..24].try_into().unwrap());
        let nonce = u64::from_be_bytes(bytes[28..36].try_into().unwrap());
        (id, nonce)
    });
    checks.collect()
}

fn nothing() -> Resent {
    Resent {
        checks: 0,
        bytes: Vec::new(),
    }
}

#[test]
fn the_bytes_of_a_resend() {
    let mut tracer = begun();
    let first = move_of(0, vec![lasting(1), lasting(2), lasting(3), lasting(4)]);
    accept(&mut tracer, &first, nonces(1));
    (100..103).for_each(|nonce| accept_echo(&mut tracer, nonce));
    let second = move_of(7, (1..=5).map(lasting).collect());
    let reply = accept(&mut tracer, &second, NONCES.to_vec());
    let resent = tick(&mut tracer, 101);
    let expected = [
        // ESP_INFO: KEYMAT Index 0, both SPIs the inbound one
        "0041000c00000000",
        "0000100100001001",
        // SEQ: own ID 3
        "0181000400000003",
        // ECHO_REQUEST_SIGNED with the nonce, and its padding
        "03810008",
        "0102030405060708",
        "00000000",
    ];
    assert_eq!(hex(&resent.bytes), expected.concat());
    assert_eq!((resent.checks, resent.bytes.len()), (1, 40));
    // The reply without its ACK.
    assert_eq!(resent.bytes, [&reply[..24], &reply[32..]].concat());
    assert_eq!(hex(&reply[24..32]), "01c1000400000007");
}

#[test]
fn the_lengths_of_a_check_and_of_the_buffers() {
    let check = check_in(&checked(), 0);
    assert_eq!(check.bytes(1, Some(1)).len(), 48);
    assert_eq!(check.bytes(1, None).len(), RESEND_LENGTH);
    assert_eq!(SMALLEST_BUFFER, 320);
    assert_eq!(message::SMALLEST_BUFFER, 8 * 48);
}

#[test]
fn a_check_is_sent_again_1_2_4_and_8_seconds_after_issue() {
    let mut tracer = checked();
    let mut sent = Vec::new();
    for age in 0..=15 {
        let resent = tick(&mut tracer, 100 + age);
        if resent.checks > 0 {
            assert_eq!(ids_and_nonces(&resent), [(0, 100)]);
            sent.push(age);
        }
        assert_eq!(check_in(&tracer, 0).resends, sent.len());
        assert_eq!(tick(&mut tracer, 100 + age), nothing());
    }
    assert_eq!(sent, [1, 2, 4, 8]);
    assert_eq!(check_in(&tracer, 0).issued, 100);
}

#[test]
fn a_tick_that_skips_moments_sends_once() {
    // Seconds after issue of two ticks, resends of the second, count after it.
    for (first, second, checks, count) in [
        (0, 0, 0, 0),
        (0, 1, 1, 1),
        (0, 2, 1, 2),
        (0, 3, 1, 2),
        (0, 4, 1, 3),
        (0, 7, 1, 3),
        (0, 8, 1, 4),
        (0, 15, 1, 4),
        (1, 3, 1, 2),
        (1, 4, 1, 3),
        (1, 15, 1, 4),
        (2, 3, 0, 2),
        (3, 4, 1, 3),
        (3, 8, 1, 4),
        (4, 7, 0, 3),
        (7, 8, 1, 4),
        (8, 15, 0, 4),
    ] {
        let mut tracer = checked();
        tick(&mut tracer, 100 + first);
        let resent = tick(&mut tracer, 100 + second);
        assert_eq!(resent.checks, checks, "{first} {second}");
        assert_eq!(resent.bytes.len(), checks * 40);
        assert_eq!(check_in(&tracer, 0).resends, count, "{first} {second}");
    }
}

#[test]
fn moments_that_are_reached() {
    let reached: Vec<usize> = (0..=17).map(moments_reached).collect();
    assert_eq!(
        reached,
        [0, 1, 2, 2, 3, 3, 3, 3, 4, 4, 4, 4, 4, 4, 4, 4, 4, 4]
    );
}

#[test]
fn a_check_is_given_up_16_seconds_after_issue() {
    for end in [116, 117, 1000] {
        for before in [100, 101, 108, 115] {
            let mut tracer = checked();
            tick(&mut tracer, before);
            assert_eq!(check_in(&tracer, 0).id, 0);
            assert_eq!(tick(&mut tracer, end), nothing());
            assert_eq!(status(&tracer, 0), Status::Deprecated);
            let late = send_message(&mut tracer, reply_packet(100), nonces(9));
            assert_eq!(late, MessageAnswer::Refused(8));
            assert_eq!(send(&mut tracer, 1), Err(14));
            // The next Move that lists the address brings a new check.
            accept(&mut tracer, &move_of(1, vec![lasting(2)]), nonces(2));
            assert_eq!(status(&tracer, 0), waiting(200, 1, end));
            let resent = tick(&mut tracer, end + 1);
            assert_eq!(ids_and_nonces(&resent), [(1, 200)]);
        }
    }
}

#[test]
fn an_answer_ends_the_resends() {
    for age in [0, 1, 2, 3, 4, 8, 15] {
        let mut tracer = checked();
        tick(&mut tracer, 100 + age);
        accept_echo(&mut tracer, 100);
        for later in age..=17 {
            assert_eq!(tick(&mut tracer, 100 + later), nothing());
            assert_eq!(status(&tracer, 0), Status::Active);
        }
    }
}

#[test]
fn a_move_keeps_issue_time_and_count() {
    let mut tracer = checked();
    assert_eq!(tick(&mut tracer, 103).checks, 1);
    let kept = check_in(&tracer, 0);
    assert_eq!((kept.issued, kept.resends), (100, 2));
    let again = Listed {
        traffic: 2,
        lifetime: 50,
        ..listed(2)
    };
    let reply = accept(&mut tracer, &move_of(1, vec![again]), nonces(2));
    assert_eq!(hex(&reply), "01c1000400000001");
    assert_eq!(check_in(&tracer, 0), kept);
    assert_eq!(association(&tracer).held[&0].expiry, 153);
    // Nothing is due by the count; then by the first issue time, not the Move's.
    assert_eq!(tick(&mut tracer, 103), nothing());
    assert_eq!(ids_and_nonces(&tick(&mut tracer, 104)), [(0, 100)]);
    accept(&mut tracer, &move_of(2, vec![lasting(2)]), nonces(3));
    assert_eq!(tick(&mut tracer, 107), nothing());
    assert_eq!(tick(&mut tracer, 108).checks, 1);
    accept(&mut tracer, &move_of(3, vec![lasting(2)]), nonces(4));
    assert_eq!(tick(&mut tracer, 116), nothing());
    assert_eq!(status(&tracer, 0), Status::Deprecated);
}

#[test]
fn a_new_spi_brings_a_new_check_with_its_own_time() {
    let mut tracer = checked();
    tick(&mut tracer, 109);
    let changed = MoveText {
        new_spi: 5,
        ..move_of(1, vec![lasting(2)])
    };
    accept(&mut tracer, &changed, nonces(2));
    assert_eq!(status(&tracer, 0), waiting(200, 1, 109));
    assert_eq!(ids_and_nonces(&tick(&mut tracer, 110)), [(1, 200)]);
    assert_eq!(ids_and_nonces(&tick(&mut tracer, 124)), [(1, 200)]);
    assert_eq!(check_in(&tracer, 0).resends, 4);
    assert_eq!(tick(&mut tracer, 125), nothing());
    assert_eq!(status(&tracer, 0), Status::Deprecated);
}

#[test]
fn a_resend_shows_the_inbound_spi_now_held_and_its_first_id() {
    let mut tracer = checked();
    for (time, inbound) in [(101, 0x5005), (102, u32::MAX), (104, 0x1001)] {
        announce_to(&mut tracer, &announcement_of(vec![entry(9)], inbound)).unwrap();
        let resent = tick(&mut tracer, time);
        assert_eq!(resent.bytes[8..12], inbound.to_be_bytes());
        assert_eq!(resent.bytes[12..16], inbound.to_be_bytes());
        assert_eq!(ids_and_nonces(&resent), [(0, 100)]);
    }
    assert_eq!(association(&tracer).own_id, 4);
}

#[test]
fn nothing_is_sent_at_or_past_expiry() {
    for (lifetime, age, checks) in [
        (2, 1, 1),
        (2, 2, 0),
        (2, 3, 0),
        (8, 7, 1),
        (8, 8, 0),
        (16, 15, 1),
        (16, 16, 0),
        (20, 16, 0),
    ] {
        let mut tracer = begun();
        let brief = Listed {
            lifetime,
            ..listed(2)
        };
        accept(&mut tracer, &move_of(0, vec![brief]), nonces(1));
        assert_eq!(tick(&mut tracer, 100 + age).checks, checks);
        let ended = status(&tracer, 0) == Status::Deprecated;
        assert_eq!(ended, checks == 0, "{lifetime} {age}");
    }
}

#[test]
fn several_checks_go_out_in_slot_order() {
    let mut tracer = begun();
    let all: Vec<Listed> = (1..=5).map(lasting).collect();
    accept(&mut tracer, &move_of(0, all.clone()), nonces(1));
    // Slot 1 gets a later check than the others, slot 3 is ACTIVE.
    let without = [0, 2, 3, 4].map(|place| all[place].clone());
    accept(&mut tracer, &move_of(1, without.to_vec()), nonces(2));
    accept(&mut tracer, &move_of(2, all), nonces(3));
    accept_echo(&mut tracer, 102);
    let resent = tick(&mut tracer, 101);
    assert_eq!(ids_and_nonces(&resent), [(4, 300), (1, 101), (3, 103)]);
    assert_eq!(resent.checks, 3);
    let counts = [1, 2, 4].map(|slot| check_in(&tracer, slot).resends);
    assert_eq!(counts, [1, 1, 1]);
    assert_eq!(status(&tracer, 3), Status::Active);
}

#[test]
fn eight_resends_fill_the_shortest_buffer() {
    let mut tracer = begun();
    let eight = (2..=9).map(lasting).collect();
    accept(&mut tracer, &move_of(0, eight), nonces(1));
    assert_eq!(tick_with(&mut tracer, 101, 319), Err(23));
    let resent = tick_with(&mut tracer, 101, 320).unwrap();
    assert_eq!((resent.checks, resent.bytes.len()), (8, 320));
    let expected: Vec<(u32, u64)> = (0..8).map(|n| (n, 100 + u64::from(n))).collect();
    assert_eq!(ids_and_nonces(&resent), expected);
}

#[test]
fn refusals_of_a_tick_in_their_order() {
    let mut tracer = checked();
    arrive(&mut tracer, 1000);
    tick(&mut tracer, 102);
    let before = tracer.player.association.clone();
    for (time, buffer, number) in [
        (101, 0, 23),
        (101, 319, 23),
        (104, 319, 23),
        (200, 0, 23),
        (TIME_LIMIT, 319, 23),
        (101, 320, 12),
        (TIME_LIMIT, 65_535, 12),
    ] {
        assert_eq!(tick_with(&mut tracer, time, buffer), Err(number));
        assert_eq!(tracer.player.association, before);
    }
    let mut association = before.unwrap();
    association.aged = 103;
    for (time, buffer) in [(104, 320), (101, 319)] {
        let answer = tick::tick(&mut association, time, buffer, &mut Notes::default());
        assert_eq!(answer, Err(0));
    }
    assert_eq!(tick(&mut tracer, 104).checks, 1);
}

#[test]
fn refusal_0_judges_issue_time_and_count() {
    let mut tracer = checked();
    tick(&mut tracer, 115);
    for (issued, resends, unsound) in [
        (100, 4, false),
        (115, 0, false),
        (115, 4, false),
        (116, 0, true),
        (100, 5, true),
    ] {
        let mut changed = association(&tracer).clone();
        let check = OwnCheck {
            issued,
            resends,
            ..check_in(&tracer, 0)
        };
        changed.held.get_mut(&0).unwrap().status = Status::Unverified(check);
        assert_eq!(changed.is_unsound(), unsound);
        let mut player = tracer.player.clone();
        player.association = Some(changed);
        let announcement = Call::Announcement(announcement_of(vec![entry(9)], 1));
        let message = message_call(reply_packet(100), nonces(9));
        let tick = Call::Tick {
            time: 115,
            buffer: 320,
        };
        if unsound {
            for (call, answer) in [
                (message, Answer::Message(MessageAnswer::Refused(0))),
                (Call::Arrival { size: 1 }, Answer::Arrival(Err(0))),
                (Call::Send { size: 1 }, Answer::Send(Err(0))),
                (tick, Answer::Tick(Err(0))),
                (announcement, Answer::Announcement(Err(0))),
            ] {
                assert_eq!(player.call(&call, &mut Notes::default()), answer);
            }
        } else {
            let answer = player.call(&tick, &mut Notes::default());
            assert!(matches!(answer, Answer::Tick(Ok(_))));
        }
    }
}

#[test]
fn malformed_records_of_ticks() {
    let mut tracer = checked();
    let mut run = |record: &Sections| tracer.record(record);
    for numbers in [
        &[4][..],
        &[4, 101],
        &[4, 101, 65_536],
        &[4, 101, u64::MAX],
        &[4, 101, 320, 0],
    ] {
        assert_eq!(run(&sections(numbers, &[], &[])), Answer::Malformed);
    }
    assert_eq!(run(&sections(&[4, 101, 320], &[0], &[])), Answer::Malformed);
    assert_eq!(run(&sections(&[4, 101, 320], &[], &[0])), Answer::Malformed);
    let answer = run(&sections(&[4, 101, 65_535], &[], &[]));
    assert!(matches!(answer, Answer::Tick(Ok(Resent { checks: 1, .. }))));
}

const TICKED: &str = "\
0 tick no association
1 start accepted
  out 8193 in 4097 time 100 aged 100 credit 0 peer - own 0 preferred 0
  slot 0 20010db8000000000000000000000001 traffic 0 expiry 160 active
2 message accepted reply 48 checks 1 keymat 0 \
0041000c0000000000001001000010010181000400000000\
01c100040000000003810008010203040506070800000000
  out 8193 in 4097 time 100 aged 100 credit 0 peer 0 own 1 preferred 0
  slot 0 20010db8000000000000000000000001 traffic 0 expiry 160 active
  slot 1 20010db8000000000000000000000002 traffic 0 expiry 160 \
unverified 0102030405060708 0 issued 100 resends 0
3 tick accepted resent 0
  out 8193 in 4097 time 100 aged 100 credit 0 peer 0 own 1 preferred 0
  slot 0 20010db8000000000000000000000001 traffic 0 expiry 160 active
  slot 1 20010db8000000000000000000000002 traffic 0 expiry 160 \
unverified 0102030405060708 0 issued 100 resends 0
4 tick refused 23
  out 8193 in 4097 time 100 aged 100 credit 0 peer 0 own 1 preferred 0
  slot 0 20010db8000000000000000000000001 traffic 0 expiry 160 active
  slot 1 20010db8000000000000000000000002 traffic 0 expiry 160 \
unverified 0102030405060708 0 issued 100 resends 0
5 tick accepted resent 1 \
0041000c0000000000001001000010010181000400000000\
03810008010203040506070800000000
  out 8193 in 4097 time 103 aged 100 credit 0 peer 0 own 1 preferred 0
  slot 0 20010db8000000000000000000000001 traffic 0 expiry 160 active
  slot 1 20010db8000000000000000000000002 traffic 0 expiry 160 \
unverified 0102030405060708 0 issued 100 resends 2
6 tick refused 12
  out 8193 in 4097 time 103 aged 100 credit 0 peer 0 own 1 preferred 0
  slot 0 20010db8000000000000000000000001 traffic 0 expiry 160 active
  slot 1 20010db8000000000000000000000002 traffic 0 expiry 160 \
unverified 0102030405060708 0 issued 100 resends 2
7 tick accepted resent 0
  out 8193 in 4097 time 116 aged 115 credit 0 peer 0 own 1 preferred 0
  slot 0 20010db8000000000000000000000001 traffic 0 expiry 160 active
  slot 1 20010db8000000000000000000000002 traffic 0 expiry 160 deprecated
";

#[test]
fn the_output_of_ticks_has_its_exact_form() {
    let mut tracer = Tracer::default();
    let tick = |time, buffer| Call::Tick { time, buffer };
    let content = move_of(0, vec![listed(1), listed(2)]);
    for call in [
        tick(100, 0),
        start_call(100, 1),
        message_call(content.packet(), NONCES.to_vec()),
        tick(100, 320),
        tick(103, 319),
        tick(103, 320),
        tick(102, 320),
        tick(116, 65_535),
    ] {
        tracer.call(&call);
    }
    assert_eq!(printed(&tracer.bytes), TICKED);
}

/// What the calls and their answers tell of the checks. Nothing is taken from
/// the slots.
struct Seen {
    /// Time of the last accepted tick, or of the start.
    time: u64,
    /// Issue time and nonce of each check, by its Update ID.
    issued: BTreeMap<u32, (u64, u64)>,
    /// The Update IDs that checks and announcements took.
    taken: BTreeSet<u32>,
    /// Checks of which an accepted tick came 16 or more seconds after issue.
    over: BTreeSet<u32>,
}

impl Seen {
    fn beginning(time: u64) -> Seen {
        Seen {
            time,
            issued: BTreeMap::new(),
            taken: BTreeSet::new(),
            over: BTreeSet::new(),
        }
    }

    fn take(&mut self, id: u32) {
        assert!(self.taken.insert(id), "ID {id} is taken twice");
    }

    fn move_answered(&mut self, reply: &[u8], checks: usize) {
        if checks == 0 {
            return;
        }
        assert_eq!(reply.len(), 48 * checks);
        for bytes in reply.chunks(48) {
            let id = u32::from_be_bytes(bytes[20..24].try_into().unwrap());
            let nonce = u64::from_be_bytes(bytes[36..44].try_into().unwrap());
            self.take(id);
            self.issued.insert(id, (self.time, nonce));
        }
    }

    /// Whether a moment lies after the last accepted tick and up to this one.
    fn a_moment_came(&self, id: u32, time: u64) -> bool {
        let (issued, _) = self.issued[&id];
        let moments = [1, 2, 4, 8].map(|moment| issued + moment);
        let came = |moment: &u64| self.time < *moment && *moment <= time;
        moments.iter().any(came)
    }

    /// Each check sent again is one of ours, as first sent, in a second that a
    /// moment has led to, and not after its end.
    fn ticked(&mut self, time: u64, resent: &Resent) {
        for (id, nonce) in ids_and_nonces(resent) {
            let (issued, first_nonce) = self.issued[&id];
            assert_eq!(nonce, first_nonce);
            assert!(time - issued < 16);
            assert!(self.a_moment_came(id, time));
        }
        self.time = time;
        let over = self.issued.iter().filter(|(_, (t, _))| t + 16 <= time);
        self.over.extend(over.map(|(id, _)| *id));
    }
}

/// Every check under way before and after a tick is sent again if a moment came,
/// and only then.
fn assert_resends(seen: &Seen, before: &Association, after: &Association, resent: &Resent) {
    let sent: Vec<u64> = ids_and_nonces(resent)
        .iter()
        .map(|(id, _)| u64::from(*id))
        .collect();
    let mut expected = Vec::new();
    for (slot, locator) in &before.held {
        let (Some(check), Some(_)) = (locator.check(), after.held[slot].check()) else {
            continue;
        };
        if seen.a_moment_came(check.id as u32, after.time) {
            expected.push(check.id);
        }
    }
    assert_eq!(sent, expected);
}

#[test]
fn no_check_outlasts_its_16_seconds_and_every_id_is_taken_once() {
    let (mut resends, mut ends) = (0, 0);
    for seed in 11..=18 {
        let mut seen = None;
        for_each_random_call(seed, 4000, |before, call, answer, after| {
            let seen = seen.get_or_insert_with(|| Seen::beginning(before.time));
            match (call, answer) {
                (_, Answer::Start(Ok(()))) => *seen = Seen::beginning(after.time),
                (_, Answer::Message(MessageAnswer::Accepted { reply, checks, .. })) => {
                    seen.move_answered(reply, *checks);
                }
                (_, Answer::Announcement(Ok(bytes))) => {
                    let id = bytes[bytes.len() - 4..].try_into().unwrap();
                    seen.take(u32::from_be_bytes(id));
                }
                (Call::Tick { time, .. }, Answer::Tick(Ok(resent))) => {
                    assert_resends(seen, before, after, resent);
                    seen.ticked(*time, resent);
                    resends += resent.checks;
                }
                _ => {}
            }
            let over = |check: &OwnCheck| seen.over.contains(&(check.id as u32));
            assert!(!after.checks().iter().any(over));
            ends += before.checks().iter().filter(|check| over(check)).count();
        });
    }
    assert!(resends > 1000 && ends > 200, "{resends} {ends}");
}

/// An association with the peer's SPIs, at time 100.
fn host(outbound: u32, inbound: u32, n: u8) -> Tracer {
    let mut tracer = Tracer::default();
    tracer.call(&Call::Start(StartInputs {
        time: 100,
        outbound,
        inbound,
        lifetime: 100_000,
        address: address(n),
    }));
    tracer
}

/// The mobile host announces these addresses; gives the checks of the peer.
fn checks_of_an_announcement(mobile: &mut Tracer, peer: &mut Tracer, n: &[u8]) -> Vec<u8> {
    let long = |n: &u8| Entry {
        lifetime: 100_000,
        ..entry(*n)
    };
    let list = n.iter().map(long).collect();
    let bytes = announce_to(mobile, &announcement_of(list, 0x1001)).unwrap();
    match send_message(peer, behind_header(&bytes), nonces(1)) {
        MessageAnswer::Accepted { reply, .. } => reply,
        other => panic!("not accepted: {other:?}"),
    }
}

#[test]
fn the_peer_answers_a_check_that_was_sent_again() {
    let mut mobile = host(0x2002, 0x1001, 2);
    let mut peer = host(0x1001, 0x2002, 1);
    // The check is lost, and so is its first resend.
    checks_of_an_announcement(&mut mobile, &mut peer, &[10]);
    tick(&mut peer, 101);
    let resent = tick(&mut peer, 102);
    let check = behind_header(&resent.bytes);
    let answer = match send_message(&mut mobile, check.clone(), nonces(9)) {
        MessageAnswer::Accepted { reply, .. } => reply,
        other => panic!("not accepted: {other:?}"),
    };
    // Its answer is lost too; the next resend is a Repeated Check.
    let resent = tick(&mut peer, 104);
    assert_eq!(behind_header(&resent.bytes), check);
    let again = send_message(&mut mobile, check, nonces(9));
    assert_eq!(
        again,
        MessageAnswer::Repeated {
            reply: answer.clone()
        }
    );
    send_message(&mut peer, behind_header(&answer), nonces(9));
    assert_eq!(status(&peer, 0), Status::Active);
}

#[test]
fn a_peer_that_has_seen_a_later_check_refuses_resends_of_an_earlier_one() {
    let mut mobile = host(0x2002, 0x1001, 2);
    let mut peer = host(0x1001, 0x2002, 1);
    let checks = checks_of_an_announcement(&mut mobile, &mut peer, &[10, 11]);
    assert_eq!(checks.len(), 2 * 48);
    // The first of two checks is lost.
    let second = behind_header(&checks[48..]);
    let answer = match send_message(&mut mobile, second, nonces(9)) {
        MessageAnswer::Accepted { reply, .. } => reply,
        other => panic!("not accepted: {other:?}"),
    };
    send_message(&mut peer, behind_header(&answer), nonces(9));
    for time in [101, 102, 104, 108] {
        let resent = tick(&mut peer, time);
        assert_eq!(ids_and_nonces(&resent), [(0, 100)]);
        let stale = send_message(&mut mobile, behind_header(&resent.bytes), nonces(9));
        assert_eq!(stale, MessageAnswer::Refused(7));
    }
    tick(&mut peer, 116);
    assert_eq!(status(&peer, 0), Status::Deprecated);
    assert_eq!(status(&peer, 1), Status::Active);
}
