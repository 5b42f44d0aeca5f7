//! Document 01's worked cases, the mistakes it warns of, order 1's bytes and
//! round trips, order 3's ageing, order 4's resends, and the form of the output.

mod resends;

use crate::announcement::{announce, bytes_to_write};
use crate::association::{Association, Status, CREDIT_LIMIT, TIME_LIMIT};
use crate::census::{census_of, CASES};
use crate::compose::{
    ack, behind_header, echo_request, echo_response, locator_set, packet, sections, seq, CheckText,
    MoveText, Tracer,
};
use crate::message::{self, Answer as MessageAnswer};
use crate::own_check::OwnCheck;
use crate::packet::{
    bytes_in_all, content_of, read_parameters, write_parameter, Content, Listed, Move, Parameter,
    ACK, ESP_INFO, HIP_MAC, HIP_SIGNATURE, HOST_ID, LOCATOR_SET, SEQ,
};
use crate::print::hex;
use crate::random::{self, Random};
use crate::reasons::{Notes, Reasons};
use crate::record::{
    understand, AnnouncementInputs, Call, Entry, MessageInputs, Sections, StartInputs,
};
use crate::replay::{for_each_record, replay_from, Answer, Player};
use crate::tick::{self, Resent, SMALLEST_BUFFER};

const OUTBOUND: u32 = 0x2001;
const NONCES: [u64; 8] = [0x0102030405060708, 2, 3, 4, 5, 6, 7, 8];

/// 2001:db8::n
fn address(n: u8) -> [u8; 16] {
    let mut address = [0; 16];
    address[..4].copy_from_slice(&[0x20, 0x01, 0x0d, 0xb8]);
    address[15] = n;
    address
}

fn listed(n: u8) -> Listed {
    Listed {
        address: address(n),
        traffic: 0,
        lifetime: 60,
        preferred: false,
        spi: None,
    }
}

fn preferred(n: u8) -> Listed {
    Listed {
        preferred: true,
        ..listed(n)
    }
}

fn move_of(update_id: u32, set: Vec<Listed>) -> MoveText {
    MoveText {
        keymat: 0,
        old_spi: OUTBOUND,
        new_spi: OUTBOUND,
        update_id,
        set,
        echo: None,
        acks: Vec::new(),
        others: Vec::new(),
    }
}

/// Eight nonces that no other number gives.
fn nonces(n: u64) -> Vec<u64> {
    (0..8).map(|i| n * 100 + i).collect()
}

fn start_call(time: u64, n: u8) -> Call {
    Call::Start(StartInputs {
        time,
        outbound: OUTBOUND,
        inbound: 0x1001,
        lifetime: 60,
        address: address(n),
    })
}

fn message_call(packet: Vec<u8>, nonces: Vec<u64>) -> Call {
    Call::Message(MessageInputs {
        authentic: true,
        buffer: 384,
        packet,
        nonces,
    })
}

/// Started at time 100 with address 1.
fn begun() -> Tracer {
    let mut tracer = Tracer::default();
    let answer = tracer.call(&start_call(100, 1));
    assert_eq!(answer, Answer::Start(Ok(())));
    tracer
}

/// Started, then moved to address 2 alone, which is UNVERIFIED.
fn unverified() -> Tracer {
    let mut tracer = begun();
    accept(&mut tracer, &move_of(0, vec![listed(2)]), nonces(1));
    tracer
}

fn send_message(tracer: &mut Tracer, packet: Vec<u8>, nonces: Vec<u64>) -> MessageAnswer {
    match tracer.call(&message_call(packet, nonces)) {
        Answer::Message(answer) => answer,
        other => panic!("not a message's answer: {other:?}"),
    }
}

/// Runs a Move that is accepted; gives its reply.
fn accept(tracer: &mut Tracer, content: &MoveText, nonces: Vec<u64>) -> Vec<u8> {
    match send_message(tracer, content.packet(), nonces) {
        MessageAnswer::Accepted { reply, .. } => reply,
        other => panic!("not accepted: {other:?}"),
    }
}

fn reply_packet(nonce: u64) -> Vec<u8> {
    packet(&[echo_response(&nonce.to_be_bytes())])
}

fn accept_echo(tracer: &mut Tracer, nonce: u64) {
    let answer = send_message(tracer, reply_packet(nonce), nonces(9));
    let accepted = MessageAnswer::Accepted {
        reply: Vec::new(),
        checks: 0,
        keymat: 0,
    };
    assert_eq!(answer, accepted);
}

fn credit(tracer: &Tracer) -> u64 {
    tracer.player.association.as_ref().unwrap().credit
}

fn last_ageing(tracer: &Tracer) -> u64 {
    tracer.player.association.as_ref().unwrap().aged
}

fn status(tracer: &Tracer, slot: usize) -> Status {
    tracer.player.association.as_ref().unwrap().held[&slot].status
}

/// The status of a slot whose check has not been sent again.
fn waiting(nonce: u64, id: u64, issued: u64) -> Status {
    Status::Unverified(OwnCheck {
        nonce,
        id,
        issued,
        resends: 0,
    })
}

fn address_in(tracer: &Tracer, slot: usize) -> [u8; 16] {
    tracer.player.association.as_ref().unwrap().held[&slot].address
}

fn arrive(tracer: &mut Tracer, size: u64) {
    let answer = tracer.call(&Call::Arrival { size });
    assert_eq!(answer, Answer::Arrival(Ok(())));
}

/// Runs a tick with the shortest buffer; gives what it sends again.
fn tick(tracer: &mut Tracer, time: u64) -> Resent {
    tick_with(tracer, time, SMALLEST_BUFFER).expect("accepted")
}

fn tick_with(tracer: &mut Tracer, time: u64, buffer: u64) -> Result<Resent, u8> {
    match tracer.call(&Call::Tick { time, buffer }) {
        Answer::Tick(result) => result,
        other => panic!("not a tick's answer: {other:?}"),
    }
}

fn send(tracer: &mut Tracer, size: u64) -> Result<usize, u8> {
    match tracer.call(&Call::Send { size }) {
        Answer::Send(result) => result,
        other => panic!("not a send's answer: {other:?}"),
    }
}

#[test]
fn credit_must_be_higher_than_the_size() {
    let mut tracer = unverified();
    arrive(&mut tracer, 1000);
    assert_eq!(send(&mut tracer, 1000), Err(15));
    assert_eq!(credit(&tracer), 1000);
    assert_eq!(send(&mut tracer, 999), Ok(0));
    assert_eq!(credit(&tracer), 1);
}

#[test]
fn arrival_stops_at_the_limit() {
    let mut tracer = begun();
    (0..15).for_each(|_| arrive(&mut tracer, 65_535));
    arrive(&mut tracer, 64_975);
    assert_eq!(credit(&tracer), 1_048_000);
    arrive(&mut tracer, 1_500);
    assert_eq!(credit(&tracer), 1_048_576);
}

#[test]
fn ageing_takes_an_eighth_rounded_up() {
    let mut tracer = begun();
    arrive(&mut tracer, 1000);
    tick(&mut tracer, 105);
    assert_eq!(credit(&tracer), 875);
    tick(&mut tracer, 110);
    assert_eq!(credit(&tracer), 765);
    let mut tracer = begun();
    arrive(&mut tracer, 1);
    tick(&mut tracer, 105);
    assert_eq!(credit(&tracer), 0);
}

#[test]
fn ageing_comes_after_five_seconds() {
    let mut tracer = begun();
    arrive(&mut tracer, 1000);
    tick(&mut tracer, 104);
    assert_eq!(credit(&tracer), 1000);
    tick(&mut tracer, 105);
    assert_eq!(credit(&tracer), 875);
}

/// Credit and last ageing after a tick so long after a start at 100.
fn aged_after(credit_before: u64, passed: u64) -> (u64, u64) {
    let mut tracer = begun();
    arrive(&mut tracer, credit_before);
    tick(&mut tracer, 100 + passed);
    (credit(&tracer), last_ageing(&tracer))
}

#[test]
fn a_tick_17_seconds_after_the_last_ageing_holds_three() {
    let mut tracer = begun();
    arrive(&mut tracer, 1000);
    for (time, credit_then, aged) in [(117, 669, 115), (119, 669, 115), (120, 585, 120)] {
        tick(&mut tracer, time);
        assert_eq!(credit(&tracer), credit_then);
        assert_eq!(last_ageing(&tracer), aged);
    }
}

#[test]
fn each_whole_5_seconds_is_one_ageing() {
    for (passed, credit, aged) in [
        (0, 1000, 100),
        (4, 1000, 100),
        (5, 875, 105),
        (6, 875, 105),
        (9, 875, 105),
        (10, 765, 110),
        (11, 765, 110),
        (14, 765, 110),
        (15, 669, 115),
        (16, 669, 115),
    ] {
        assert_eq!(aged_after(1000, passed), (credit, aged), "after {passed}");
    }
}

#[test]
fn each_ageing_is_rounded() {
    // 49 * 1,001 / 64 is over 766.
    assert_eq!(aged_after(1001, 10), (765, 110));
}

/// An association at the credit limit, started at this time.
fn at_the_limit(time: u64) -> Tracer {
    let mut tracer = Tracer::default();
    tracer.call(&start_call(time, 1));
    (0..17).for_each(|_| arrive(&mut tracer, 65_535));
    assert_eq!(credit(&tracer), CREDIT_LIMIT);
    tracer
}

#[test]
fn the_93rd_ageing_from_the_limit_leaves_0() {
    for (ageings, left) in [(91, 2), (92, 1), (93, 0), (94, 0)] {
        for rest in 0..5 {
            let mut tracer = at_the_limit(100);
            tick(&mut tracer, 100 + 5 * ageings + rest);
            assert_eq!(credit(&tracer), left);
            assert_eq!(last_ageing(&tracer), 100 + 5 * ageings);
        }
    }
    // The same by one tick for each ageing.
    let mut tracer = at_the_limit(100);
    for ageing in 1..=93 {
        assert_ne!(credit(&tracer), 0);
        tick(&mut tracer, 100 + 5 * ageing);
    }
    assert_eq!(credit(&tracer), 0);
}

#[test]
fn a_tick_just_below_the_time_limit_is_answered_at_once() {
    let last = TIME_LIMIT - 1;
    for (start, aged) in [
        (0, last),
        (1, last - 4),
        (2, last - 3),
        (3, last - 2),
        (4, last - 1),
        (5, last),
    ] {
        let mut tracer = at_the_limit(start);
        tick(&mut tracer, last);
        assert_eq!(credit(&tracer), 0);
        assert_eq!(last_ageing(&tracer), aged);
        // The rest is too short for one more.
        arrive(&mut tracer, 1000);
        tick(&mut tracer, last);
        assert_eq!(credit(&tracer), 1000);
    }
}

/// An association with some credit and last ageing, and a time to come, mostly
/// within what the credit lasts.
fn before_a_silence(r: &mut Random) -> (Association, u64) {
    let mut association = begun().player.association.unwrap();
    let most_credit = r.pick(&[10, 2000, CREDIT_LIMIT]);
    let longest = r.pick(&[12, 60, 300, 3000]);
    association.credit = r.below(most_credit + 1);
    association.aged = r.below(1000);
    association.time = association.aged + r.below(5);
    let end = association.time + r.below(longest);
    (association, end)
}

fn accepted_tick(association: &mut Association, time: u64) {
    let answer = tick::tick(association, time, SMALLEST_BUFFER, &mut Notes::default());
    assert!(answer.is_ok());
}

#[test]
fn ticks_between_do_not_change_what_a_stretch_of_time_costs() {
    let mut r = Random(1);
    for _ in 0..2000 {
        let (mut one, end) = before_a_silence(&mut r);
        let mut several = one.clone();
        accepted_tick(&mut one, end);
        let most = 1 + r.below(40);
        while several.time < end {
            let time = end.min(several.time + r.below(most + 1));
            accepted_tick(&mut several, time);
        }
        assert_eq!(several.credit, one.credit);
        assert_eq!(several.aged, one.aged);
    }
}

/// Second by second: every fifth takes an eighth, rounded up, off the credit.
fn second_by_second(mut credit: u64, mut aged: u64, end: u64) -> (u64, u64) {
    for second in aged..=end {
        if second - aged == 5 {
            credit -= credit.div_ceil(8);
            aged = second;
        }
    }
    (credit, aged)
}

#[test]
fn ageing_is_what_it_is_second_by_second() {
    let mut r = Random(2);
    for _ in 0..2000 {
        let (mut association, end) = before_a_silence(&mut r);
        let expected = second_by_second(association.credit, association.aged, end);
        accepted_tick(&mut association, end);
        assert_eq!((association.credit, association.aged), expected);
    }
}

#[test]
fn lifetime_60_set_at_100_ends_at_160() {
    let mut tracer = begun();
    tick(&mut tracer, 159);
    assert_eq!(status(&tracer, 0), Status::Active);
    tick(&mut tracer, 160);
    assert_eq!(status(&tracer, 0), Status::Deprecated);
}

#[test]
fn bytes_that_a_parameter_takes() {
    let taken: Vec<usize> = [24, 28, 56, 224].map(bytes_in_all).to_vec();
    assert_eq!(taken, [32, 32, 64, 232]);
}

#[test]
fn eight_locators_pass_and_nine_do_not() {
    let set = |count| (1..=count).map(listed).collect();
    let mut tracer = begun();
    let reply = accept(&mut tracer, &move_of(0, set(8)), nonces(1));
    assert_eq!(reply.len(), 7 * 48);
    let nine = move_of(1, set(9)).packet();
    let answer = send_message(&mut tracer, nine, nonces(2));
    assert_eq!(answer, MessageAnswer::Refused(6));
}

#[test]
fn a_packet_without_parameters_is_of_no_kind() {
    let mut tracer = begun();
    let answer = send_message(&mut tracer, packet(&[]), nonces(1));
    assert_eq!(answer, MessageAnswer::Refused(5));
}

#[test]
fn the_reply_of_one_check() {
    let mut tracer = begun();
    let first = move_of(0, vec![listed(1), listed(2), listed(3), listed(4)]);
    accept(&mut tracer, &first, nonces(1));
    let second = move_of(
        7,
        vec![listed(1), listed(2), listed(3), listed(4), listed(5)],
    );
    let reply = accept(&mut tracer, &second, NONCES.to_vec());
    let expected = "0041000c00000000000010010000100101810004000000030\
                    1c100040000000703810008010203040506070800000000";
    assert_eq!(hex(&reply), expected);
}

#[test]
fn the_reply_without_checks() {
    let mut tracer = begun();
    let reply = accept(&mut tracer, &move_of(7, vec![listed(1)]), nonces(1));
    assert_eq!(hex(&reply), "01c1000400000007");
}

#[test]
fn active_is_not_carried_over_to_a_new_spi() {
    let mut tracer = begun();
    let changed = MoveText {
        new_spi: 5,
        ..move_of(0, vec![listed(1)])
    };
    accept(&mut tracer, &changed, nonces(1));
    assert_eq!(status(&tracer, 0), waiting(100, 0, 100));
}

#[test]
fn update_ids_rise() {
    let mut tracer = begun();
    accept(&mut tracer, &move_of(0, vec![listed(1)]), nonces(1));
    let again = move_of(0, vec![listed(2)]).packet();
    let repeated = MessageAnswer::Repeated {
        reply: vec![1, 0xc1, 0, 4, 0, 0, 0, 0],
    };
    assert_eq!(send_message(&mut tracer, again, nonces(2)), repeated);
    assert_eq!(address_in(&tracer, 0), address(1));
    accept(&mut tracer, &move_of(5, vec![listed(1)]), nonces(3));
    let below = move_of(4, vec![listed(1)]).packet();
    let answer = send_message(&mut tracer, below, nonces(4));
    assert_eq!(answer, MessageAnswer::Refused(7));
}

#[test]
fn a_late_echo_matches_no_slot() {
    let mut tracer = unverified();
    // Retired: address 2 is no longer listed.
    let other = move_of(1, vec![listed(3)]);
    accept(&mut tracer, &other, nonces(2));
    let late = send_message(&mut tracer, reply_packet(100), nonces(9));
    assert_eq!(late, MessageAnswer::Refused(8));
    // Replaced: the same address gets another check under a new SPI.
    let changed = MoveText {
        new_spi: 5,
        ..move_of(2, vec![listed(3)])
    };
    accept(&mut tracer, &changed, nonces(3));
    let late = send_message(&mut tracer, reply_packet(200), nonces(9));
    assert_eq!(late, MessageAnswer::Refused(8));
    accept_echo(&mut tracer, 300);
    assert_eq!(status(&tracer, 0), Status::Active);
}

#[test]
fn deprecated_needs_a_new_check() {
    let mut tracer = begun();
    accept(
        &mut tracer,
        &move_of(0, vec![listed(1), listed(2)]),
        nonces(1),
    );
    accept_echo(&mut tracer, 100);
    accept(&mut tracer, &move_of(1, vec![listed(1)]), nonces(2));
    assert_eq!(status(&tracer, 1), Status::Deprecated);
    accept(
        &mut tracer,
        &move_of(2, vec![listed(1), listed(2)]),
        nonces(3),
    );
    assert_eq!(status(&tracer, 1), waiting(300, 1, 100));
}

#[test]
fn a_deprecated_slot_listed_later_is_not_refilled() {
    let mut tracer = begun();
    accept(
        &mut tracer,
        &move_of(0, vec![listed(1), listed(2)]),
        nonces(1),
    );
    accept(&mut tracer, &move_of(1, vec![listed(2)]), nonces(2));
    assert_eq!(status(&tracer, 0), Status::Deprecated);
    accept(
        &mut tracer,
        &move_of(2, vec![listed(3), listed(1)]),
        nonces(3),
    );
    assert_eq!(address_in(&tracer, 0), address(1));
    assert_eq!(address_in(&tracer, 1), address(3));
    // In slot order, not in listed order.
    assert_eq!(status(&tracer, 0), waiting(300, 1, 100));
}

#[test]
fn a_verified_address_can_be_retired_by_the_same_move() {
    let mut tracer = begun();
    accept(
        &mut tracer,
        &move_of(0, vec![listed(1), preferred(2)]),
        nonces(1),
    );
    let content = MoveText {
        echo: Some(100_u64.to_be_bytes().to_vec()),
        ..move_of(1, vec![listed(1)])
    };
    accept(&mut tracer, &content, nonces(2));
    assert_eq!(status(&tracer, 1), Status::Deprecated);
    let association = tracer.player.association.as_ref().unwrap();
    assert_eq!(association.preferred, Some(1));
}

/// An entry of type 0.
fn entry(n: u8) -> Entry {
    Entry {
        locator_type: 0,
        traffic: 0,
        lifetime: 60,
        preferred: false,
        address: address(n),
    }
}

/// An announcement into a buffer that is just long enough.
fn announcement_of(list: Vec<Entry>, inbound: u32) -> AnnouncementInputs {
    AnnouncementInputs {
        buffer: bytes_to_write(&list) as u64,
        list,
        inbound,
        keymat: 0,
    }
}

fn announce_to(tracer: &mut Tracer, inputs: &AnnouncementInputs) -> Result<Vec<u8>, u8> {
    match tracer.call(&Call::Announcement(inputs.clone())) {
        Answer::Announcement(result) => result,
        other => panic!("not an announcement's answer: {other:?}"),
    }
}

fn check_of(update_id: u32, opaque: &[u8]) -> CheckText {
    CheckText {
        info: None,
        update_id,
        acks: Vec::new(),
        opaque: opaque.to_vec(),
        others: Vec::new(),
    }
}

#[test]
fn the_bytes_of_an_announced_address() {
    let mut tracer = begun();
    let mut inputs = announcement_of(vec![entry(9)], 0x5005);
    inputs.list[0].preferred = true;
    inputs.keymat = 7;
    let bytes = announce_to(&mut tracer, &inputs).unwrap();
    let expected = [
        // ESP_INFO: KEYMAT Index 7, OLD SPI, NEW SPI
        "0041000c00000007",
        "0000100100005005",
        // LOCATOR_SET of 24 bytes: traffic 0, type 0, 4 words, P; 60 seconds
        "00c10018",
        "000004010000003c",
        "20010db8000000000000000000000009",
        "00000000",
        // SEQ: own ID 0
        "0181000400000000",
    ];
    assert_eq!(hex(&bytes), expected.concat());
    assert_eq!(bytes.len(), 56);
    let association = tracer.player.association.as_ref().unwrap();
    assert_eq!((association.inbound, association.own_id), (0x5005, 1));
}

#[test]
fn the_bytes_of_two_announced_addresses() {
    let mut tracer = begun();
    announce_to(&mut tracer, &announcement_of(vec![entry(9)], 0x5005)).unwrap();
    let mut list = vec![entry(8), entry(9)];
    list[0].locator_type = 1;
    list[0].traffic = 1;
    list[1].traffic = 2;
    list[1].lifetime = u32::MAX;
    list[1].preferred = true;
    let bytes = announce_to(&mut tracer, &announcement_of(list, 0x6006)).unwrap();
    let expected = [
        "0041000c00000000",
        "0000500500006006",
        // 28 + 24 bytes: no padding
        "00c10034",
        "010105000000003c00006006",
        "20010db8000000000000000000000008",
        "02000401ffffffff",
        "20010db8000000000000000000000009",
        "0181000400000001",
    ];
    assert_eq!(hex(&bytes), expected.concat());
    assert_eq!(bytes.len(), 80);
}

#[test]
fn an_announcement_takes_56_to_256_bytes() {
    let list = |count: u8, locator_type| -> Vec<Entry> {
        let entries = (1..=count).map(entry);
        let typed = entries.map(|entry| Entry {
            locator_type,
            ..entry
        });
        typed.collect()
    };
    let mut tracer = begun();
    for (count, locator_type, length) in [
        (1, 0, 56),
        (1, 1, 56),
        (2, 0, 80),
        (2, 1, 88),
        (8, 0, 224),
        (8, 1, 256),
    ] {
        let mut inputs = announcement_of(list(count, locator_type), 0x1001);
        assert_eq!(inputs.buffer, length);
        inputs.buffer -= 1;
        assert_eq!(announce_to(&mut tracer, &inputs), Err(21));
        inputs.buffer += 1;
        let bytes = announce_to(&mut tracer, &inputs).unwrap();
        assert_eq!(bytes.len() as u64, length);
    }
    for count in [0, 9] {
        let inputs = announcement_of(list(count, 0), 0x1001);
        assert_eq!(announce_to(&mut tracer, &inputs), Err(17));
    }
}

#[test]
fn refusal_18_is_refusal_6_of_the_set() {
    let mut faulty = vec![entry(9); 6];
    faulty[0].locator_type = 2;
    faulty[1].traffic = 3;
    faulty[2].lifetime = 0;
    faulty[3].address = [0; 16];
    faulty[4].address = [0xff; 16];
    faulty[5].address = address(1);
    let mut tracer = begun();
    for last in faulty {
        let list = vec![entry(1), entry(2), last];
        let answer = announce_to(&mut tracer, &announcement_of(list, 0x1001));
        assert_eq!(answer, Err(18));
    }
    let mut list = vec![entry(1), entry(2), entry(3)];
    list[0].preferred = true;
    let inputs = announcement_of(list.clone(), 0x1001);
    assert!(announce_to(&mut tracer, &inputs).is_ok());
    list[2].preferred = true;
    let inputs = announcement_of(list, 0x1001);
    assert_eq!(announce_to(&mut tracer, &inputs), Err(18));
}

#[test]
fn refusals_of_an_announcement_in_their_order() {
    let mut association = begun().player.association.unwrap();
    let mut nine: Vec<Entry> = (1..=9).map(entry).collect();
    nine[8].lifetime = 0;
    // The last own ID is used, then none is left.
    association.own_id = (1 << 32) - 1;
    let good = announcement_of(vec![entry(1)], 1);
    let bytes = announce(&mut association, &good, &mut Notes::default()).unwrap();
    assert_eq!(hex(&bytes[48..]), "01810004ffffffff");
    assert_eq!(association.own_id, 1 << 32);
    // Everything is wrong; one thing after another is put right.
    let mut inputs = AnnouncementInputs {
        buffer: 0,
        list: nine,
        inbound: 0,
        keymat: 0,
    };
    let before = association.clone();
    let mut refused = |inputs: &AnnouncementInputs, number| {
        let answer = announce(&mut association, inputs, &mut Notes::default());
        assert_eq!(answer, Err(number));
        assert_eq!(association, before);
    };
    refused(&inputs, 17);
    inputs.list.drain(..1);
    refused(&inputs, 18);
    inputs.list[7].lifetime = 1;
    refused(&inputs, 19);
    inputs.inbound = 1;
    refused(&inputs, 20);
    let mut fresh = begun().player.association.unwrap();
    let answer = announce(&mut fresh, &inputs, &mut Notes::default());
    assert_eq!(answer, Err(21));
    inputs.buffer = 224;
    assert!(announce(&mut fresh, &inputs, &mut Notes::default()).is_ok());
}

#[test]
fn the_answer_to_a_check() {
    let mut tracer = begun();
    let counted: Vec<u8> = (1..=64).collect();
    for (length, padding) in [(0, 4), (1, 3), (4, 0), (8, 4), (63, 5), (64, 4)] {
        let id = 100 + length as u32;
        let mut association = tracer.player.association.clone().unwrap();
        let check = check_of(id, &counted[..length]);
        let reply = match send_message(&mut tracer, check.packet(), nonces(1)) {
            MessageAnswer::Accepted {
                reply,
                checks: 0,
                keymat: 0,
            } => reply,
            other => panic!("not accepted: {other:?}"),
        };
        let expected = [
            format!("01c10004000000{id:02x}"),
            format!("03c100{length:02x}"),
            hex(&counted[..length]),
            "00".repeat(padding),
        ];
        assert_eq!(hex(&reply), expected.concat());
        // Its ID is stored, all else stays.
        association.peer_id = Some(id);
        assert_eq!(tracer.player.association, Some(association));
        // The same again, and with other opaque bytes.
        let answer = send_message(&mut tracer, check.packet(), nonces(1));
        assert_eq!(answer, MessageAnswer::Repeated { reply });
        let other = send_message(&mut tracer, check_of(id, &[9]).packet(), nonces(1));
        let reply = [
            &[1, 0xc1, 0, 4, 0, 0, 0, id as u8][..],
            &[3, 0xc1, 0, 1, 9, 0, 0, 0],
        ];
        let reply = reply.concat();
        assert_eq!(other, MessageAnswer::Repeated { reply });
    }
}

#[test]
fn refusals_of_a_check_in_their_order() {
    let mut tracer = begun();
    accept(&mut tracer, &move_of(7, vec![listed(1)]), nonces(1));
    let mut send = |authentic, buffer, packet: Vec<u8>| {
        let call = Call::Message(MessageInputs {
            authentic,
            buffer,
            packet,
            nonces: vec![0; 8],
        });
        match tracer.call(&call) {
            Answer::Message(MessageAnswer::Refused(number)) => number,
            Answer::Message(MessageAnswer::Repeated { .. }) => 100,
            Answer::Message(MessageAnswer::Accepted { .. }) => 200,
            other => panic!("not a message's answer: {other:?}"),
        }
    };
    let long = [1; 65];
    let with = |id, opaque: &[u8], kind| {
        let mut text = check_of(id, opaque);
        text.others.push((kind, vec![0; 6]));
        text.packet()
    };
    assert_eq!(send(false, 383, with(6, &long, ACK)), 1);
    assert_eq!(send(false, 384, with(6, &long, ACK)), 2);
    assert_eq!(send(true, 384, with(6, &long, ACK)), 3);
    assert_eq!(send(true, 384, with(6, &long, 3)), 4);
    let twice = packet(&[seq(6), seq(6), echo_request(&long)]);
    assert_eq!(send(true, 384, twice), 5);
    let listing = packet(&[locator_set(&[listed(1)]), seq(6), echo_request(&long)]);
    assert_eq!(send(true, 384, listing), 5);
    for id in [6, 7, 8] {
        assert_eq!(send(true, 384, check_of(id, &long).packet()), 22);
    }
    assert_eq!(send(true, 384, check_of(6, &[1; 64]).packet()), 7);
    assert_eq!(send(true, 384, check_of(7, &[1; 64]).packet()), 100);
    assert_eq!(send(true, 384, check_of(8, &[1; 64]).packet()), 200);
}

#[test]
fn an_897_too_many_makes_none_of_the_three_kinds() {
    let mut tracer = unverified();
    let request = echo_request(&[1; 8]);
    let mut listing = move_of(1, vec![listed(2)]);
    listing.others.push(request.clone());
    let echo = echo_response(&100_u64.to_be_bytes());
    for packet in [
        listing.packet(),
        packet(&[request.clone(), echo]),
        packet(&[seq(1), request.clone(), request.clone()]),
        packet(&[request]),
        packet(&[seq(1)]),
    ] {
        let answer = send_message(&mut tracer, packet, nonces(2));
        assert_eq!(answer, MessageAnswer::Refused(5));
    }
}

/// Goes through a random trace, with the association before each call.
fn for_each_random_call(
    seed: u64,
    calls: u64,
    mut each: impl FnMut(&Association, &Call, &Answer, &Association),
) {
    let mut trace = Vec::new();
    random::write_trace(seed, calls, &mut trace).unwrap();
    let mut player = Player::default();
    let whole = for_each_record(&mut &trace[..], |record: Sections| {
        let before = player.association.clone();
        let answer = player.run(&record, &mut Notes::default());
        if let (Some(before), Ok(call)) = (&before, understand(&record)) {
            each(before, &call, &answer, player.association.as_ref().unwrap());
        }
        Ok(())
    });
    assert!(whole.unwrap());
}

#[test]
fn reading_what_we_wrote_gives_back_the_list() {
    let mut count = 0;
    for_each_random_call(5, 3000, |before, call, answer, after| {
        let (Call::Announcement(inputs), Answer::Announcement(Ok(bytes))) = (call, answer) else {
            return;
        };
        let mut changed = before.clone();
        changed.inbound = inputs.inbound;
        changed.own_id += 1;
        assert_eq!(*after, changed);
        let tail = [(HOST_ID, 30), (HIP_MAC, 32), (HIP_SIGNATURE, 66)];
        let tail = tail.map(|(kind, length)| write_parameter(kind, &vec![0; length]));
        for tail in [Vec::new(), tail.concat()] {
            let packet = behind_header(&[&bytes[..], &tail].concat());
            let Some(Content::Move(content)) = content_of(&packet) else {
                panic!("not a Move");
            };
            assert_eq!(content.old_spi, before.inbound);
            assert_eq!(content.new_spi, inputs.inbound);
            assert_eq!(content.keymat, inputs.keymat);
            assert_eq!(u64::from(content.update_id), before.own_id);
            assert_eq!(content.echo, None);
            assert_eq!(list_read(&content), inputs.list);
        }
        count += 1;
    });
    assert!(count > 50);
}

/// The list that a Move announces; each type 1 SPI is NEW SPI.
fn list_read(content: &Move) -> Vec<Entry> {
    let entries = content.set.iter().map(|listed| {
        assert!(listed.spi.is_none_or(|spi| spi == content.new_spi));
        Entry {
            locator_type: u8::from(listed.spi.is_some()),
            traffic: listed.traffic,
            lifetime: listed.lifetime,
            preferred: listed.preferred,
            address: listed.address,
        }
    });
    entries.collect()
}

#[test]
fn writing_what_was_read_gives_the_same_bytes() {
    let mut count = 0;
    for_each_random_call(6, 3000, |_, call, answer, _| {
        let (Call::Message(inputs), Answer::Message(MessageAnswer::Accepted { .. })) =
            (call, answer)
        else {
            return;
        };
        let Some(Content::Move(content)) = content_of(&inputs.packet) else {
            return;
        };
        let parameters = read_parameters(&inputs.packet, &mut Reasons::default());
        let three = [ESP_INFO, LOCATOR_SET, SEQ]
            .map(|kind| parameters.iter().find(|p| p.kind == kind).unwrap());
        if three.iter().any(|parameter| has_reserved_bits(parameter)) {
            return;
        }
        let mut association = begun().player.association.unwrap();
        association.inbound = content.old_spi;
        association.own_id = content.update_id.into();
        let mut announcement = announcement_of(list_read(&content), content.new_spi);
        announcement.keymat = content.keymat;
        let bytes = announce(&mut association, &announcement, &mut Notes::default());
        let read = three.map(|parameter| write_parameter(parameter.kind, &parameter.body));
        assert_eq!(bytes, Ok(read.concat()));
        count += 1;
    });
    assert!(count > 100);
}

/// Whether ESP_INFO's reserved bytes, a locator's reserved bits or the padding
/// are not zero.
fn has_reserved_bits(parameter: &Parameter) -> bool {
    let body = &parameter.body;
    let reserved = match parameter.kind {
        ESP_INFO => body[..2] != [0, 0],
        LOCATOR_SET => {
            let mut rest = &body[..];
            let mut found = false;
            while !rest.is_empty() {
                found |= rest[3] & 0xfe != 0;
                rest = &rest[8 + 4 * usize::from(rest[2])..];
            }
            found
        }
        _ => false,
    };
    reserved || parameter.padding.iter().any(|byte| *byte != 0)
}

/// RFC 8046, Figure 3, between two associations of this program.
#[test]
fn two_associations_change_addresses_with_each_other() {
    let begin = |outbound, inbound, n| {
        let mut tracer = Tracer::default();
        let inputs = StartInputs {
            time: 100,
            outbound,
            inbound,
            lifetime: 60,
            address: address(n),
        };
        tracer.call(&Call::Start(inputs));
        tracer
    };
    let mut hosts = [begin(0x2002, 0x1001, 2), begin(0x1001, 0x2002, 1)];
    for (round, inbound) in [0x3003, 0x3003, 0x4004, 0x5005].into_iter().enumerate() {
        let [mobile, peer] = &mut hosts;
        let mut list = vec![entry(10 + round as u8)];
        list[0].locator_type = 1;
        list[0].preferred = true;
        let bytes = announce_to(mobile, &announcement_of(list, inbound)).unwrap();
        let check = match send_message(peer, behind_header(&bytes), nonces(round as u64)) {
            MessageAnswer::Accepted {
                reply, checks: 1, ..
            } => reply,
            other => panic!("not accepted: {other:?}"),
        };
        assert!(matches!(status(peer, 0), Status::Unverified(_)));
        let reply = match send_message(mobile, behind_header(&check), nonces(9)) {
            MessageAnswer::Accepted {
                reply, checks: 0, ..
            } => reply,
            other => panic!("not accepted: {other:?}"),
        };
        let answer = send_message(peer, behind_header(&reply), nonces(9));
        assert!(matches!(answer, MessageAnswer::Accepted { .. }));
        assert_eq!(status(peer, 0), Status::Active);
        assert_eq!(address_in(peer, 0), address(10 + round as u8));
        let outbound = peer.player.association.as_ref().unwrap().outbound;
        assert_eq!(outbound, inbound);
        // Next time the other one moves.
        hosts.reverse();
    }
}

const SAMPLE: &str = "\
0 arrival no association
1 start accepted
  out 8193 in 4097 time 100 aged 100 credit 0 peer - own 0 preferred 0
  slot 0 20010db8000000000000000000000001 traffic 0 expiry 160 active
2 arrival accepted
  out 8193 in 4097 time 100 aged 100 credit 1000 peer - own 0 preferred 0
  slot 0 20010db8000000000000000000000001 traffic 0 expiry 160 active
3 message accepted reply 48 checks 1 keymat 7 \
0041000c0000000000001001000010010181000400000000\
01c100040000000703810008010203040506070800000000
  out 8193 in 4097 time 100 aged 100 credit 1000 peer 7 own 1 preferred -
  slot 0 20010db8000000000000000000000002 traffic 0 expiry 160 unverified 0102030405060708 0 issued 100 resends 0
4 send granted slot 0
  out 8193 in 4097 time 100 aged 100 credit 400 peer 7 own 1 preferred -
  slot 0 20010db8000000000000000000000002 traffic 0 expiry 160 unverified 0102030405060708 0 issued 100 resends 0
5 send refused 15
  out 8193 in 4097 time 100 aged 100 credit 400 peer 7 own 1 preferred -
  slot 0 20010db8000000000000000000000002 traffic 0 expiry 160 unverified 0102030405060708 0 issued 100 resends 0
6 message repeated reply 8 checks 0 keymat 0 01c1000400000007
  out 8193 in 4097 time 100 aged 100 credit 400 peer 7 own 1 preferred -
  slot 0 20010db8000000000000000000000002 traffic 0 expiry 160 unverified 0102030405060708 0 issued 100 resends 0
7 message accepted reply 0 checks 0 keymat 0
  out 8193 in 4097 time 100 aged 100 credit 400 peer 7 own 1 preferred -
  slot 0 20010db8000000000000000000000002 traffic 0 expiry 160 active
8 message refused 8
  out 8193 in 4097 time 100 aged 100 credit 400 peer 7 own 1 preferred -
  slot 0 20010db8000000000000000000000002 traffic 0 expiry 160 active
";

fn sample_trace() -> Vec<u8> {
    let mut tracer = Tracer::default();
    let content = MoveText {
        keymat: 7,
        ..move_of(7, vec![listed(2)])
    };
    let echo = packet(&[ack(&[0]), echo_response(&NONCES[0].to_be_bytes())]);
    for call in [
        Call::Arrival { size: 1000 },
        start_call(100, 1),
        Call::Arrival { size: 1000 },
        message_call(content.packet(), NONCES.to_vec()),
        Call::Send { size: 600 },
        Call::Send { size: 400 },
        message_call(content.packet(), NONCES.to_vec()),
        message_call(echo.clone(), NONCES.to_vec()),
        message_call(echo, NONCES.to_vec()),
    ] {
        tracer.call(&call);
    }
    tracer.bytes
}

fn printed(trace: &[u8]) -> String {
    let mut out = Vec::new();
    replay_from(&mut &trace[..], &mut out).unwrap();
    String::from_utf8(out).unwrap()
}

#[test]
fn the_output_has_its_exact_form() {
    assert_eq!(printed(&sample_trace()), SAMPLE);
    assert_eq!(printed(&[]), "");
}

const ANNOUNCED: &str = "\
0 announcement no association
1 start accepted
  out 8193 in 4097 time 100 aged 100 credit 0 peer - own 0 preferred 0
  slot 0 20010db8000000000000000000000001 traffic 0 expiry 160 active
2 announcement refused 17
  out 8193 in 4097 time 100 aged 100 credit 0 peer - own 0 preferred 0
  slot 0 20010db8000000000000000000000001 traffic 0 expiry 160 active
3 announcement accepted bytes 56 \
0041000c00000000000010010000500500c10018000004000000003c\
20010db8000000000000000000000009000000000181000400000000
  out 8193 in 20485 time 100 aged 100 credit 0 peer - own 1 preferred 0
  slot 0 20010db8000000000000000000000001 traffic 0 expiry 160 active
4 message accepted reply 24 checks 0 keymat 0 01c100040000000703c10008010203040506070800000000
  out 8193 in 20485 time 100 aged 100 credit 0 peer 7 own 1 preferred 0
  slot 0 20010db8000000000000000000000001 traffic 0 expiry 160 active
5 message repeated reply 24 checks 0 keymat 0 01c100040000000703c10008010203040506070800000000
  out 8193 in 20485 time 100 aged 100 credit 0 peer 7 own 1 preferred 0
  slot 0 20010db8000000000000000000000001 traffic 0 expiry 160 active
6 message refused 22
  out 8193 in 20485 time 100 aged 100 credit 0 peer 7 own 1 preferred 0
  slot 0 20010db8000000000000000000000001 traffic 0 expiry 160 active
7 malformed
  out 8193 in 20485 time 100 aged 100 credit 0 peer 7 own 1 preferred 0
  slot 0 20010db8000000000000000000000001 traffic 0 expiry 160 active
";

#[test]
fn the_output_of_announcements_and_checks_has_its_exact_form() {
    let mut tracer = Tracer::default();
    let empty = Call::Announcement(announcement_of(Vec::new(), 1));
    let check = check_of(7, &NONCES[0].to_be_bytes()).packet();
    for call in [
        empty.clone(),
        start_call(100, 1),
        empty,
        Call::Announcement(announcement_of(vec![entry(9)], 0x5005)),
        message_call(check.clone(), NONCES.to_vec()),
        message_call(check, NONCES.to_vec()),
        message_call(check_of(7, &[0; 65]).packet(), NONCES.to_vec()),
    ] {
        tracer.call(&call);
    }
    let numbers = [5, 256, 0, 0, 60, 2, 1, 0];
    tracer.record(&sections(&numbers, &address(9), &[]));
    assert_eq!(printed(&tracer.bytes), ANNOUNCED);
}

#[test]
fn a_trace_cut_inside_a_record_is_torn() {
    let trace = sample_trace();
    for length in 1..trace.len() {
        let text = printed(&trace[..length]);
        let cut = text.strip_suffix("torn\n").unwrap_or(&text);
        assert!(SAMPLE.starts_with(cut), "cut at {length}");
        assert!(text.len() < SAMPLE.len(), "cut at {length}");
    }
    assert!(printed(&trace[..trace.len() - 1]).ends_with("torn\n"));
}

#[test]
fn the_same_seed_gives_the_same_trace() {
    let trace = |seed| {
        let mut bytes = Vec::new();
        random::write_trace(seed, 300, &mut bytes).unwrap();
        bytes
    };
    assert_eq!(trace(1), trace(1));
    assert_ne!(trace(1), trace(2));
}

#[test]
fn no_call_leads_to_refusal_0_and_a_refused_call_changes_nothing() {
    let mut trace = Vec::new();
    random::write_trace(3, 3000, &mut trace).unwrap();
    let mut player = Player::default();
    let whole = for_each_record(&mut &trace[..], |record| {
        let before = player.association.clone();
        let answer = player.run(&record, &mut Notes::default());
        let refused = matches!(
            answer,
            Answer::Malformed
                | Answer::Start(Err(_))
                | Answer::Message(MessageAnswer::Refused(_) | MessageAnswer::Repeated { .. })
                | Answer::Arrival(Err(_))
                | Answer::Send(Err(_))
                | Answer::Tick(Err(_))
                | Answer::Announcement(Err(_))
        );
        assert!(!refused || player.association == before);
        let unsound = player.association.as_ref().is_some_and(|a| a.is_unsound());
        assert!(!unsound);
        Ok(())
    });
    assert!(whole.unwrap());
}

#[test]
fn the_case_list_names_each_case_once() {
    let mut names = CASES.to_vec();
    names.sort_unstable();
    names.dedup();
    assert_eq!(names.len(), CASES.len());
}

#[test]
fn the_gate_trace_meets_every_case() {
    let name = concat!(
        env!("CARGO_MANIFEST_DIR"),
        "/../crates/replay/data/gate.trace"
    );
    let census = census_of(name).unwrap().expect("the committed trace");
    assert_eq!(census.missing(), Vec::<&str>::new());
    assert!(census.records >= 5000);
}
