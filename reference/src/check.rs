//! The answer to a Check, and the cases of Checks.

use crate::association::Association;
use crate::message::{judge_nonces, slot_of_echo, Answer};
use crate::packet::{
    acknowledgement, u16_at, u32_at, write_parameter, Check, Parameter, ACK, ECHO_REQUEST_SIGNED,
    ECHO_RESPONSE_SIGNED, ESP_INFO, HIP_MAC, HIP_SIGNATURE, HOST_ID, OPAQUE_LIMIT,
};
use crate::reasons::{Notes, Reasons};
use crate::record::MessageInputs;

/// A Check "stores its ID" and changes nothing else.
pub fn accept_check(association: &mut Association, content: &Check) -> Answer {
    association.peer_id = Some(content.update_id);
    Answer::Accepted {
        reply: check_answer(content),
        checks: 0,
        keymat: 0,
    }
}

/// "an ACK of the peer's ID and an echo response with the same opaque bytes"
pub fn check_answer(content: &Check) -> Vec<u8> {
    let mut bytes = acknowledgement(content.update_id);
    bytes.extend(write_parameter(ECHO_RESPONSE_SIGNED, &content.opaque));
    bytes
}

/// What a Check holds beside SEQ and 897.
const ACCEPTED: [&str; 4] = [
    "Check accepted: with ESP_INFO and ACK",
    "Check accepted: with ESP_INFO",
    "Check accepted: with ACK",
    "Check accepted: with neither",
];

const REPEATED: [&str; 4] = [
    "Check repeated: with ESP_INFO and ACK",
    "Check repeated: with ESP_INFO",
    "Check repeated: with ACK",
    "Check repeated: with neither",
];

const BELOW: [&str; 4] = [
    "refusal 7: a Check with ESP_INFO and ACK",
    "refusal 7: a Check with ESP_INFO",
    "refusal 7: a Check with ACK",
    "refusal 7: a Check with neither",
];

fn with_or_without(parameters: &[Parameter], names: [&'static str; 4]) -> &'static str {
    let holds = |kind| parameters.iter().any(|p| p.kind == kind);
    match (holds(ESP_INFO), holds(ACK)) {
        (true, true) => names[0],
        (true, false) => names[1],
        (false, true) => names[2],
        (false, false) => names[3],
    }
}

pub fn note_repeated_check(parameters: &[Parameter], notes: &mut Notes) {
    notes.add("Check repeated");
    notes.add(with_or_without(parameters, REPEATED));
}

/// Cases of an accepted Check.
pub fn note_check(
    before: &Association,
    content: &Check,
    inputs: &MessageInputs,
    parameters: &[Parameter],
    notes: &mut Notes,
) {
    notes.add("Check accepted");
    notes.add(with_or_without(parameters, ACCEPTED));
    let id = content.update_id;
    let first = before.peer_id.is_none();
    notes.add_if(first, "Check: first ID");
    notes.add_if(!first, "Check: higher ID");
    notes.add_if(id == 0, "Check: ID 0");
    notes.add_if(id == u32::MAX, "Check: ID 2^32 - 1");
    match content.opaque.len() {
        0 => notes.add("Check: 0 opaque bytes"),
        1 => notes.add("Check: 1 opaque byte"),
        8 => notes.add("Check: 8 opaque bytes"),
        OPAQUE_LIMIT => notes.add("Check: 64 opaque bytes"),
        _ => {}
    }
    // Padding fills a parameter up to a multiple of 8 bytes, after the 4 bytes
    // of type and length.
    let padded = content.opaque.len() % 8 != 4;
    notes.add_if(padded, "Check: answer padded");
    notes.add_if(!padded, "Check: answer without padding");
    let mut reasons = Reasons::default();
    judge_nonces(before, &inputs.nonces, &mut reasons);
    notes.add_if(reasons.has(10), "Check: accepted with refusal 10's nonces");
    let outstanding = slot_of_echo(before, &content.opaque).is_some();
    notes.add_if(outstanding, "Check: an outstanding nonce verifies nothing");
    notes.add_if(inputs.buffer == 384, "Check: buffer 384");
    for parameter in parameters {
        note_check_parameter(before, parameter, notes);
    }
}

fn note_check_parameter(before: &Association, parameter: &Parameter, notes: &mut Notes) {
    let padded = parameter.padding.iter().any(|byte| *byte != 0);
    let body = &parameter.body;
    match parameter.kind {
        ESP_INFO => {
            let reserved = body[..2] != [0, 0];
            notes.add_if(reserved, "Check: reserved bits of ESP_INFO");
            notes.add_if(u16_at(body, 2) != 0, "Check: KEYMAT Index not 0");
            let other = u32_at(body, 4) != before.outbound;
            notes.add_if(other, "Check: OLD SPI not the outbound SPI");
            notes.add_if(u32_at(body, 8) == 0, "Check: NEW SPI 0");
        }
        ACK => notes.add_if(body.len() > 4, "Check: ACK with several IDs"),
        // It is not copied to the answer.
        ECHO_REQUEST_SIGNED => notes.add_if(padded, "Check: padding of 897 not zero"),
        HOST_ID => notes.add("Check: HOST_ID stepped over"),
        HIP_MAC => notes.add("Check: HIP_MAC stepped over"),
        HIP_SIGNATURE => notes.add("Check: HIP_SIGNATURE stepped over"),
        kind if kind % 2 == 0 => notes.add("Check: unknown even type stepped over"),
        _ => {}
    }
}

/// Cases of a Check that is refused.
pub fn note_refused(
    association: &Association,
    content: &Check,
    inputs: &MessageInputs,
    parameters: &[Parameter],
    number: u8,
    notes: &mut Notes,
) {
    match number {
        1 => {
            let fits = inputs.buffer >= check_answer(content).len() as u64;
            notes.add_if(fits, "refusal 1: a Check whose answer would fit");
        }
        2 => notes.add("refusal 2: a Check"),
        4 => notes.add("refusal 4: in a Check"),
        7 => notes.add(with_or_without(parameters, BELOW)),
        22 => {
            let length = content.opaque.len();
            notes.add_if(length == 65, "refusal 22: 65 opaque bytes");
            // As 8 bits this length would be 64 or less.
            notes.add_if(length % 256 <= 64, "refusal 22: over 255 opaque bytes");
            let equal = association.peer_id == Some(content.update_id);
            notes.add_if(equal, "order: refusal 22 before Repeated");
        }
        _ => {}
    }
}
