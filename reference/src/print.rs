//! The lines that a replay prints.

use std::fmt::{Display, Write};

use crate::association::{Association, Status};
use crate::message;
use crate::own_check::OwnCheck;
use crate::replay::Answer;
use crate::tick::Resent;

/// The line of record `index`, then the state if there is an association.
pub fn record(index: u64, answer: &Answer, association: Option<&Association>) -> String {
    let mut text = format!("{index} {}\n", answer_text(answer));
    if let Some(association) = association {
        text.push_str(&state(association));
    }
    text
}

fn answer_text(answer: &Answer) -> String {
    match answer {
        Answer::Malformed => "malformed".to_string(),
        Answer::NoAssociation(call) => format!("{call} no association"),
        Answer::Start(result) => accepted_or_not("start", result),
        Answer::Message(answer) => message_text(answer),
        Answer::Arrival(result) => accepted_or_not("arrival", result),
        Answer::Send(Ok(slot)) => format!("send granted slot {slot}"),
        Answer::Send(Err(number)) => format!("send refused {number}"),
        Answer::Tick(Ok(resent)) => tick_text(resent),
        Answer::Tick(Err(number)) => format!("tick refused {number}"),
        Answer::Announcement(Ok(bytes)) => {
            let length = bytes.len();
            format!("announcement accepted bytes {length} {}", hex(bytes))
        }
        Answer::Announcement(Err(number)) => format!("announcement refused {number}"),
    }
}

fn accepted_or_not(call: &str, result: &Result<(), u8>) -> String {
    match result {
        Ok(()) => format!("{call} accepted"),
        Err(number) => format!("{call} refused {number}"),
    }
}

/// The bytes stand there only where a check is sent again.
fn tick_text(resent: &Resent) -> String {
    let mut text = format!("tick accepted resent {}", resent.checks);
    if resent.checks > 0 {
        text.push(' ');
        text.push_str(&hex(&resent.bytes));
    }
    text
}

fn message_text(answer: &message::Answer) -> String {
    match answer {
        message::Answer::Accepted {
            reply,
            checks,
            keymat,
        } => reply_text("accepted", reply, *checks, *keymat),
        message::Answer::Repeated { reply } => reply_text("repeated", reply, 0, 0),
        message::Answer::Refused(number) => format!("message refused {number}"),
    }
}

fn reply_text(how: &str, reply: &[u8], checks: usize, keymat: u16) -> String {
    let length = reply.len();
    let mut text = format!("message {how} reply {length} checks {checks} keymat {keymat}");
    if !reply.is_empty() {
        text.push(' ');
        text.push_str(&hex(reply));
    }
    text
}

fn state(association: &Association) -> String {
    let mut text = format!(
        "  out {} in {} time {} aged {} credit {} peer {} own {} preferred {}\n",
        association.outbound,
        association.inbound,
        association.time,
        association.aged,
        association.credit,
        or_dash(association.peer_id),
        association.own_id,
        or_dash(association.preferred),
    );
    for (slot, locator) in &association.held {
        let address = hex(&locator.address);
        let status = status_text(&locator.status);
        let (traffic, expiry) = (locator.traffic, locator.expiry);
        text.push_str(&format!(
            "  slot {slot} {address} traffic {traffic} expiry {expiry} {status}\n"
        ));
    }
    text
}

fn status_text(status: &Status) -> String {
    match status {
        Status::Active => "active".to_string(),
        Status::Deprecated => "deprecated".to_string(),
        Status::Unverified(OwnCheck {
            nonce,
            id,
            issued,
            resends,
        }) => format!("unverified {nonce:016x} {id} issued {issued} resends {resends}"),
    }
}

fn or_dash(value: Option<impl Display>) -> String {
    value.map_or("-".to_string(), |value| value.to_string())
}

pub fn hex(bytes: &[u8]) -> String {
    let mut text = String::new();
    for byte in bytes {
        let _ = write!(text, "{byte:02x}");
    }
    text
}
