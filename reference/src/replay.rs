//! Runs the records of a trace one after another.

use std::fs::File;
use std::io::{self, BufReader, Read, Write};

use crate::announcement::announce;
use crate::association::{start, Association};
use crate::history::History;
use crate::message::{self, message};
use crate::print;
use crate::reasons::Notes;
use crate::record::{next, understand, Call, MessageInputs, Next, Sections, StartInputs};
use crate::tick::{tick, Resent};

/// The answer to one record.
#[derive(Clone, Debug, PartialEq, Eq)]
pub enum Answer {
    Malformed,
    NoAssociation(&'static str),
    Start(Result<(), u8>),
    Message(message::Answer),
    Arrival(Result<(), u8>),
    Send(Result<usize, u8>),
    Tick(Result<Resent, u8>),
    /// The bytes written.
    Announcement(Result<Vec<u8>, u8>),
}

/// The association that a trace has reached, if any.
#[derive(Clone, Debug, Default)]
pub struct Player {
    pub association: Option<Association>,
    history: History,
}

impl Player {
    pub fn run(&mut self, record: &Sections, notes: &mut Notes) -> Answer {
        let longest = usize::from(u16::MAX);
        let all = [&record.numbers, &record.bytes, &record.nonces];
        let full = all.iter().all(|section| section.len() == longest);
        notes.add_if(full, "trace: three sections of 65,535 bytes");
        match understand(record) {
            Ok(call) => self.call(&call, notes),
            Err(faults) => {
                if let [fault] = faults[..] {
                    notes.add(fault);
                }
                let none = self.association.is_none();
                notes.add_if(none, "malformed: before any association");
                Answer::Malformed
            }
        }
    }

    pub fn call(&mut self, call: &Call, notes: &mut Notes) -> Answer {
        if let Call::Start(inputs) = call {
            return self.start(inputs, notes);
        }
        let Some(association) = &mut self.association else {
            return no_association(call, notes);
        };
        match call {
            Call::Start(inputs) => self.start(inputs, notes),
            Call::Message(inputs) => self.message(inputs, notes),
            Call::Arrival { size } => {
                let result = association.arrival(*size, notes);
                note_result(&result, "arrival accepted", "arrival refused", notes);
                Answer::Arrival(result)
            }
            Call::Send { size } => {
                let result = association.send(*size, notes);
                notes.add_if(result.is_err(), "send refused");
                Answer::Send(result)
            }
            Call::Tick { time, buffer } => {
                let before = association.clone();
                let result = tick(association, *time, *buffer, notes);
                if result.is_ok() {
                    self.history.ticked(&before, association, notes);
                }
                note_result(&result, "tick accepted", "tick refused", notes);
                Answer::Tick(result)
            }
            Call::Announcement(inputs) => {
                let before = association.inbound;
                let result = announce(association, inputs, notes);
                if result.is_ok() {
                    self.history.announced(before, association.inbound, notes);
                }
                let names = ["announcement accepted", "announcement refused"];
                note_result(&result, names[0], names[1], notes);
                Answer::Announcement(result)
            }
        }
    }

    /// "A start begins a new association"; a refused one leaves the one before.
    fn start(&mut self, inputs: &StartInputs, notes: &mut Notes) -> Answer {
        let was_there = self.association.is_some();
        let result = start(inputs, notes).map(|association| {
            self.association = Some(association);
            self.history = History::default();
        });
        note_result(&result, "start accepted", "start refused", notes);
        notes.add_if(
            was_there && result.is_ok(),
            "start: takes the place of an association",
        );
        notes.add_if(
            was_there && result.is_err(),
            "start: refused, association stays",
        );
        notes.add_if(
            !was_there && result.is_err(),
            "start: refused, no association",
        );
        Answer::Start(result)
    }

    fn message(&mut self, inputs: &MessageInputs, notes: &mut Notes) -> Answer {
        let Some(association) = &mut self.association else {
            return Answer::NoAssociation("message");
        };
        let before = association.clone();
        let answer = message(association, inputs, notes);
        match answer {
            message::Answer::Accepted { checks, .. } => {
                self.history
                    .observe(&before, association, &inputs.packet, notes);
                self.history.note_checks(checks, notes);
            }
            message::Answer::Repeated { .. } => {
                self.history.note_repeated(&inputs.packet, notes);
            }
            message::Answer::Refused(number) => {
                notes.add("message refused");
                if number == 7 {
                    self.history.note_below(&inputs.packet, notes);
                }
                if number == 8 {
                    self.history.note_echo(association, &inputs.packet, notes);
                }
            }
        }
        Answer::Message(answer)
    }
}

fn no_association(call: &Call, notes: &mut Notes) -> Answer {
    let (name, case) = match call {
        Call::Message(_) => ("message", "no association: message"),
        Call::Arrival { .. } => ("arrival", "no association: arrival"),
        Call::Send { .. } => ("send", "no association: send"),
        Call::Tick { .. } => ("tick", "no association: tick"),
        Call::Announcement(_) => ("announcement", "no association: announcement"),
        Call::Start(_) => unreachable!("a start needs no association"),
    };
    notes.add(case);
    Answer::NoAssociation(name)
}

fn note_result<T>(
    result: &Result<T, u8>,
    accepted: &'static str,
    refused: &'static str,
    notes: &mut Notes,
) {
    notes.add(if result.is_ok() { accepted } else { refused });
}

/// Goes through the records of a trace; false if it is torn.
pub fn for_each_record(
    reader: &mut impl Read,
    mut each: impl FnMut(Sections) -> io::Result<()>,
) -> io::Result<bool> {
    loop {
        match next(reader) {
            Next::Record(record) => each(record)?,
            Next::End => return Ok(true),
            Next::Torn => return Ok(false),
        }
    }
}

/// A trace file, if it can be opened.
pub fn open(name: &str) -> Option<impl Read> {
    let file = File::open(name).ok()?;
    Some(BufReader::with_capacity(1 << 16, file))
}

/// Prints the lines of a trace file; one that cannot be read is torn.
pub fn replay(name: &str, out: &mut impl Write) -> io::Result<()> {
    match open(name) {
        Some(mut reader) => replay_from(&mut reader, out),
        None => out.write_all(b"torn\n"),
    }
}

pub fn replay_from(reader: &mut impl Read, out: &mut impl Write) -> io::Result<()> {
    let mut player = Player::default();
    let mut index = 0;
    let whole = for_each_record(reader, |record| {
        let answer = player.run(&record, &mut Notes::default());
        let lines = print::record(index, &answer, player.association.as_ref());
        index += 1;
        out.write_all(lines.as_bytes())
    })?;
    if !whole {
        out.write_all(b"torn\n")?;
    }
    Ok(())
}
