//! Times the proved calls on an association.
//!
//! A string of bytes tells which calls are made: see the README. The cost of
//! one call is the time of a string with more calls less that of the string
//! without them, shared among them.

use std::hint::black_box;
use std::time::Instant;

use crate::ours;
use crate::packets::{
    info_body, set_body, Draft, Locator, ECHO_RESPONSE_SIGNED, ESP_INFO, LOCATOR_SET, SEQ,
};

const ARRIVAL: u8 = 0;
const SEND: u8 = 1;
const TICK: u8 = 2;
const FIRST: u8 = 3;
const SECOND: u8 = 4;
const ROW_0: u8 = 5;
const NO_CALL: u8 = 255;

const OUTBOUND: u32 = 0x2001;
const NEW: u32 = 0x3001;

const ROUNDS: usize = 300;
/// The most sends of 500 bytes that the greatest credit grants, rounded down.
const MOST_SENDS: usize = 2000;
/// So many arrivals of 1,000 bytes reach the greatest credit, 1,048,576.
const FULL_CREDIT: usize = 1049;
/// A check is sent again 1, 2, 4 and 8 seconds after it went out, and given up
/// after 16: ticks a second apart, the first two of which send it, and those
/// after the last moment that find it out still.
const RESENDS: usize = 2;
const LAST_MOMENT: usize = 8;
const QUIET_TICKS: usize = 7;

/// One call, and what leads up to it.
pub struct Row {
    pub name: &'static str,
    title: &'static str,
    /// The calls before it: none leaves one ACTIVE address.
    before: Vec<u8>,
    call: u8,
    /// How many of it are timed in one string, and may be counted.
    pub many: usize,
    second: Vec<u8>,
}

/// A Move of so many locators of type 1, whose addresses end from `from` on.
fn a_move(count: u16, from: u16, old: u32, id: u32) -> Vec<u8> {
    let set: Vec<Locator> = (from..from + count)
        .map(|end| {
            let mut address = [0; 16];
            address[..4].copy_from_slice(&[0x20, 1, 0xd, 0xb8]);
            address[14..].copy_from_slice(&end.to_be_bytes());
            let mut one = Locator::new(1, NEW, address);
            one.lifetime = 1_000_000_000;
            one
        })
        .collect();
    Draft::default()
        .with(ESP_INFO, info_body(0, old, NEW))
        .with(LOCATOR_SET, set_body(&set))
        .with(SEQ, id.to_be_bytes())
        .packet()
}

/// The Move that leaves eight UNVERIFIED addresses.
fn first() -> Vec<u8> {
    a_move(8, 0x101, OUTBOUND, 7)
}

/// A Reply that echoes the last of the nonces that `first` was offered.
fn reply() -> Vec<u8> {
    Draft::default()
        .with(ECHO_RESPONSE_SIGNED, 18u64.to_be_bytes())
        .packet()
}

/// All rows of the table; the first of each association is the loop alone.
pub fn rows() -> Vec<Row> {
    let row = |name, title, before: &[u8], call, many, second| Row {
        name,
        title,
        before: before.to_vec(),
        call,
        many,
        second,
    };
    let active: &[u8] = &[];
    let eight: &[u8] = &[FIRST];
    let mut credit = vec![FIRST];
    credit.resize(1 + FULL_CREDIT, ARRIVAL);
    let mut waiting = vec![FIRST];
    waiting.resize(1 + LAST_MOMENT, TICK);
    let none = Vec::new;
    vec![
        row("active-none", "no call", active, NO_CALL, 4000, none()),
        row("active-row-0", "row 0", active, ROW_0, 2000, none()),
        row("active-arrival", "arrival", active, ARRIVAL, 2000, none()),
        row("active-send", "send", active, SEND, 2000, none()),
        row("active-tick", "tick", active, TICK, 2000, none()),
        row(
            "active-move-1",
            "Move of 1",
            active,
            SECOND,
            400,
            a_move(1, 0x101, OUTBOUND, 7),
        ),
        row("active-move-8", "Move of 8", active, SECOND, 400, first()),
        row("eight-none", "no call", eight, NO_CALL, 4000, none()),
        row("eight-row-0", "row 0", eight, ROW_0, 2000, none()),
        row("eight-arrival", "arrival", eight, ARRIVAL, 2000, none()),
        row("eight-send", "send", &credit, SEND, MOST_SENDS, none()),
        row(
            "eight-resend",
            "tick, eight checks sent again",
            eight,
            TICK,
            RESENDS,
            none(),
        ),
        row("eight-tick", "tick", &waiting, TICK, QUIET_TICKS, none()),
        row("eight-reply", "Reply", eight, SECOND, 400, reply()),
        row("eight-repeated", "Repeated", eight, SECOND, 400, first()),
        row(
            "eight-move-8",
            "Move of 8 others",
            eight,
            SECOND,
            400,
            a_move(8, 0x201, NEW, 8),
        ),
    ]
}

impl Row {
    /// The calls before it, and `many` of it.
    fn string(&self, many: usize) -> Vec<u8> {
        let mut calls = self.before.clone();
        calls.resize(self.before.len() + many, self.call);
        calls
    }

    /// The first two cells of its line in a table.
    pub fn cells(&self) -> String {
        let association = if self.before.is_empty() {
            "one ACTIVE"
        } else {
            "eight UNVERIFIED"
        };
        format!("{association} | {}", self.title)
    }

    /// The least nanoseconds of one call, and the median.
    fn time(&self, first: &[u8]) -> (f64, f64) {
        let without = self.string(0);
        let with = self.string(self.many);
        let mut buffer = [0; 512];
        let mut times: [Vec<f64>; 2] = Default::default();
        for _ in 0..ROUNDS {
            for (which, calls) in [&without, &with].into_iter().enumerate() {
                let begun = Instant::now();
                black_box(ours::run(
                    black_box(calls),
                    first,
                    &self.second,
                    &mut buffer,
                ));
                times[which].push(begun.elapsed().as_nanos() as f64);
            }
        }
        let [without, with] = times.map(|mut of_one| {
            of_one.sort_by(f64::total_cmp);
            (of_one[0], of_one[ROUNDS / 2])
        });
        let many = self.many as f64;
        ((with.0 - without.0) / many, (with.1 - without.1) / many)
    }
}

/// Prints the table of calls.
pub fn print() {
    println!("Nanoseconds a call, as it is and less the loop alone.\n");
    println!("| Association | Call | least | less the loop | median | less the loop |");
    println!("|---|---|---|---|---|---|");
    let first = first();
    let mut alone = (0.0, 0.0);
    for row in rows() {
        let (least, median) = row.time(&first);
        if row.call == NO_CALL {
            alone = (least, median);
        }
        println!(
            "| {} | {least:.1} | {:.1} | {median:.1} | {:.1} |",
            row.cells(),
            least - alone.0,
            median - alone.1
        );
    }
}

/// Makes one call `times` times, for a count of instructions: no more than are
/// of the same kind. More sends than the credit grants would be refused, and
/// more ticks would give the checks up.
pub fn count(name: &str, times: usize) -> Option<u64> {
    let row = rows().into_iter().find(|row| row.name == name)?;
    if times > row.many {
        return None;
    }
    let calls = row.string(times);
    Some(ours::run(&calls, &first(), &row.second, &mut [0; 512]))
}
