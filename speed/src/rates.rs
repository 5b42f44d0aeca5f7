//! Times the readers side by side.

use std::hint::black_box;
use std::time::Instant;

use crate::kinds;
use crate::ours;
use crate::packets::Random;
use crate::reader::{fold_lean, fold_value, Listed, MOST};

const ROUNDS: usize = 600;
/// How often a reader reads all variants in one round.
const TURNS: usize = 4;
/// The places of the stack at which the readers are called in turn.
const STEPS: usize = 8;

/// Who reads.
#[derive(Clone, Copy)]
enum Who {
    Ours,
    Value,
    Lean,
}

const ALL: [Who; 3] = [Who::Ours, Who::Value, Who::Lean];

/// Reads every packet `times` times; all answers go into the sum.
fn read_all(who: Who, packets: &[&[u8]], times: usize) -> u64 {
    match who {
        Who::Ours => sum(packets, times, ours::fold),
        Who::Value => sum(packets, times, fold_value),
        Who::Lean => {
            let mut listed = [Listed::BLANK; MOST];
            sum(packets, times, |packet| fold_lean(packet, &mut listed))
        }
    }
}

#[inline(always)]
fn sum(packets: &[&[u8]], times: usize, mut fold: impl FnMut(&[u8]) -> u64) -> u64 {
    let mut sum = 0u64;
    for _ in 0..times {
        for packet in packets {
            sum = sum.wrapping_add(fold(black_box(packet)));
        }
    }
    sum
}

/// The same some steps further down the stack. How fast an answer is copied goes
/// by where it lies in its cache lines, and that changes from run to run.
#[inline(never)]
fn read_deeper(steps: usize, who: Who, packets: &[&[u8]], times: usize) -> u64 {
    if steps == 0 {
        return read_all(who, packets, times);
    }
    let step = black_box([0u64; 2]);
    read_deeper(steps - 1, who, packets, times).wrapping_add(black_box(step)[0])
}

/// The nanoseconds of a packet, least and median, for each reader.
fn time(packets: &[Vec<u8>]) -> [(f64, f64); 3] {
    let mut random = Random::new(7);
    let mut order: Vec<&[u8]> = packets.iter().map(Vec::as_slice).collect();
    let mut times: [Vec<f64>; 3] = Default::default();
    for round in 0..ROUNDS {
        // A new order in each round, the same for all three, so that branches
        // are not predicted from the order.
        for i in (1..order.len()).rev() {
            order.swap(i, random.below(i + 1));
        }
        for turn in 0..3 {
            let which = (round + turn) % 3;
            let begun = Instant::now();
            black_box(read_deeper(round % STEPS, ALL[which], &order, TURNS));
            let nanoseconds = begun.elapsed().as_nanos() as f64;
            times[which].push(nanoseconds / (TURNS * order.len()) as f64);
        }
    }
    times.map(|mut of_one| {
        of_one.sort_by(f64::total_cmp);
        (of_one[0], of_one[ROUNDS / 2])
    })
}

/// Prints the table of times and rates.
pub fn print() {
    println!("Nanoseconds a packet, and our rate as a share of each other reader's.\n");
    println!(
        "| Packet | ours, least | by value | lean | ours / by value | ours / lean \
         | ours, median | by value | lean | ours / by value | ours / lean |"
    );
    println!("|---|---|---|---|---|---|---|---|---|---|---|");
    for name in kinds::NAMES {
        let packets = kinds::packets(name).unwrap_or_default();
        let [ours, value, lean] = time(&packets);
        let cells = |ours: f64, value: f64, lean: f64| {
            format!(
                "{ours:.1} | {value:.1} | {lean:.1} | {:.2} | {:.2}",
                value / ours,
                lean / ours
            )
        };
        println!(
            "| {} | {} | {} |",
            kinds::title(name),
            cells(ours.0, value.0, lean.0),
            cells(ours.1, value.1, lean.1)
        );
    }
}

/// Reads the packets of a kind `times` times, for a count of instructions.
pub fn count(kind: &str, who: &str, times: usize) -> Option<u64> {
    let who = match who {
        "ours" => Who::Ours,
        "value" => Who::Value,
        "lean" => Who::Lean,
        _ => return None,
    };
    let packets = kinds::packets(kind)?;
    let order: Vec<&[u8]> = packets.iter().map(Vec::as_slice).collect();
    Some(read_all(who, &order, times))
}
