//! A packet reader written for speed, and its comparison with the proved one.

#[cfg(feature = "ours")]
mod calls;
mod equal;
mod gate;
#[cfg(feature = "ours")]
mod kinds;
#[cfg(feature = "ours")]
mod ours;
mod packets;
#[cfg(feature = "ours")]
mod rates;
mod reader;
#[cfg(test)]
mod tests;

use std::io::{self, Write};
use std::process::ExitCode;

const USAGE: &str = "usage: speed equal N [SEED]
       speed rates
       speed calls
       speed count KIND ours|value|lean|call TIMES
       speed kinds
       speed packets
       speed numbers";

fn main() -> ExitCode {
    let words: Vec<String> = std::env::args().skip(1).collect();
    let words: Vec<&str> = words.iter().map(String::as_str).collect();
    match run(&words) {
        Ok(code) => code,
        Err(error) => {
            eprintln!("speed: {error}");
            ExitCode::FAILURE
        }
    }
}

fn run(words: &[&str]) -> io::Result<ExitCode> {
    match words {
        ["packets"] => {
            io::stdout().write_all(&gate::file())?;
            Ok(ExitCode::SUCCESS)
        }
        ["numbers"] => {
            io::stdout().write_all(gate::numbers(&gate::file()).as_bytes())?;
            Ok(ExitCode::SUCCESS)
        }
        ["equal", count, rest @ ..] if rest.len() < 2 => {
            let seed = rest.first().copied().unwrap_or("1");
            match (count.parse(), seed.parse()) {
                (Ok(count), Ok(seed)) => Ok(equal(count, seed)),
                _ => Ok(usage()),
            }
        }
        ["rates" | "calls" | "count" | "kinds", ..] => Ok(measure(words)),
        _ => Ok(usage()),
    }
}

fn usage() -> ExitCode {
    eprintln!("{USAGE}");
    ExitCode::from(2)
}

fn equal(count: u64, seed: u64) -> ExitCode {
    match equal::compare(count, seed) {
        Err(text) => {
            println!("{text}");
            ExitCode::FAILURE
        }
        Ok(answers) => {
            println!("no difference on {count} packets, seed {seed}");
            answers.print();
            if cfg!(feature = "ours") {
                ExitCode::SUCCESS
            } else {
                without_ours()
            }
        }
    }
}

/// Says that the proved reader had no part in it.
fn without_ours() -> ExitCode {
    eprintln!("speed: built without the proved reader (--features ours)");
    ExitCode::from(2)
}

#[cfg(not(feature = "ours"))]
fn measure(_words: &[&str]) -> ExitCode {
    without_ours()
}

#[cfg(feature = "ours")]
fn measure(words: &[&str]) -> ExitCode {
    match words {
        ["rates"] => rates::print(),
        ["calls"] => calls::print(),
        // For the script that counts instructions: what can be counted, by whom
        // it is done, how often a packet is read for each of the TIMES or how many
        // of a call may be made, and its title.
        ["kinds"] => {
            for name in kinds::NAMES {
                let title = kinds::title(name);
                println!("{name}\tpacket\t{}\t{title}", kinds::VARIANTS);
            }
            for row in calls::rows() {
                println!("{}\tcall\t{}\t{}", row.name, row.many, row.cells());
            }
        }
        ["count", kind, who, times] => {
            let Ok(times) = times.parse() else {
                return usage();
            };
            let sum = match *who {
                "call" => calls::count(kind, times),
                who => rates::count(kind, who, times),
            };
            match sum {
                Some(sum) => println!("{sum}"),
                None => return usage(),
            }
        }
        _ => return usage(),
    }
    ExitCode::SUCCESS
}
