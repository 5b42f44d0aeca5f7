//! A second, independent program that replays traces of calls on a HIP
//! association. It is written from documents 01 and 02 alone.

mod address;
mod ageing;
mod announcement;
mod assemble;
mod association;
mod census;
mod check;
mod compose;
mod gate;
mod history;
mod message;
mod own_check;
mod packet;
mod print;
mod random;
mod reasons;
mod record;
mod replay;
#[cfg(test)]
mod tests;
mod tick;

use std::io::{self, BufWriter, ErrorKind, Write};
use std::process::ExitCode;

const USAGE: &str = "usage:
  reference replay FILE        print the answers and states of a trace
  reference random SEED CALLS  write a random trace
  reference gate FILE..        write the trace that meets every case, with FILEs in it
  reference assemble TEXT      write the trace that a readable text describes
  reference census FILE        count the cases that a trace meets
";

fn main() -> ExitCode {
    let arguments: Vec<_> = std::env::args_os().skip(1).collect();
    let arguments: Vec<_> = arguments.iter().map(|a| a.to_string_lossy()).collect();
    let words: Vec<&str> = arguments.iter().map(AsRef::as_ref).collect();
    let mut out = BufWriter::with_capacity(1 << 16, io::stdout().lock());
    let done = command(&words, &mut out).and_then(|status| out.flush().map(|()| status));
    match done {
        Ok(status) => ExitCode::from(status),
        // Whoever reads the output has enough of it.
        Err(error) if error.kind() == ErrorKind::BrokenPipe => ExitCode::SUCCESS,
        Err(error) => {
            let _ = writeln!(io::stderr(), "{error}");
            ExitCode::FAILURE
        }
    }
}

/// Runs a command and gives its exit status.
fn command(words: &[&str], out: &mut impl Write) -> io::Result<u8> {
    match words {
        ["replay"] => out.write_all(b"torn\n").map(|()| 0),
        ["replay", name] => replay::replay(name, out).map(|()| 0),
        ["random", seed, calls] => match (seed.parse(), calls.parse()) {
            (Ok(seed), Ok(calls)) => random::write_trace(seed, calls, out).map(|()| 0),
            _ => Ok(usage()),
        },
        ["gate", names @ ..] => {
            out.write_all(&gate::trace())?;
            for name in names {
                out.write_all(&std::fs::read(name)?)?;
            }
            out.write_all(&gate::torn_end())?;
            Ok(0)
        }
        ["assemble", name] => assemble(name, out),
        ["census", name] => census::print_census(name, out).map(|full| u8::from(!full)),
        _ => Ok(usage()),
    }
}

fn assemble(name: &str, out: &mut impl Write) -> io::Result<u8> {
    let text = std::fs::read_to_string(name)?;
    match assemble::assemble(&text) {
        Ok(bytes) => out.write_all(&bytes).map(|()| 0),
        Err(error) => {
            let _ = writeln!(io::stderr(), "{error}");
            Ok(1)
        }
    }
}

fn usage() -> u8 {
    let _ = write!(io::stderr(), "{USAGE}");
    2
}
