//! Writes a replay script to standard output: `make-script SEED STEPS`. With
//! `small` behind it, one that the Rattle player plays: cut before the step
//! that would take it over 64 KiB.

use replay::{Kind, SMALL, Script};
use std::io::{self, BufWriter, Write};
use std::process::ExitCode;

fn arguments() -> Option<(u64, usize, Kind)> {
    let mut arguments = std::env::args().skip(1);
    let seed = arguments.next()?.parse().ok()?;
    let steps = arguments.next()?.parse().ok()?;
    match (arguments.next().as_deref(), arguments.next()) {
        (None, None) => Some((seed, steps, Kind::Whole)),
        (Some("small"), None) => Some((seed, steps, Kind::Small)),
        _ => None,
    }
}

fn make(seed: u64, steps: usize, kind: Kind) -> io::Result<()> {
    let mut out = BufWriter::new(io::stdout().lock());
    let mut length = 0;
    for step in Script::new(seed, kind).take(steps) {
        let bytes = step.bytes();
        length += bytes.len();
        if kind == Kind::Small && length > SMALL as usize {
            break;
        }
        out.write_all(&bytes)?;
    }
    out.flush()
}

fn main() -> ExitCode {
    let Some((seed, steps, kind)) = arguments() else {
        eprintln!("usage: make-script SEED STEPS [small]");
        return ExitCode::FAILURE;
    };
    match make(seed, steps, kind) {
        Ok(()) => ExitCode::SUCCESS,
        Err(error) => {
            eprintln!("make-script: {error}");
            ExitCode::FAILURE
        }
    }
}
