//! Reads a replay script from standard input, then one from each file that is
//! named, and prints a line for each step, as the reference answers it. Each
//! script begins with stores of its own.

use replay::{Player, steps};
use std::error::Error;
use std::fs;
use std::io::{self, BufWriter, Read, Write};
use std::process::ExitCode;

fn play(script: &[u8], out: &mut impl Write) -> Result<(), Box<dyn Error>> {
    let mut player = Player::default();
    for step in steps(script) {
        writeln!(out, "{}", player.play(&step?))?;
    }
    Ok(())
}

fn play_all() -> Result<(), Box<dyn Error>> {
    let mut first = Vec::new();
    io::stdin().lock().read_to_end(&mut first)?;
    let mut out = BufWriter::new(io::stdout().lock());
    play(&first, &mut out)?;
    for file in std::env::args().skip(1) {
        play(&fs::read(file)?, &mut out)?;
    }
    out.flush()?;
    Ok(())
}

fn main() -> ExitCode {
    match play_all() {
        Ok(()) => ExitCode::SUCCESS,
        Err(error) => {
            eprintln!("replay-reference: {error}");
            ExitCode::FAILURE
        }
    }
}
