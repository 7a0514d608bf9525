//! Writes a script, or a sheet to be listed, made by hand from documents 01 and
//! 02 to standard output: `make-examples NAME`. Fails where the reference answers
//! otherwise than the papers, and tells at which steps.

use std::io::{self, Write};
use std::process::ExitCode;

fn main() -> ExitCode {
    let name = std::env::args().nth(1).unwrap_or_default();
    let made = match replay::examples::listed(&name) {
        Some(sheet) => Ok(sheet),
        None => replay::examples::script(&name),
    };
    let written = made.and_then(|script| {
        let written = io::stdout().lock().write_all(&script);
        written.map_err(|error| error.to_string())
    });
    match written {
        Ok(()) => ExitCode::SUCCESS,
        Err(error) => {
            eprintln!("make-examples: {error}");
            ExitCode::FAILURE
        }
    }
}
