//! The program `keeper`.

use std::ffi::OsString;
use std::io::{self, BufWriter, IsTerminal, Write};
use std::process::ExitCode;

fn main() -> ExitCode {
    let words: Vec<OsString> = std::env::args_os().skip(1).collect();
    let mut out = BufWriter::new(io::stdout().lock());
    let mut io = tool::Io {
        input: &mut io::stdin().lock(),
        out: &mut out,
        err: &mut io::stderr(),
        is_terminal: io::stdout().is_terminal(),
    };
    let code = tool::run(&words, &mut io);
    // What could not be written was told by `run`, which flushes.
    let _ = out.flush();
    ExitCode::from(code)
}
