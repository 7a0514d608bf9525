//! Compares a program that lists the sheet on its standard input with the
//! reference's listing: `compare-list PROGRAM [SEED [COUNT]]`. Exits with 1 where
//! they differ, with 2 where the program cannot be run or an argument is not
//! understood.

use compare::compare_listings;
use generate::arguments::numbers;
use std::io::{self, ErrorKind, Write};
use std::process::{Child, ChildStdin, Command, ExitCode, Stdio};
use std::thread;

/// What the program prints for a sheet.
fn printed(program: &str, sheet: &[u8]) -> io::Result<Vec<u8>> {
    let mut command = Command::new(program);
    let mut child: Child = command
        .stdin(Stdio::piped())
        .stdout(Stdio::piped())
        .spawn()?;
    let input = child.stdin.take();
    thread::scope(|scope| {
        let fed = scope.spawn(move || input.map_or(Ok(()), |input| feed(input, sheet)));
        let output = child.wait_with_output()?;
        fed.join().unwrap_or(Ok(()))?;
        match output.status.success() {
            true => Ok(output.stdout),
            false => Err(io::Error::other(output.status.to_string())),
        }
    })
}

/// Writes the sheet to the program, which need not read all of it: a sheet is
/// too long long before its end.
fn feed(mut input: ChildStdin, sheet: &[u8]) -> io::Result<()> {
    match input.write_all(sheet) {
        Err(error) if error.kind() == ErrorKind::BrokenPipe => Ok(()),
        written => written,
    }
}

fn main() -> ExitCode {
    let mut words = std::env::args().skip(1);
    let program = words.next();
    let (Some(program), Some([seed, count])) = (program, numbers(words, [1, 500])) else {
        eprintln!("usage: compare-list PROGRAM [SEED [COUNT]]");
        return ExitCode::from(2);
    };
    let report = match compare_listings(|sheet| printed(&program, sheet), seed, count) {
        Ok(report) => report,
        Err(error) => {
            eprintln!("compare-list: {program}: {error}");
            return ExitCode::from(2);
        }
    };
    for difference in &report.differences {
        println!("{difference}");
    }
    println!(
        "{} listed ({} of just 32,768 bytes), {} refused, {} too long",
        report.listed, report.just_listed, report.refused, report.too_long
    );
    let (sheets, differences) = (report.sheets(), report.differences.len());
    println!("seed {seed}: {sheets} sheets compared, {differences} differ");
    ExitCode::from(u8::from(differences > 0))
}
