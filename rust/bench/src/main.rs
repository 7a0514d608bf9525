//! `bench [NAME..]`: what each call of the keeper costs on the forest owners'
//! schema and on full tables, `forest`, `sparse` and `dense`; on `half` and
//! `quarter`, which are `sparse` with a part of its rows; or on the sheets in
//! the files named. The time is the processor's, the least and the median of
//! many calls; instructions are counted where `valgrind` is there.

mod call;
mod clock;
mod kinds;
mod measure;
mod schemas;

use call::Call;
use clock::{Clock, Times};
use keeper::Stores;
use kinds::Kind;
use measure::{Case, Cost, measured, one, one_pass};
use reference::reading;
use std::process::ExitCode;
use std::time::Duration;

/// A line of the table.
fn line(name: &str, cost: &Cost, ratios: &str) -> String {
    let Times { least, median } = cost.times;
    let thousands = match cost.instructions {
        Some(number) => format!("{}", (number + 500) / 1000),
        None => "-".to_string(),
    };
    format!(
        "| {name} | {:.1} | {:.1} | {thousands} | {ratios} |",
        micro(least),
        micro(median)
    )
}

/// A time in microseconds.
fn micro(time: Duration) -> f64 {
    time.as_nanos() as f64 / 1000.0
}

/// What a plain change and one pass over the stores take where a quick change
/// takes 1, by the medians.
fn ratios(quick: &Cost, plain: &Cost, pass: Times) -> String {
    let quick = micro(quick.times.median).max(0.001);
    let plain = micro(plain.times.median) / quick;
    let pass = micro(pass.median) / quick;
    format!("1 : {plain:.1} : {pass:.3}")
}

/// The table of one schema.
fn table(name: &str, clock: &Clock) -> Result<(), String> {
    let sheet = schemas::sheet(name).map_err(|error| error.to_string())?;
    let refused = |answer: keeper::Answer| format!("load: answered with {}", answer.number);
    let stores = Stores::loaded(&sheet).map_err(refused)?;
    let schema = reading::sheet(&sheet).map_err(|_| "cannot be read".to_owned())?;
    let pass = one_pass(&stores, clock)?;
    println!(
        "\n{name}: {} attributes, {} classes, a sheet of {} bytes; one pass over the stores {:.1} microseconds\n",
        schema.attributes.len(),
        schema.classes.len(),
        sheet.len(),
        micro(pass.median)
    );
    println!(
        "| | least, microseconds | median | thousand instructions | quick : plain : one pass |"
    );
    println!("|---|---|---|---|---|");
    for call in [Call::Load, Call::Audit, Call::Write, Call::Depth] {
        let case = Case {
            call,
            sheet: &sheet,
            before: &[],
            bytes: &sheet,
        };
        println!("{}", line(call.name(), &measured(&case, clock)?, ""));
    }
    for kind in kinds::kinds(&schema) {
        changed(&kind, pass, clock)?;
    }
    Ok(())
}

/// The two lines of a kind of change.
fn changed(kind: &Kind, pass: Times, clock: &Clock) -> Result<(), String> {
    let cost = |call| {
        let case = Case {
            call,
            sheet: &kind.sheet,
            before: &kind.before,
            bytes: &kind.change,
        };
        measured(&case, clock)
    };
    let (quick, plain) = (cost(Call::Quick)?, cost(Call::Plain)?);
    println!("{}", line(&format!("{}: quick", kind.name), &quick, ""));
    let ratios = ratios(&quick, &plain, pass);
    println!(
        "{}",
        line(&format!("{}: plain", kind.name), &plain, &ratios)
    );
    Ok(())
}

/// The tables of the schemas named, or of all.
fn tables(names: &[String]) -> Result<(), String> {
    let clock = Clock::new()?;
    let all = schemas::NAMES.map(String::from);
    let names = match names {
        [] => all.as_slice(),
        names => names,
    };
    for name in names {
        table(name, &clock).map_err(|fault| format!("{name}: {fault}"))?;
    }
    Ok(())
}

fn main() -> ExitCode {
    let arguments: Vec<String> = std::env::args().skip(1).collect();
    let done = match arguments.as_slice() {
        [first, rest @ ..] if first == "--one" => one(rest),
        names => tables(names),
    };
    match done {
        Ok(()) => ExitCode::SUCCESS,
        Err(fault) => {
            eprintln!("{fault}");
            ExitCode::FAILURE
        }
    }
}
