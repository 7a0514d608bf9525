//! What one call costs: processor time, and instructions where `valgrind` is
//! there.

use crate::call::Call;
use crate::clock::{Clock, Times};
use keeper::{LONGEST_SHEET, Stores};
use std::fs;
use std::process::Command;

/// What one call costs.
pub struct Cost {
    /// The processor time.
    pub times: Times,
    /// The instructions, where they can be counted.
    pub instructions: Option<u64>,
}

/// A call on a schema: what is loaded and changed before it, and its bytes.
pub struct Case<'a> {
    /// The call.
    pub call: Call,
    /// What is loaded.
    pub sheet: &'a [u8],
    /// A change made before, or nothing.
    pub before: &'a [u8],
    /// The sheet or the change.
    pub bytes: &'a [u8],
}

/// Makes a call, which must be done: what a refusal costs is not asked.
fn made(stores: &mut Stores, call: Call, bytes: &[u8], output: &mut [u8]) -> Result<(), String> {
    match call.make(stores, bytes, output).number {
        keeper::DONE => Ok(()),
        number => Err(format!("{}: answered with {number}", call.name())),
    }
}

/// The stores as the call finds them. What is changed before is changed by the
/// other change call, so that the measured one is called once.
fn prepared(case: &Case<'_>) -> Result<Stores, String> {
    let refused = |answer: keeper::Answer| format!("load: answered with {}", answer.number);
    let mut stores = Stores::loaded(case.sheet).map_err(refused)?;
    if !case.before.is_empty() {
        let other = match case.call {
            Call::Plain => Call::Quick,
            _ => Call::Plain,
        };
        made(&mut stores, other, case.before, &mut [])?;
    }
    Ok(stores)
}

/// The time of many calls, and the instructions of one.
pub fn measured(case: &Case<'_>, clock: &Clock) -> Result<Cost, String> {
    let lent = (prepared(case)?, vec![0; LONGEST_SHEET]);
    let call =
        |(stores, output): &mut (Stores, Vec<u8>)| made(stores, case.call, case.bytes, output);
    Ok(Cost {
        times: clock.times(|| lent.clone(), call)?,
        instructions: counted(case),
    })
}

/// So many passes over the stores are timed together: one is short.
const PASSES: u32 = 100;

/// One pass over the stores: what any call that looks at every byte takes.
pub fn one_pass(stores: &Stores, clock: &Clock) -> Result<Times, String> {
    let pass = |_: &mut ()| {
        for _ in 0..PASSES {
            let stores = std::hint::black_box(stores);
            let bytes = stores.0.iter().flatten();
            std::hint::black_box(bytes.fold(0, |gathered, byte| gathered | byte));
        }
        Ok(())
    };
    let times = clock.times(|| (), pass)?;
    Ok(Times {
        least: times.least / PASSES,
        median: times.median / PASSES,
    })
}

/// The instructions of one call, by this program under callgrind. What it needs
/// goes by files.
fn counted(case: &Case<'_>) -> Option<u64> {
    let folder = std::env::temp_dir().join(format!("keeper-bench-{}", std::process::id()));
    fs::create_dir_all(&folder).ok()?;
    let files = ["sheet", "before", "bytes"].map(|name| folder.join(name));
    for (file, bytes) in files.iter().zip([case.sheet, case.before, case.bytes]) {
        fs::write(file, bytes).ok()?;
    }
    let output = Command::new("valgrind")
        .arg("--tool=callgrind")
        .arg("--callgrind-out-file=/dev/null")
        .arg(format!("--toggle-collect=keeper_{}", case.call.name()))
        .arg(std::env::current_exe().ok()?)
        .arg("--one")
        .arg(case.call.name())
        .args(&files)
        .output();
    fs::remove_dir_all(&folder).ok()?;
    let output = output.ok().filter(|output| output.status.success())?;
    let said = String::from_utf8_lossy(&output.stderr).into_owned();
    let number = said
        .split("Collected :")
        .nth(1)?
        .split_whitespace()
        .next()?;
    number.parse().ok()
}

/// One call, for callgrind: `--one CALL SHEET BEFORE BYTES`. A load is the one
/// that makes the stores.
pub fn one(arguments: &[String]) -> Result<(), String> {
    let usage = || "--one CALL SHEET BEFORE BYTES".to_owned();
    let (call, files) = arguments.split_first().ok_or_else(usage)?;
    let files: Vec<Vec<u8>> = files.iter().map_while(|file| fs::read(file).ok()).collect();
    let [sheet, before, bytes] = files.as_slice() else {
        return Err(usage());
    };
    let case = Case {
        call: Call::named(call).ok_or_else(usage)?,
        sheet,
        before,
        bytes,
    };
    let mut stores = prepared(&case)?;
    match case.call {
        Call::Load => Ok(()),
        call => made(&mut stores, call, case.bytes, &mut vec![0; LONGEST_SHEET]),
    }
}
