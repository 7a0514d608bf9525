//! Makes each edit of the list in a copy of the reference, plays what the gate
//! plays, and tells which edits are seen: `mutants [TEXT]`, with a text only
//! those whose sentence or file has it. Fails where one survives or cannot be
//! built, and where there is none.

use mutants::{Built, Edit, Scratch, Script, edits, scripts};
use std::collections::BTreeMap;
use std::error::Error;
use std::fs;
use std::path::Path;
use std::process::ExitCode;

/// Whoever saw an edit first, by how many.
type Tally = BTreeMap<String, usize>;

const NOBODY: &str = "nobody";
const UNBUILT: &str = "not built";

fn tell(what: &str, edit: &Edit, why: &str) {
    let Edit {
        sentence,
        file,
        old,
        new,
        ..
    } = edit;
    println!("{what}: \"{sentence}\"\n  {file}\n  - {old}\n  + {new}\n{why}");
}

/// The name of the first script that sees an edit.
fn seen_by(scratch: &Scratch, scripts: &[Script], edit: &Edit) -> Result<String, Box<dyn Error>> {
    if let Built::Nothing(why) = scratch.build_edited(edit)? {
        tell("NOT BUILT", edit, &why);
        return Ok(UNBUILT.to_string());
    }
    for script in scripts {
        if script.sees(scratch)? {
            return Ok(script.name.clone());
        }
    }
    tell("survives", edit, "");
    Ok(NOBODY.to_string())
}

/// What the gate plays, with what players of the right reference write.
fn right(rust: &Path, scratch: &Scratch) -> Result<Vec<Script>, Box<dyn Error>> {
    match scratch.build()? {
        Built::Players => scripts(&rust.join(".."), scratch),
        Built::Nothing(why) => Err(why.into()),
    }
}

fn tally(chosen: &str) -> Result<Tally, Box<dyn Error>> {
    let rust = Path::new(env!("CARGO_MANIFEST_DIR")).join("..");
    let mut edits = edits(&fs::read_to_string(rust.join("mutants/list"))?)?;
    edits.retain(|edit| edit.sentence.contains(chosen) || edit.file.contains(chosen));
    if edits.is_empty() {
        return Err(format!("no edit has `{chosen}` in its sentence or file").into());
    }
    let scratch = Scratch::new(&rust)?;
    let scripts = right(&rust, &scratch)?;
    let mut tally = Tally::new();
    for edit in edits {
        let seen_by = seen_by(&scratch, &scripts, &edit)?;
        *tally.entry(seen_by).or_default() += 1;
    }
    Ok(tally)
}

fn main() -> ExitCode {
    let chosen = std::env::args().nth(1).unwrap_or_default();
    let tally = match tally(&chosen) {
        Ok(tally) => tally,
        Err(error) => {
            eprintln!("mutants: {error}");
            return ExitCode::FAILURE;
        }
    };
    println!("{} edits", tally.values().sum::<usize>());
    for (script, edits) in &tally {
        println!("  {edits} seen first by {script}");
    }
    match tally.contains_key(NOBODY) || tally.contains_key(UNBUILT) {
        true => ExitCode::FAILURE,
        false => ExitCode::SUCCESS,
    }
}
