//! What the gate plays: the scripts and sheets of its two programs, each with
//! the output that a right player gives.

use crate::scratch::Scratch;
use std::error::Error;
use std::fs::{self, File};
use std::io;
use std::path::Path;
use std::process::{Child, Command, Stdio};
use std::time::{Duration, Instant};

/// A player that takes longer than this has gone astray, on a busy machine too.
const PATIENCE: Duration = Duration::from_secs(60);

/// A script, or a sheet to be listed.
pub struct Script {
    /// Its file's name.
    pub name: String,
    player: &'static str,
    input: Vec<u8>,
    output: Vec<u8>,
}

/// All that the gate plays, in its order: the standard input of the player and
/// the files that it opens, and the sheets that the listing of the samples
/// opens. The players that are built must be right ones: what they write must be
/// what is stored.
pub fn scripts(top: &Path, scratch: &Scratch) -> Result<Vec<Script>, Box<dyn Error>> {
    let (replay, samples) = (top.join("crates/replay"), top.join("crates/list_samples"));
    let mut scripts = Vec::new();
    for (folder, player, first) in [
        (replay, "replay-reference", Some("stdin".to_string())),
        (samples, "list-reference", None),
    ] {
        let text = fs::read_to_string(folder.join("src/main.rt"))?;
        let mut written = Vec::new();
        for name in first.into_iter().chain(opened(&text)) {
            let script = Script::played(&folder.join(&name), player, scratch)?;
            written.extend_from_slice(&script.output);
            scripts.push(script);
        }
        if written != fs::read(folder.join("stdout"))? {
            return Err(format!("{}: not the reference's output", folder.display()).into());
        }
    }
    Ok(scripts)
}

/// The files that a program's text opens, in their order: `(&rt, "places.script")`.
fn opened(text: &str) -> impl Iterator<Item = String> {
    let behind = text.split("(&rt, \"").skip(1);
    behind.filter_map(|rest| Some(format!("data/{}", rest.split_once('"')?.0)))
}

impl Script {
    /// The script in a file, with what the scratch's player writes.
    fn played(
        file: &Path,
        player: &'static str,
        scratch: &Scratch,
    ) -> Result<Script, Box<dyn Error>> {
        let name = file.file_name().unwrap_or_default().to_string_lossy();
        let input = fs::read(file)?;
        let output = play(&scratch.program(player), &input)?;
        Ok(Script {
            output: output.ok_or_else(|| format!("{name}: not played"))?,
            name: name.into_owned(),
            player,
            input,
        })
    }

    /// Whether the scratch's player gives another output than the right one.
    pub fn sees(&self, scratch: &Scratch) -> io::Result<bool> {
        let written = play(&scratch.program(self.player), &self.input)?;
        Ok(written.as_ref() != Some(&self.output))
    }
}

/// What a program writes; nothing if it fails or has no end.
fn play(program: &Path, input: &[u8]) -> io::Result<Option<Vec<u8>>> {
    let lent = program.with_extension("input");
    let written = program.with_extension("written");
    fs::write(&lent, input)?;
    let mut child = Command::new(program)
        .stdin(File::open(lent)?)
        .stdout(File::create(&written)?)
        .stderr(Stdio::null())
        .spawn()?;
    if !ends_well(&mut child)? {
        return Ok(None);
    }
    fs::read(written).map(Some)
}

/// Waits for a player, which is ended where it takes too long.
fn ends_well(child: &mut Child) -> io::Result<bool> {
    let begun = Instant::now();
    while begun.elapsed() < PATIENCE {
        if let Some(status) = child.try_wait()? {
            return Ok(status.success());
        }
        std::thread::sleep(Duration::from_millis(5));
    }
    child.kill()?;
    child.wait()?;
    Ok(false)
}
