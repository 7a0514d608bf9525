//! `keeper change`: changes in words, made by the keeper and saved.

use super::session::Session;
use super::{Command, Io};
use crate::arguments::{Arguments, text};
use crate::changes::{Change, parse_file, parse_words, with_guids};
use crate::failure::Failure;
use crate::input::{Form, Given, LONGEST, read_text};
use crate::opened::Opened;
use crate::save::Locked;
use std::ffi::{OsStr, OsString};
use std::path::Path;

pub const COMMAND: Command = Command {
    name: "change",
    usage: "change [--each] [--whole] [--dry-run] [--from CHANGES] FILE [CHANGE..]",
    summary: "Changes a schema, where the keeper accepts it, and saves it",
    help: "A change is one of

    rename attribute|class NAME NEW-NAME
    range attribute NAME LOWER UPPER            an end is a number or none
    add optional|auxiliary|superior CLASS NAME
    remove optional|auxiliary|superior CLASS NAME
    deactivate attribute|class NAME
    reactivate attribute|class NAME
    add attribute NAME OID                      lines of the text form follow,
    add class NAME OID                          or stand behind semicolons

One change may be given as plain words, several each in quotes, or with --from
in a file, a line each, # before comments. Each is answered in a line. In an added
row `guid new` stands for a new GUID.

All changes are made, or none: at the first that is refused nothing is saved.
With --each those that are accepted are saved. --dry-run saves nothing. --whole
makes each change by the call that judges the whole schema; without it only the
changed row is judged, which is proved to give the same. CHANGES may be -, and
may hold no change, as keeper diff prints none where nothing differs.

FILE, a sheet or the text form, is replaced only when all is done, by a new file
that is flushed and renamed: a cut of power leaves the old or the new one.
Comments of the text form stay. LDIF is not changed: import it first.

Exit codes: 0 all made, 1 a change was refused, 2 cannot be read or used, also
where that is only one of the changes.

Example:

    $ keeper change forest.sheet rename attribute soilType areaHa
    refused 13, name taken: attribute 17 `areaHa` and attribute 23 `areaHa` (rename attribute soilType areaHa)
    forest.sheet: nothing is changed
    keeper explain 13 says what can be done
    $ keeper change forest.sheet add optional parcel soilType
    done: add optional parcel soilType (class 17 `parcel`)
    forest.sheet: saved",
    alone: &["--each", "--whole", "--dry-run"],
    valued: &["--from"],
    act,
};

fn act(arguments: &Arguments, io: &mut Io) -> Result<(), Failure> {
    let usage = || {
        Failure::unusable(format!(
            "something is missing; it is: keeper {}",
            COMMAND.usage
        ))
    };
    let (path, words) = arguments.operands.split_first().ok_or_else(usage)?;
    let is_dry = arguments.has("--dry-run");
    let list = arguments.value("--from");
    if path == "-" {
        one_input(is_dry, list)?;
    }
    let changes = asked_for(list, words, io)?;
    if changes.is_empty() && list.is_none() {
        return Err(usage());
    }
    let locked = if is_dry {
        None
    } else {
        Some(Locked::new(Path::new(path), io.err)?)
    };
    let (locked, given) = given(path, locked, io)?;
    if !is_dry {
        savable(&given)?;
    }
    let opened = Opened::of(given, io.err)?;
    let mut session = Session::new(opened, arguments.has("--whole"));
    let tally = session.make(&changes, arguments.has("--each"), io)?;
    session.finish(&tally, locked.as_ref(), io)
}

/// Whether the schema can be standard input.
fn one_input(is_dry: bool, list: Option<&OsStr>) -> Result<(), Failure> {
    match (is_dry, list) {
        (false, _) => Err(Failure::unusable(
            "standard input cannot be saved: name a file, or use --dry-run",
        )),
        (true, Some(list)) if list == "-" => Err(Failure::unusable(
            "only one of CHANGES and FILE can be standard input",
        )),
        _ => Ok(()),
    }
}

/// The changes of a file, if any, and of the command line.
fn asked_for(
    list: Option<&OsStr>,
    words: &[OsString],
    io: &mut Io,
) -> Result<Vec<Change>, Failure> {
    let mut changes = Vec::new();
    if let Some(path) = list {
        let (name, text) = read_text(path, io.input)?;
        let fault = |fault: String| Failure::unusable(format!("{name}: {fault}"));
        changes = parse_file(&text).map_err(fault)?;
    }
    if !words.is_empty() {
        let words: Vec<String> = words
            .iter()
            .map(|word| text(word))
            .collect::<Result<_, _>>()?;
        changes.extend(parse_words(&words).map_err(Failure::Unusable)?);
    }
    with_guids(changes).map_err(Failure::Unusable)
}

/// Whether what was read can be saved in its form, nothing lost.
fn savable(given: &Given) -> Result<(), Failure> {
    let words = match given.form {
        Form::Ldif => "is LDIF: import it first, and change what that gives",
        Form::Text if std::str::from_utf8(&given.bytes).is_err() => {
            "is not UTF-8, so its comments could not be kept: save it as UTF-8 first"
        }
        _ => return Ok(()),
    };
    Err(Failure::unusable(format!("{}: {words}", given.name)))
}

/// What stands in the file, read under its lock where there is one.
fn given(
    path: &OsStr,
    locked: Option<Locked>,
    io: &mut Io,
) -> Result<(Option<Locked>, Given), Failure> {
    match locked {
        None => Ok((None, Given::read(path, io.input)?)),
        Some(mut locked) => {
            let limit = u64::try_from(LONGEST).unwrap_or(u64::MAX);
            let bytes = locked.read(limit.saturating_add(1))?;
            let given = Given::of(path.to_string_lossy().into_owned(), bytes)?;
            Ok((Some(locked), given))
        }
    }
}
