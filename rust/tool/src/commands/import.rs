//! `keeper import`: LDIF taken in.

use super::{Command, Io};
use crate::arguments::{Arguments, text};
use crate::failure::Failure;
use crate::input::{Form, Given};
use crate::opened::{held, loaded, taken_in, unwritten};
use crate::sheet::encode;
use crate::text::written;

pub const COMMAND: Command = Command {
    name: "import",
    usage: "import [--sheet] [--anyway] FILE [--only NAME..]",
    summary: "Takes in a schema from LDIF and prints it as text",
    help: "FILE holds entries of attributeSchema and classSchema as Active Directory and
Samba write them. Names are found in any order, superclasses are put first. What
does not fit is told by entry and line. Entries of other kinds, and changes that
add nothing, are passed over and told on standard error. A change of the type
ntdsSchemaAdd adds, as add does. A schemaIDGUID in base64 is 16 bytes; one with
hyphens is read as directories show it, its first three parts least significant
byte first. The text has the 16 bytes in their order, without hyphens.

--only takes the classes and attributes named behind it and what they need:
superclasses, auxiliary classes, attributes, forward links. Possible superiors
that are not taken are left out of the lists.

--sheet prints a sheet instead of text. Where the keeper refuses the schema
nothing is printed, exit code 1; with --anyway the text is printed all the same,
so that it can be corrected.

Example:

    $ cat Attributes.ldf Classes.ldf | keeper import - --only person > person.schema",
    alone: &["--sheet", "--anyway", "--only"],
    valued: &[],
    act,
};

fn act(arguments: &Arguments, io: &mut Io) -> Result<(), Failure> {
    let (path, names) = operands(arguments)?;
    let given = Given::read(path, io.input)?;
    let unusable = |fault: String| Failure::unusable(format!("{}: {fault}", given.name));
    if given.form != Form::Ldif {
        return Err(unusable("is no LDIF".to_owned()));
    }
    let import = taken_in(&given, &names, io.err)?;
    let sheet = encode(&import.schema).map_err(unusable)?;
    let stores = loaded(&given.name, &sheet, Some(&import.lines));
    match stores {
        Err(refusal) => {
            if arguments.has("--anyway") {
                io.say(&written(&import.schema))?;
            }
            Err(refusal)
        }
        Ok(stores) if arguments.has("--sheet") => io.give(&stores.sheet().map_err(unwritten)?),
        Ok(stores) => io.say(&written(&held(&stores)?)),
    }
}

/// The file, and the names behind `--only`.
fn operands(arguments: &Arguments) -> Result<(&std::ffi::OsStr, Vec<String>), Failure> {
    if !arguments.has("--only") {
        let [path] = arguments.exactly(COMMAND.usage)?;
        return Ok((path, Vec::new()));
    }
    match arguments.operands.as_slice() {
        [path, names @ ..] if !names.is_empty() => {
            let names = names
                .iter()
                .map(|name| text(name))
                .collect::<Result<_, _>>()?;
            Ok((path, names))
        }
        _ => Err(Failure::unusable(format!(
            "something is missing; it is: keeper {}",
            COMMAND.usage
        ))),
    }
}
