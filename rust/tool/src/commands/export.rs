//! `keeper export`: a schema in another form.

use super::{Command, Io, opened};
use crate::arguments::{Arguments, text};
use crate::failure::Failure;
use crate::ldif::exported;
use crate::opened::unwritten;
use crate::text::written;

pub const COMMAND: Command = Command {
    name: "export",
    usage: "export [--ldif] [--text] [--sheet] [--base DN] FILE",
    summary: "Prints a schema as LDIF, as text or as a sheet",
    help: "Without an option as LDIF, attributes first and superclasses before their
classes, as directories take entries. --base names the entry that they stand
under, CN=Schema,CN=Configuration,DC=X where none is named. --text prints the
text form, --sheet the bytes that the keeper loads.

Example:

    $ keeper export samples/forest.sheet > forest.ldif
    $ keeper export --sheet samples/forest.schema > forest.sheet",
    alone: &["--ldif", "--text", "--sheet"],
    valued: &["--base"],
    act,
};

fn act(arguments: &Arguments, io: &mut Io) -> Result<(), Failure> {
    let forms = COMMAND
        .alone
        .iter()
        .filter(|option| arguments.has(option))
        .count();
    if forms > 1 {
        return Err(Failure::unusable(
            "only one of --ldif, --text and --sheet can be had at once",
        ));
    }
    let base = arguments.value("--base").map(text).transpose()?;
    let base = base.unwrap_or_else(|| "CN=Schema,CN=Configuration,DC=X".to_owned());
    if base.chars().any(char::is_control) {
        return Err(Failure::unusable("--base: a name of one line must follow"));
    }
    let opened = opened(arguments, COMMAND.usage, io)?;
    if arguments.has("--sheet") {
        let sheet = opened.stores.sheet().map_err(unwritten)?;
        return io.give(&sheet);
    }
    match arguments.has("--text") {
        true => io.say(&written(&opened.schema)),
        false => io.say(&exported(&opened.schema, &base)),
    }
}
