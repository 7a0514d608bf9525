//! `keeper page`: a schema as a page for a browser.

use super::{Command, Io, opened};
use crate::arguments::{Arguments, text};
use crate::failure::Failure;
use crate::page::page;

pub const COMMAND: Command = Command {
    name: "page",
    usage: "page [--title TITLE] FILE",
    summary: "Prints a schema as one HTML page that needs nothing else",
    help: "The classes as a picture, tables of attributes and classes, and each class with
what it demands and allows and through which class each attribute comes. Rows
that came with the server and those no longer in use are marked. The page can be
read on a phone and in print, and without scripts; with them it has a search box.

Example:

    $ keeper page samples/forest.sheet > forest.html",
    alone: &[],
    valued: &["--title"],
    act,
};

fn act(arguments: &Arguments, io: &mut Io) -> Result<(), Failure> {
    let title = arguments.value("--title").map(text).transpose()?;
    let opened = opened(arguments, COMMAND.usage, io)?;
    let name = || opened.given.name.rsplit('/').next().map(str::to_owned);
    let title = title.or_else(name).unwrap_or_default();
    io.say(&page(&title, &opened.schema, &opened.stores))
}
