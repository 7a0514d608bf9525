//! `keeper man`: the man page, from the help of all commands, so that it is said
//! once.

use super::{COMMANDS, Command, Io};
use crate::arguments::Arguments;
use crate::failure::Failure;

pub const COMMAND: Command = Command {
    name: "man",
    usage: "man",
    summary: "Prints the man page",
    help: "It is made from the help of the commands.

Example:

    $ keeper man > keeper.1
    $ man ./keeper.1",
    alone: &[],
    valued: &[],
    act,
};

fn act(arguments: &Arguments, io: &mut Io) -> Result<(), Failure> {
    let [] = arguments.exactly(COMMAND.usage)?;
    io.say(&page())
}

fn page() -> String {
    let commands: String = COMMANDS.iter().map(|command| section(command)).collect();
    format!(
        ".TH KEEPER 1
.SH NAME
keeper \\- see, check and change a directory schema
.SH SYNOPSIS
.B keeper
.I COMMAND
..
.SH DESCRIPTION
A schema of attributes and classes, as Active Directory has them, is read, shown, judged and changed.
What decides is the schema keeper, a library whose answers are proved; this program turns words into its
bytes and its answers into words.
.PP
A FILE is a sheet (the bytes that the keeper loads), the text form or LDIF, told apart by content;
\\- is standard input.
.SH COMMANDS
{commands}.SH EXIT STATUS
.TP
0
done
.TP
1
refused: the keeper said no, and the number and the rows are told
.TP
2
something cannot be read, understood, used or written
"
    )
    .replace("\n..\n", "\n\\&..\n")
}

/// A command's help: paragraphs, and what is indented as it stands.
fn section(command: &Command) -> String {
    let mut text = format!(
        ".SS keeper {}\n{}.\n",
        escaped(command.usage),
        escaped(command.summary)
    );
    let mut is_indented = false;
    for line in command.help.trim().lines() {
        let indented = line.starts_with("    ") || (is_indented && line.is_empty());
        if indented != is_indented {
            text.push_str(if indented { ".nf\n" } else { ".fi\n.PP\n" });
            is_indented = indented;
        }
        match line {
            "" if !indented => text.push_str(".PP\n"),
            _ => text.push_str(&format!("{}\n", escaped(line))),
        }
    }
    if is_indented {
        text.push_str(".fi\n");
    }
    text
}

/// A line as troff takes it: nothing in it is one of its own signs, and letters
/// that are not ASCII are named by their numbers.
fn escaped(line: &str) -> String {
    let letter = |letter: char| match letter {
        '\\' => "\\e".to_owned(),
        '-' => "\\-".to_owned(),
        '`' => "\\(ga".to_owned(),
        letter if letter.is_ascii() => letter.to_string(),
        letter => format!("\\[u{:04X}]", u32::from(letter)),
    };
    let text: String = line.chars().map(letter).collect();
    match line.starts_with(['.', '\'']) {
        true => format!("\\&{text}"),
        false => text,
    }
}
