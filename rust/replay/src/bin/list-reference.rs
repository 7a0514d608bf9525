//! Lists the classes of a sheet from standard input, as the reference does.

use std::io::{self, Read, Write};

fn main() -> io::Result<()> {
    let mut sheet = Vec::new();
    io::stdin().read_to_end(&mut sheet)?;
    io::stdout().write_all(&reference::listing(&sheet))
}
