//! New GUIDs for added rows.

use super::Change;
use crate::words::guid_text;
use std::fs::File;
use std::io::{self, Read};

/// Changes in which each line `guid new` has got a GUID of its own.
pub fn with_guids(mut changes: Vec<Change>) -> Result<Vec<Change>, String> {
    for change in &mut changes {
        let Change::Add { block, .. } = change else {
            continue;
        };
        let asks = |line: &&mut String| line.split_whitespace().eq(["guid", "new"]);
        for line in block.lines_mut().filter(asks) {
            let guid = random().map_err(|error| format!("no new GUID can be had: {error}"))?;
            *line = format!("guid {}", guid_text(&guid));
        }
    }
    Ok(changes)
}

/// A GUID of version 4 (RFC 9562): random but for the bits that say so.
fn random() -> Result<[u8; 16], io::Error> {
    let mut guid = [0; 16];
    File::open("/dev/urandom")?.read_exact(&mut guid)?;
    guid[6] = guid[6] & 0x0F | 0x40;
    guid[8] = guid[8] & 0x3F | 0x80;
    Ok(guid)
}
