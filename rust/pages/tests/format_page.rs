//! The bytes that docs/FORMAT.md shows, run: each sheet is loaded, each change
//! is made by both calls, and the answers must be those that the page states.

use generate::sheets::PAPER;
use reference::Stores;
use std::fs;

/// Number, table and place.
type Told = (u64, u64, u64);

/// A block of the page: its bytes, and the answer that the page states.
struct Block {
    /// The line of the page on which it begins, counted from 1.
    line: usize,
    kind: Kind,
    bytes: Vec<u8>,
    answer: Told,
}

#[derive(Clone, Copy, PartialEq, Eq, Debug)]
enum Kind {
    Sheet,
    Change,
}

/// "```sheet" or "```change"
fn kind(fence: &str) -> Option<Kind> {
    match fence {
        "```sheet" => Some(Kind::Sheet),
        "```change" => Some(Kind::Change),
        _ => None,
    }
}

/// Bytes in hex digits, with spaces anywhere.
fn hex(text: &str) -> Option<Vec<u8>> {
    let digits: String = text.split_whitespace().collect();
    let pairs = (0..digits.len()).step_by(2);
    pairs
        .map(|at| u8::from_str_radix(digits.get(at..at + 2)?, 16).ok())
        .collect()
}

/// "answer: NUMBER TABLE PLACE"
fn answer(line: &str) -> Option<Told> {
    let mut numbers = line.strip_prefix("answer: ")?.split(' ').map(str::parse);
    let mut next = || numbers.next()?.ok();
    Some((next()?, next()?, next()?))
}

/// "OFFSET | BYTES | WORDS": the offset must be that of the first of the bytes.
fn row(line: &str, before: usize) -> Option<Vec<u8>> {
    let mut cells = line.split(" | ");
    let offset = cells.next()?.trim().parse::<usize>().ok()?;
    let bytes = hex(cells.next()?)?;
    let words = cells.next()?;
    (offset == before && !words.is_empty()).then_some(bytes)
}

/// A block from its fence on. The answer is its last line.
fn block(line: usize, lines: &[&str]) -> Option<Block> {
    let (fence, rest) = lines.split_first()?;
    let end = rest.iter().position(|line| *line == "```")?;
    let (stated, rows) = rest[..end].split_last()?;
    let mut bytes = Vec::new();
    for line in rows {
        let more = row(line, bytes.len())?;
        bytes.extend(more);
    }
    Some(Block {
        line,
        kind: kind(fence)?,
        bytes,
        answer: answer(stated)?,
    })
}

/// All blocks of the page. Each must be understood.
fn blocks() -> Vec<Block> {
    let path = concat!(env!("CARGO_MANIFEST_DIR"), "/../../docs/FORMAT.md");
    let page = fs::read_to_string(path).unwrap_or_default();
    let lines: Vec<&str> = page.lines().collect();
    let opens = |at: &usize| lines[*at].starts_with("```") && lines[*at] != "```";
    let starts: Vec<usize> = (0..lines.len()).filter(opens).collect();
    let fences = lines.iter().filter(|line| line.starts_with("```")).count();
    assert_eq!(
        fences,
        2 * starts.len(),
        "every block has a kind and an end"
    );
    let blocks = starts.iter().filter_map(|at| {
        let block = block(at + 1, &lines[*at..]);
        assert!(block.is_some(), "line {}: not understood", at + 1);
        block
    });
    blocks.collect()
}

#[test]
fn every_answer_is_the_one_that_the_page_states() {
    let mut stores = Stores::default();
    for block in blocks() {
        let before = stores.clone();
        let given = match block.kind {
            Kind::Sheet => loaded(&block.bytes, &mut stores),
            Kind::Change => changed(&block.bytes, &mut stores),
        };
        assert_eq!(given, block.answer, "line {}", block.line);
        assert!(given.0 == 0 || stores == before, "line {}", block.line);
        assert_eq!(stores.audit().told(), (0, 0, 0), "line {}", block.line);
    }
}

/// A load into new stores, which take the place of the others if it is
/// accepted; the sheet is then written back byte for byte.
fn loaded(sheet: &[u8], stores: &mut Stores) -> Told {
    let mut new = Stores::filled(0x5A);
    let answer = new.load(sheet);
    if answer.number == 0 {
        let mut out = vec![0; sheet.len()];
        assert_eq!(new.write(&mut out).told(), (0, 0, sheet.len() as u64));
        assert_eq!(out, sheet);
        *stores = new;
    }
    answer.told()
}

/// A change by both calls, which must agree in answer and bytes.
fn changed(change: &[u8], stores: &mut Stores) -> Told {
    let mut copy = stores.clone();
    let answer = stores.quick(change);
    assert_eq!(copy.plain(change), answer);
    assert!(copy == *stores);
    answer.told()
}

#[test]
fn the_first_block_is_the_whole_sheet_of_67_bytes() {
    let blocks = blocks();
    let first = blocks
        .first()
        .map(|block| (block.kind, block.bytes.clone()));
    assert_eq!(first, Some((Kind::Sheet, PAPER.to_vec())));
}

/// One accepted change of each kind in a row, and refused ones: by a number
/// from 5 on, and by 4.
#[test]
fn every_kind_of_change_is_accepted_once_and_others_are_refused() {
    let blocks = blocks();
    let changes = || blocks.iter().filter(|block| block.kind == Kind::Change);
    let accepted = changes().filter(|change| change.answer.0 == 0);
    let tags: Vec<u8> = accepted.map(|change| change.bytes[0]).collect();
    assert_eq!(tags, (0x40..=0x4A).collect::<Vec<u8>>());
    assert!(changes().filter(|change| change.answer.0 > 4).count() >= 2);
    assert!(changes().any(|change| change.answer.0 == 4));
}
