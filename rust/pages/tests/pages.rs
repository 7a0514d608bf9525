//! The pages of the repository cite what is there: links lead to files, a name
//! cited "in" a file, or under a heading "of" it, stands in it, every promise has
//! its row, and every number has one name everywhere.

use std::fs;
use std::path::{Path, PathBuf};

/// The top of the repository.
fn top() -> PathBuf {
    Path::new(env!("CARGO_MANIFEST_DIR")).join("../..")
}

fn text(path: &str) -> String {
    let text = fs::read_to_string(top().join(path)).unwrap_or_default();
    assert!(!text.is_empty(), "{path}");
    text
}

/// A page's text with its links in full: a page may give the paths at its end,
/// as `[LABEL]: PATH`, and have only `[LABEL]` where it cites.
fn with_links(page: &str) -> String {
    let mut text = text(page);
    for line in text.clone().lines() {
        let link = line
            .strip_prefix('[')
            .and_then(|line| line.split_once("]: "));
        let Some((label, path)) = link else { continue };
        text = text.replace(&format!("{line}\n"), "");
        let full = text.replace(&format!("[{label}]"), &format!("[{label}]({path})"));
        assert_ne!(full, text, "{page}: no one cites {label}");
        text = full;
    }
    text
}

/// A page: its path, the folder that it stands in, and its text.
fn page_texts() -> Vec<(String, String, String)> {
    let mut paths = vec!["README.md".to_owned(), "CONTRIBUTING.md".to_owned()];
    paths.push("rust/README.md".to_owned());
    for folder in ["docs", "docs/requests", "docs/proofs"] {
        let entries = fs::read_dir(top().join(folder)).into_iter().flatten();
        let names = entries.filter_map(|entry| entry.ok()?.file_name().into_string().ok());
        let names = names.filter(|name| name.ends_with(".md"));
        paths.extend(names.map(|name| format!("{folder}/{name}")));
    }
    let page = |path: String| {
        let folder = path.rsplit_once('/').map_or("", |(folder, _)| folder);
        (path.clone(), folder.to_owned(), with_links(&path))
    };
    paths.into_iter().map(page).collect()
}

/// The pages with their words one space apart, so that it does not matter where
/// their lines end.
fn pages() -> Vec<(String, String, String)> {
    let words = |text: String| text.split_whitespace().collect::<Vec<_>>().join(" ");
    let page = |(path, folder, text)| (path, folder, words(text));
    page_texts().into_iter().map(page).collect()
}

/// The file that a text begins with the path of: a link from a folder, or a
/// path from the top.
fn target(folder: &str, text: &str) -> Option<PathBuf> {
    if let Some(link) = text.strip_prefix('[') {
        let (_, rest) = link.split_once(']')?;
        let (path, _) = rest.strip_prefix('(')?.split_once(')')?;
        let path = path.split('#').next()?;
        return (!path.contains("://")).then(|| top().join(folder).join(path));
    }
    let of_path = |letter: char| letter.is_ascii_alphanumeric() || "/._-".contains(letter);
    let end = text.find(|letter| !of_path(letter)).unwrap_or(text.len());
    let path = text[..end].trim_end_matches('.');
    let folders = [
        "crates/",
        "docs/",
        "include/",
        "examples/",
        "samples/",
        "rust/",
    ];
    let is_path = folders.iter().any(|folder| path.starts_with(folder));
    let named = !path.contains("NAME") && !text[end..].starts_with('*');
    // What `rt` makes is not there before it has run.
    let stored = !path.contains("/out/");
    (is_path && named && stored).then(|| top().join(path))
}

#[test]
fn links_and_paths_lead_to_files() {
    for (page, folder, words) in pages() {
        let links = words.match_indices("](").map(|(at, _)| {
            let from = words[..at].rfind('[').unwrap_or(at);
            &words[from..]
        });
        let paths = words
            .split(' ')
            .map(|word| word.trim_start_matches(['`', '(']));
        for text in links.chain(paths) {
            let path = target(&folder, text);
            let is_there = path.as_ref().is_none_or(|path| path.exists());
            assert!(is_there, "{page}: {path:?}");
        }
        for (at, _) in words.match_indices('[').filter(|_| folder == "docs/proofs") {
            let label = &words[at..words.len().min(at + 80)];
            assert!(target(&folder, &words[at..]).is_some(), "{page}: {label}");
        }
    }
}

/// The names in backquotes at the end of a text, with commas and the like
/// between them.
fn cited(mut text: &str) -> Vec<&str> {
    let mut names = Vec::new();
    while let Some((rest, name)) = text
        .strip_suffix('`')
        .and_then(|text| text.rsplit_once('`'))
    {
        names.push(name);
        let between = [", ", " and ", " with the key ", " with "];
        let stripped = between.iter().find_map(|word| rest.strip_suffix(word));
        text = stripped.unwrap_or("");
    }
    names
}

/// Whether a name stands in a text as a whole word.
fn has_name(text: &str, name: &str) -> bool {
    let of_name = |letter: char| letter.is_alphanumeric() || "_-′".contains(letter);
    text.match_indices(name).any(|(at, _)| {
        let before = text[..at].chars().next_back();
        let after = text[at + name.len()..].chars().next();
        !before.is_some_and(of_name) && !after.is_some_and(of_name)
    })
}

#[test]
fn a_name_cited_in_a_file_stands_in_it() {
    let mut count = 0;
    for (page, folder, words) in pages() {
        for (at, _) in words.match_indices(" in ") {
            let Some(path) = target(&folder, &words[at + 4..]) else {
                continue;
            };
            let file = fs::read_to_string(&path).unwrap_or_default();
            for name in cited(&words[..at]) {
                let name = name.rsplit("::").next().unwrap_or(name);
                assert!(has_name(&file, name), "{page}: {name} in {path:?}");
                count += 1;
            }
        }
    }
    assert!(count > 200, "{count} names");
}

/// A column headed ".. of [FILE]" names what stands in that file, but where a
/// part of a cell, up to its semicolon, says in which other.
#[test]
fn a_name_in_a_column_stands_in_the_file_of_its_heading() {
    let mut count = 0;
    for (page, folder, text) in page_texts() {
        for table in text.split("\n\n").filter(|part| part.starts_with("| ")) {
            let mut rows = table.lines().map(|line| line.split(" | "));
            for (column, heading) in rows.next().into_iter().flatten().enumerate() {
                let file = heading.find(" of [").map(|at| &heading[at + 4..]);
                let Some(path) = file.and_then(|file| target(&folder, file)) else {
                    continue;
                };
                let file = fs::read_to_string(&path).unwrap_or_default();
                let cells = rows.clone().filter_map(|mut cells| cells.nth(column));
                let parts = cells.flat_map(|cell| cell.split("; "));
                let parts = parts.filter(|part| !part.contains(" in ["));
                for name in parts.flat_map(|part| part.split('`').skip(1).step_by(2)) {
                    assert!(has_name(&file, name), "{page}: {name} in {path:?}");
                    count += 1;
                }
            }
        }
    }
    assert!(count > 200, "{count} names");
}

/// The page of the calls names every member of the records of promises.
#[test]
fn every_promise_has_its_row() {
    let page = text("docs/proofs/CALLS.md");
    let mut count = 0;
    for file in ["Promises", "Demand3"] {
        let code = text(&format!("crates/keeper_promises/specs/{file}.antt"));
        let records = code.split("pub record ").skip(1);
        let records = records.filter(|record| {
            let name = record.split(' ').next().unwrap_or_default();
            name.starts_with("Demand") || name == "Agreement"
        });
        for line in records.flat_map(str::lines) {
            let member = line.trim_start().strip_prefix("pub ");
            let member = member.and_then(|line| Some(line.split_once(" : ")?.0));
            let Some(name) = member.filter(|name| !name.contains(' ')) else {
                continue;
            };
            assert!(page.contains(&format!("`{name}`")), "{file}: {name}");
            count += 1;
        }
    }
    assert!(count > 80, "{count} promises");
}

/// All files of a folder, their paths and texts one after the other.
fn texts(folder: &Path) -> String {
    let entries = fs::read_dir(folder).into_iter().flatten();
    let texts = entries.filter_map(|entry| {
        let path = entry.ok()?.path();
        let text = match path.is_dir() {
            true => texts(&path),
            false => fs::read_to_string(&path).unwrap_or_default(),
        };
        Some(format!("{}\n{text}", path.display()))
    });
    texts.collect()
}

/// What a note means by CRATE/FILE, definitions, laws or code, or by CRATE alone,
/// up to the end of its bracket; none where no crate has this name.
fn noted(text: &str) -> Option<String> {
    let end = text.find([')', ',', ';']).unwrap_or(text.len());
    let (name, file) = text[..end].split_once('/').unwrap_or((&text[..end], ""));
    let folder = top().join("crates").join(name);
    if name.is_empty() || !folder.is_dir() {
        return None;
    }
    let paths = [
        format!("specs/{file}.antt"),
        format!("proofs/{file}.antt"),
        format!("src/{file}.rt"),
    ];
    let mut files = paths.iter().map(|path| folder.join(path));
    let file = match file {
        "" => Some(texts(&folder)),
        _ => files.find_map(|path| fs::read_to_string(path).ok()),
    };
    Some(file.unwrap_or_default())
}

/// The notes on the requests: a name with its crate or file in brackets behind it
/// stands there, unless its part of the sentence says that it is gone.
#[test]
fn a_name_in_a_note_stands_where_the_note_says() {
    let mut count = 0;
    let notes = pages().into_iter();
    for (page, _, words) in notes.filter(|(_, folder, _)| folder == "docs/requests") {
        for (at, _) in words.match_indices(" (") {
            let Some(file) = noted(&words[at + 2..]) else {
                continue;
            };
            let from = [". ", "; "].map(|end| words[..at].rfind(end).unwrap_or(0));
            let part = &words[from[0].max(from[1])..at];
            if ["gone", "went"].iter().any(|word| has_name(part, word)) {
                continue;
            }
            for name in cited(&words[..at]) {
                assert!(has_name(&file, name), "{page}: {name}");
                count += 1;
            }
        }
    }
    assert!(count > 30, "{count} names");
}

/// A variant's name in capitals: `NAME_TAKEN` of `NameTaken`.
fn capitals(variant: &str) -> String {
    let mut name = String::new();
    for letter in variant.chars() {
        if letter.is_ascii_uppercase() && !name.is_empty() {
            name.push('_');
        }
        name.push(letter.to_ascii_uppercase());
    }
    name
}

/// Number and name of `DONE`, and of each variant of `Refusal`.
fn refusals() -> Vec<(u64, String)> {
    let code = text("crates/schema/src/refusal.rt");
    let numbered = code.lines().filter_map(|line| {
        if let Some(constant) = line.strip_prefix("pub const ") {
            let (name, number) = constant.split_once(": u8 = ")?;
            let number = number.strip_suffix(';')?.parse().ok()?;
            return Some((number, name.to_owned()));
        }
        let (variant, number) = line.trim().split_once(" = ")?;
        let number = number.strip_suffix(',')?.parse().ok()?;
        Some((number, capitals(variant)))
    });
    numbered.collect()
}

#[test]
fn every_number_has_its_section_under_its_name() {
    let page = text("docs/NUMBERS.md");
    let headings: Vec<_> = page
        .lines()
        .filter(|line| line.starts_with("## "))
        .collect();
    let named = refusals();
    let expected: Vec<_> = named
        .iter()
        .map(|(n, name)| format!("## {n} {name}"))
        .collect();
    assert_eq!(headings, expected);
    let numbers = named.iter().map(|(number, _)| *number);
    assert!(numbers.eq(reference::NUMBERS));
    let parts = [
        "Do",
        "Calls",
        "Table and place",
        "Definition",
        "Code",
        "Theorem",
    ];
    for section in page.split("\n## ").skip(1) {
        let lines = section.lines().filter_map(|line| line.strip_prefix("- "));
        let given: Vec<_> = lines.filter_map(|line| line.split(':').next()).collect();
        assert_eq!(given, parts, "{section}");
    }
}

#[test]
fn definitions_and_header_have_the_same_names() {
    let definitions = text("crates/schema/specs/Refusals.antt");
    let header = text("include/keeper.h");
    for (number, name) in refusals() {
        let definition = format!("\n{} = {number}\n", name.to_lowercase());
        assert!(definitions.contains(&definition), "{name}");
        let define = format!("\n#define KEEPER_{name} {number}");
        assert!(header.contains(&define), "{name}");
    }
}

/// The calls that the header declares: their names, and the types of what they
/// are given.
fn declared() -> Vec<(String, Vec<String>)> {
    let header = text("include/keeper.h");
    let calls = header.split("\nuint64_t ").skip(1).map(|call| {
        let (name, rest) = call.split_once('(').unwrap_or_default();
        let (given, _) = rest.split_once(");").unwrap_or_default();
        let of_name = |letter: char| letter.is_ascii_alphanumeric() || letter == '_';
        let types = given.split(',').map(|one| one.trim_end_matches(of_name));
        let types = types.map(|one| one.trim().to_owned());
        (name.to_owned(), types.collect())
    });
    calls.collect()
}

/// The calls that rust/keeper declares, in the same words: a slice is a pointer
/// and a length, and stores are as many slices as there are stores.
fn wrapped() -> Vec<(String, Vec<String>)> {
    let code = text("rust/keeper/src/c.rs");
    let stores = code.split("STORES: usize = ").nth(1);
    let stores = stores.and_then(|rest| rest.split_once(';')?.0.parse().ok());
    let stores = stores.unwrap_or_default();
    let types = |one: &str| match one {
        "&[u8]" => vec!["const uint8_t *", "size_t"],
        "&mut [u8]" => vec!["uint8_t *", "size_t"],
        "&mut [u64]" => vec!["uint64_t *", "size_t"],
        "Lent<'_>" => ["const uint8_t *", "size_t"].repeat(stores),
        "LentMut<'_>" => ["uint8_t *", "size_t"].repeat(stores),
        "u8" => vec!["uint8_t"],
        "u16" => vec!["uint16_t"],
        _ => vec!["not understood"],
    };
    let list = code.split("\ncalls! {").nth(1).unwrap_or_default();
    let calls = list.split(';').filter_map(|call| {
        let (name, rest) = call.trim().split_once(" as ")?;
        let given = rest.split_once('(')?.1.strip_suffix(')')?;
        let given = given.split(',').filter_map(|one| one.split_once(": "));
        let types = given.flat_map(|(_, one)| types(one.trim()));
        Some((name.to_owned(), types.map(str::to_owned).collect()))
    });
    calls.collect()
}

/// What rust/keeper hands over is what the header declares, call by call.
#[test]
fn the_wrapper_declares_what_the_header_does() {
    assert_eq!(wrapped(), declared());
    assert!(declared().len() >= 6);
}

/// The files of definitions that a file brings in: its lines
/// "use Rattle.CRATE.specs.FILE..", without those of the library and those for
/// types that code declares.
fn brought_in(path: &str) -> Vec<String> {
    let code = text(path);
    let uses = code.lines().filter_map(|line| {
        let (name, rest) = line.strip_prefix("use Rattle.")?.split_once(".specs.")?;
        let is_ours = top().join("crates").join(name).is_dir();
        let end = rest.find(['.', ' ']).unwrap_or(rest.len());
        let file = &rest[..end];
        (is_ours && file != "declared").then(|| format!("crates/{name}/specs/{file}.antt"))
    });
    uses.collect()
}

/// "What must be believed" lists what the promises bring in, each file once,
/// and no file of laws is among it.
#[test]
fn what_must_be_believed_is_what_the_promises_bring_in() {
    let promises = ["Promises", "Demand3"];
    let mut found = promises
        .map(|file| format!("crates/keeper_promises/specs/{file}.antt"))
        .to_vec();
    let mut next = 0;
    while next < found.len() {
        for path in brought_in(&found[next]) {
            if !found.contains(&path) {
                found.push(path);
            }
        }
        next += 1;
    }
    found.sort();
    let page = text("docs/proofs/BELIEVED.md");
    let section = page.split("## What must be believed\n").nth(1);
    let section = section.and_then(|rest| rest.split("\nFor what stands beside").next());
    let listed = section.unwrap_or_default().lines().filter_map(|line| {
        let (_, link) = line.strip_prefix("- [")?.split_once("](../../")?;
        Some(link.split_once(')')?.0.to_owned())
    });
    let mut listed: Vec<String> = listed.collect();
    listed.sort();
    assert_eq!(listed, found);
    assert!(!found.iter().any(|path| path.contains("Laws")));
}
