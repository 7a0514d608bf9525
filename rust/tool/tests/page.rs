//! `keeper page`: whole HTML, nothing from elsewhere, and in a real browser where
//! Debian's chromium is installed.
#![allow(clippy::unwrap_used, clippy::expect_used, clippy::panic)]

mod common;

use common::{done, fed, folder};
use generate::{Random, sheets};
use std::fs;
use std::path::Path;
use std::process::Command;

fn forest() -> String {
    done(&[
        "page",
        "--title",
        "Forest owners' schema",
        "samples/forest.sheet",
    ])
}

/// Every tag that is opened is closed, in order; but for those that need not be.
fn assert_whole(html: &str) {
    let mut open: Vec<&str> = Vec::new();
    let body =
        html.split("<style>").next().unwrap().to_owned() + html.split("</style>").nth(1).unwrap();
    let body =
        body.split("<script>").next().unwrap().to_owned() + body.split("</script>").nth(1).unwrap();
    for tag in body.split('<').skip(1) {
        let tag = tag.split('>').next().unwrap();
        let name = tag.split_whitespace().next().unwrap();
        match name.strip_prefix('/') {
            Some(name) => assert_eq!(open.pop(), Some(name), "{tag}"),
            None if tag.ends_with('/') || ["!DOCTYPE", "meta", "input"].contains(&name) => {}
            None => open.push(name),
        }
    }
    assert!(open.is_empty(), "{open:?}");
}

#[test]
fn the_page_is_whole_and_needs_nothing_else() {
    let html = forest();
    assert_whole(&html);
    for word in ["http:", "https:", "src=", "<link", "@import", "url("] {
        assert!(!html.contains(word), "{word}");
    }
    assert!(html.contains("<title>Forest owners&#39; schema</title>"));
    assert!(
        html.contains(r#"<p id="search" hidden>"#),
        "the box is there only with scripts"
    );
}

#[test]
fn every_link_leads_to_a_row() {
    let html = forest();
    let mut count = 0;
    for link in html.split("href=\"#").skip(1) {
        let id = link.split('"').next().unwrap();
        assert!(html.contains(&format!(" id=\"{id}\"")), "{id}");
        count += 1;
    }
    assert!(count > 500, "{count}");
    assert_eq!(html.matches("<article ").count(), 25);
    assert_eq!(html.matches("<tr id=\"a").count(), 57);
}

#[test]
fn a_class_says_whence_its_attributes_come() {
    let html = forest();
    let stand = html
        .split("<article id=\"c18\"")
        .nth(1)
        .unwrap()
        .split("</article>")
        .next()
        .unwrap();
    let row =
        r##"<tr><th><a href="#a17">areaHa</a></th><td><a href="#c7">measuredArea</a></td></tr>"##;
    assert!(stand.contains(row), "{stand}");
    let old = html.split("<article id=\"c24\"").nth(1).unwrap();
    assert!(old.contains(r#"<span class="mark gone">defunct</span>"#));
}

/// The value of a tag's attribute, as a number.
fn number(tag: &str, name: &str) -> u32 {
    let rest = tag.split(&format!(" {name}=\"")).nth(1).unwrap();
    rest.split('"').next().unwrap().parse().unwrap()
}

/// The boxes of a picture lie in it, and none over another; how many there are.
fn boxes_apart(html: &str) -> usize {
    let picture = html.split("<svg").nth(1).unwrap();
    let [width, height] = ["width", "height"].map(|name| number(picture, name));
    let boxes: Vec<[u32; 4]> = html
        .split("<rect")
        .skip(1)
        .map(|tag| ["x", "y", "width", "height"].map(|name| number(tag, name)))
        .collect();
    let apart = |one: &[u32; 4], other: &[u32; 4]| {
        let beside =
            |at: usize| one[at] + one[at + 2] <= other[at] || other[at] + other[at + 2] <= one[at];
        beside(0) || beside(1)
    };
    for (at, one) in boxes.iter().enumerate() {
        let is_inside = one[0] + one[2] <= width && one[1] + one[3] <= height;
        assert!(is_inside, "{one:?}");
        let others = &boxes[at + 1..];
        assert!(others.iter().all(|other| apart(one, other)), "{one:?}");
    }
    boxes.len()
}

#[test]
fn boxes_of_the_picture_stand_apart() {
    assert_eq!(boxes_apart(&forest()), 25);
    for number in 0..150 {
        let sheet = sheets::sound(&mut Random::nth(24, number));
        let page = fed(&["page", "-"], &sheet);
        assert_eq!(page.code, 0, "{}", page.err);
        boxes_apart(&page.text());
    }
}

/// A box that is higher than the first of those under it, whose middle is far up
/// or far down.
#[test]
fn high_boxes_stand_apart() {
    let class = |name: &str, number: usize, kind: &str, above: &str| {
        format!("class {name} 2.5.{number}\n guid {number:032x}\n {kind}\n under {above}\n")
    };
    for order in [["a", "b"], ["b", "a"]] {
        let names = (1..=6).flat_map(|at| order.map(|name| format!("{name}{at}")));
        let names: Vec<String> = names.collect();
        let top = class("top", 0, "abstract", "top");
        let mut text = format!("{top} aux {}\n", names.join(" "));
        for (at, name) in names.iter().enumerate() {
            let above = match at / 2 {
                0 => "top".to_owned(),
                depth => format!("b{depth}"),
            };
            text += &class(name, at + 1, "auxiliary", &above);
        }
        let page = fed(&["page", "-"], text.as_bytes());
        assert_eq!(page.code, 0, "{}", page.err);
        assert_eq!(boxes_apart(&page.text()), 13);
    }
}

#[test]
fn titles_and_empty_schemas_do_no_harm() {
    let page = fed(
        &["page", "--title", "<script>alert(1)</script>", "-"],
        b"# nothing\n",
    );
    assert_eq!(page.code, 0, "{}", page.err);
    assert!(!page.text().contains("<script>alert"));
    assert_whole(&page.text());
}

/// What a browser makes of a page, if there is a browser.
fn browsed(folder: &Path, html: &str) -> Option<String> {
    let file = folder.join("page.html");
    fs::write(&file, html).unwrap();
    let profile = format!("--user-data-dir={}", folder.join("profile").display());
    let mut browser = Command::new("chromium");
    browser.args([
        "--headless",
        "--no-sandbox",
        "--disable-gpu",
        "--dump-dom",
        &profile,
    ]);
    let output = browser
        .arg(format!("file://{}", file.display()))
        .output()
        .ok()?;
    Some(String::from_utf8_lossy(&output.stdout).into_owned())
}

#[test]
fn a_browser_shows_the_box_and_finds_rows() {
    let folder = folder("page");
    let html = forest();
    let typed =
        "<script>find.value = ' AreaHA '; find.dispatchEvent(new Event('input'));</script></body>";
    if let Some(dom) = browsed(&folder, &html.replace("</body>", typed)) {
        assert!(dom.contains(r#"<p id="search">"#), "{dom}");
        // The classes that have areaHa: measuredArea, parcel, stand, subStand and
        // felling; and areaHa itself.
        let is_shown = |tag: &&str| !tag.split('>').next().unwrap().contains("hidden");
        let shown = |start: &str| dom.split(start).skip(1).filter(is_shown).count();
        assert_eq!(shown("<article "), 5);
        assert!(dom.contains(">6 found</output>"), "{dom}");
    } else {
        eprintln!("chromium is not installed: the page is not tried in a browser");
    }
    let _ = fs::remove_dir_all(folder);
}
