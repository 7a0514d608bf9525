//! `keeper import` and `keeper export`: LDIF there and back, and what is told of
//! LDIF that does not fit.
#![allow(clippy::unwrap_used, clippy::expect_used)]

mod common;

use common::{Ran, done, fed, folder, kept, ran, refused};
use std::fs;

const FOREST: &str = "samples/forest.sheet";

#[test]
fn the_forest_comes_back_from_ldif() {
    let folder = folder("ldif");
    let ldif = kept(&folder, "forest.ldif", done(&["export", FOREST]).as_bytes());
    let sheet = fs::read(FOREST).unwrap();
    assert!(ran(&["import", &ldif, "--sheet"]).out == sheet);
    assert!(ran(&["export", "--sheet", &ldif]).out == sheet);
    let text = kept(
        &folder,
        "forest.schema",
        done(&["import", &ldif]).as_bytes(),
    );
    assert!(ran(&["export", "--sheet", &text]).out == sheet);
    assert!(done(&["check", &ldif]).contains(": accepted: 57 attributes"));
    let words = refused(2, &["change", &ldif, "deactivate class felling"]);
    assert_eq!(
        words,
        format!("{ldif}: is LDIF: import it first, and change what that gives\n")
    );
    let _ = fs::remove_dir_all(folder);
}

#[test]
fn an_entry_has_the_lines_that_directories_write() {
    let ldif = done(&["export", "--base", "CN=Schema,DC=forest", FOREST]);
    let entry = ldif
        .split("\n\n")
        .find(|entry| entry.starts_with("dn: CN=memberOf,"));
    let expected = "dn: CN=memberOf,CN=Schema,DC=forest
changetype: add
objectClass: top
objectClass: attributeSchema
cn: memberOf
lDAPDisplayName: memberOf
attributeID: 1.2.840.113556.1.2.102
schemaIDGUID:: vXHzoCKsRrGhO9ORO40d8g==
systemFlags: 16
attributeSyntax: 2.5.5.1
oMSyntax: 127
oMObjectClass:: KwwCh3McAIVK
isSingleValued: FALSE
linkID: 3
mAPIID: 32776";
    assert_eq!(entry, Some(expected));
    let entry = ldif
        .split("\n\n")
        .find(|entry| entry.starts_with("dn: CN=parcel,"))
        .unwrap();
    let ends = "objectClassCategory: 1
subClassOf: forestObject
rDNAttID: parcelNumber
mustContain: parcelNumber
mustContain: landRegister
mayContain: parcelStand
systemAuxiliaryClass: measuredArea
auxiliaryClass: located
possSuperiors: organizationalUnit";
    assert!(entry.ends_with(ends), "{entry}");
}

#[test]
fn a_dn_that_is_no_safe_string_stands_in_base64() {
    let ldif = done(&["export", "--base", "DC=W\u{e4}lder", FOREST]);
    // CN=top,DC=Wälder
    assert!(ldif.contains("\ndn:: Q049dG9wLERDPVfDpGxkZXI=\n"), "{ldif}");
    assert!(ldif.is_ascii());
    let sheet = fs::read(FOREST).unwrap();
    assert!(fed(&["import", "--sheet", "-"], ldif.as_bytes()).out == sheet);
}

/// Attributes of a class and of an attribute, in the form of a small schema.
const CN: &str = "dn: CN=Common-Name,CN=Schema
objectClass: attributeSchema
lDAPDisplayName: cn
attributeID: 2.5.4.3
schemaIDGUID: bf96793f-0de6-11d0-a285-00aa003049e2
attributeSyntax: 2.5.5.12
oMSyntax: 64
isSingleValued: TRUE
systemFlags: 18
";

const TOP: &str = "dn: CN=Top,CN=Schema
objectClass: classSchema
lDAPDisplayName: top
governsID: 2.5.6.0
schemaIDGUID:: t3qWv+YN0BGihQCqADBJ4g==
objectClassCategory: 2
subClassOf: top
";

const PERSON: &str = "dn: CN=Person,CN=Schema
objectClass: classSchema
lDAPDisplayName: person
governsID: 2.5.6.6
schemaIDGUID:: p3qWv+YN0BGihQCqADBJ4g==
objectClassCategory: 0
subClassOf: top
rDNAttID: cn
systemMustContain: cn
";

fn import(text: &str, words: &[&str]) -> Ran {
    let words: Vec<_> = ["import", "-"].iter().chain(words).copied().collect();
    fed(&words, text.as_bytes())
}

fn import_fault(text: &str) -> String {
    let ran = import(text, &[]);
    assert_eq!((ran.code, ran.text().as_str()), (2, ""), "{}", ran.err);
    ran.err.trim_end().to_owned()
}

#[test]
fn names_stand_in_any_order_and_superclasses_come_first() {
    let expected = "attribute cn 2.5.4.3
  guid 3f7996bfe60dd011a28500aa003049e2
  base
  flags 2
  syntax 12 64
  single

class top 2.5.6.0
  guid b77a96bfe60dd011a28500aa003049e2
  abstract
  under top

class person 2.5.6.6
  guid a77a96bfe60dd011a28500aa003049e2
  88
  under top
  naming cn
  must cn
";
    assert_eq!(
        import(&format!("{PERSON}\n{TOP}\n{CN}"), &[]).text(),
        expected
    );
    // Without empty lines, with another case of names, by identifiers, with the
    // ends of lines of other systems, in UTF-16.
    let other = format!("version: 1\n{PERSON}{TOP}{CN}")
        .replace("lDAPDisplayName", "ldapdisplayname")
        .replace("subClassOf: top", "subClassOf: TOP")
        .replace("systemMustContain: cn", "mustContain: 2.5.4.3")
        .replace('\n', "\r\n");
    assert_eq!(import(&other, &[]).text(), expected);
    let wide: Vec<u8> = [0xFEFF]
        .into_iter()
        .chain(other.encode_utf16())
        .flat_map(u16::to_le_bytes)
        .collect();
    assert_eq!(fed(&["import", "-"], &wide).text(), expected);
}

#[test]
fn lines_are_folded_and_comments_passed_over() {
    let folded = CN.replace(
        "attributeSyntax: 2.5.5.12",
        "# a comment\n  that goes on\nattributeSyntax: 2.5\n .5.12",
    );
    let ran = import(&format!("# a file\n\n\n{folded}\n{TOP}"), &[]);
    assert_eq!((ran.code, ran.err.as_str()), (0, ""));
    assert!(ran.text().contains("  syntax 12 64\n"));
}

#[test]
fn ldif_that_begins_with_a_folded_comment_is_ldif() {
    let text = format!("# a long comment\n goes on\n  and on\n{CN}\n{TOP}");
    let ran = fed(&["check", "-"], text.as_bytes());
    assert_eq!((ran.code, ran.err.as_str()), (0, ""));
    assert_eq!(import(&text, &[]).code, 0);
}

#[test]
fn what_does_not_fit_is_told_by_entry_and_line() {
    let all = format!("{CN}\n{TOP}\n{PERSON}");
    let changed = |from: &str, to: &str| import_fault(&all.replacen(from, to, 1));
    let begin = "standard input: line";
    assert_eq!(
        changed("systemMustContain: cn", "systemMustContain: sn"),
        format!("{begin} 27: entry `person`: systemMustContain: no attribute is named `sn`")
    );
    assert_eq!(
        changed("subClassOf: top\nrDN", "subClassOf: human\nrDN"),
        format!("{begin} 25: entry `person`: subClassOf: no class is named `human`")
    );
    assert_eq!(
        changed("governsID: 2.5.6.6\n", ""),
        format!("{begin} 19: entry `person`: governsID is missing")
    );
    assert_eq!(
        changed("lDAPDisplayName: cn\n", ""),
        format!("{begin} 1: the entry has no lDAPDisplayName")
    );
    assert_eq!(
        changed("oMSyntax: 64", "oMSyntax: many"),
        format!("{begin} 7: entry `cn`: oMSyntax: not a number that fits")
    );
    assert_eq!(
        changed("attributeID: 2.5", "attributeID: 2.+5"),
        format!("{begin} 4: entry `cn`: attributeID: not numbers with dots between")
    );
    assert_eq!(
        changed("TRUE", "yes"),
        format!("{begin} 8: entry `cn`: isSingleValued: neither TRUE nor FALSE")
    );
}

#[test]
fn lines_that_are_no_ldif_are_told() {
    let all = format!("{CN}\n{TOP}\n{PERSON}");
    let changed = |from: &str, to: &str| import_fault(&all.replacen(from, to, 1));
    let begin = "standard input: line";
    assert_eq!(
        changed("t3qWv", "t3q"),
        format!("{begin} 15: not base64 behind `::`")
    );
    assert_eq!(
        changed("2.5.5.12", "2.5.6.12"),
        format!("{begin} 6: entry `cn`: attributeSyntax: not 2.5.5 and a number")
    );
    assert_eq!(
        changed("isSingle", "this is no line\nisSingle"),
        format!("{begin} 8: no colon, so it is no line of LDIF")
    );
    assert_eq!(
        changed("systemFlags: ", "systemFlags:< file:///etc/passwd"),
        format!("{begin} 9: a value that stands elsewhere (`:<`) is not taken in")
    );
    assert_eq!(
        import_fault("dn: DC=x\nobjectClass: dMD\n"),
        "standard input: line 1: passed over: neither attributeSchema nor classSchema
standard input: no entry is an attributeSchema or a classSchema"
    );
    assert_eq!(
        fed(&["import", "-"], b"class top\n").err,
        "standard input: is no LDIF\n"
    );
}

#[test]
fn other_entries_and_changes_are_passed_over_and_told() {
    let other = "dn: CN=Schema\nobjectClass: dMD\n\ndn:\nchangetype: modify\nadd: schemaUpdateNow\nschemaUpdateNow: 1\n-\n";
    let ran = import(&format!("{CN}\n{TOP}\n{other}"), &[]);
    let expected = "standard input: line 19: passed over: neither attributeSchema nor classSchema
standard input: line 22: passed over: a change of type modify
";
    assert_eq!((ran.code, ran.err.as_str()), (0, expected));
    // Whichever command reads them.
    let text = format!("{CN}\n{TOP}\n{other}");
    for words in [
        vec!["check", "-"],
        vec!["show", "-", "cn"],
        vec!["diff", "-", FOREST],
        vec!["change", "--dry-run", "-", "range attribute cn 0 5"],
    ] {
        assert_eq!(
            fed(&words, text.as_bytes())
                .err
                .lines()
                .take(2)
                .collect::<Vec<_>>(),
            expected.lines().collect::<Vec<_>>(),
            "{words:?}"
        );
    }
}

#[test]
fn additions_in_the_directory_s_own_files_are_taken() {
    let added = |text: &str| text.replacen("\nobject", "\nchangetype: ntdsSchemaAdd\nobject", 1);
    let ran = import(&format!("{}\n{}", added(CN), added(TOP)), &[]);
    assert_eq!((ran.code, ran.err.as_str()), (0, ""));
    assert!(ran.text().contains("attribute cn ") && ran.text().contains("class top "));
    // Where nothing is left, what was passed over is told first.
    let gone = CN.replacen("\nobject", "\nchangetype: delete\nobject", 1);
    assert_eq!(
        import_fault(&gone),
        "standard input: line 1: passed over: a change of type delete
standard input: no entry is an attributeSchema or a classSchema"
    );
}

#[test]
fn only_what_is_needed_is_taken() {
    let unit = PERSON
        .replace("person", "unit")
        .replace("2.5.6.6", "2.5.6.5")
        .replace("p3qWv", "pXqWv");
    let person = format!("{PERSON}possSuperiors: unit\n");
    let all = format!("{CN}\n{TOP}\n{unit}\n{person}");
    let ran = import(&all, &["--only", "Person"]);
    assert_eq!(
        ran.err,
        "standard input: 1 possible superior left out: its class is not taken\n"
    );
    assert!(ran.text().contains("class person ") && !ran.text().contains("class unit "));
    let ran = import(&all, &["--only", "person", "unit"]);
    assert_eq!((ran.code, ran.err.as_str()), (0, ""));
    assert!(ran.text().ends_with("  in unit\n"), "{}", ran.text());
    // A name that is nowhere does not matter where it is not needed.
    let broken = all.replacen("rDNAttID: cn", "rDNAttID: ou", 1);
    assert_eq!(import(&broken, &["--only", "person"]).code, 0);
    assert_eq!(import(&broken, &[]).code, 2);
    assert_eq!(
        import(&all, &["--only", "men"]).err,
        "standard input: --only men: no entry has this name\n"
    );
    assert!(
        import(&all, &["--only"])
            .err
            .starts_with("something is missing; it is: keeper import ")
    );
}

#[test]
fn only_asks_nothing_of_entries_that_are_not_taken() {
    let other = CN
        .replace("cn\n", "wide\n")
        .replace("2.5.4.3\n", "2.5.4.4\n");
    let ranged = format!("{other}rangeUpper: 4294967295\n");
    let bare = TOP
        .replace("top\ng", "bare\ng")
        .replace("schemaIDGUID:: t3qWv+YN0BGihQCqADBJ4g==\n", "");
    let person = format!("{PERSON}possSuperiors: nowhere\n");
    let all = format!("{CN}\n{TOP}\n{ranged}\n{bare}\n{person}");
    let ran = import(&all, &["--only", "person"]);
    let left_out = "standard input: 1 possible superior left out: its class is not taken\n";
    assert_eq!((ran.code, ran.err.as_str()), (0, left_out));
    assert!(ran.text().contains("class person "), "{}", ran.text());
    // What is taken must be sound, by its name and by its identifier.
    let fault = "standard input: line 28: entry `wide`: rangeUpper: not a number that fits\n";
    assert_eq!(import(&all, &["--only", "wide"]).err, fault);
    assert_eq!(import(&all, &["--only", "2.5.4.4"]).err, fault);
    assert_eq!(
        import(&all, &["--only", "bare"]).err,
        "standard input: line 30: entry `bare`: schemaIDGUID is missing\n"
    );
    assert_eq!(import(&all, &[]).err, fault);
}

#[test]
fn a_refused_schema_is_told_by_its_line_and_printed_only_if_asked_for() {
    let many = format!("{}\n{TOP}\n{PERSON}", CN.replace("TRUE", "FALSE"));
    let refusal = "standard input: refused, row at line 19
23, naming unfit: class 1 `person`: it is named by attribute 0 `cn`, of syntax 2.5.5.12, multi-valued
";
    let ran = import(&many, &[]);
    assert_eq!((ran.code, ran.text().as_str()), (1, ""));
    assert!(ran.err.starts_with(refusal), "{}", ran.err);
    let ran = import(&many, &["--anyway"]);
    assert_eq!(ran.code, 1);
    assert!(ran.text().ends_with("  must cn\n") && ran.err.starts_with(refusal));
    assert_eq!(
        fed(
            &["check", "-"],
            ran.text().replace("64\n", "64\n single\n").as_bytes()
        )
        .code,
        0
    );
}

#[test]
fn superclasses_that_go_round_are_for_the_keeper_to_refuse() {
    let round =
        format!("{CN}\n{TOP}\n{PERSON}").replace("subClassOf: top\nrDN", "subClassOf: person\nrDN");
    let ran = import(&round, &[]);
    assert_eq!(ran.code, 1);
    assert!(
        ran.err.contains("18, class not live: class 1 `person`"),
        "{}",
        ran.err
    );
}
