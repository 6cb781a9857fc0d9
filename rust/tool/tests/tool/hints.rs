//! What is said of tables that are refused: where the fault is, and which files it touches.

use crate::bench::{noise, two_files, Bench};
use crate::json;

/// What check says of a volume that is refused, by lines.
fn said(b: &Bench) -> Vec<String> {
    let out = b.run(&["check", "v", "--verbose"]);
    assert_eq!(out.status.code(), Some(4));
    String::from_utf8(out.stdout).unwrap().lines().map(|l| l.trim().to_string()).collect()
}

/// Damages a fresh volume, and asks for a line that begins so.
fn expect(file: &str, at: usize, bytes: &[u8], line: &str, touched: Option<&str>) {
    let b = two_files();
    b.done(&["mkdir", "v", "d"]);
    b.poke(file, at, bytes);
    let said = said(&b);
    assert!(said[1].starts_with("BrokenTree (9)"), "{said:?}");
    assert!(said.iter().any(|l| l.starts_with(&format!("- {line}"))), "{line}: {said:#?}");
    if let Some(path) = touched {
        assert!(said.contains(&format!("> {path}")), "{path}: {said:#?}");
    }
}

#[test]
fn broken_trees_are_explained() {
    let (files, dirs) = ("v/file_table.bin", "v/dir_table.bin");
    expect(files, 0, &[99], "file_table.bin: its count is 99, not from 1 to its maximum 7", None);
    expect(files, 4, &[200], "file_table.bin: its maximum is 200, but it has room for 7", None);
    expect(files, 44, &[2], "file_table.bin: bucket ", None);
    expect(files, 44, &[6], "file_table.bin: the list of removed entries comes to 6, twice or past the count", None);
    expect(files, 2 * 48, &[3], "file_table.bin: file 2 (?/two) is in directory 3, which is not live", Some("?/two"));
    expect(files, 2 * 48 + 4, b"one", "file_table.bin: file 2 (/one) and entry 1 have one name", Some("/one"));
    expect(files, 2 * 48 + 5, b"W", "file_table.bin: file 2 (/tWo) is in bucket ", None);
    expect(files, 48 + 20, &[1], "file_table.bin: file 1 (/one) is listed twice, now by directory 1", None);
    expect(files, 2 * 48 + 20, &[5], "file_table.bin: directory 1 lists 5, which is not live", None);
    expect(dirs, 40 + 4, b"r", "dir_table.bin: entry 1 does not have the root's form", None);
    expect(
        dirs,
        2 * 40,
        &[2],
        "dir_table.bin: directory 2 (?/d) does not come to the root by its parents",
        Some("?/d"),
    );
    expect(dirs, 40 + 28, &[0], "file_table.bin: file 1 (/one) is in no directory's list", Some("/one"));
    expect(dirs, 40 + 24, &[0], "dir_table.bin: directory 2 (/d) is in no directory's list", Some("/d"));
    expect(
        "v/file_hash.bin",
        0,
        &[0; 20],
        "file_table.bin: file 1 (/one) is in no bucket: no look-up finds it",
        Some("/one"),
    );
    expect("v/dir_hash.bin", 0, &[9, 0, 0, 0], "dir_table.bin: bucket 0 comes to 9, which is not live", None);
}

#[test]
fn every_fault_of_a_block_table_is_said() {
    let b = two_files();
    b.host("three", &noise(600, 3));
    b.done(&["put", "v", "three", "three"]);
    // The ends of the first and of the third file's node, and the head.
    b.poke("v/fat.bin", 2 * 8, &[9, 9, 9, 9]);
    b.poke("v/fat.bin", 6 * 8, &[9, 9, 9, 9]);
    b.poke("v/fat.bin", 0, &[1]);
    let lines = said(&b);
    assert!(lines[1].starts_with("BrokenFat (4)"), "{lines:?}");
    for line in [
        "rule 3 is broken at entry 2: a node's second entry does not have its form",
        "entry 2 holds 09 09 09 09 02 00 00 00, of /one",
        "- entry 0: the head does not have its form, or names what is no chain's first node",
        "- entry 6: a node's second entry does not have its form",
        "these files are touched:",
        "> /one",
        "> /three",
        "entry tables  sound",
    ] {
        assert!(lines.contains(&line.into()), "{line}: {lines:#?}");
    }
    assert!(!lines.contains(&"> /two".into()), "{lines:#?}");
    let value = json::parse(&String::from_utf8(b.run(&["check", "--json", "v"]).stdout).unwrap());
    assert_eq!(
        value.get("touched"),
        &json::Value::List(vec![json::Value::Text("/one".into()), json::Value::Text("/three".into())])
    );
    let json::Value::List(hints) = value.get("hints") else { panic!("a list") };
    assert_eq!(hints.len(), 2);
    let text = |key: &str| match value.get("fault").get(key) {
        json::Value::Text(text) => text.clone(),
        other => panic!("{other:?}"),
    };
    assert_eq!(value.get("fault").get("entry"), &json::Value::Number(2.0));
    assert_eq!(value.get("fault").get("rule"), &json::Value::Number(3.0));
    assert_eq!((text("bytes"), text("path")), ("0909090902000000".into(), "/one".into()));
}

/// Each rule by name, with its entry, that entry's bytes, and the file where one can be said.
#[test]
fn the_rule_the_entry_and_its_bytes() {
    let says = |at: usize, bytes: &[u8], rule: &str, held: &str| {
        let b = two_files();
        b.poke("v/fat.bin", at, bytes);
        let lines = said(&b);
        assert!(lines[2].starts_with(rule), "{rule}: {lines:#?}");
        assert_eq!(lines[3], held);
    };
    says(8, &[0; 4], "rule 1 is broken at entry 1: ", "entry 1 holds 00 00 00 00 00 00 00 80, of /one");
    says(2 * 8 + 4, &[1], "rule 3 is broken at entry 2: ", "entry 2 holds 01 00 00 80 01 00 00 00, of /one");
    says(2 * 8 + 5, &[9], "rule 4 is broken at entry 2: ", "entry 2 holds 01 00 00 80 02 09 00 00, of /one");
    says(0, &[1], "rule 6 is broken at entry 0: ", "entry 0 holds 01 00 00 00 05 00 00 00");
    says(3 * 8 + 4, &[9], "rule 7 is broken at entry 3: ", "entry 3 holds 00 00 00 80 09 00 00 80, of /two");
}

#[test]
fn rings_and_loose_blocks() {
    let b = two_files();
    // The second file's node names itself before and after it: a ring.
    b.poke("v/fat.bin", 3 * 8, &[3, 0, 0, 0, 3, 0, 0, 0x80]);
    let lines = said(&b);
    assert!(lines.contains(&"- a ring of 2 blocks goes through block 2".into()), "{lines:#?}");
    assert!(lines[2].starts_with("rule 7 is broken at entry 3: "), "{lines:#?}");
    assert_eq!(lines[3], "entry 3 holds 03 00 00 00 03 00 00 80, of /two");
    assert!(lines.contains(&"> /two".into()), "{lines:#?}");
    // It names the first file's node before it, which does not name it back.
    b.poke("v/fat.bin", 3 * 8, &[1, 0, 0, 0, 0, 0, 0, 0x80]);
    let lines = said(&b);
    assert!(lines.contains(&"- 2 blocks from block 2 on hang on no chain's beginning".into()), "{lines:#?}");
}

#[test]
fn both_tables_are_explained_where_both_are_broken() {
    let b = two_files();
    b.poke("v/fat.bin", 2 * 8, &[9, 9, 9, 9]);
    b.poke("v/file_table.bin", 0, &[99]);
    let lines = said(&b);
    assert!(lines[2].starts_with("rule 3 is broken at entry 2: "), "{lines:#?}");
    assert!(lines.contains(&"- file_table.bin: its count is 99, not from 1 to its maximum 7".into()), "{lines:#?}");
}
