//! Volumes with a block length that is not in use: shown as such, read and copied out, and never changed.

use crate::bench::{noise, tree, two_files, Bench};
use crate::json;
use std::fs;

/// The volume with the same tables and blocks of 300 bytes: each block's first bytes, so that both files are shorter.
fn old() -> Bench {
    let b = two_files();
    let data = fs::read(b.at("v/data.bin")).unwrap();
    let cut: Vec<u8> = data.chunks(512).flat_map(|block| block[..300].to_vec()).collect();
    fs::write(b.at("v/data.bin"), cut).unwrap();
    fs::write(b.at("v/block_len"), "300\n").unwrap();
    b
}

#[test]
fn it_is_shown_and_nothing_changes_it() {
    let b = old();
    let text = b.done(&["check", "v"]);
    assert!(
        text.contains("  blocks                40  of 300 bytes, a length that is not in use: read-only\n"),
        "{text}"
    );
    let value = json::parse(&b.done(&["check", "--json", "v"]));
    assert_eq!(value.get("read_only"), &json::Value::Bool(true));
    b.done(&["new", "w", "--blocks", "9"]);
    assert!(!b.done(&["check", "w"]).contains("read-only"));
    let before = tree(&b.at("v"));
    for words in [
        &["put", "v", "one", "three"][..],
        &["put", "--replace", "v", "one", "two"],
        &["cp", "v", "one", "v", "three"],
        &["mkdir", "v", "d"],
        &["mv", "v", "one", "eins"],
        &["rm", "v", "one"],
        &["merge", "v"],
    ] {
        let line = b.fails(words, 8);
        assert!(
            line.contains("v: blocks of this length are no longer in use") && line.contains("[ReadOnlyVolume 20]"),
            "{line}"
        );
    }
    assert_eq!(tree(&b.at("v")), before);
    // Not sound comes first.
    b.poke("v/fat.bin", 0, &[1]);
    assert!(b.fails(&["merge", "v"], 4).contains("[BrokenFat 4]"));
}

#[test]
fn it_is_copied_out() {
    let b = old();
    let one = noise(600, 1);
    let expected = [&one[..300], &one[512..600], &[0; 212]].concat();
    assert_eq!(b.run(&["cat", "v", "one"]).stdout, expected);
    assert!(b.done(&["ls", "v"]).contains("  one\n"));
    assert!(b.done(&["map", "v"]).contains("  /one: 600 bytes, 2 blocks, 1 fragment\n"));
    b.done(&["audit", "v"]);
    b.done(&["lift", "v", "out"]);
    assert_eq!(fs::read(b.at("out/one")).unwrap(), expected);
    b.done(&["verify", "v", "out"]);
    // From there, and at once, into a volume that is in use.
    b.done(&["new", "w", "--blocks", "20"]);
    b.done(&["put", "w", "out/", "/"]);
    assert_eq!(b.run(&["cat", "w", "one"]).stdout, expected);
    b.done(&["cp", "v", "two", "w", "zwei"]);
    assert_eq!(b.run(&["cat", "w", "zwei"]).stdout, b.run(&["cat", "v", "two"]).stdout);
}
