//! `lift --salvage`, and what the other commands show of broken volumes.

use crate::bench::{two_files, Bench};
use crate::json::{parse, Value};
use std::fs;

/// What a command says on standard output that must end with that code.
fn said(b: &Bench, words: &[&str], code: i32) -> String {
    let out = b.run(words);
    assert_eq!(out.status.code(), Some(code), "{words:?}: {}", String::from_utf8_lossy(&out.stderr));
    String::from_utf8(out.stdout).unwrap()
}

/// The files of `two_files`, as a sound lift has them.
fn lifted(b: &Bench) -> [Vec<u8>; 2] {
    b.done(&["lift", "v", "sound"]);
    ["one", "two"].map(|name| fs::read(b.at("sound").join(name)).unwrap())
}

#[test]
fn a_wrong_bit_in_a_hash_loses_nothing() {
    let b = two_files();
    let files = lifted(&b);
    b.poke("v/file_hash.bin", 0, &[9, 9, 9, 9]);
    b.poke("v/dir_hash.bin", 0, &[9]);
    let check = said(&b, &["check", "v"], 4);
    assert!(check.contains("2 of 2 files can be lifted whole: mukthiban lift --salvage v OUT\n"), "{check}");
    assert!(b.fails(&["lift", "v", "out"], 4).contains("[BrokenTree 9]"));
    let text = said(&b, &["lift", "--salvage", "v", "out"], 0);
    assert!(text.starts_with("lifted 2 of 2 files whole; all read back and equal; "), "{text}");
    assert_eq!(["one", "two"].map(|name| fs::read(b.at("out").join(name)).unwrap()), files);
    let report = fs::read_to_string(b.at("out/salvage.txt")).unwrap();
    assert!(report.contains("\nwhole     /one  ("), "{report}");
    let list = said(&b, &["ls", "v"], 4);
    assert!(list.lines().any(|l| l.starts_with("+ ") && l.ends_with("  /two")), "{list}");
    assert!(said(&b, &["map", "v"], 4).contains("/two: "));
}

#[test]
fn a_damaged_directory_puts_the_path_in_doubt() {
    let b = two_files();
    let files = lifted(&b);
    b.done(&["mkdir", "v", "deep"]);
    b.done(&["mv", "v", "one", "deep/one"]);
    // The directory is inode 2; its name becomes d, a zero and the rest of the old one.
    b.poke("v/dir_table.bin", 2 * 40 + 5, &[0]);
    assert!(said(&b, &["check", "v"], 4).contains("1 of 2 files can be lifted whole"));
    said(&b, &["lift", "--salvage", "v", "out"], 4);
    assert_eq!(fs::read(b.at("out/two")).unwrap(), files[1]);
    let report = fs::read_to_string(b.at("out/salvage.txt")).unwrap();
    let line = report.lines().find(|l| l.starts_with("doubtful  /d")).expect("its line");
    assert!(line.contains("its bytes are whole") && line.contains("its path may be another"), "{report}");
    let to = line.rsplit(" -> ").next().unwrap();
    assert!(to.starts_with("doubtful/d"), "{report}");
    assert_eq!(fs::read(b.at("out").join(to)).unwrap(), files[0]);
}

#[test]
fn what_is_in_doubt_is_set_apart() {
    let b = two_files();
    let files = lifted(&b);
    // The first file's node names the second file's node as its next.
    b.poke("v/fat.bin", 12, &[3, 0, 0, 0x80]);
    assert!(said(&b, &["check", "v"], 4).contains("1 of 2 files can be lifted whole"));
    said(&b, &["lift", "--salvage", "v", "out"], 4);
    assert_eq!(fs::read(b.at("out/two")).unwrap(), files[1]);
    assert!(!b.at("out/one").exists());
    assert_eq!(fs::read(b.at("out/doubtful/one")).unwrap(), files[0]);
    let report = fs::read_to_string(b.at("out/salvage.txt")).unwrap();
    assert!(report.contains("doubtful  /one  (") && report.contains("breaks off at entry 1 (rule 7: "), "{report}");
    let json = parse(&said(&b, &["lift", "--salvage", "--json", "v", "out2"], 4));
    assert_eq!(json.get("whole"), &Value::Number(1.0));
    let list = said(&b, &["ls", "v"], 4);
    assert!(list.lines().any(|l| l.starts_with("? ") && l.contains("  /one  (its chain breaks off")), "{list}");
    assert!(said(&b, &["ls", "--json", "v"], 4).contains("\"trust\": \"doubtful\""));
    assert!(said(&b, &["map", "v"], 4).contains("/one (in doubt: "));
}

#[test]
fn chains_without_a_file_and_files_without_a_chain() {
    let b = two_files();
    let files = lifted(&b);
    // The record of the second file names block 39, where no chain begins; its own chain is nobody's.
    b.poke("v/file_table.bin", 2 * 48 + 28, &[39, 0, 0, 0]);
    b.poke("v/file_hash.bin", 0, &[9, 9, 9, 9]);
    said(&b, &["lift", "--salvage", "v", "out"], 4);
    assert_eq!(fs::read(b.at("out/one")).unwrap(), files[0]);
    assert!(b.at("out/doubtful/two").exists());
    let lost = fs::read(b.at("out/lost+found/block-2")).unwrap();
    assert_eq!(lost[..files[1].len()], files[1]);
}

#[test]
fn files_of_the_volume_that_are_not_there() {
    let b = two_files();
    let files = lifted(&b);
    fs::remove_file(b.at("v/dir_hash.bin")).unwrap();
    fs::write(b.at("v/block_len"), "x").unwrap();
    b.fails(&["check", "v"], 8);
    said(&b, &["lift", "--salvage", "v", "out"], 4);
    assert_eq!(["one", "two"].map(|name| fs::read(b.at("out").join(name)).unwrap()), files);
    let report = fs::read_to_string(b.at("out/salvage.txt")).unwrap();
    assert!(report.contains("remark    dir_hash.bin is not there\n"), "{report}");
    assert!(b.fails(&["lift", "--salvage", "v", "out"], 8).contains("it exists already"));
    assert!(b.fails(&["lift", "--salvage", "v", "o", "one"], 16).contains("a PATH can't be chosen"));
}

#[test]
fn a_sound_volume_is_lifted_whole() {
    let b = two_files();
    let files = lifted(&b);
    said(&b, &["lift", "--salvage", "v", "out"], 0);
    assert_eq!(["one", "two"].map(|name| fs::read(b.at("out").join(name)).unwrap()), files);
}
