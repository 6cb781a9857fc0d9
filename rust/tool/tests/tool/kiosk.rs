//! The demo kiosk's profile: each rule in words with what breaks it, files put so that a volume stays in it, and new ones.

use crate::bench::{noise, Bench};

/// A new kiosk volume `v` of so many blocks.
fn kiosk(blocks: &str) -> Bench {
    let b = Bench::new();
    b.done(&["new", "v", "--blocks", blocks, "--kiosk"]);
    b
}

/// What `kiosk check` says of a volume that is not in the profile.
fn broken(b: &Bench) -> String {
    let out = b.run(&["kiosk", "check", "v"]);
    assert_eq!(out.status.code(), Some(4));
    String::from_utf8(out.stdout).unwrap()
}

#[test]
fn a_new_one_takes_files_and_stays_in_the_profile() {
    let b = kiosk("16");
    assert_eq!(b.done(&["kiosk", "check", "v"]), "in the kiosk's profile  v\n");
    b.host("SLOT1", &noise(700, 1));
    b.host("SLOT2", &noise(512, 2));
    b.host("EMPTY", b"");
    assert_eq!(
        b.done(&["kiosk", "put", "v", "SLOT1", "SLOT2", "EMPTY"]),
        "kiosk put 3 files and 0 directories: 1,212 bytes in 3 blocks\n"
    );
    b.done(&["kiosk", "check", "v"]);
    b.done(&["check", "v", "--strict"]);
    assert_eq!(b.run(&["cat", "v", "SLOT1"]).stdout, noise(700, 1));
    let json = b.done(&["kiosk", "check", "v", "--json"]);
    assert!(json.contains("\"in_profile\": true") && json.contains("\"rule\": 0"), "{json}");
}

#[test]
fn a_file_goes_where_one_node_holds_it() {
    let b = kiosk("8");
    for (name, len) in [("A", 1024), ("B", 1024), ("C", 1024)] {
        b.host(name, &noise(len, 3));
        b.done(&["kiosk", "put", "v", name]);
    }
    b.done(&["rm", "v", "B"]);
    b.host("LONG", &noise(1500, 5));
    // Four blocks are free, in two nodes of two.
    let line = b.fails(&["kiosk", "put", "v", "LONG"], 8);
    assert!(line.contains("/LONG: it needs 3 blocks, and no free node has so many [NoSpace 6]"), "{line}");
    b.done(&["put", "v", "LONG", "LONG"]);
    assert_eq!(broken(&b), "not in the kiosk's profile  v\n  rule 5: every file in one piece\n    /LONG: 2 nodes\n");
    b.host("D", b"d");
    let line = b.fails(&["kiosk", "put", "v", "D"], 8);
    assert!(line.contains("v: not in the kiosk's profile: every file in one piece [rule 5]"), "{line}");
}

#[test]
fn each_rule_is_said_with_what_breaks_it() {
    let b = kiosk("200");
    b.host("small", b"x");
    let line = b.fails(&["kiosk", "put", "v", "small"], 8);
    assert!(line.contains("/small: with it the volume would leave the kiosk's profile: file names of A to Z and 0 to 9 alone [rule 6]"), "{line}");
    b.done(&["put", "v", "small", "small"]);
    assert_eq!(
        broken(&b),
        "not in the kiosk's profile  v\n  rule 6: file names of A to Z and 0 to 9 alone\n    /small\n"
    );

    let b = Bench::new();
    b.done(&["new", "v", "--blocks", "8192"]);
    b.done(&["mkdir", "v", "dir"]);
    assert_eq!(broken(&b), "not in the kiosk's profile  v\n  rule 2: at most 8191 blocks\n    8,192 blocks\n");
    b.fails(&["new", "w", "--blocks", "8192", "--kiosk"], 16);

    let b = Bench::with_volume();
    b.done(&["mkdir", "v", "dir"]);
    b.host("X", b"x");
    b.done(&["put", "v", "X", "dir/x"]);
    assert_eq!(broken(&b), "not in the kiosk's profile  v\n  rule 3: no directory but the root\n    /dir\n");
    b.fails(&["kiosk", "put", "v", "X"], 8);

    let b = Bench::new();
    b.done(&["new", "v", "--blocks", "100", "--kiosk", "--files", "70"]);
    b.host("X", b"x");
    for i in 0..64 {
        b.done(&["put", "v", "X", &format!("N{i}")]);
    }
    let line = b.fails(&["kiosk", "put", "v", "X"], 8);
    assert!(line.contains("at most 64 files [rule 4]"), "{line}");
    b.done(&["put", "v", "X", "X"]);
    assert_eq!(broken(&b), "not in the kiosk's profile  v\n  rule 4: at most 64 files\n    65 files\n");
}

#[test]
fn what_is_no_file_or_no_command_is_refused() {
    let b = kiosk("8");
    std::fs::create_dir(b.at("DIR")).unwrap();
    assert!(b.fails(&["kiosk", "put", "v", "DIR"], 8).contains("no directory but the root"));
    assert!(b.fails(&["kiosk", "put", "v", "NONE"], 8).contains("no such file"));
    b.host("A", b"a");
    b.done(&["kiosk", "put", "v", "A"]);
    assert!(b.fails(&["kiosk", "put", "v", "A"], 8).contains("[AlreadyExist 11]"));
    for words in [&["kiosk", "v"][..], &["kiosk", "check", "v", "A"], &["kiosk", "put", "v"], &["kiosk", "look", "v"]] {
        b.fails(words, 16);
    }
}
