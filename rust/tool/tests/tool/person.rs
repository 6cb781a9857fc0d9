//! The tool, run as a person would: what it does, and what it says.

use crate::bench::{noise, Bench};
use std::fs;

#[test]
fn a_day_at_the_bench() {
    let b = Bench::with_volume();
    assert_eq!(
        b.done(&["check", "v"]),
        "SOUND  v\n  blocks                40  of 512 bytes\n  free                  40\n  files                  0\n  \
         fragments              0\n  directories            1  the root included\n"
    );
    b.host("one", &noise(2400, 1));
    b.host("two", &noise(600, 2));
    b.host("empty", b"");
    b.host("three", &noise(5500, 3));
    assert_eq!(b.done(&["mkdir", "v", "saves"]), "made /saves/\n");
    assert_eq!(b.done(&["put", "v", "one", "saves/slot1"]), "put /saves/slot1: 2,400 bytes in 5 blocks\n");
    assert_eq!(b.done(&["put", "v", "two", "/saves/"]), "put /saves/two: 600 bytes in 2 blocks\n");
    assert_eq!(b.done(&["put", "v", "empty", "saves"]), "put /saves/empty: 0 bytes in 0 blocks\n");
    assert_eq!(
        b.done(&["put", "--replace", "v", "three", "saves/slot1"]),
        "put /saves/slot1: 5,500 bytes in 11 blocks\n"
    );
    assert_eq!(
        b.done(&["ls", "v", "saves"]),
        " size  blocks  fragments  name\n    0       0          0  empty\n5,500      11          2  slot1\n  600       2          \
         1  two\n"
    );
    assert_eq!(b.done(&["ls", "v"]), "size  blocks  fragments  name\n   -       -          -  saves/\n");
    assert!(b.done(&["ls", "--all", "v"]).contains("  /saves/slot1\n"));
    assert_eq!(b.run(&["cat", "v", "saves/slot1"]).stdout, noise(5500, 3));
    assert_eq!(b.run(&["cat", "v", "saves/empty"]).stdout, b"");
    let map = b.done(&["map", "v"]);
    assert!(map.contains("\n 0  aaaaabbaaaaaa·····"), "{map}");
    assert!(map.contains("  a  /saves/slot1: 5,500 bytes, 11 blocks, 2 fragments\n"), "{map}");

    assert_eq!(b.done(&["mv", "v", "saves/two", "zwei"]), "moved /saves/two to /zwei\n");
    assert_eq!(b.done(&["mv", "v", "zwei", "saves/"]), "moved /zwei to /saves/zwei\n");
    assert_eq!(b.done(&["mv", "v", "saves", "games/"]), "moved /saves to /games\n");
    assert_eq!(b.done(&["rm", "v", "games/zwei"]), "removed /games/zwei\n");
    assert!(b.done(&["check", "v"]).contains("free                  29\n"));
    assert_eq!(
        b.done(&["lift", "v", "out"]),
        "lifted 2 files and 1 directory, 5,500 bytes, to out; all read back and equal\n"
    );
    assert_eq!(fs::read(b.at("out/games/slot1")).unwrap(), noise(5500, 3));
    assert_eq!(fs::read(b.at("out/games/empty")).unwrap(), b"");

    // Replacing by less, by nothing, and by something again.
    b.done(&["put", "v", "two", "games/slot1", "--replace"]);
    assert!(b.done(&["check", "v"]).contains("free                  38\n"));
    b.done(&["put", "v", "empty", "games/slot1", "--replace"]);
    assert!(b.done(&["check", "v"]).contains("free                  40\n"));
    b.done(&["put", "v", "one", "games/slot1", "--replace"]);
    assert_eq!(b.run(&["cat", "v", "games/slot1"]).stdout, noise(2400, 1));

    b.done(&["rm", "v", "games/slot1"]);
    b.done(&["rm", "v", "games/empty"]);
    b.done(&["rm", "v", "games/"]);
    assert!(b.done(&["check", "v"]).contains("files                  0\n"));
}

#[test]
fn free_neighbours_are_merged() {
    let b = Bench::with_volume();
    for (place, blocks) in [2, 3, 2, 1].into_iter().enumerate() {
        b.host("f", &noise(512 * blocks, place as u32));
        b.done(&["put", "v", "f", &format!("f{place}")]);
    }
    for file in ["f1", "f0", "f2"] {
        b.done(&["rm", "v", file]);
    }
    let map = b.done(&["map", "v"]);
    assert!(map.contains("  ·  free: 39 blocks, 4 nodes, the largest of 32 blocks\n"), "{map}");
    let before = b.run(&["cat", "v", "f3"]).stdout;
    assert_eq!(b.done(&["merge", "v"]), "merged v: 4 free nodes before, 2 after, the largest of 32 blocks\n");
    assert!(b.done(&["map", "v"]).contains("  ·  free: 39 blocks, 2 nodes, the largest of 32 blocks\n"));
    assert_eq!(b.run(&["cat", "v", "f3"]).stdout, before);
    assert_eq!(b.done(&["merge", "v"]), "merged v: 2 free nodes before, 2 after, the largest of 32 blocks\n");
    assert_eq!(
        b.done(&["merge", "--json", "v"]),
        "{\"version\": 1, \"command\": \"merge\", \"volume\": \"v\", \"free_nodes_before\": [[0, 7], [8, 32]], \"free_nodes\": [[0, 7], [8, 32]]}\n"
    );
    // what was in pieces before is one now
    b.host("f", &noise(512 * 7, 9));
    b.done(&["put", "v", "f", "whole"]);
    assert!(b.done(&["ls", "v"]).contains("         1  whole\n"));
    assert!(b.fails(&["merge", "w"], 8).contains("w: no such volume"));
}

#[test]
fn free_blocks_of_a_stretch() {
    let b = Bench::with_volume();
    assert_eq!(
        b.done(&["status", "v"]),
        format!("v: 40 of 40 blocks free; the largest free stretch is 40 blocks from block 0\n{}\n", "·".repeat(40))
    );
    b.host("f", &noise(512 * 3, 1));
    b.done(&["put", "v", "f", "f"]);
    let text = b.done(&["status", "v", "1", "5"]);
    assert_eq!(text, "v: 2 of 4 blocks from 1 to 5 free; the largest free stretch is 37 blocks from block 3\n██··\n");
    assert_eq!(
        b.done(&["status", "--json", "v", "1", "5"]),
        "{\"version\": 1, \"command\": \"status\", \"volume\": \"v\", \"blocks\": 40, \"from\": 1, \"to\": 5, \"free\": 2, \"free_in_all\": 37, \"largest_free\": [3, 37]}\n"
    );
    b.fails(&["status", "v", "1"], 16);
    b.fails(&["status", "v", "5", "1"], 16);
    b.fails(&["status", "v", "0", "41"], 16);
    b.fails(&["status", "v", "0", "x"], 16);
}

#[test]
fn help_for_each_command() {
    let b = Bench::new();
    let all = b.done(&["--help"]);
    let commands =
        ["check", "ls", "cat", "lift", "put", "mkdir", "mv", "rm", "merge", "whole", "defrag", "new", "map", "status"];
    for command in commands {
        assert!(all.contains(&format!("\n  {command} ")), "{command}");
        assert!(b.done(&[command, "--help"]).starts_with(&format!("mukthiban {command} ")));
        assert_eq!(b.done(&["help", command]), b.done(&[command, "-h"]));
    }
    assert!(b.done(&["--version"]).starts_with("mukthiban "));
}

#[test]
fn wrong_usage_is_16() {
    let b = Bench::with_volume();
    b.fails(&[], 16);
    b.fails(&["repair", "v"], 16);
    b.fails(&["check"], 16);
    b.fails(&["check", "v", "w"], 16);
    b.fails(&["check", "v", "--svg", "f"], 16);
    b.fails(&["map", "v", "--svg"], 16);
    b.fails(&["put", "v", "a"], 16);
    b.fails(&["new", "w"], 16);
    b.fails(&["new", "w", "--blocks", "many"], 16);
    b.fails(&["ls", "v", "--json=yes"], 16);
}

#[test]
fn bad_input_is_8_and_changes_nothing() {
    let b = Bench::with_volume();
    b.host("big", &noise(512 * 40 + 1, 1));
    b.host("two", &noise(600, 2));
    b.done(&["mkdir", "v", "d"]);
    b.done(&["put", "v", "two", "d/two"]);

    assert!(b.fails(&["check", "w"], 8).contains("w: no such volume"));
    assert!(b.fails(&["check", "two"], 8).contains("a volume is a folder"));
    assert!(b.fails(&["put", "v", "two", "x/two"], 8).contains("/x: no such directory"));
    assert!(b.fails(&["put", "v", "two", "x/"], 8).contains("/x: no such directory"));
    assert!(b.fails(&["put", "v", "three", "three"], 8).contains("three: no such file"));
    assert!(b.fails(&["put", "v", "two", "d/two"], 8).contains("AlreadyExist 11"));
    let line = b.fails(&["put", "v", "big", "big"], 8);
    assert!(line.contains("/big: it needs 41 blocks, and 38 are free [NoSpace 6]"), "{line}");
    assert!(b.fails(&["put", "v", "big", "d/two", "--replace"], 8).contains("NoSpace 6"));
    assert!(b.fails(&["put", "v", "two", "0123456789abcdefg"], 16).contains("at most 16 bytes"));
    assert!(b.fails(&["put", "v", "two", "a\\b"], 16).contains("\\x5c"));
    assert!(b.fails(&["cat", "v", "three"], 8).contains("/three: no such file or directory"));
    assert!(b.fails(&["cat", "v", "d"], 8).contains("/d: this is a directory"));
    assert!(b.fails(&["cat", "v", "/"], 8).contains("directory"));
    assert!(b.fails(&["ls", "v", "d/two/"], 8).contains("/d/two: this is a file"));
    assert!(b.fails(&["ls", "v", "d/two/three"], 8).contains("no such"));
    assert!(b.fails(&["mkdir", "v", "d"], 8).contains("AlreadyExist 11"));
    assert!(b.fails(&["mkdir", "v", "/"], 8).contains("AlreadyExist 11"));
    assert!(b.fails(&["rm", "v", "d"], 8).contains("NotEmpty 14"));
    assert!(b.fails(&["rm", "v", "/"], 8).contains("DeletingRoot 13"));
    assert!(b.fails(&["rm", "v", "e"], 8).contains("no such"));
    assert!(b.fails(&["mv", "v", "d", "d/e"], 8).contains("IntoItself 15"));
    assert!(b.fails(&["mv", "v", "/", "e"], 8).contains("DeletingRoot 13"));
    assert!(b.fails(&["mv", "v", "e", "f"], 8).contains("no such"));
    b.done(&["put", "v", "two", "two"]);
    assert!(b
        .fails(&["mv", "v", "two", "d"], 8)
        .contains("/d/two: another entry has that name already [AlreadyExist 11]"));
    assert!(b.fails(&["lift", "v", "big"], 8).contains("exists already"));
    assert!(b.fails(&["lift", "v", "no/out"], 8).contains("no such"));
    assert!(b.fails(&["map", "v", "--svg", "no/out"], 8).contains("no such"));
    assert!(b.fails(&["new", "v", "--blocks", "4"], 8).contains("exists already"));
    for (option, value) in [
        ("--blocks", "0"),
        ("--blocks", "1000001"),
        ("--block-len", "0"),
        ("--block-len", "511"),
        ("--block-len", "1024"),
        ("--block-len", "65537"),
        ("--dirs", "65535"),
        ("--files", "65536"),
        ("--buckets", "0"),
    ] {
        assert!(b.fails(&["new", "w", "--blocks", "4", option, value], 16).contains("is possible"));
    }
}

#[test]
fn full_tables() {
    let b = Bench::new();
    b.done(&["new", "v", "--blocks", "4", "--block-len", "512", "--dirs", "0", "--files", "1", "--buckets", "1"]);
    b.host("f", b"12345");
    b.done(&["put", "v", "f", "f"]);
    let line = b.fails(&["put", "v", "f", "g"], 8);
    assert!(line.contains("/g: the table of files is full [NoSpace 6]"), "{line}");
    let line = b.fails(&["mkdir", "v", "d"], 8);
    assert!(line.contains("/d: the table of directories is full [NoSpace 6]"), "{line}");
}

#[test]
fn names_that_are_no_text() {
    let b = Bench::with_volume();
    b.host("f", b"12345");
    b.done(&["put", "v", "f", "a\\x01b\\xff"]);
    b.done(&["put", "v", "f", "\\x2e\\x2e"]);
    b.done(&["mkdir", "v", "\\x2f"]);
    b.done(&["put", "v", "f", "\\x2f/größe"]);
    let text = b.done(&["ls", "--all", "v"]);
    for name in ["/\\x2f/\n", "/\\x2f/größe\n", "/\\x2e\\x2e\n", "/a\\x01b\\xff\n"] {
        assert!(text.contains(name), "{name} in {text}");
    }
    assert_eq!(b.done(&["cat", "v", "a\\x01b\\xff"]), "12345");
    assert_eq!(b.done(&["cat", "v", "\\x2f/gr\\xc3\\xb6\\xc3\\x9fe"]), "12345");
    b.done(&["lift", "v", "out"]);
    assert_eq!(fs::read(b.at("out/\\x2e\\x2e")).unwrap(), b"12345");
    assert_eq!(fs::read(b.at("out/\\x2f/größe")).unwrap(), b"12345");
    assert_eq!(fs::read(b.at("out/a\\x01b\\xff")).unwrap(), b"12345");
    // What lift named, put reads back.
    b.done(&["rm", "v", "a\\x01b\\xff"]);
    b.done(&["put", "v", "out/a\\x01b\\xff", "/"]);
    assert_eq!(b.done(&["cat", "v", "a\\x01b\\xff"]), "12345");
}

/// A volume with the files a, b and c and the directory d, all hashed to one bucket, so that a name can be changed in place.
fn one_bucket() -> Bench {
    let b = Bench::new();
    b.done(&["new", "v", "--blocks", "9", "--block-len", "512", "--dirs", "3", "--files", "5", "--buckets", "1"]);
    b.host("f", b"12345");
    ["a", "b", "c"].iter().for_each(|name| drop(b.done(&["put", "v", "f", name])));
    b.done(&["mkdir", "v", "d"]);
    b
}

#[test]
fn new_names_are_judged() {
    let b = one_bucket();
    b.done(&["new", "w", "--blocks", "9", "--block-len", "512", "--dirs", "3", "--files", "5", "--buckets", "1"]);
    for (name, what) in [("\\x00", "empty or begin with a zero byte"), ("x\\x00y", "a byte behind a zero one")] {
        for words in [
            &["put", "v", "f", name][..],
            &["mkdir", "v", name],
            &["mv", "v", "a", name],
            &["mv", "v", "d/", name],
            &["cp", "v", "a", "w", name],
            &["cp", "v", "d/", "w", name],
        ] {
            let line = b.fails(words, 8);
            assert!(line.contains(what) && line.contains("[InvalidValue 2]"), "{line}");
        }
    }
    b.done(&["mv", "v", "a", "0123456789abcdef"]);
}

#[test]
fn bad_names_that_are_there() {
    let b = one_bucket();
    assert!(!b.done(&["check", "v"]).contains("bad names"));
    b.poke("v/file_table.bin", 48 + 4, b"a\0x");
    b.poke("v/file_table.bin", 2 * 48 + 4, &[0]);
    b.poke("v/dir_table.bin", 2 * 40 + 4, b"d\0\0y");
    let text = b.done(&["check", "v"]);
    assert!(text.starts_with("SOUND") && text.contains("bad names              3"), "{text}");
    assert!(b.done(&["check", "--json", "v"]).contains("\"bad_names\": 3"));
    // They can be listed, read, lifted, changed and removed, and a new name cures them.
    assert!(b.done(&["ls", "v"]).contains("a\\x00x"));
    assert_eq!(b.done(&["cat", "v", "a\\x00x"]), "12345");
    b.done(&["lift", "v", "out"]);
    assert_eq!(fs::read(b.at("out/a\\x00x")).unwrap(), b"12345");
    b.done(&["put", "--replace", "v", "f", "a\\x00x"]);
    b.done(&["rm", "v", "\\x00"]);
    b.done(&["mv", "v", "a\\x00x", "a"]);
    b.done(&["mv", "v", "d\\x00\\x00y", "d"]);
    assert!(!b.done(&["check", "v"]).contains("bad names"));
    assert_eq!(b.done(&["cat", "v", "a"]), "12345");
}

#[test]
fn a_file_and_a_directory_of_one_name() {
    let b = Bench::with_volume();
    b.host("f", b"12345");
    b.done(&["put", "v", "f", "x"]);
    b.done(&["mkdir", "v", "x"]);
    b.done(&["put", "v", "f", "x/y"]);
    assert_eq!(b.done(&["cat", "v", "x"]), "12345");
    assert!(b.done(&["ls", "v", "x"]).contains("  y\n"));
    b.done(&["lift", "v", "out"]);
    assert_eq!(fs::read(b.at("out/x\\file")).unwrap(), b"12345");
    assert_eq!(fs::read(b.at("out/x/y")).unwrap(), b"12345");
    assert_eq!(b.done(&["mv", "v", "x/", "z"]), "moved /x to /z\n");
    assert_eq!(b.done(&["rm", "v", "x"]), "removed /x\n");
    assert!(b.done(&["ls", "v", "z"]).contains("  y\n"));
}
