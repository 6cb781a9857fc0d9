//! Nothing but the volume is touched, and no two touch it at once.

use crate::bench::{leftovers, tree, two_files, Bench};
use std::fs;

#[test]
fn other_files_in_the_folder_stay() {
    let b = two_files();
    fs::write(b.at("v/notes.txt"), "battery swollen").unwrap();
    fs::create_dir(b.at("v/photos")).unwrap();
    fs::write(b.at("v/photos/1"), "x").unwrap();
    b.done(&["mkdir", "v", "d"]);
    assert_eq!(fs::read_to_string(b.at("v/notes.txt")).unwrap(), "battery swollen");
    assert_eq!(fs::read_to_string(b.at("v/photos/1")).unwrap(), "x");
    assert_eq!(leftovers(&b), ["one", "two", "v"]);
}

#[test]
fn the_folder_its_files_owners_and_permissions_stay() {
    use std::os::unix::fs::{chown, MetadataExt, PermissionsExt};
    let b = two_files();
    let data = b.at("v/data.bin");
    fs::set_permissions(&data, fs::Permissions::from_mode(0o640)).unwrap();
    fs::set_permissions(b.at("v"), fs::Permissions::from_mode(0o750)).unwrap();
    let _ = chown(&data, Some(1234), Some(1234)); // where the test may
    let seen = |name: &str| fs::metadata(b.at(name)).map(|m| (m.ino(), m.mode(), m.uid(), m.gid())).unwrap();
    let all = ["v", "v/fat.bin", "v/data.bin", "v/file_table.bin", "v/dir_table.bin", "v/block_len"];
    let before = all.map(seen);
    let times = ["v/data.bin", "v/block_len"].map(|n| fs::metadata(b.at(n)).unwrap().modified().unwrap());
    b.done(&["mkdir", "v", "d"]);
    b.done(&["mv", "v", "one", "d/"]);
    assert_eq!(all.map(seen), before);
    // What is not changed keeps its time too.
    assert_eq!(["v/data.bin", "v/block_len"].map(|n| fs::metadata(b.at(n)).unwrap().modified().unwrap()), times);
    b.done(&["put", "v", "two", "one", "--replace"]);
    assert_eq!(all.map(seen), before);
}

/// Leftovers of other programs, and links, beside and in the volume.
fn with_strangers() -> Bench {
    let b = two_files();
    fs::create_dir(b.at("precious")).unwrap();
    for name in ["fat.bin", "data.bin", "dir_hash.bin", "dir_table.bin", "file_hash.bin", "file_table.bin", "block_len"]
    {
        fs::write(b.at("precious").join(name), "mine").unwrap();
    }
    std::os::unix::fs::symlink("precious", b.at("v.mukthiban-new")).unwrap();
    std::os::unix::fs::symlink("precious", b.at("v.mukthiban-old")).unwrap();
    b
}

#[test]
fn reading_changes_nothing() {
    let b = with_strangers();
    std::os::unix::fs::symlink("../precious/fat.bin", b.at("v/mukthiban.journal")).unwrap();
    std::os::unix::fs::symlink("../precious/fat.bin", b.at("v/mukthiban.journal.part")).unwrap();
    let before = (tree(&b.0), fs::metadata(b.at("v")).unwrap().modified().unwrap());
    for words in [&["check", "v"][..], &["ls", "v"], &["cat", "v", "one"], &["map", "v"]] {
        assert_eq!(b.run(words).status.code(), Some(0), "{words:?}");
        assert_eq!((tree(&b.0), fs::metadata(b.at("v")).unwrap().modified().unwrap()), before, "{words:?}");
    }
    b.done(&["lift", "v", "out"]);
    fs::remove_dir_all(b.at("out")).unwrap();
    assert_eq!(tree(&b.0), before.0);
}

#[test]
fn changing_touches_only_its_own() {
    let b = with_strangers();
    let before = tree(&b.at("precious"));
    b.done(&["mkdir", "v", "d"]);
    b.done(&["rm", "v", "one"]);
    for name in ["v/mukthiban.journal", "v/mukthiban.journal.part"] {
        std::os::unix::fs::symlink("../precious/fat.bin", b.at(name)).unwrap();
        assert!(b.fails(&["mkdir", "v", "e"], 8).contains(&format!("{name}: has a journal's name, but is none")));
        fs::remove_file(b.at(name)).unwrap();
        fs::write(b.at(name), "my diary").unwrap();
        assert!(b.fails(&["mkdir", "v", "e"], 8).contains(&format!("{name}: has a journal's name, but is none")));
        assert_eq!(fs::read(b.at(name)).unwrap(), b"my diary");
        fs::remove_file(b.at(name)).unwrap();
    }
    b.done(&["mkdir", "v", "e"]);
    assert_eq!(tree(&b.at("precious")), before);
    for link in ["v.mukthiban-new", "v.mukthiban-old"] {
        assert!(b.at(link).symlink_metadata().unwrap().is_symlink());
    }
}

#[test]
fn one_at_a_time_and_at_once_said() {
    let b = two_files();
    b.done(&["new", "w", "--blocks", "4"]);
    let folder = fs::File::open(b.at("v")).unwrap();
    folder.lock_shared().unwrap();
    b.done(&["check", "v"]);
    let line = b.fails(&["mkdir", "v", "d"], 8);
    assert!(line.contains("v: another program is working on this volume; --wait SECONDS would wait for it"), "{line}");
    folder.lock().unwrap();
    for words in [&["check", "v"][..], &["ls", "v"], &["put", "v", "one", "x"], &["rm", "v", "one"]] {
        assert!(b.fails(words, 8).contains("another program is working on this volume"), "{words:?}");
    }
    assert!(b.fails(&["check", "v", "--wait", "1"], 8).contains("another program"));
    // Another volume in the same folder is not held up, and who waits gets his turn.
    b.done(&["mkdir", "w", "d"]);
    let waiting = b.tool(&["mkdir", "v", "d", "--wait", "60"]).stdout(std::process::Stdio::null()).spawn().unwrap();
    std::thread::sleep(std::time::Duration::from_millis(100));
    folder.unlock().unwrap();
    assert!(waiting.wait_with_output().unwrap().status.success());
    b.fails(&["check", "v", "--wait", "soon"], 16);
}

#[test]
fn many_at_once() {
    let b = Bench::with_volume();
    b.host("f", b"12345");
    let runs: Vec<_> = (0..6)
        .map(|i| {
            let words = ["put", "v", "f", &format!("f{i}"), "--wait", "60"];
            b.tool(&words).stdout(std::process::Stdio::null()).spawn().unwrap()
        })
        .collect();
    for mut run in runs {
        assert!(run.wait().unwrap().success());
    }
    assert!(b.done(&["check", "v"]).contains("files                  6\n"));
}

#[test]
fn the_volume_may_be_named_in_many_ways() {
    let b = two_files();
    std::os::unix::fs::symlink("v", b.at("link")).unwrap();
    b.done(&["mkdir", "link", "a"]);
    b.done(&["mkdir", "./v/", "b"]);
    let out = b.tool(&["mkdir", ".", "c"]).current_dir(b.at("v")).output().unwrap();
    assert!(out.status.success());
    assert!(b.at("link").symlink_metadata().unwrap().is_symlink());
    assert!(b.done(&["check", "v"]).contains("directories            4"));
}

/// A change of a large volume takes neither the time nor the space of the whole.
#[test]
fn a_change_costs_what_it_changes() {
    use std::os::unix::fs::MetadataExt;
    let b = Bench::new();
    b.done(&["new", "v", "--blocks", "1000000"]);
    b.host("f", b"12345");
    let used =
        || -> u64 { fs::read_dir(b.at("v")).unwrap().map(|e| e.unwrap().metadata().unwrap().blocks() * 512).sum() };
    let before = used();
    b.done(&["put", "v", "f", "f"]);
    b.done(&["put", "v", "f", "g"]);
    b.done(&["mv", "v", "f", "h"]);
    assert_eq!(fs::metadata(b.at("v/data.bin")).unwrap().len(), 512_000_000);
    assert!(used() < before + 1_000_000, "{before} {}", used());
    assert_eq!(b.done(&["cat", "v", "h"]), "12345");
}
