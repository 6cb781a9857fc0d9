//! Folders onto a volume, parts of it out again, and from one volume to another.

use crate::bench::{noise, tree, two_files, Bench};
use std::fs;

/// A folder of the host with folders and files in it.
fn folder(b: &Bench) {
    fs::create_dir_all(b.at("src/saves/old")).unwrap();
    fs::create_dir(b.at("src/empty")).unwrap();
    b.host("src/saves/slot1", &noise(2400, 1));
    b.host("src/saves/old/slot0", &noise(10, 2));
    b.host("src/saves/nothing", b"");
    b.host("src/icon", &noise(64, 3));
}

fn roomy(b: &Bench, name: &str) {
    b.done(&["new", name, "--blocks", "100", "--block-len", "512"]);
}

#[test]
fn put_is_the_inverse_of_lift() {
    let b = Bench::new();
    folder(&b);
    roomy(&b, "v");
    assert_eq!(b.done(&["put", "v", "src/", "/"]), "put 4 files and 3 directories: 2,474 bytes in 7 blocks\n");
    b.done(&["lift", "v", "out"]);
    assert_eq!(tree(&b.at("out")), tree(&b.at("src")));
    roomy(&b, "w");
    b.done(&["put", "w", "out/", "/"]);
    assert_eq!(b.done(&["ls", "--all", "w"]), b.done(&["ls", "--all", "v"]));
    // The folder itself, below a directory and under a new name.
    b.done(&["put", "w", "src", "saves"]);
    assert!(b.done(&["ls", "--all", "w"]).contains("  /saves/src/saves/old/slot0\n"));
    b.done(&["put", "w", "src/saves/old", "older"]);
    assert!(b.done(&["ls", "--all", "w"]).contains("  /older/slot0\n"));
    // A second time the files are there, and nothing is changed unless asked for.
    assert!(b.fails(&["put", "w", "src/", "/"], 8).contains("/icon: there is such a file; --replace would change it"));
    assert_eq!(
        b.done(&["put", "--replace", "w", "src/", "/"]),
        "put 4 files and 0 directories: 2,474 bytes in 7 blocks\n"
    );
}

#[test]
fn marks_of_lift_are_read_back() {
    let b = two_files();
    b.done(&["mkdir", "v", "one"]);
    b.poke("v/file_table.bin", 2 * 48 + 32, &[1, 4]);
    assert_eq!(b.run(&["lift", "v", "out"]).status.code(), Some(4));
    assert!(b.at("out/one\\file").exists() && b.at("out/two\\short").exists());
    roomy(&b, "w");
    b.done(&["put", "w", "out/", "/"]);
    let text = b.done(&["ls", "w"]);
    assert!(text.contains("  one/\n") && text.contains("  one\n") && text.contains("  two\n"), "{text}");
}

#[test]
fn many_files_in_one_change_or_none() {
    let b = Bench::with_volume();
    for i in 0..7 {
        b.host(&format!("f{i}"), &noise(10, i));
    }
    assert_eq!(b.done(&["put", "v", "f0", "f1", "f2", "/"]), "put 3 files and 0 directories: 30 bytes in 3 blocks\n");
    // The table has room for 3 more: of four none comes.
    let line = b.fails(&["put", "v", "f3", "f4", "f5", "f6", "/"], 8);
    assert!(line.contains("/f6: the table of files is full [NoSpace 6]"), "{line}");
    assert!(b.fails(&["put", "v", "f3", "f4", "new"], 8).contains("/new: no such directory"));
    assert!(b.fails(&["put", "v", "f3", "nothing", "/"], 8).contains("nothing: no such file"));
    let text = b.done(&["put", "--verbose", "v", "f3", "f4", "/"]);
    assert!(text.starts_with("put /f3: 10 bytes in 1 block\nput /f4: 10 bytes in 1 block\nput 2 files"), "{text}");
    assert_eq!(b.done(&["put", "--quiet", "v", "f5", "/"]), "");
}

#[test]
fn strange_things_in_a_folder_are_refused() {
    let b = Bench::new();
    folder(&b);
    roomy(&b, "v");
    std::os::unix::fs::symlink("saves", b.at("src/link")).unwrap();
    assert!(b.fails(&["put", "v", "src", "/"], 8).contains("src/link: neither a file nor a folder"));
    fs::remove_file(b.at("src/link")).unwrap();
    b.host("src/saves/a name that is too long", b"");
    assert!(b.fails(&["put", "v", "src", "/"], 8).contains("a name has at most 16 bytes, this one has 23"));
}

#[test]
fn one_path_is_lifted() {
    let b = Bench::new();
    folder(&b);
    roomy(&b, "v");
    b.done(&["put", "v", "src/", "/"]);
    assert_eq!(
        b.done(&["lift", "v", "out", "saves"]),
        "lifted 3 files and 1 directory, 2,410 bytes, to out; all read back and equal\n"
    );
    assert_eq!(tree(&b.at("out")), tree(&b.at("src/saves")));
    b.done(&["lift", "v", "slot", "saves/slot1"]);
    assert_eq!(fs::read(b.at("slot")).unwrap(), noise(2400, 1));
    assert!(b.fails(&["lift", "v", "x", "saves/slot2"], 8).contains("no such"));
    assert_eq!(b.done(&["lift", "--quiet", "v", "y", "empty/"]), "");
    assert!(fs::read_dir(b.at("y")).unwrap().next().is_none());
}

#[test]
fn whole_directories_go() {
    let b = Bench::new();
    folder(&b);
    roomy(&b, "v");
    b.done(&["put", "v", "src/", "/"]);
    assert!(b.fails(&["rm", "v", "saves"], 8).contains("/saves: the directory is not empty [NotEmpty 14]"));
    assert_eq!(b.done(&["rm", "-r", "v", "saves"]), "removed /saves: 3 files and 2 directories\n");
    assert!(b.done(&["check", "--strict", "v"]).contains("free                  99\n"));
    assert_eq!(b.done(&["rm", "-r", "v", "/"]), "removed /: 1 file and 1 directory\n");
    assert!(b.done(&["check", "v"]).contains("free                 100\n"));
    b.done(&["put", "v", "src/icon", "icon"]);
    assert_eq!(b.done(&["rm", "-r", "v", "icon"]), "removed /icon\n");
}

#[test]
fn from_one_volume_to_another() {
    let b = Bench::new();
    folder(&b);
    roomy(&b, "v");
    b.done(&["new", "w", "--blocks", "20", "--block-len", "512", "--files", "9", "--dirs", "9"]);
    b.done(&["put", "v", "src/", "/"]);
    // What an entry carries beside its record comes along.
    let table = fs::read(b.at("v/file_table.bin")).unwrap();
    let icon = table.chunks(48).position(|e| e[4..20] == *b"icon\0\0\0\0\0\0\0\0\0\0\0\0").unwrap();
    b.poke("v/file_table.bin", icon * 48 + 24, &[1, 2, 3, 4]);
    b.poke("v/file_table.bin", icon * 48 + 40, &[5, 6, 7, 8]);
    assert_eq!(b.done(&["cp", "v", "/", "w", "/"]), "cp 4 files and 3 directories: 2,474 bytes in 7 blocks\n");
    b.done(&["lift", "w", "out"]);
    assert_eq!(tree(&b.at("out")), tree(&b.at("src")));
    let table = fs::read(b.at("w/file_table.bin")).unwrap();
    let entry = table.chunks(48).find(|e| e[4..20] == *b"icon\0\0\0\0\0\0\0\0\0\0\0\0").unwrap();
    assert_eq!((&entry[24..28], &entry[40..44]), (&[1, 2, 3, 4][..], &[5, 6, 7, 8][..]));

    assert_eq!(b.done(&["cp", "v", "saves/slot1", "w", "empty/"]), "cp /empty/slot1: 2,400 bytes in 5 blocks\n");
    assert!(b.fails(&["cp", "v", "icon", "w", "/"], 8).contains("AlreadyExist 11"));
    b.done(&["cp", "--replace", "v", "icon", "w", "/"]);
    b.done(&["cp", "v", "saves/old", "w", "older"]);
    assert_eq!(b.run(&["cat", "w", "older/slot0"]).stdout, noise(10, 2));
    // Within one volume too.
    b.done(&["cp", "w", "icon", "w", "icon2"]);
    assert_eq!(b.run(&["cat", "w", "icon2"]).stdout, noise(64, 3));
    // The root under a new name, where there is room for it.
    assert!(b.fails(&["cp", "v", "/", "w", "all"], 8).contains("the table of files is full [NoSpace 6]"));
    roomy(&b, "x");
    b.done(&["cp", "v", "/", "x", "all/"]);
    assert!(b.done(&["ls", "--all", "x"]).contains("  /all/saves/old/slot0\n"));
}

#[test]
fn what_is_wrong_is_not_copied() {
    let b = two_files();
    roomy(&b, "w");
    b.poke("v/file_table.bin", 2 * 48 + 28, &[7, 0, 0, 0]);
    let out = b.run(&["cp", "v", "/", "w", "/"]);
    assert_eq!(out.status.code(), Some(4));
    assert!(String::from_utf8(out.stderr).unwrap().contains("not copied: /two: block 7, where it should begin"));
    assert_eq!(b.run(&["cat", "w", "one"]).stdout, noise(600, 1));
    assert!(b.fails(&["cat", "w", "two"], 8).contains("no such"));
}

#[test]
fn a_volume_is_held_against_a_folder() {
    let b = Bench::new();
    folder(&b);
    roomy(&b, "v");
    b.done(&["put", "v", "src/", "/"]);
    b.done(&["lift", "v", "out"]);
    assert_eq!(b.done(&["verify", "v", "out"]), "EQUAL  v  out\n  equal: 4 files and 3 directories\n");
    assert_eq!(b.done(&["verify", "--quiet", "v", "out/"]), "EQUAL  v  out/\n");
    assert!(b.done(&["verify", "--verbose", "v", "out"]).contains("  = /saves/old/slot0\n"));
    // What is on one side alone, what is longer, and what is another by one byte.
    b.host("out/more", b"1");
    b.host("out/saves/nothing", b"something");
    b.poke("out/saves/slot1", 17, &[0]);
    fs::remove_file(b.at("out/icon")).unwrap();
    fs::remove_dir(b.at("out/empty")).unwrap();
    let out = b.run(&["verify", "v", "out"]);
    assert_eq!(out.status.code(), Some(4));
    assert_eq!(
        String::from_utf8(out.stdout).unwrap(),
        "NOT EQUAL  v  out\n  - /empty: only on the volume\n  - /saves/nothing: 0 bytes on the volume, 9 in the folder\n  \
         - /saves/slot1: differs from byte 17 on\n  - /icon: only on the volume\n  - /more: only in the folder\n  \
         equal: 1 file and 2 directories\n"
    );
    assert!(b.fails(&["verify", "v", "nothing"], 8).contains("nothing: no such file or folder"));
}

#[test]
fn the_replacement_is_held_against_what_was_lifted() {
    let b = two_files();
    b.done(&["mkdir", "v", "one"]);
    b.poke("v/file_table.bin", 2 * 48 + 32, &[0; 8]);
    b.done(&["lift", "v", "out"]);
    b.done(&["verify", "v", "out"]);
    roomy(&b, "w");
    b.done(&["put", "w", "out/", "/"]);
    // Marks are left out, and what was in lost+found/ is a file now.
    assert_eq!(b.done(&["verify", "w", "out"]), "EQUAL  w  out\n  equal: 3 files and 2 directories\n");
}
