//! Edges: outputs that are closed or full, sizes that are absurd, words that are wrong, and things moved onto themselves.

use crate::bench::{noise, tree, two_files, Bench};
use crate::json;
use std::fs;
use std::io::Write;
use std::process::{Command, Stdio};

/// The exit code of the tool with its outputs as the shell sets them.
fn in_shell(b: &Bench, words: &[&str], outputs: &str) -> Option<i32> {
    let script = format!("\"$0\" \"$@\" {outputs}");
    let tool = env!("CARGO_BIN_EXE_mukthiban");
    let status =
        Command::new("sh").args(["-c", &script, tool]).args(words).current_dir(&b.0).stderr(Stdio::null()).status();
    status.unwrap().code()
}

#[test]
fn outputs_that_are_closed_or_full() {
    let b = two_files();
    for words in [&["check", "v"][..], &["ls", "v"], &["cat", "v", "one"], &["map", "v"], &["--help"]] {
        assert_eq!(in_shell(&b, words, ">&-"), Some(0), "{words:?}");
        assert_eq!(in_shell(&b, words, "2>&-"), Some(0), "{words:?}");
        assert_eq!(in_shell(&b, words, ">/dev/full"), Some(8), "{words:?}");
        assert_eq!(in_shell(&b, words, ">/dev/full 2>/dev/full"), Some(8), "{words:?}");
    }
    for (words, code) in [(&["check", "w"][..], 8), (&["check"], 16), (&["check", "w", "--json"], 8)] {
        assert_eq!(in_shell(&b, words, "2>/dev/full"), Some(code), "{words:?}");
        assert_eq!(in_shell(&b, words, "2>&- >&-"), Some(code), "{words:?}");
    }
    // A file whose record is wrong makes lift complain.
    b.poke("v/file_table.bin", 2 * 48 + 28, &[7, 0, 0, 0]);
    assert_eq!(in_shell(&b, &["lift", "v", "out"], "2>/dev/full"), Some(4));
}

#[test]
fn sizes_are_judged_before_anything_is_read() {
    let b = two_files();
    for (name, refusal) in [
        ("fat.bin", "SizeMismatch"),
        ("data.bin", "SizeMismatch"),
        ("dir_hash.bin", "InvalidValue"),
        ("dir_table.bin", "InvalidValue"),
        ("file_hash.bin", "InvalidValue"),
        ("file_table.bin", "InvalidValue"),
    ] {
        let path = b.at("v").join(name);
        let length = fs::metadata(&path).unwrap().len();
        let file = fs::OpenOptions::new().write(true).open(&path).unwrap();
        file.set_len(1 << 42).unwrap();
        let out = b.run(&["check", "v"]);
        let text = String::from_utf8(out.stdout).unwrap();
        assert_eq!(out.status.code(), Some(4), "{name}: {text}");
        assert!(text.starts_with(&format!("NOT SOUND  v\n  {refusal} (")), "{text}");
        assert!(text.contains(name), "{text}");
        let words = ["mkdir", "v", "d"];
        let line = String::from_utf8(b.run(&words).stderr).unwrap();
        assert!(line.contains(&format!("[{refusal} ")), "{line}");
        file.set_len(length).unwrap();
    }
    b.done(&["check", "v"]);
}

#[test]
fn put_stops_at_the_room_that_is_there() {
    let b = two_files();
    let line = b.fails(&["put", "v", "/dev/zero", "zero"], 8);
    assert!(line.contains("/zero: it needs more than 36 blocks, and 36 are free [NoSpace 6]"), "{line}");
    let sparse = fs::File::create(b.at("sparse")).unwrap();
    sparse.set_len(1 << 42).unwrap();
    let before = tree(&b.at("v"));
    let out = b.run(&["put", "v", "sparse", "sparse"]);
    assert_eq!(out.status.code(), Some(8));
    assert!(String::from_utf8(out.stderr).unwrap().contains("it needs 8,589,934,592 blocks, and 36 are free"));
    assert_eq!(tree(&b.at("v")), before);
}

#[test]
fn every_wrong_word_is_16() {
    let b = two_files();
    for words in [
        &["help", "repair"][..],
        &["--version", "x"],
        &["help", "ls", "x"],
        &["ls", "v", "a\\b"],
        &["ls", "v", "0123456789abcdefg"],
        &["put", "v", "one", "a\\x1"],
        &["put", "v", "-", "/"],
        &["new", "w", "--blocks", "0"],
        &["new", "w", "--blocks", "9", "--block-len", "65537"],
        &["new", "w", "--blocks", "-1"],
        &["check", "v", "--wait", "-1"],
        &["check", "v", "--wait", ""],
        &["check", "v", "-r"],
        &["rm", "v", "-rf", "one"],
        &["lift", "v", "out", "one", "two"],
        &["cp", "v", "one", "w"],
    ] {
        b.fails(words, 16);
    }
    use std::os::unix::ffi::OsStrExt;
    let out = b.tool(&["check", "v"]).arg(std::ffi::OsStr::from_bytes(b"--\xff")).output().unwrap();
    assert_eq!(out.status.code(), Some(16));
    // Behind -- everything is a word.
    assert!(b.fails(&["ls", "v", "--", "--all"], 8).contains("/--all: no such file"));
}

#[test]
fn dots_name_directories() {
    let b = two_files();
    b.done(&["mkdir", "v", "d"]);
    assert_eq!(b.done(&["put", "v", "one", "d/."]), "put /d/one: 600 bytes in 2 blocks\n");
    b.done(&["rm", "v", "one"]);
    assert_eq!(b.done(&["put", "v", "one", "."]), "put /one: 600 bytes in 2 blocks\n");
    assert_eq!(b.done(&["mv", "v", "d/one", "d/../two2"]), "moved /d/one to /two2\n");
    assert!(b.done(&["ls", "v", "d/.."]).contains("two2"));
}

#[test]
fn moved_onto_itself() {
    let b = two_files();
    b.done(&["mkdir", "v", "d"]);
    b.done(&["mkdir", "v", "d/e"]);
    for (from, to) in [("one", "one"), ("one", "."), ("one", "/"), ("d/e", "d"), ("d", "/"), ("./one", "/one")] {
        let line = b.fails(&["mv", "v", from, to], 8);
        assert!(line.contains("it is there already"), "{from} {to}: {line}");
    }
    assert!(b.fails(&["mv", "v", "d", "d"], 8).contains("IntoItself 15"));
}

#[test]
fn errors_as_json() {
    let b = two_files();
    for (words, code, command) in [
        (&["check", "w", "--json"][..], 8, "check"),
        (&["cat", "v", "x", "--json"], 8, "cat"),
        (&["rm", "--json", "v", "x\\"], 16, "rm"),
        (&["repair", "--json"], 16, ""),
    ] {
        let out = b.run(words);
        assert_eq!(out.status.code(), Some(code), "{words:?}");
        assert!(out.stdout.is_empty());
        let value = json::parse(&String::from_utf8(out.stderr).unwrap());
        assert_eq!(value.get("version"), &json::Value::Number(1.0));
        assert_eq!(value.get("command"), &json::Value::Text(command.into()));
        assert_eq!(value.get("error").get("code"), &json::Value::Number(code.into()));
        assert!(matches!(value.get("error").get("what"), json::Value::Text(_)));
    }
}

#[test]
fn a_reader_that_goes_away_is_no_fault() {
    let b = two_files();
    b.done(&["new", "w", "--blocks", "4000"]);
    b.host("big", &noise(2_000_000, 1));
    b.done(&["put", "w", "big", "big"]);
    assert_eq!(in_shell(&b, &["cat", "w", "big"], "| head -c 10 >/dev/null"), Some(0));
    let mut child = b.tool(&["put", "v", "-", "new"]).stdin(Stdio::piped()).stdout(Stdio::null()).spawn().unwrap();
    child.stdin.take().unwrap().write_all(b"from a pipe").unwrap();
    assert!(child.wait().unwrap().success());
    assert_eq!(b.done(&["cat", "v", "new"]), "from a pipe");
}
