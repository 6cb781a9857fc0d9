//! Damaged volumes: what is said of them, and that they are not written.

use crate::bench::{noise, two_files, Bench};
use crate::json;
use std::fs;

/// What a check of an unsound volume says; no other command changes it.
fn unsound(b: &Bench) -> String {
    let out = b.run(&["check", "v"]);
    let text = String::from_utf8(out.stdout).unwrap();
    assert_eq!(out.status.code(), Some(4), "{text}");
    assert!(text.starts_with("NOT SOUND  v\n"), "{text}");
    for words in [&["put", "v", "one", "x"][..], &["mkdir", "v", "d"], &["mv", "v", "one", "x"], &["rm", "v", "one"]] {
        b.fails(words, 4);
    }
    let json = b.run(&["check", "--json", "v"]);
    assert_eq!(json.status.code(), Some(4));
    let value = json::parse(&String::from_utf8(json.stdout).unwrap());
    assert_eq!(value.get("sound"), &json::Value::Bool(false));
    text
}

#[test]
fn missing_and_short_files() {
    let b = Bench::with_volume();
    for name in ["fat.bin", "data.bin", "dir_hash.bin", "dir_table.bin", "file_hash.bin", "file_table.bin", "block_len"]
    {
        let path = b.at("v").join(name);
        let bytes = fs::read(&path).unwrap();
        fs::remove_file(&path).unwrap();
        assert!(b.fails(&["check", "v"], 8).contains(&format!("v/{name}: no such file")), "{name}");
        assert!(b.fails(&["mkdir", "v", "d"], 8).contains(name));
        if name != "block_len" {
            fs::write(&path, &bytes[..7]).unwrap();
            let out = b.run(&["check", "v"]);
            let text = String::from_utf8(out.stdout).unwrap();
            assert_eq!(out.status.code(), Some(4));
            assert!(text.starts_with("NOT SOUND  v\n  SizeMismatch (1): "), "{text}");
            assert!(text.contains(&format!("{name} has 7 bytes")), "{text}");
            let line = b.fails(&["mkdir", "v", "d"], 4);
            assert!(line.contains(&format!("{name} has 7 bytes")) && line.contains("[SizeMismatch 1]"), "{line}");
        }
        fs::write(&path, bytes).unwrap();
    }
    for text in ["", "abc", "-1", "1e3", "\u{661}"] {
        fs::write(b.at("v/block_len"), text).unwrap();
        assert!(b.fails(&["check", "v"], 8).contains("v/block_len: the block length is no number"), "{text}");
    }
    for text in ["0", "99999999999"] {
        fs::write(b.at("v/block_len"), text).unwrap();
        b.fails(&["ls", "v"], 4);
    }
    fs::write(b.at("v/block_len"), " 512 \n").unwrap();
    b.done(&["check", "v"]);
}

#[test]
fn two_chains_that_claim_one_block() {
    let b = two_files();
    // The first file's node names the second file's node as its next.
    b.poke("v/fat.bin", 12, &[3, 0, 0, 0x80]);
    let text = unsound(&b);
    assert!(text.contains("  BrokenFat (4): the block table is not sound"), "{text}");
    assert!(text.contains("  - two files claim block 2: /one and /two\n"), "{text}");
    assert!(text.contains("  entry tables  sound\n"), "{text}");
    for words in [&["cat", "v", "one"][..], &["lift", "v", "out"]] {
        assert!(b.fails(words, 4).contains("[BrokenFat 4]"));
    }
    for words in [&["ls", "v"][..], &["map", "v"]] {
        let out = b.run(words);
        assert_eq!(out.status.code(), Some(4));
        assert!(String::from_utf8(out.stderr).unwrap().contains("[BrokenFat 4]"));
        assert!(String::from_utf8(out.stdout).unwrap().contains("/two"));
    }
}

#[test]
fn records_that_claim_one_chain() {
    let b = two_files();
    let table = fs::read(b.at("v/file_table.bin")).unwrap();
    // The first block of file 2: entry 2, behind the key and next, behind 4 spare bytes.
    assert_eq!(table[2 * 48 + 28..2 * 48 + 32], [2, 0, 0, 0]);
    b.poke("v/file_table.bin", 2 * 48 + 28, &[0, 0, 0, 0]);
    let text = unsound(&b);
    assert!(text.contains("  - /two: two files claim block 0: this one and /one\n"), "{text}");
    assert!(
        text.contains("lost chains            1  no file names them; 2 blocks; lift writes them to lost+found/\n"),
        "{text}"
    );
    // Who is right can't be told: both are flagged, both are lifted with a mark, and so is what no record names.
    assert!(text.contains("  - /one: two files claim block 0: this one and /two\n"), "{text}");
    let out = b.run(&["lift", "v", "out"]);
    assert_eq!(out.status.code(), Some(4));
    let said = String::from_utf8(out.stderr).unwrap();
    for name in ["one", "two"] {
        assert!(
            said.contains(&format!("lifted with a mark, to out/{name}\\shared: /{name}: two files claim")),
            "{said}"
        );
        assert_eq!(fs::read(b.at(&format!("out/{name}\\shared"))).unwrap(), noise(600, 1));
        assert!(!b.at(&format!("out/{name}")).exists());
        assert!(b.fails(&["cat", "v", name], 4).contains("two files claim"));
    }
    assert_eq!(fs::read(b.at("out/lost+found/block-2")).unwrap()[..600], noise(600, 2));
    assert!(b.done(&["map", "v"]).contains("lost chain from block 2"));
    assert!(b.done(&["ls", "v"]).contains("  one  (its record is wrong: see check)\n"));
}

#[test]
fn three_records_on_one_chain() {
    let b = two_files();
    b.done(&["put", "v", "two", "three"]);
    b.poke("v/file_table.bin", 2 * 48 + 28, &[0, 0, 0, 0]);
    b.poke("v/file_table.bin", 3 * 48 + 28, &[0, 0, 0, 0]);
    let text = unsound(&b);
    for line in [
        "/one: 3 files claim block 0: this one, /two and 1 more",
        "/two: 3 files claim block 0: this one, /one and 1 more",
        "/three: 3 files claim block 0: this one, /one and 1 more",
    ] {
        assert!(text.contains(&format!("  - {line}\n")), "{text}");
    }
    assert_eq!(text.matches("  - ").count(), 3);
}

#[test]
fn records_that_fit_no_chain() {
    let b = two_files();
    b.poke("v/file_table.bin", 2 * 48 + 28, &[7, 0, 0, 0]);
    assert!(unsound(&b).contains("  - /two: block 7, where it should begin, is no file's first block\n"));
    let out = b.run(&["lift", "v", "out", "two"]);
    assert_eq!(out.status.code(), Some(4));
    assert!(String::from_utf8(out.stderr).unwrap().contains("not lifted: /two: block 7"));
    assert!(!b.at("out").exists() && !b.at("out.part").exists());
    b.poke("v/file_table.bin", 2 * 48 + 28, &[2, 0, 0, 0, 1, 4]);
    assert!(unsound(&b).contains("  - /two: 1,025 bytes, but its 2 blocks can hold only 1,024\n"));
    b.poke("v/file_table.bin", 2 * 48 + 32, &[255; 8]);
    unsound(&b);
}

#[test]
fn the_lists_tell_the_age() {
    let b = Bench::new();
    b.done(&["new", "v", "--blocks", "8", "--block-len", "512", "--dirs", "2", "--files", "4", "--buckets", "1"]);
    for name in ["one", "two"] {
        b.host(name, b"bytes");
        b.done(&["put", "v", name, "/"]);
    }
    assert_eq!(
        b.done(&["age", "v"]),
        "3 entries, the newest first  v\n      0  /\n      0  /two  over /one\n      1  /one\n"
    );
    assert!(!b.done(&["check", "v"]).contains("circle"));
    // The bucket says that the first is the newer one, the directory's list that the second is.
    b.poke("v/file_hash.bin", 0, &[1, 0, 0, 0]);
    b.poke("v/file_table.bin", 48 + 44, &[2, 0, 0, 0]);
    b.poke("v/file_table.bin", 2 * 48 + 44, &[0, 0, 0, 0]);
    let line = "  ! the lists contradict each other, as with no honest writer: links lead from /one into a circle\n";
    assert!(b.done(&["check", "v"]).contains(line), "a remark, and no refusal");
    let out = b.run(&["age", "v"]);
    assert_eq!(out.status.code(), Some(4));
    let expected = format!(
        "3 entries, the newest first  v\n{line}      0  /\n      ?  /one  over /two\n      ?  /two  over /one\n"
    );
    assert_eq!(String::from_utf8(out.stdout).unwrap(), expected);
    b.poke("v/fat.bin", 0, &[1]);
    assert!(b.fails(&["age", "v"], 4).contains("[BrokenFat 4]"));
}

#[test]
fn the_audit_lists_every_kind() {
    let b = two_files();
    assert_eq!(b.done(&["audit", "v"]), "0 findings  v\n");
    assert_eq!(b.done(&["audit", "v", "--quiet"]), "");
    for name in ["three", "four", "five"] {
        b.done(&["put", "v", "two", name]);
    }
    let record = |inode: usize, block: u8, size: u64| {
        b.poke("v/file_table.bin", inode * 48 + 28, &[block, 0, 0, 0]);
        b.poke("v/file_table.bin", inode * 48 + 32, &size.to_le_bytes());
    };
    record(2, 0, 1025);
    record(3, 10, 1); // the free chain's first
    record(4, 6, (1 << 32) + 1);
    record(5, 2, 0); // empty: it names no chain
    let out = b.run(&["audit", "v"]);
    assert_eq!(out.status.code(), Some(4));
    let expected = "7 findings  v
  2 /two: two files claim block 0: this one and /one
  3 /two: 1,025 bytes, but its 2 blocks can hold only 1,024
  1 /three: block 10, where it should begin, is no file's first block
  3 /four: 4,294,967,297 bytes, but its 2 blocks can hold only 1,024
  4 no file names the chain from block 2, 2 blocks; /five is empty, but begins there
  4 no file names the chain from block 4, 2 blocks
  4 no file names the chain from block 8, 2 blocks
";
    assert_eq!(String::from_utf8(out.stdout).unwrap(), expected);
    b.poke("v/fat.bin", 0, &[1]);
    assert!(b.fails(&["audit", "v"], 4).contains("[BrokenFat 4]"));
}

#[test]
fn what_is_remarkable_is_said_first_and_strict_counts_it() {
    let b = two_files();
    assert!(b.done(&["check", "--strict", "v"]).starts_with("SOUND  v\n"));
    // A save whose size field was zeroed: the file is empty, and its chain has no file.
    b.poke("v/file_table.bin", 2 * 48 + 32, &[0; 8]);
    let text = b.done(&["check", "v"]);
    let first =
        "SOUND, 1 remark  v\n  ! no file names the chain from block 2, 2 blocks; /two is empty, but begins there\n";
    assert!(text.starts_with(first), "{text}");
    let out = b.run(&["check", "--strict", "v"]);
    assert_eq!((out.status.code(), String::from_utf8(out.stdout).unwrap()), (Some(4), text));
    let said = b.done(&["lift", "v", "out"]);
    assert!(said.contains("; 1 lost chain to lost+found/\n"), "{said}");
    let mut whole = noise(600, 2);
    whole.resize(1024, 0);
    assert_eq!(fs::read(b.at("out/lost+found/block-2")).unwrap(), whole);
    assert_eq!(b.run(&["lift", "--strict", "v", "out2"]).status.code(), Some(4));
    assert!(b.at("out2/lost+found/block-2").exists());

    // A size that leaves whole blocks unused.
    b.poke("v/file_table.bin", 2 * 48 + 32, &[0, 2]);
    let text = b.done(&["check", "v"]);
    assert!(
        text.starts_with("SOUND, 1 remark  v\n  ! /two: 512 bytes, but it has 2 blocks, which hold 1,024\n"),
        "{text}"
    );
    assert_eq!(b.run(&["check", "--strict", "v"]).status.code(), Some(4));
    b.poke("v/file_table.bin", 2 * 48 + 32, &[1, 2]);
    b.done(&["check", "--strict", "v"]);
}

#[test]
fn a_directory_named_lost_and_found_stays_what_it_is() {
    let b = two_files();
    b.done(&["mkdir", "v", "lost+found"]);
    b.done(&["put", "v", "one", "lost+found/block-2"]);
    b.poke("v/file_table.bin", 2 * 48 + 32, &[0; 8]);
    b.done(&["lift", "v", "out"]);
    assert_eq!(fs::read(b.at("out/lost+found/block-2")).unwrap(), noise(600, 1));
    assert_eq!(fs::read(b.at("out/lost+found\\lost/block-2")).unwrap()[..600], noise(600, 2));
}

#[test]
fn a_file_longer_than_its_blocks_is_lifted_as_far_as_they_go() {
    let b = two_files();
    b.poke("v/file_table.bin", 2 * 48 + 32, &[255; 8]);
    let out = b.run(&["lift", "v", "out"]);
    assert_eq!(out.status.code(), Some(4));
    assert_eq!(fs::read(b.at("out/two\\short")).unwrap()[..600], noise(600, 2));
    assert_eq!(fs::read(b.at("out/two\\short")).unwrap().len(), 1024);
    assert_eq!(fs::read(b.at("out/one")).unwrap(), noise(600, 1));
}

#[test]
fn broken_trees() {
    let b = two_files();
    b.poke("v/file_table.bin", 0, &[99]);
    let text = unsound(&b);
    assert!(text.contains("  BrokenTree (9): "), "{text}");
    assert!(text.contains("  block table   sound\n  entry tables  BrokenTree (9)\n"), "{text}");
}

/// No damage of a small volume makes the tool panic, and what is damaged is never written.
#[test]
fn damage_everywhere() {
    let b = two_files();
    let mut seen = [0; 2];
    for name in ["fat.bin", "dir_table.bin", "file_table.bin", "dir_hash.bin", "file_hash.bin"] {
        let whole = fs::read(b.at("v").join(name)).unwrap();
        for at in (0..whole.len()).step_by(if name == "fat.bin" { 5 } else { 13 }) {
            let mut damaged = whole.clone();
            damaged[at] ^= 0x81;
            fs::write(b.at("v").join(name), &damaged).unwrap();
            let out = b.run(&["check", "v"]);
            let text = String::from_utf8_lossy(&out.stdout).into_owned();
            match out.status.code() {
                Some(0) => assert!(text.starts_with("SOUND"), "{name} {at}"),
                Some(4) => assert!(text.starts_with("NOT SOUND"), "{name} {at}"),
                other => panic!("{name} {at}: {other:?} {}", String::from_utf8_lossy(&out.stderr)),
            }
            if out.status.code() == Some(4) {
                let points = if name == "fat.bin" { "\n  rule " } else { "\n  - " };
                assert!(text.contains(points), "{name} {at}: nothing points to the fault: {text}");
                b.fails(&["mkdir", "v", "d"], 4);
                seen[1] += 1;
            } else {
                seen[0] += 1;
            }
            fs::write(b.at("v").join(name), &whole).unwrap();
        }
    }
    assert!(seen[0] > 0 && seen[1] > 0, "{seen:?}");
}
