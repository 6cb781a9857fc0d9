//! As many files as a volume can have: time in proportion to them.

use crate::bench::{tree, Bench};
use mukthiban::{Volume, ROOT};
use std::fs;
use std::time::{Duration, Instant};

/// Runs a command that must be done in a time that only a walk in proportion keeps, also in a debug build.
fn quickly(b: &Bench, words: &[&str]) -> String {
    let begin = Instant::now();
    let text = b.done(words);
    assert!(begin.elapsed() < Duration::from_secs(60), "{words:?} took {:?}", begin.elapsed());
    text
}

#[test]
fn a_full_table_of_files() {
    let b = Bench::new();
    fs::create_dir(b.at("src")).unwrap();
    for i in 0..65_535 {
        fs::write(b.at("src").join(format!("save{i}.dat")), i.to_string()).unwrap();
    }
    // Buckets are chosen for the files asked for.
    let text = b.done(&["new", "v", "--blocks", "70000", "--block-len", "512", "--files", "65535"]);
    assert!(text.contains("65,535 files") && text.ends_with("65,531 buckets\n"), "{text}");
    quickly(&b, &["put", "v", "src/", "/"]);
    assert!(quickly(&b, &["check", "v"]).contains("files             65,535\n"));
    assert_eq!(quickly(&b, &["ls", "v"]).lines().count(), 65_536);
    assert!(quickly(&b, &["map", "v"]).contains("  +  65,474 smaller files: "));
    quickly(&b, &["lift", "v", "out"]);
    assert!(tree(&b.at("out")) == tree(&b.at("src")), "what was put is lifted");
    quickly(&b, &["mv", "v", "save7.dat", "seven"]);
}

#[test]
fn lift_goes_on_after_a_host_error() {
    let b = Bench::new();
    b.done(&["new", "v", "--blocks", "40", "--block-len", "512"]);
    b.host("f", b"12345");
    // 16 bytes of any sort are a name, and so a shown name may be longer than the host takes below a long path.
    let deep: String = (0..16).map(|_| "\\xff").collect();
    let path = |depth: usize| vec![deep.as_str(); depth].join("/");
    let mut volume = Volume::load(&b.at("v")).unwrap();
    let mut parent = ROOT;
    for _ in 0..64 {
        parent = volume.make_dir(parent, &[0xff; 16], &[0; 4]).unwrap();
    }
    volume.save(&b.at("v")).unwrap();
    b.done(&["put", "v", "f", &format!("{}/f", path(64))]);
    b.done(&["put", "v", "f", "near"]);
    let out = b.run(&["lift", "v", "out"]);
    let said = String::from_utf8(out.stderr).unwrap();
    assert_eq!(out.status.code(), Some(8), "{said}");
    assert!(said.contains("the name is too long for the disk") && said.contains("the rest is in out.part"), "{said}");
    assert_eq!(fs::read(b.at("out.part/near")).unwrap(), b"12345");
    assert!(!b.at("out").exists());
}

#[test]
fn directories_as_deep_as_can_be() {
    let b = Bench::new();
    b.done(&["new", "v", "--blocks", "4", "--dirs", "65534"]);
    let mut volume = Volume::load(&b.at("v")).unwrap();
    let mut parent = ROOT;
    for _ in 0..65_534 {
        parent = volume.make_dir(parent, b"d\0\0\0\0\0\0\0\0\0\0\0\0\0\0\0", &[0; 4]).unwrap();
    }
    volume.save(&b.at("v")).unwrap();
    assert!(quickly(&b, &["check", "v"]).contains("directories       65,535"));
    assert_eq!(quickly(&b, &["ls", "v"]).lines().count(), 2);
    let out = b.run(&["lift", "v", "out"]);
    let said = String::from_utf8(out.stderr).unwrap();
    assert_eq!(out.status.code(), Some(8));
    assert!(said.contains(" more things below it"), "{}", &said[said.len() - 200..]);
    quickly(&b, &["rm", "-r", "v", "d", "--quiet"]);
}
