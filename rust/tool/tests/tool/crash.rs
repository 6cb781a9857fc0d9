//! Changes that are cut short, by a kill or by the host: what is found is the old volume or the new one, whole.

use crate::bench::{copy, leftovers, noise, tree, two_files, Bench};
use mukthiban::folder::{Access, Data, Folder};
use mukthiban::Parts;
use std::fs;
use std::process::Output;
use std::time::Duration;

/// A change that is refused, so that nothing happens but the clearing up before it.
const CLEAR_UP: [&str; 3] = ["rm", "v", "nothing"];

/// What a reader sees of the volume, who changes nothing.
fn seen(b: &Bench) -> Parts {
    let before = tree(&b.0);
    let parts = Folder::open(&b.at("v"), Access::Read, Duration::ZERO).unwrap().load(Data::Bytes).unwrap();
    assert_eq!(tree(&b.0), before, "reading changed something");
    parts
}

/// What the tool reads of the files that the changes touch.
fn cats(b: &Bench) -> Vec<Vec<u8>> {
    ["one", "three", "eins"].iter().map(|name| b.run(&["cat", "v", name]).stdout).collect()
}

/// A volume `v` with two files, another file beside the tables, and a host file `three`.
fn ready() -> Bench {
    let b = two_files();
    fs::write(b.at("v/notes.txt"), "battery swollen").unwrap();
    b.host("three", &noise(2400, 3));
    b
}

/// The changes that are tried: each touches other files of the folder.
const CHANGES: [&[&str]; 5] = [
    &["put", "v", "three", "three"],
    &["put", "v", "three", "one", "--replace"],
    &["mv", "v", "one", "eins"],
    &["rm", "v", "one"],
    &["mkdir", "v", "d"],
];

fn was_killed(out: &Output) -> bool {
    out.status.code().is_none()
}

#[test]
fn killed_at_any_step_and_again_while_clearing_up() {
    for change in CHANGES {
        let b = ready();
        copy(&b.at("v"), &b.at("old"));
        let old = (tree(&b.at("v")), seen(&b), cats(&b));
        b.done(change);
        let new = (tree(&b.at("v")), seen(&b), cats(&b));
        assert_ne!(old, new);
        let beside = leftovers(&b);
        let (mut found, mut met) = ([0, 0], Vec::new());
        for step in 1.. {
            fs::remove_dir_all(b.at("v")).unwrap();
            copy(&b.at("old"), &b.at("v"));
            let killed = was_killed(&b.run_aborted(change, step));
            let half = tree(&b.at("v"));
            if killed && met.contains(&half) {
                continue; // a sync was ahead, which leaves the files as they are
            }
            met.push(half);
            let reader = seen(&b);
            assert!(reader == old.1 || reader == new.1, "{change:?} {step}: neither old nor new is read");
            let is_new = reader == new.1;
            found[usize::from(is_new)] += 1;
            b.done(&["check", "v"]);
            assert!(
                cats(&b) == if is_new { &new.2 } else { &old.2 }[..],
                "{change:?} {step}: files are read otherwise"
            );
            copy(&b.at("v"), &b.at("half"));
            for again in 1.. {
                fs::remove_dir_all(b.at("v")).unwrap();
                copy(&b.at("half"), &b.at("v"));
                let killed_again = was_killed(&b.run_aborted(&CLEAR_UP, again));
                assert_eq!(seen(&b) == new.1, is_new, "{change:?} {step} {again}: what is read has changed");
                assert_eq!(b.run(&CLEAR_UP).status.code(), Some(8));
                let now = tree(&b.at("v"));
                assert!(now == if is_new { &new.0 } else { &old.0 }[..], "{change:?} {step} {again}: not whole");
                if !killed_again {
                    break;
                }
            }
            fs::remove_dir_all(b.at("half")).unwrap();
            assert_eq!(leftovers(&b), beside, "{change:?} {step}");
            if !killed {
                break;
            }
        }
        assert!(found[0] > 2 && found[1] > 2, "{change:?}: both are met: {found:?}");
    }
}

#[test]
fn the_host_refuses_at_any_step() {
    for change in CHANGES {
        let b = ready();
        copy(&b.at("v"), &b.at("old"));
        let old = seen(&b);
        let mut found = [0, 0];
        for step in 1.. {
            let out = b.run_with(change, &[("MUKTHIBAN_FAIL_AT_STEP", &step.to_string())]);
            let line = String::from_utf8(out.stderr).unwrap();
            if out.status.code() == Some(0) {
                break;
            }
            assert_eq!(out.status.code(), Some(8), "{change:?} {step}: {line}");
            assert_eq!(line.lines().count(), 1, "{line}");
            assert!(line.contains("no room left on the disk"), "{line}");
            let is_new = line.contains("the change is made");
            assert_eq!(seen(&b) != old, is_new, "{change:?} {step}: {line}");
            found[usize::from(is_new)] += 1;
            fs::remove_dir_all(b.at("v")).unwrap();
            copy(&b.at("old"), &b.at("v"));
        }
        assert!(found[0] > 2 && found[1] > 2, "{change:?}: {found:?}");
    }
}

#[test]
fn the_host_refuses_while_clearing_up() {
    let b = ready();
    copy(&b.at("v"), &b.at("old"));
    let step = (1..)
        .find(|&step| {
            fs::remove_dir_all(b.at("v")).unwrap();
            copy(&b.at("old"), &b.at("v"));
            b.run_aborted(CHANGES[0], step);
            b.at("v/mukthiban.journal").exists()
        })
        .unwrap();
    let new = seen(&b);
    for again in 1.. {
        let out = b.run_with(&["mkdir", "v", "d"], &[("MUKTHIBAN_FAIL_AT_STEP", &again.to_string())]);
        let line = String::from_utf8(out.stderr).unwrap();
        if !b.at("v/mukthiban.journal").exists() {
            break;
        }
        // What was made before is not this command's, and is still there.
        assert_eq!(out.status.code(), Some(8), "{step} {again}: {line}");
        assert!(line.contains("no room left on the disk") && !line.contains("the change is made"), "{line}");
        assert_eq!(seen(&b), new);
    }
}

#[test]
fn a_new_volume_is_there_whole_or_not_at_all() {
    let b = Bench::new();
    let words = ["new", "v", "--blocks", "4"];
    for step in 1.. {
        let killed = was_killed(&b.run_aborted(&words, step));
        if b.at("v").exists() {
            b.done(&["check", "v"]);
            fs::remove_dir_all(b.at("v")).unwrap();
        } else if b.at("v.part").exists() {
            // What is left is named, and a person takes it away.
            assert!(b.fails(&words, 8).contains("v.part: left by a `new` that was interrupted"));
            fs::remove_dir_all(b.at("v.part")).unwrap();
        }
        assert!(leftovers(&b).is_empty());
        if !killed {
            break;
        }
    }
}

#[test]
fn the_hooks_of_these_tests_are_not_in_release_builds() {
    let tool = fs::read(env!("CARGO_BIN_EXE_mukthiban")).unwrap();
    let hook = b"AT_STEP";
    assert_eq!(tool.windows(hook.len()).any(|w| w == hook), cfg!(debug_assertions));
}

#[test]
fn journals_that_are_damaged_or_not_ours() {
    let b = ready();
    copy(&b.at("v"), &b.at("old"));
    let (old, journal) = (seen(&b), b.at("v/mukthiban.journal"));
    let half = (1..).find(|&step| {
        fs::remove_dir_all(b.at("v")).unwrap();
        copy(&b.at("old"), &b.at("v"));
        b.run_aborted(CHANGES[2], step);
        journal.exists()
    });
    assert!(half.is_some());
    let whole = fs::read(&journal).unwrap();
    assert_ne!(seen(&b), old);
    for at in (0..whole.len()).step_by(7) {
        let mut bytes = whole.clone();
        bytes[at] ^= 0x40;
        fs::write(&journal, &bytes).unwrap();
        match at < 8 {
            // A stranger's file is read past, and stops a change.
            true => assert_eq!(seen(&b), old),
            false => assert!(b.fails(&["ls", "v"], 8).contains("a damaged journal"), "{at}"),
        }
        b.fails(&["mkdir", "v", "d"], 8);
    }
    for length in 0..whole.len() {
        fs::write(&journal, &whole[..length]).unwrap();
        b.fails(&["mkdir", "v", "d"], 8);
    }
    // Another volume's journal is not taken for this one's.
    fs::write(&journal, &whole).unwrap();
    b.poke("v/dir_table.bin", 4, &[2]);
    b.fails(&["check", "v"], 8);
    b.fails(&["mkdir", "v", "d"], 8);
}
