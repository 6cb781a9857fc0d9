//! Files made whole: by the library's plan, by someone else's, and all of a volume.

use crate::bench::{noise, Bench};

/// A volume of 16 blocks, with a file of blocks 2, 0 and 3 beside one of block 1.
fn scattered() -> Bench {
    let b = Bench::new();
    b.done(&["new", "v", "--blocks", "16", "--block-len", "512", "--dirs", "4", "--files", "6", "--buckets", "5"]);
    b.host("one", &noise(512, 1));
    for name in ["a", "stays", "c"] {
        b.done(&["put", "v", "one", name]);
    }
    b.done(&["rm", "v", "a"]);
    b.done(&["rm", "v", "c"]);
    b.host("three", &noise(1400, 3));
    b.done(&["put", "v", "three", "big"]);
    b
}

fn content(b: &Bench, name: &str) -> Vec<u8> {
    b.run(&["cat", "v", name]).stdout
}

#[test]
fn a_file_is_made_whole() {
    let b = scattered();
    assert!(b.done(&["ls", "v"]).contains("         3  big\n"));
    assert_eq!(b.done(&["whole", "v", "big", "--plan"]), "2 4\n0 5\n3 6\n");
    assert!(b.done(&["ls", "v"]).contains("         3  big\n"), "a plan that is shown changes nothing");
    assert_eq!(b.done(&["whole", "v", "big"]), "made /big whole: 3 fragments before, now 3 blocks from block 4\n");
    assert!(b.done(&["ls", "v"]).contains("         1  big\n"));
    assert_eq!(content(&b, "big"), noise(1400, 3));
    assert_eq!(content(&b, "stays"), noise(512, 1));
    b.done(&["check", "v", "--strict"]);
    assert_eq!(b.done(&["whole", "v", "big", "stays"]), "2 are in one fragment already\n");
}

#[test]
fn a_plan_may_be_someone_elses() {
    let b = scattered();
    b.host("plan", b"# to the end\n2 13\n0 14\n3 15\n");
    b.host("order", b"0 13\n2 14\n3 15\n");
    b.host("used", b"2 1\n0 2\n3 3\n");
    b.host("short", b"2 13\n0 14\n");
    b.host("words", b"2 to 13\n");
    for wrong in ["order", "used", "short"] {
        let line = b.fails(&["whole", "v", "big", "--from", wrong], 8);
        assert!(line.contains("/big: ") && line.contains("[InvalidValue 2]"), "{line}");
    }
    assert!(b.fails(&["whole", "v", "big", "--from", "words"], 8).contains("`2 to 13` is not two block numbers"));
    assert!(b.fails(&["whole", "v", "big", "--from", "none"], 8).contains("no such file"));
    b.fails(&["whole", "v", "big", "stays", "--from", "plan"], 16);
    let told = b.done(&["whole", "v", "big", "--from", "plan"]);
    assert_eq!(told, "made /big whole: 3 fragments before, now 3 blocks from block 13\n");
    assert_eq!(content(&b, "big"), noise(1400, 3));
    b.done(&["check", "v", "--strict"]);
}

#[test]
fn what_can_not_be_made_whole_is_refused() {
    let b = scattered();
    b.host("long", &noise(512 * 11, 4));
    b.done(&["put", "v", "long", "long"]);
    // blocks 15 alone is free
    assert!(b.fails(&["whole", "v", "big"], 8).contains("[NoSpace 6]"));
    assert!(b.fails(&["whole", "v", "nothing"], 8).contains("no such file"));
    assert!(b.fails(&["whole", "v", "/"], 8).contains("this is a directory"));
    b.host("empty", b"");
    b.done(&["put", "v", "empty", "empty"]);
    assert!(b.fails(&["whole", "v", "empty"], 8).contains("it is empty"));
}

#[test]
fn a_volume_is_defragmented() {
    let b = scattered();
    // blocks 4, 5 and 7, which the freed block 6 keeps apart from the rest
    for name in ["d", "e"] {
        b.done(&["put", "v", "one", name]);
    }
    b.done(&["rm", "v", "d"]);
    b.host("two", &noise(1000, 5));
    b.done(&["put", "v", "two", "pair"]);
    assert!(b.done(&["ls", "v"]).contains("         2  pair\n"));
    let told = b.done(&["defrag", "v"]);
    assert!(told.starts_with("made 2 files of v whole: 7 fragments before, 4 after; "), "{told}");
    let files = b.done(&["ls", "v"]);
    for name in ["big", "pair", "stays", "e"] {
        assert!(files.contains(&format!("         1  {name}\n")), "{files}");
    }
    assert_eq!(content(&b, "big"), noise(1400, 3));
    assert_eq!(content(&b, "pair"), noise(1000, 5));
    assert_eq!(content(&b, "e"), noise(512, 1));
    b.done(&["check", "v", "--strict"]);
    assert!(b.done(&["defrag", "v"]).starts_with("made 0 files of v whole: 4 fragments before, 4 after; "));
}

#[test]
fn a_change_that_is_cut_off_is_whole_or_not_made() {
    for step in 0..40 {
        let b = scattered();
        let out = b.run_aborted(&["defrag", "v"], step);
        b.done(&["check", "v", "--strict"]);
        assert_eq!(content(&b, "big"), noise(1400, 3), "step {step}");
        assert_eq!(content(&b, "stays"), noise(512, 1), "step {step}");
        if out.status.success() {
            return;
        }
    }
    panic!("the change never ended");
}
