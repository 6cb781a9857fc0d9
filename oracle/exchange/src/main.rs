//! `exchange short` or `exchange long [seed]`: the modules of `rust/save3ds` in the original's place, each alone and all together, driven through its own
//! interface by the histories of the comparison. It ends at the first difference.
//!
//! One text, `drive/`, is compiled for each of five crates: the original's modules, ours one by one, and all of ours.

use compare::chance::Chance;
use std::time::{Instant, SystemTime, UNIX_EPOCH};

macro_rules! driven {
    ($($subject:ident)*) => {$(
        #[path = "drive"]
        mod $subject {
            use $subject as subject;
            #[path = "blocks.rs"]
            pub mod blocks;
            #[path = "tree.rs"]
            pub mod tree;
            #[path = "failing.rs"]
            pub mod failing;
            #[path = "unwritten.rs"]
            pub mod unwritten;
            #[path = "save.rs"]
            pub mod save;
        }
    )*};
}

driven!(original exchanged_fat exchanged_meta exchanged_common exchanged_all);

/// Random histories, each from a seed of its own, so that one can be run again alone.
fn histories(name: &str, run: impl Fn(&mut Chance) + std::panic::RefUnwindSafe, seed: u64, count: u64) {
    for case in 0..count {
        if std::panic::catch_unwind(|| run(&mut Chance::of_case(seed, case))).is_err() {
            eprintln!("DIFFERENCE in {name}, history {case} of seed {seed}");
            std::process::exit(1);
        }
    }
}

/// A whole save, with the modules that are in its place and with the original's: answers and bytes, step by step.
fn alike(run: fn(&mut Chance) -> Vec<u64>) -> impl Fn(&mut Chance) {
    move |chance| {
        let mut again = chance.clone();
        assert_eq!(run(chance), original::save::run(&mut again), "the steps of a save");
    }
}

fn main() {
    let mut words = std::env::args().skip(1);
    let count = match words.next().as_deref() {
        Some("short") => 400,
        Some("long") => 20_000,
        _ => panic!("exchange short|long [seed]"),
    };
    let now = || SystemTime::now().duration_since(UNIX_EPOCH).unwrap().as_nanos() as u64;
    let seed = words.next().map_or_else(now, |word| word.parse().expect("a number"));
    if !::original::PRESENT {
        println!("!!!! THE ORIGINAL'S SOURCE IS NOT HERE: NOTHING IS EXCHANGED. SAVE3DS_SRC names its folder. !!!!");
        return;
    }
    println!("seed {seed}");
    let start = Instant::now();
    macro_rules! run {
        ($($subject:ident $title:literal)*) => {$(
            histories(concat!($title, ": blocks"), $subject::blocks::run, seed, count);
            histories(concat!($title, ": odd block lengths"), $subject::blocks::odd, seed, count / 4);
            histories(concat!($title, ": tree"), $subject::tree::run, seed, count);
            histories(concat!($title, ": save"), alike($subject::save::run), seed, count / 4);
            histories(concat!($title, ": unwritten"), $subject::unwritten::run, seed, count / 4);
            histories(concat!($title, ": failing blocks"), $subject::failing::blocks, seed, count / 4);
            histories(concat!($title, ": failing tree"), $subject::failing::tree, seed, count / 4);
            assert_eq!(::$subject::made_and_found(), Ok((1, 1)), "entries of other widths");
            println!("{}: {count} histories of each layer; {}", $title, $subject::failing::told());
        )*};
    }
    run! {
        original "the original"
        exchanged_fat "fat.rs exchanged"
        exchanged_meta "fs_meta.rs exchanged"
        exchanged_common "save_ext_common.rs exchanged"
        exchanged_all "all three exchanged"
    }
    println!("no difference, {} s", start.elapsed().as_secs());
}
