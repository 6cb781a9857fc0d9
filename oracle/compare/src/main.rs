//! `compare short` or `compare long [seed]`: every comparison, with counts and the seed. It ends at the first difference.

use compare::chance::Chance;
use compare::{aged, audited, block_history, by_list, check, closure, damage, edges, mapped, merged, planned, profiled, retired, salvaged, tree_history};
use std::time::{Instant, SystemTime, UNIX_EPOCH};

/// How much of everything.
struct Run {
    histories: u64,
    depth: usize,
    states: usize,
    whole: usize,
    damaged: usize,
    edges: usize,
    all_small: usize,
}

const SHORT: Run = Run { histories: 2_000, depth: 4, states: 300, whole: 2, damaged: 20_000, edges: 1, all_small: 2 };
const LONG: Run = Run { histories: 20_000, depth: 5, states: 20_000, whole: 40, damaged: 400_000, edges: 20, all_small: 3 };

/// Random histories, each from a seed of its own, so that one can be run again alone.
fn histories(name: &str, run: fn(&mut Chance), seed: u64, count: u64) {
    for case in 0..count {
        let again = std::panic::catch_unwind(|| run(&mut Chance::of_case(seed, case)));
        if again.is_err() {
            eprintln!("DIFFERENCE in {name} history {case} of seed {seed}");
            std::process::exit(1);
        }
    }
    println!("{count} random {name} histories");
}

fn say_what_is_here() {
    let (major, minor, patch) = port::library_version();
    println!("library {major}.{minor}.{patch}");
    if !original::PRESENT {
        println!("!!!! THE ORIGINAL'S SOURCE IS NOT HERE: NOTHING IS COMPARED WITH IT. SAVE3DS_SRC names its folder. !!!!");
    }
}

fn main() {
    let mut words = std::env::args().skip(1);
    let run = match words.next().as_deref() {
        Some("short") => SHORT,
        Some("long") => LONG,
        _ => panic!("compare short|long [seed]"),
    };
    let now = || SystemTime::now().duration_since(UNIX_EPOCH).unwrap().as_nanos() as u64;
    let seed = words.next().map_or_else(now, |word| word.parse().expect("a number"));
    println!("seed {seed}");
    say_what_is_here();
    check::watch();
    let start = Instant::now();
    histories("block", block_history::run, seed, run.histories);
    histories("border", block_history::borders, seed, run.histories);
    histories("list", by_list::run, seed, run.histories);
    histories("merge", merged::run, seed, run.histories);
    merged::large();
    histories("plan", planned::run, seed, run.histories);
    planned::large();
    histories("map", mapped::run, seed, run.histories);
    mapped::large();
    histories("read-only", retired::run, seed, run.histories);
    histories("audit", audited::run, seed, run.histories);
    audited::large();
    histories("kiosk", profiled::run, seed, run.histories);
    profiled::large();
    histories("salvage", salvaged::run, seed, run.histories);
    histories("tree", tree_history::run, seed, run.histories);
    histories("aged tree", aged::run, seed, run.histories);
    histories("full tree", tree_history::full, seed, run.histories / 10);
    closure::run(&mut Chance::new(seed), run.depth, run.states);
    damage::run(&mut Chance::new(seed), run.whole, run.damaged);
    println!("every byte of {} small volumes and tables, {} times three damaged tables", run.whole, run.damaged);
    for n in 1..=run.all_small {
        println!("n = {n}: all {} tables of small words", damage::all_small(n));
    }
    edges::run(&mut Chance::new(seed), run.edges);
    println!("lengths and numbers at their edges, {} times", run.edges);
    let (calls, inner) = check::made();
    println!("{calls} calls judged by the rules and by the library, {inner} of them by its inner call too");
    let broken = check::broken();
    println!("rules 1 to 7 of broken block tables: {broken:?} times");
    assert!(broken.iter().all(|times| *times > 0), "a rule was never met");
    let read_only = retired::met();
    println!("read-only volumes: create, resize, delete, write, write by a list, merge refused {:?} times; open list and read done {:?} times", &read_only[..6], &read_only[6..]);
    assert!(read_only.iter().all(|times| *times > 0), "a call on a read-only volume was never met");
    let (answers, kinds) = audited::met();
    println!("audits by their answers 0, 1, 2, 3, 4, 8, 9: {answers:?}; clean {}, findings of kinds 1 to 4: {:?}", kinds[0], &kinds[1..]);
    assert!(answers.iter().chain(&kinds).all(|times| *times > 0), "an answer or a kind of finding was never met");
    let (answers, ways) = planned::met();
    println!("plans by their answers 0 to 6, 8 and 20: {answers:?}; rejected for length, source, target, gap, used: {ways:?}");
    assert!(answers.iter().chain(&ways).all(|times| *times > 0), "an answer or a way to be rejected was never met");
    let maps = mapped::met();
    println!("calls with a map by their answers 0, 1, 2, 3, 4 (table), 4 (map), 5, 6, 20: {:?}; stretches 0, 2, 3: {:?}", &maps[..9], &maps[9..]);
    assert!(maps.iter().all(|times| *times > 0), "an answer of a call with a map was never met");
    let (answers, rules, created) = profiled::met();
    println!("kiosk tests by their answers 0, 1, 2, 3, 4, 9: {answers:?}; in the profile, and by the first broken rule: {rules:?}; kiosk creates by 0, 1, 2, 3, 4, 6, 20, whole, cut, from a later node: {created:?}");
    assert!(answers.iter().chain(&rules).chain(&created).all(|times| *times > 0), "an answer or a rule of the kiosk was never met");
    let (answers, rules, kinds) = salvaged::met();
    println!("salvages by their answers 0, 1, 2, 3, 5, 8: {answers:?}; chains by their ends 0, 1, 3, 4, 5, 7, 8: {rules:?}; kinds 0 to 3: {kinds:?}");
    assert!(answers.iter().chain(&rules).chain(&kinds).all(|times| *times > 0), "an answer, an end or a kind was never met");
    let (answers, told) = aged::met();
    println!("honest trees or not, by the answers 0, 1, 2, 3, 9: {answers:?}; nothing told, the root, another directory, a file: {told:?}");
    assert!(answers.iter().chain(&told).all(|times| *times > 0), "an answer or what can be told was never met");
    println!("no difference, {} s", start.elapsed().as_secs());
}
