//! Damages volumes by a seed and counts what is lifted of them: `salvage [VOLUMES [SEED]]`. Writes the table of
//! docs/SALVAGE.md.

#[path = "../tests/salvage/corpus.rs"]
mod corpus;

use corpus::{run, Tally, DAMAGE};

fn row(name: &str, t: &Tally) {
    let share = |n: usize| format!("{n} ({:.1})", n as f64 * 100.0 / t.files.max(1) as f64);
    println!(
        "| {name} | {} | {} | {} | {} | {} | {} | {} | {} | {} | {} |",
        t.volumes,
        t.files,
        share(t.right),
        share(t.right_marked),
        share(t.wrong_marked),
        t.own,
        format!("{} ({})", t.above, t.above_sound),
        t.wrong,
        share(t.missing),
        share(t.naive)
    );
}

fn main() {
    let mut args = std::env::args().skip(1).map(|a| a.parse::<u64>().expect("a number"));
    let (volumes, seed) = (args.next().unwrap_or(2_100), args.next().unwrap_or(1));
    println!("| damage | volumes | files | right | right, marked | wrong, marked | own damage | directory damaged (sound) | wrong, no mark | not found | script right |");
    println!("|---|---|---|---|---|---|---|---|---|---|---|");
    let mut all = Tally::default();
    for (sort, name) in DAMAGE.iter().enumerate() {
        let mut tally = Tally::default();
        for k in 0..volumes.div_ceil(DAMAGE.len() as u64) {
            let seed = seed.wrapping_mul(1_000_003).wrapping_add(k * 7 + sort as u64 + 1);
            let one = run(seed, sort);
            if one.wrong > 0 {
                eprintln!("{name}, seed {seed}: {one:?}");
            }
            tally.add(&one);
        }
        row(name, &tally);
        all.add(&tally);
    }
    row("all", &all);
    assert_eq!(all.wrong, 0, "a file was called whole that is wrong");
}
