//! Lookup's own walk: a key whose words are read straight from where they stand, beside one that is first filled as twenty bytes.

use super::{commas, race, Answer, Side, JOB, LINE};
use crate::peers::lookup;
use crate::report::Report;
use crate::shapes::tree::{tree, Full, Key};
use mukthiban_ffi::tested::mukthiban_tested_tree_lookup_file;
use original::Tables;
use port::Tree;
use std::hint::black_box;

/// The proved library's inner call, as C calls it.
fn ours(lent: &Tree, (parent, name): &Key) -> (u32, u32) {
    // SAFETY: the tables are sound and of fitting sizes, as the inner call requires; the lengths are their own.
    let found = unsafe {
        mukthiban_tested_tree_lookup_file(
            lent.dir_hash.as_ptr(), lent.dir_hash.len(),
            lent.dir_table.as_ptr(), lent.dir_table.len(),
            lent.file_hash.as_ptr(), lent.file_hash.len(),
            lent.file_table.as_ptr(), lent.file_table.len(),
            *parent, name,
        )
    };
    (found.inode, found.compared)
}

/// All keys looked up, one after the other, and once before the clock starts, so that no side finds in the caches what another left there.
fn each<'a>(name: &'static str, keys: &'a [Key], find: impl Fn(&Key) -> (u32, u32) + Copy + 'a) -> Side<'a> {
    let all = move || -> Answer { [0, keys.iter().map(|key| black_box(find(black_box(key))).0 as u64).sum(), 0] };
    let ready = move || {
        black_box(all());
    };
    Side { name, spoil: Box::new(|| {}), ready: Box::new(ready), run: Box::new(all), left: Box::new(|| 0), times: 1, apart: false }
}

fn line(report: &mut Report, files: usize, buckets: usize, quick: bool) {
    let Full { lent, keys } = tree(64, files, buckets);
    let step = (keys.len() / 1_000).max(1);
    let keys: Vec<Key> = keys.into_iter().step_by(step).collect();
    for key in &keys {
        let wanted = ours(&lent, key);
        assert_eq!(lookup::straight(&lent.file_hash, &lent.file_table, key.0, &key.1), wanted);
        assert_eq!(lookup::filled(&lent.file_hash, &lent.file_table, key.0, &key.1), wanted);
    }
    let tables = original::PRESENT.then(|| Tables::open(lent.four()).expect("it opens"));
    let mut sides = vec![];
    if let Some(tables) = &tables {
        sides.push(each("original", &keys, |(parent, name)| (tables.lookup_file(*parent, *name).expect("a file"), 0)));
    }
    sides.push(each("plain Rust, key filled", &keys, |(parent, name)| lookup::filled(&lent.file_hash, &lent.file_table, *parent, name)));
    sides.push(each("plain Rust", &keys, |(parent, name)| lookup::straight(&lent.file_hash, &lent.file_table, *parent, name)));
    sides.push(each("inner", &keys, |key| ours(&lent, key)));
    let names: Vec<&'static str> = sides.iter().map(|side| side.name).collect();
    let what = format!("{} lookups without the test, {} files in {} buckets", commas(keys.len()), commas(files), commas(buckets));
    let times = race(&what, sides, if quick { LINE } else { JOB });
    report.job(&what, &names, &times);
}

pub fn run(report: &mut Report, quick: bool) {
    let about = "The inner call behind the test. `plain Rust` reads the key's words straight from the name, `key filled` fills them as twenty bytes first.";
    report.table("Lookup's own walk", about, &["job", "peer", "its time", "library", "ratio"]);
    line(report, 64, 1, quick);
    line(report, 1_000, 1_024, quick);
    line(report, 60_000, 65_536, quick);
}
