//! The jobs of the first table, each beside every peer that does the same.

use super::handles::{self, OpenFile};
use super::sides::{OnBlocks, OnBoth, OnKiosk, OnTree};
use super::whole::{with, Step};
use super::{commas, race, Side, JOB};
use crate::report::Report;
use crate::shapes::both::{self, Findings};
use crate::shapes::blocks::{ring, scattered, singly, volume, Order, SHAPES, Shape};
use crate::shapes::tree::{planned, Names, Order as Buckets, Plan};
use port::{BlockCall, Blocks, PlanCall, TreeCall};

pub fn job(report: &mut Report, what: &str, sides: Vec<Side>) {
    if left_out(what) {
        return;
    }
    let names: Vec<&'static str> = sides.iter().map(|side| side.name).collect();
    let times = race(what, sides, JOB);
    report.job(what, &names, &times);
}

fn block_test(report: &mut Report, what: &str, lent: Blocks) {
    let on = OnBlocks::new(lent);
    job(report, &format!("block test, {what}"), on.tests());
}

fn block_tests(report: &mut Report, n: usize) {
    block_test(report, "1,024 blocks, fresh", volume(Shape::Fresh, 1_024, 1).lent);
    for shape in SHAPES {
        block_test(report, &format!("{} blocks, {}", commas(n), shape.said()), volume(shape, n, 1).lent);
    }
    for (order, said) in [(Order::Rising, "rising"), (Order::Falling, "falling"), (Order::Any, "in any order")] {
        block_test(report, &format!("one chain of {} single blocks, {said}", commas(n)), singly(n, n, order, 1).0);
    }
    for (order, said) in [(Order::Rising, "rising"), (Order::Any, "in any order")] {
        block_test(report, &format!("one ring of {} single blocks, {said} (refused)", commas(n)), ring(n, 0, order));
    }
    let what = format!("one ring of {} single blocks in any order beside one file (refused)", commas(n - 1));
    block_test(report, &what, ring(n, 1, Order::Any));
}

/// Half of the blocks free, single and in that order.
fn merges(report: &mut Report, n: usize) {
    for (order, said) in [(Order::Rising, "rising"), (Order::Falling, "falling"), (Order::Any, "in any order")] {
        let on = OnBlocks::new(singly(n, n / 2, order, 512).0);
        job(report, &format!("merge, {} free single blocks of {}, {said}", commas(n - n / 2), commas(n)), on.merges());
    }
    for shape in [Shape::Fresh, Shape::Mixed] {
        let on = OnBlocks::new(volume(shape, n, 512).lent);
        job(report, &format!("merge, {} blocks, {}", commas(n), shape.said()), on.merges());
    }
}

/// Every file in its place, or one in a hundred astray, over another's chain, too long or without a size.
fn audits(report: &mut Report, n: usize, files: usize) {
    for (findings, said) in [(Findings::None, "no finding"), (Findings::OneIn(100), "one file in a hundred has a finding")] {
        let what = format!("audit, {} files on {} blocks: {said}", commas(files), commas(n));
        if !left_out(&what) {
            job(report, &what, OnBoth::new(both::volume(n, files, findings)).audits());
        }
    }
}

/// The largest volume of a kiosk, with as many files as it takes, each in one node with a free one behind it.
fn kiosks(report: &mut Report) {
    let (n, files) = (8_191, 64);
    let what = format!("kiosk's test, {} files on {} blocks: in the profile", commas(files), commas(n));
    job(report, &what, OnKiosk::new(both::kiosk(n, files)).tests());
}

/// A file of an eighth of the blocks, single and in any order, with half of the volume free: its plan found, checked and applied.
fn plans(report: &mut Report, n: usize) {
    let (mut lent, first) = scattered(n, 512);
    lent.list = vec![0; 2 * (n / 8)];
    let on = OnBlocks::new(lent);
    for (call, said) in [(PlanCall::Find, "found"), (PlanCall::Check, "checked"), (PlanCall::Apply, "applied")] {
        job(report, &format!("plan for a file of {} single blocks of {}, {said}", commas(n / 8), commas(n)), on.plans(call, first));
    }
}

/// Calls on one file of all blocks but one, single and in any order: beside plain Rust, and beside the library's test alone.
fn long_file(report: &mut Report, n: usize) {
    let (mut lent, first) = singly(n, n - 1, Order::Any, 512);
    let pos = (n - 1) * 512 - 1;
    lent.buf = vec![0x77];
    // The last byte of the file, to be told from any other.
    let last = (0..n).find(|b| lent.table[(b + 1) * 8 + 4..][..4] == [0; 4] && lent.table[4..8] != (*b as u32 + 1).to_le_bytes()).expect("an end");
    lent.data[last * 512 + 511] = 0x5A;
    let on = OnBlocks::new(lent);
    let calls = [
        ("open list", BlockCall::OpenList { first }),
        ("read its last byte", BlockCall::Read { first, pos }),
        ("shrink to half", BlockCall::Resize { first, count: n / 2 }),
        ("delete", BlockCall::Delete { first }),
        // Last, since it is compared on data that are written over.
        ("write its last byte", BlockCall::Write { first, pos }),
    ];
    for (name, call) in &calls {
        let what = format!("a file of {} single blocks in any order: {name}", commas(n - 1));
        if left_out(&what) {
            continue;
        }
        let alone = Side { apart: true, ..on.library(&BlockCall::Test) };
        let [walks, ends] = on.peers(call);
        let names = [walks.name, ends.name, "library"];
        let times = race(&what, vec![alone, walks, ends, on.library(call)], JOB);
        report.job(&what, &names, &times[1..]);
        report.beside(&format!("{what}, against its test alone"), "the library's test", times[0], times[3]);
    }
}

/// Whether the command line has a word `only=..` that is no part of this.
fn left_out(what: &str) -> bool {
    std::env::args().any(|word| word.strip_prefix("only=").is_some_and(|only| !what.contains(only)))
}

fn tree_test(report: &mut Report, what: &str, plan: Plan) {
    let on = OnTree::new(planned(plan).lent);
    // The careful test compares every pair of a bucket: seconds for a long one.
    let careful = plan.file_buckets > 1 || plan.files < 5_000;
    job(report, &format!("tree test, {what}"), on.tests(careful));
}

fn tree_tests(report: &mut Report, entries: usize) {
    let plan = |buckets: usize, names, order| Plan {
        dirs: entries,
        files: entries,
        dir_buckets: buckets,
        file_buckets: buckets,
        names,
        dir_order: order,
        file_order: order,
        spare: 0,
    };
    let each = format!("{} entries each", commas(entries));
    let (numbered, random, made, any) = (Names::Numbered, Names::Random, Buckets::Made, Buckets::Any);
    tree_test(report, &format!("{each}: one bucket, in order"), plan(1, numbered, made));
    tree_test(report, &format!("{each}: one bucket, in any order"), plan(1, numbered, any));
    tree_test(report, &format!("{each}: 256 buckets, random names"), plan(256, random, made));
    tree_test(report, &format!("{each}: 1,024 buckets, names like file00017.dat"), plan(1_024, numbered, made));
    tree_test(report, &format!("{each}: as many buckets, names like file00017.dat"), plan(entries, numbered, made));
    tree_test(report, &format!("{each}: as many buckets, random names"), plan(entries, random, made));
    let ring = Plan { dirs: 64, dir_order: Buckets::Made, ..plan(1, numbered, Buckets::Ring) };
    tree_test(report, &format!("one bucket that is a ring of {} files (refused)", commas(entries)), ring);
}

/// Whether an honest writer can have left the tables, beside the test that is the first part of it.
fn ages(report: &mut Report, entries: usize) {
    let plan = |buckets, names, order| Plan {
        dirs: entries,
        files: entries,
        dir_buckets: buckets,
        file_buckets: buckets,
        names,
        dir_order: order,
        file_order: order,
        spare: 0,
    };
    let plans = [
        ("one bucket, in order", plan(1, Names::Numbered, Buckets::Made)),
        ("one bucket, in any order", plan(1, Names::Numbered, Buckets::Any)),
        ("as many buckets, random names", plan(entries, Names::Random, Buckets::Made)),
    ];
    for (said, plan) in plans {
        let what = format!("aged, {} entries each: {said}", commas(entries));
        if !left_out(&what) {
            let on = OnTree::new(planned(plan).lent);
            let alone = Side { apart: true, ..on.library(&TreeCall::Test) };
            let times = race(&what, vec![alone, on.aged()], JOB);
            report.beside(&what, "the library's tree test", times[0], times[1]);
        }
    }
}

/// A file of 64 blocks behind many others.
fn volumes(report: &mut Report, n: usize) {
    let before = n / 128;
    let many = with(n, before + 1, 64);
    let first = before * 64;
    let steps = [
        ("grow 64 blocks to 128", Step::Resize(first, 128)),
        ("shrink 64 blocks to 32", Step::Resize(first, 32)),
        ("delete 64 blocks", Step::Delete(first)),
    ];
    for (name, step) in steps {
        job(report, &format!("Volume, a file behind {} others: {name}", commas(before)), many.sides(step));
    }
}

/// Files that are open: the original's handle, plain Rust with the block list, and `File` or `FileMut`.
fn open_files(report: &mut Report, quick: bool) {
    let many = if quick { 2_000 } else { 200_000 };
    let (lent, first) = singly(many + 1, many, Order::Any, 512);
    let mut on = OpenFile::new(lent, first, many);
    job(report, &format!("a file of {} single blocks, open: read a byte at 1,000 places", commas(many)), handles::sides(&mut on, 1, 1_000, false));
    let n = if quick { 8_191 } else { 65_536 };
    for block_len in [512, 4_096] {
        let made = volume(Shape::WornRandom, n, block_len);
        let mut on = OpenFile::new(made.lent, made.large, made.large_blocks);
        let whole = made.large_blocks * block_len;
        for (write, said) in [(false, "read"), (true, "write")] {
            let what = format!("a file of {} single blocks of {block_len} bytes, open: {said} it whole", commas(made.large_blocks));
            job(report, &what, handles::sides(&mut on, whole, 1, write));
        }
    }
}

pub fn run(report: &mut Report, quick: bool) {
    let columns = ["job", "peer", "its time", "library", "ratio"];
    report.table("The jobs, with every peer", "", &columns);
    let (n, entries) = if quick { (8_191, 2_000) } else { (1_000_000, 65_535) };
    tree_tests(report, entries);
    ages(report, entries);
    block_tests(report, n);
    merges(report, n);
    audits(report, n, if quick { 500 } else { 65_000 });
    super::salvages::run(report, n, if quick { 500 } else { 65_000 });
    kiosks(report);
    plans(report, n);
    super::maps::run(report, n);
    long_file(report, n);
    volumes(report, n);
    open_files(report, quick);
}
