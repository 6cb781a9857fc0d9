//! How times grow with the size, for the drawing: every public call on a shape that is as bad for it as any that was tried.

use super::sides::{OnBlocks, OnTree};
use super::{race, shown, POINT};
use crate::report::Report;
use crate::shapes::blocks::{singly, Order};
use crate::shapes::tree::{name, planned, Names, Order as Buckets, Plan};
use crate::svg::{Line, Panel};
use port::{BlockCall, Kind, TreeCall};

/// Times of calls at a size.
type Column = (usize, Vec<(&'static str, f64)>);

/// Every block call at n: one file of all blocks but one, or one free chain of them, single blocks in any order. Read and write move the last byte.
fn block_column(n: usize) -> Column {
    let (mut lent, first) = singly(n, n - 1, Order::Any, 512);
    lent.buf = vec![0x5A; 1];
    let pos = (n - 1) * 512 - 1;
    let on = OnBlocks::new(lent);
    let mut times = vec![];
    let on_file = [
        ("test", BlockCall::Test),
        ("open list", BlockCall::OpenList { first }),
        ("read the last byte", BlockCall::Read { first, pos }),
        ("write the last byte", BlockCall::Write { first, pos }),
        ("shrink to half", BlockCall::Resize { first, count: n / 2 }),
        ("delete", BlockCall::Delete { first }),
    ];
    for (name, call) in &on_file {
        times.push((*name, race(name, vec![on.library(call)], POINT)[0]));
    }
    let (lent, first) = singly(n, 1, Order::Any, 512);
    let on = OnBlocks::new(lent);
    let on_free = [("create n - 1", BlockCall::Create { count: n - 1 }), ("grow 1 to n", BlockCall::Resize { first, count: n })];
    for (name, call) in &on_free {
        times.push((*name, race(name, vec![on.library(call)], POINT)[0]));
    }
    (n, times)
}

/// Every tree call that walks, at so many directories and so many files, in one bucket or in as many as entries; entries of a bucket in any order.
fn tree_column(entries: usize, buckets: usize) -> Column {
    let full = planned(Plan {
        dirs: entries,
        files: entries,
        dir_buckets: buckets,
        file_buckets: buckets,
        names: Names::Numbered,
        dir_order: Buckets::Any,
        file_order: Buckets::Any,
        spare: 1,
    });
    let kind = Kind::File;
    let ((parent, found), inode, new) = (full.keys[entries / 2], entries as u32 / 2, name(99_999));
    let on = OnTree::new(full.lent);
    let calls = [
        ("test", TreeCall::Test),
        ("lookup", TreeCall::Lookup { kind, parent, name: found }),
        ("make", TreeCall::Make { kind, parent, name: new, carried: [1; 20] }),
        ("rename", TreeCall::Rename { kind, inode, parent, name: new }),
        ("delete", TreeCall::Delete { kind, inode }),
        ("list", TreeCall::List { kind, inode: parent }),
    ];
    (entries, calls.iter().map(|(name, call)| (*name, race(name, vec![on.library(call)], POINT)[0])).collect())
}

/// A table, and a panel of the drawing.
fn told(report: &mut Report, title: &str, about: &str, along: &'static str, columns: Vec<Column>) {
    let sizes: Vec<String> = columns.iter().map(|(size, _)| size.to_string()).collect();
    let mut heads = vec!["call"];
    heads.extend(sizes.iter().map(String::as_str));
    report.table(&format!("Growth: {title}"), about, &heads);
    let mut lines = vec![];
    for (i, (name, _)) in columns[0].1.iter().enumerate() {
        let points: Vec<(f64, f64)> = columns.iter().map(|(size, times)| (*size as f64, times[i].1)).collect();
        let mut row = vec![name.to_string()];
        row.extend(points.iter().map(|point| shown(Some(point.1))));
        report.row(&row);
        lines.push(Line { name: name.to_string(), points });
    }
    report.panel(Panel { title: title.into(), along, lines });
}

pub fn run(report: &mut Report, quick: bool) {
    let sizes: &[usize] = if quick { &[1_024, 4_096, 8_192] } else { &[1_024, 4_096, 16_384, 65_536, 262_144, 1_000_000] };
    let about = "Each public call of the library, its test included, on single blocks in any order: one file of all blocks but one, or for create and grow one free chain of them.";
    told(report, "block calls", about, "blocks", sizes.iter().map(|n| block_column(*n)).collect());
    let sizes: &[usize] = if quick { &[256, 1_024] } else { &[256, 1_024, 4_096, 16_384, 65_534] };
    let about = "As many directories as files, with names like file00017.dat; the entries of a bucket in any order; its test included.";
    told(report, "tree calls, one bucket", about, "entries of each table", sizes.iter().map(|entries| tree_column(*entries, 1)).collect());
    told(report, "tree calls, as many buckets as entries", about, "entries of each table", sizes.iter().map(|entries| tree_column(*entries, *entries)).collect());
}
