//! The entry tables' calls, in long tables.

use super::sides::OnTree;
use super::{digest, race, ratio, shown, Answer, Side, LINE};
use crate::report::Report;
use crate::shapes::tree::{self as shapes, Full};
use original::Tables;
use port::{Inner, Kind, Tree, TreeCall};
use std::cell::RefCell;

/// The original with one handle of the subject, opened before the clock starts.
fn original<'a>(state: &'a RefCell<Tables>, lent: &'a Tree, call: &'a TreeCall) -> Side<'a> {
    let ready = || {
        let mut tables = state.borrow_mut();
        tables.set(lent.four());
        tables.drop_handles();
        if let TreeCall::Rename { inode, .. } | TreeCall::Delete { inode, .. } = *call {
            tables.open_file(inode);
        }
    };
    let run = || -> Answer {
        let s = &mut *state.borrow_mut();
        let given = match *call {
            TreeCall::Make { parent, name, carried, .. } => s.make_file(parent, name, carried).expect("room") as u64,
            TreeCall::Rename { inode, parent, name, .. } => s.rename_file(inode, parent, name).map(|()| 0).expect("a file"),
            TreeCall::Delete { inode, .. } => s.delete_file(inode).map(|()| 0).expect("a file"),
            TreeCall::Lookup { parent, name, .. } => s.lookup_file(parent, name).expect("a file") as u64,
            TreeCall::List { inode, .. } => s.list_files(inode).expect("a directory").len() as u64,
            _ => unreachable!("not measured"),
        };
        [0, given, 0]
    };
    let left = || state.borrow().four().iter().fold(0u64, |sum, bytes| sum.rotate_left(1) ^ digest(bytes));
    Side { name: "original, handle open", spoil: Box::new(|| {}), ready: Box::new(ready), run: Box::new(run), left: Box::new(left), times: 1, apart: false }
}

/// What the original can't tell left out: how many keys lookup compared, and the work list.
fn compared<'a>(on: &'a OnTree, side: Side<'a>) -> Side<'a> {
    let Side { mut run, .. } = side;
    let left = || on.state.borrow().four().iter().fold(0u64, |sum, bytes| sum.rotate_left(1) ^ digest(bytes));
    Side {
        run: Box::new(move || {
            let [number, given, _] = run();
            [number, given, 0]
        }),
        left: Box::new(left),
        ..side
    }
}

/// A thousand lookups, of each the time: the original's, and the library's own walks.
fn lookups(report: &mut Report, at: &str, full: &Full) {
    let step = (full.keys.len() / 1_000).max(1);
    let keys: Vec<_> = full.keys.iter().step_by(step).cloned().collect();
    let calls: Vec<TreeCall> = keys.iter().map(|key| lookup(*key)).collect();
    let tables = original::PRESENT.then(|| Tables::open(full.lent.four()).expect("it opens"));
    let state = RefCell::new(full.lent.clone());
    let side = |name, run| Side { name, spoil: Box::new(|| {}), ready: Box::new(|| {}), run, left: Box::new(|| 0), times: 1, apart: false };
    let mut sides = vec![];
    if let Some(tables) = &tables {
        let all = || [0, keys.iter().map(|(parent, name)| tables.lookup_file(*parent, *name).expect("a file") as u64).sum(), 0];
        sides.push(side("original", Box::new(all) as Box<dyn FnMut() -> Answer>));
    }
    let all = || [0, calls.iter().map(|call| Inner.tree_call(call, &mut state.borrow_mut()).expect("an inner call").fields[0]).sum(), 0];
    sides.push(side("inner", Box::new(all)));
    let times: Vec<f64> = race(at, sides, LINE).iter().map(|time| time / keys.len() as f64).collect();
    let (original, own) = (tables.is_some().then(|| times[0]), times.last().copied());
    let name = format!("{at}: each of {} lookups", keys.len());
    report.row(&[name, shown(original), "-".into(), shown(own), ratio(own, original)]);
}

fn lookup((parent, name): shapes::Key) -> TreeCall {
    TreeCall::Lookup { kind: Kind::File, parent, name }
}

fn shape(report: &mut Report, dirs: usize, files: usize, buckets: usize) {
    let full = shapes::tree(dirs, files, buckets);
    let at = format!("{dirs} + {files} entries, {buckets} buckets");
    let on = OnTree::new(full.lent.clone());
    let tables = original::PRESENT.then(|| RefCell::new(Tables::open(full.lent.four()).expect("it opens")));
    let kind = Kind::File;
    let (parent, inode) = (full.keys[files / 2].0, files as u32 / 2);
    let name = shapes::name(usize::MAX / 3);
    let each = [
        ("lookup", lookup(full.keys[files / 3])),
        ("make", TreeCall::Make { kind, parent, name, carried: [1; 20] }),
        ("rename", TreeCall::Rename { kind, inode, parent, name }),
        ("delete", TreeCall::Delete { kind, inode }),
        ("list", TreeCall::List { kind, inode: parent }),
    ];
    for (call_name, call) in &each {
        let mut sides = vec![];
        if let Some(tables) = &tables {
            sides.push(original(tables, &full.lent, call));
        }
        sides.push(compared(&on, on.library(call)));
        sides.push(compared(&on, on.inner(call)));
        let times = race(&at, sides, LINE);
        let (port, own) = (Some(times[times.len() - 2]), times.last().copied());
        let original = tables.is_some().then(|| times[0]);
        report.row(&[format!("{at}: {call_name}"), shown(original), shown(port), shown(own), ratio(own, original)]);
    }
    lookups(report, &at, &full);
}

fn tests(report: &mut Report, shapes: &[(usize, usize, usize)]) {
    report.table("Entry tables: the test", "", &["entries", "buckets", "careful", "several walks, long buckets sorted", "library", "library / best"]);
    for (dirs, files, buckets) in shapes {
        let on = OnTree::new(shapes::tree(*dirs, *files, *buckets).lent);
        let times = race("tree test", on.tests(true), LINE);
        let best = times[0].min(times[1]);
        let cells = [format!("{dirs} + {files}"), buckets.to_string(), shown(Some(times[0])), shown(Some(times[1])), shown(Some(times[2]))];
        report.row(&[&cells[..], &[ratio(Some(times[2]), Some(best))]].concat());
    }
}

pub fn run(report: &mut Report, quick: bool) {
    let all = [
        (64, 1_000, 128),
        (64, 1_000, 1_024),
        (1_000, 65_000, 1_024),
        (1_000, 65_000, 8_192),
        (1_000, 65_000, 65_536),
        (30_000, 30_000, 65_536),
    ];
    let shapes = if quick { &all[..2] } else { &all[..] };
    tests(report, shapes);
    let about = "`own` is the library's work behind its test: the time of its inner call.";
    report.table("Entry tables: the calls", about, &["call", "original, handle open", "library", "own", "own / original"]);
    for (dirs, files, buckets) in shapes {
        shape(report, *dirs, *files, *buckets);
    }
}
