//! The Rust side's `Volume`, which tests its tables once and then uses the inner calls, beside the original and plain Rust with handles.

use super::{digest, race, ratio, shown, Answer, Side, LINE};
use crate::peers::files::{Files, Handle};
use crate::report::Report;
use mukthiban::{Shape, Volume};
use std::cell::RefCell;

/// One call, on the file that begins at a block.
#[derive(Clone, Copy)]
pub enum Step {
    Create(usize),
    Resize(usize, usize),
    Delete(usize),
}

impl Step {
    fn file(self) -> Option<usize> {
        match self {
            Step::Resize(first, _) | Step::Delete(first) => Some(first),
            Step::Create(_) => None,
        }
    }
}

fn done(first: Option<usize>) -> Answer {
    [0, first.unwrap_or(0) as u64, 0]
}

/// A volume, the original over the same bytes, and plain Rust over them.
pub struct OnVolume {
    start: Volume,
    ours: RefCell<Option<Volume>>,
    theirs: Option<RefCell<original::Volume>>,
    plain: RefCell<(Files, Option<Handle>)>,
}

impl OnVolume {
    pub fn new(start: Volume) -> OnVolume {
        let parts = start.parts();
        let open = || original::Volume::open(&parts.fat, &parts.data, parts.block_len).expect("it opens");
        OnVolume {
            theirs: original::PRESENT.then(|| RefCell::new(open())),
            plain: RefCell::new((Files { table: parts.fat.clone(), free: 0 }, None)),
            ours: RefCell::new(Some(start.clone())),
            start,
        }
    }

    /// The original, whose handle is open before the clock starts.
    fn original(&self, step: Step) -> Option<Side<'_>> {
        let theirs = self.theirs.as_ref()?;
        let ready = move || {
            let (mut volume, parts) = (theirs.borrow_mut(), self.start.parts());
            volume.set_table(&parts.fat);
            volume.reopen(parts.block_len).expect("it opens");
            if let Some(first) = step.file() {
                volume.list(first).expect("a file");
            }
        };
        let run = move || {
            let mut volume = theirs.borrow_mut();
            done(match step {
                Step::Create(count) => Some(volume.create(count).expect("room")),
                Step::Resize(first, count) => volume.resize(first, count).map(|()| None).expect("room"),
                Step::Delete(first) => volume.delete(first).map(|()| None).expect("a file"),
            })
        };
        let left = move || digest(&theirs.borrow().table());
        Some(Side { name: "original, handle open", spoil: Box::new(|| {}), ready: Box::new(ready), run: Box::new(run), left: Box::new(left), times: 1, apart: false })
    }

    /// Plain Rust, whose handle is open before the clock starts.
    fn plain(&self, step: Step) -> Side<'_> {
        let ready = move || {
            let (files, handle) = &mut *self.plain.borrow_mut();
            files.table.copy_from_slice(&self.start.parts().fat);
            files.free = self.start.free() as u32;
            *handle = step.file().map(|first| files.open(first));
        };
        let run = move || {
            let (files, handle) = &mut *self.plain.borrow_mut();
            done(match step {
                Step::Create(count) => {
                    *handle = files.create(count as u32);
                    handle.as_ref().map(Handle::first)
                }
                Step::Resize(_, count) => {
                    files.resize(handle.as_mut().expect("open"), count as u32).expect("room");
                    None
                }
                Step::Delete(_) => {
                    files.delete(handle.take().expect("open"));
                    None
                }
            })
        };
        let left = || digest(&self.plain.borrow().0.table);
        Side { name: "plain Rust, handle open", spoil: Box::new(|| {}), ready: Box::new(ready), run: Box::new(run), left: Box::new(left), times: 1, apart: false }
    }

    /// The block table is put back before each run, and tested; no step changes the data.
    fn volume(&self, step: Step) -> Side<'_> {
        let ready = move || {
            let mut parts = self.ours.take().expect("a volume").into_parts();
            parts.fat.copy_from_slice(&self.start.parts().fat);
            self.ours.replace(Some(Volume::open(parts).expect("a sound volume")));
        };
        let run = move || {
            let mut ours = self.ours.borrow_mut();
            let volume = ours.as_mut().expect("a volume");
            done(match step {
                Step::Create(count) => Some(volume.create(count).expect("room")),
                Step::Resize(first, count) => volume.resize(first, count).map(|()| None).expect("room"),
                Step::Delete(first) => volume.delete(first).map(|()| None).expect("a file"),
            })
        };
        let left = || digest(&self.ours.borrow().as_ref().expect("a volume").parts().fat);
        Side { name: "Volume", spoil: Box::new(|| {}), ready: Box::new(ready), run: Box::new(run), left: Box::new(left), times: 1, apart: false }
    }

    /// The original where it is here, plain Rust, and `Volume`.
    pub fn sides(&self, step: Step) -> Vec<Side<'_>> {
        let mut sides: Vec<Side> = self.original(step).into_iter().collect();
        sides.extend([self.plain(step), self.volume(step)]);
        sides
    }
}

/// A fresh volume with so many files of so many blocks.
pub fn with(n: usize, files: usize, blocks: usize) -> OnVolume {
    let shape = Shape { blocks: n, block_len: 512, dir_max: 2, file_max: 1, buckets: 1 };
    let mut volume = Volume::new(shape).expect("a volume");
    for _ in 0..files {
        volume.create(blocks).expect("room");
    }
    OnVolume::new(volume)
}

fn line(report: &mut Report, name: &str, on: &OnVolume, step: Step) {
    let times = race(name, on.sides(step), LINE);
    let (original, rest) = if original::PRESENT { (Some(times[0]), &times[1..]) } else { (None, &times[..]) };
    let (plain, ours) = (Some(rest[0]), Some(rest[1]));
    report.row(&[name.into(), shown(original), shown(plain), shown(ours), ratio(ours, original), ratio(ours, plain)]);
}

pub fn run(report: &mut Report, quick: bool) {
    let n = if quick { 8_191 } else { 1_000_000 };
    let columns = ["call", "original, handle open", "plain Rust, handle open", "Volume", "Volume / original", "Volume / plain Rust"];
    report.table(&format!("Rust's Volume on a fresh volume of {n} blocks"), "", &columns);
    let empty = with(n, 0, 0);
    line(report, "create 1", &empty, Step::Create(1));
    line(report, "create n / 4", &empty, Step::Create(n / 4));
    drop(empty);
    let one = with(n, 1, 1);
    line(report, "grow 1 to 2", &one, Step::Resize(0, 2));
    line(report, "grow 1 to n / 4", &one, Step::Resize(0, n / 4));
    line(report, "delete 1", &one, Step::Delete(0));
    drop(one);
    let quarter = with(n, 1, n / 4);
    line(report, "shrink n / 4 to half", &quarter, Step::Resize(0, n / 8));
    line(report, "delete n / 4", &quarter, Step::Delete(0));
    drop(quarter);
    // Half of it taken by files of 64 blocks.
    let many = with(n, n / 128, 64);
    line(report, "of files of 64: create 64", &many, Step::Create(64));
}
