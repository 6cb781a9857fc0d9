//! The sides that lines are made of: the library's calls, the peers' and the original's, over volumes that are put back before each run.

use super::{digest, digest_list, Answer, Side};
use crate::peers::nodes::entries;
use crate::peers::{audit, calls, careful, ends, fault, kiosk, merge, plan, sorted, walks};
use original::Volume;
use port::{Answered, Audit, BlockCall, Blocks, Inner, Kiosk, Library, Merge, Plan, PlanCall, Port, Tree, TreeCall};
use std::cell::RefCell;

fn answer(answered: Answered) -> Answer {
    [answered.number.into(), answered.fields[0], answered.fields[1]]
}

/// What lists, buffers and data hold where a call is still to write.
const SPOILED: u32 = 0x33;

/// What a call leaves: the table, and what it writes besides.
fn left(call: &BlockCall, table: &[u8], list: &[u32], buf: &[u8], data: &[u8]) -> u64 {
    let besides = match call {
        BlockCall::OpenList { .. } => digest_list(list),
        BlockCall::Read { .. } => digest(buf),
        BlockCall::Write { .. } => digest(data),
        _ => 0,
    };
    digest(table) ^ besides.rotate_left(1)
}

/// The library's merge of a volume.
pub fn library_merge(s: &mut Blocks) -> u64 {
    let (table, work) = (std::mem::take(&mut s.table), std::mem::take(&mut s.work));
    let mut lent = Merge { table, block_len: s.block_len, work };
    let number = lent.library().number;
    (s.table, s.work) = (lent.table, lent.work);
    number.into()
}

/// A call of a plan by the library; the plan is the volume's list.
pub fn library_plan(call: PlanCall, s: &mut Blocks, first: usize) -> (u32, u64) {
    use std::mem::take;
    let Blocks { table, data, block_len, work, list, .. } = s;
    let mut lent = Plan { table: take(table), data: take(data), block_len: *block_len, work: take(work), list: take(list) };
    let answered = lent.library(call, first);
    (s.table, s.data, s.work, s.list) = (lent.table, lent.data, lent.work, lent.list);
    (answered.number, answered.fields[0])
}

/// The same in plain Rust, behind a test.
pub fn peer_plan(call: PlanCall, s: &mut Blocks, first: usize, test: plan::Test) -> (u32, u64) {
    let done = match call {
        PlanCall::Check => plan::check(s, first, test),
        PlanCall::Apply => plan::apply(s, first, test),
        PlanCall::Find => plan::find(s, first, test),
    };
    done.map_or_else(|number| (number, 0), |given| (0, given))
}

/// A block volume with the table that it is put back to.
pub struct OnBlocks {
    pub state: RefCell<Blocks>,
    pub table: Vec<u8>,
}

impl OnBlocks {
    pub fn new(lent: Blocks) -> OnBlocks {
        OnBlocks { table: lent.table.clone(), state: RefCell::new(lent) }
    }

    fn side<'a>(&'a self, name: &'static str, call: &'a BlockCall, run: impl Fn(&mut Blocks) -> Answer + 'a) -> Side<'a> {
        Side {
            name,
            spoil: Box::new(|| {
                let s = &mut *self.state.borrow_mut();
                match call {
                    BlockCall::OpenList { .. } => s.list.fill(SPOILED),
                    BlockCall::Read { .. } => s.buf.fill(SPOILED as u8),
                    BlockCall::Write { .. } => s.data.fill(SPOILED as u8),
                    _ => {}
                }
            }),
            ready: Box::new(|| self.state.borrow_mut().table.copy_from_slice(&self.table)),
            run: Box::new(move || run(&mut self.state.borrow_mut())),
            left: Box::new(move || {
                let s = self.state.borrow();
                assert!(s.work.iter().all(|place| *place == 0), "{name}: the work list is not 0");
                left(call, &s.table, &s.list, &s.buf, &s.data)
            }),
            times: 1,
            apart: false,
        }
    }

    /// A test changes nothing that it reads: nothing is put back, and a short one is run many times within the clock.
    fn test<'a>(&'a self, name: &'static str, run: impl Fn(&mut Blocks) -> Answer + 'a) -> Side<'a> {
        let n = self.table.len() / 8 - 1;
        Side { ready: Box::new(|| {}), times: (65_536 / n).max(1), ..self.side(name, &BlockCall::Test, run) }
    }

    /// The tests in plain Rust, then the library's. Of a table that is refused all say the entry and the rule.
    pub fn tests(&self) -> Vec<Side<'_>> {
        let peer = |name, test: merge::Test| {
            self.test(name, move |s| match test(&s.table, &mut s.work) {
                Some((free, files)) => [0, free as u64, files as u64],
                None => {
                    let (entry, rule) = fault::locate(entries(&s.table), s.table.len() / 8 - 1, &mut s.work);
                    [4, entry, rule]
                }
            })
        };
        vec![
            peer("careful", careful::blocks),
            peer("several walks", walks::blocks),
            peer("by ends", ends::blocks),
            self.test("library", |s| {
                let told = Library.block_call(&BlockCall::Test, s);
                if told.number == 4 { [4, told.fault.0 as u64, told.fault.1.into()] } else { answer(told) }
            }),
        ]
    }

    /// The merges in plain Rust, behind each of the tests, then the library's.
    pub fn merges(&self) -> Vec<Side<'_>> {
        let peer = |name, test: merge::Test| {
            self.side(name, &BlockCall::Test, move |s| [merge::merge(&mut s.table, &mut s.work, test), 0, 0])
        };
        vec![
            peer("careful", careful::blocks),
            peer("several walks", walks::blocks),
            peer("by ends", ends::blocks),
            self.side("library", &BlockCall::Test, |s| [library_merge(s), 0, 0]),
        ]
    }

    /// The calls of a plan in plain Rust, behind each of the tests that know files, then the library's.
    pub fn plans(&self, call: PlanCall, first: usize) -> Vec<Side<'_>> {
        let told = |(number, given): (u32, u64)| [number.into(), given, 0];
        let peer = |name, test: plan::Test| self.side(name, &BlockCall::Test, move |s| told(peer_plan(call, s, first, test)));
        vec![
            peer("several walks", walks::tested),
            peer("by ends", ends::tested),
            self.side("library", &BlockCall::Test, move |s| told(library_plan(call, s, first))),
        ]
    }

    pub fn library<'a>(&'a self, call: &'a BlockCall) -> Side<'a> {
        self.side("library", call, |s| answer(Library.block_call(call, s)))
    }
    pub fn inner<'a>(&'a self, call: &'a BlockCall) -> Side<'a> {
        self.side("inner", call, |s| answer(Inner.block_call(call, s).expect("an inner call")))
    }
    /// The call in plain Rust: either test, then one walk of the chain.
    pub fn peers<'a>(&'a self, call: &'a BlockCall) -> [Side<'a>; 2] {
        let told = |(number, given): (u32, u64)| [number.into(), given, 0];
        [
            self.side("several walks, then the chain", call, move |s| told(calls::block_call(call, s, walks::tested))),
            self.side("by ends, then the chain", call, move |s| told(calls::block_call(call, s, ends::tested))),
        ]
    }
}

/// The original's volume over the same bytes, with the table that it is put back to.
pub struct OnOriginal<'b> {
    pub state: RefCell<Volume>,
    table: &'b [u8],
    block_len: usize,
}

impl<'b> OnOriginal<'b> {
    /// None where the original is not here.
    pub fn new(table: &'b [u8], data: &[u8], block_len: usize) -> Option<OnOriginal<'b>> {
        let open = || Volume::open(table, data, block_len).expect("the original opens it");
        original::PRESENT.then(|| OnOriginal { state: RefCell::new(open()), table, block_len })
    }

    /// One call, with the file's handle opened within the time, or before it. Answers and table are what it is compared by.
    pub fn side<'a>(&'a self, name: &'static str, call: &'a BlockCall, opened: bool, buf: &'a RefCell<Vec<u8>>) -> Side<'a> {
        let ready = move || {
            let mut volume = self.state.borrow_mut();
            volume.set_table(self.table);
            volume.reopen(self.block_len).expect("it opens");
            if let (true, Some(first)) = (opened, first_of(call)) {
                volume.list(first).expect("a file");
            }
            // Copied last, as before the library's call, so that both find the caches alike.
            volume.set_table(self.table);
        };
        let spoil = move || match call {
            BlockCall::Read { .. } => buf.borrow_mut().fill(SPOILED as u8),
            BlockCall::Write { .. } => {
                let volume = self.state.borrow();
                volume.set(self.table, &vec![SPOILED as u8; volume.data().len()]);
            }
            _ => {}
        };
        let left = move || {
            let volume = self.state.borrow();
            let (mut list, mut data) = (vec![], vec![]);
            match *call {
                BlockCall::OpenList { first } => {
                    list = volume.fresh_list(first).expect("a file");
                    list.resize(self.table.len() / 8 - 1, SPOILED);
                }
                BlockCall::Write { .. } => data = volume.data(),
                _ => {}
            }
            left(call, &volume.table(), &list, &buf.borrow(), &data)
        };
        Side {
            name,
            spoil: Box::new(spoil),
            ready: Box::new(ready),
            run: Box::new(move || run_original(&mut self.state.borrow_mut(), call, &mut buf.borrow_mut())),
            left: Box::new(left),
            times: 1,
            apart: false,
        }
    }
}

fn first_of(call: &BlockCall) -> Option<usize> {
    match *call {
        BlockCall::Read { first, .. } | BlockCall::Write { first, .. } => Some(first),
        BlockCall::Resize { first, .. } | BlockCall::Delete { first } => Some(first),
        _ => None,
    }
}

fn run_original(volume: &mut Volume, call: &BlockCall, buf: &mut [u8]) -> Answer {
    let done = match *call {
        BlockCall::OpenList { first } => volume.fresh_list(first).map(|list| list.len() as u64),
        BlockCall::Create { count } => volume.create(count).map(|first| first as u64),
        BlockCall::Resize { first, count } => volume.resize(first, count).map(|()| 0),
        BlockCall::Delete { first } => volume.delete(first).map(|()| 0),
        BlockCall::Read { first, pos } => volume.read(first, pos, buf).map(|()| 0),
        BlockCall::Write { first, pos } => volume.write(first, pos, buf).map(|()| 0),
        BlockCall::Test | BlockCall::Format => unreachable!("not the original's"),
    };
    done.map_or_else(|number| [number.into(), 0, 0], |given| [0, given, 0])
}

/// Entry tables with what they are put back to.
pub struct OnTree {
    pub state: RefCell<Tree>,
    pub start: Tree,
}

impl OnTree {
    pub fn new(lent: Tree) -> OnTree {
        OnTree { state: RefCell::new(lent.clone()), start: lent }
    }

    fn side<'a>(&'a self, name: &'static str, run: impl Fn(&mut Tree) -> Answer + 'a) -> Side<'a> {
        Side {
            name,
            spoil: Box::new(|| {}),
            ready: Box::new(|| self.state.borrow_mut().clone_from(&self.start)),
            run: Box::new(move || run(&mut self.state.borrow_mut())),
            left: Box::new(|| {
                let s = self.state.borrow();
                s.four().iter().fold(digest_list(&s.work), |sum, bytes| sum.rotate_left(1) ^ digest(bytes))
            }),
            times: 1,
            apart: false,
        }
    }

    fn test<'a>(&'a self, name: &'static str, run: impl Fn(&mut Tree) -> bool + 'a) -> Side<'a> {
        let told = move |s: &mut Tree| [if run(s) { 0 } else { 9 }, 0, 0];
        Side { ready: Box::new(|| {}), ..self.side(name, told) }
    }

    /// The tests in plain Rust, then the library's. The careful one compares every pair of a bucket, and is left out where that takes seconds.
    pub fn tests(&self, with_careful: bool) -> Vec<Side<'_>> {
        let lent = |s: &mut Tree, test: fn([&[u8]; 4], &mut [u32]) -> bool| {
            let mut work = std::mem::take(&mut s.work);
            let sound = test(s.four(), &mut work);
            s.work = work;
            sound
        };
        let mut sides = vec![];
        if with_careful {
            sides.push(self.test("careful", move |s| lent(s, careful::tree)));
        }
        sides.push(self.test("several walks, long buckets sorted", move |s| lent(s, sorted::tree)));
        sides.push(self.test("library", |s| Library.tree_call(&TreeCall::Test, s).number == 0));
        sides
    }

    pub fn library<'a>(&'a self, call: &'a TreeCall) -> Side<'a> {
        self.side("library", |s| answer(Library.tree_call(call, s)))
    }
    /// Whether an honest writer can have left the tables.
    pub fn aged(&self) -> Side<'_> {
        self.side("library", |s| answer(s.aged_library()))
    }
    pub fn inner<'a>(&'a self, call: &'a TreeCall) -> Side<'a> {
        self.side("inner", |s| answer(Inner.tree_call(call, s).expect("an inner call")))
    }
}

/// Both layers, which an audit only reads.
pub struct OnBoth {
    state: RefCell<Audit>,
}

impl OnBoth {
    pub fn new(lent: Audit) -> OnBoth {
        OnBoth { state: RefCell::new(lent) }
    }

    fn side<'a>(&'a self, name: &'static str, run: impl Fn(&mut Audit) -> Answer + 'a) -> Side<'a> {
        Side {
            name,
            spoil: Box::new(|| self.state.borrow_mut().list.fill(SPOILED)),
            ready: Box::new(|| {}),
            run: Box::new(move || run(&mut self.state.borrow_mut())),
            left: Box::new(move || {
                let s = self.state.borrow();
                assert!(s.work.iter().all(|place| *place == 0), "{name}: the work list is not 0");
                digest_list(&s.list)
            }),
            times: 1,
            apart: false,
        }
    }

    /// The audits in plain Rust, behind each pair of tests, then the library's.
    pub fn audits(&self) -> Vec<Side<'_>> {
        let peer = |name, blocks: audit::BlockTest, tree: audit::TreeTest| {
            self.side(name, move |s| {
                let (number, count) = audit::audit(s, blocks, tree);
                [number, count, 0]
            })
        };
        vec![
            peer("careful", careful::blocks, careful::tree),
            peer("several walks", walks::blocks, sorted::tree),
            peer("by ends", ends::blocks, careful::tree),
            self.side("library", |s| answer(s.library())),
        ]
    }
}

/// Both layers, which the kiosk's test only reads.
pub struct OnKiosk {
    state: RefCell<Kiosk>,
}

impl OnKiosk {
    pub fn new(lent: Kiosk) -> OnKiosk {
        OnKiosk { state: RefCell::new(lent) }
    }

    fn side<'a>(&'a self, name: &'static str, run: impl Fn(&mut Kiosk) -> Answer + 'a) -> Side<'a> {
        Side {
            name,
            spoil: Box::new(|| {}),
            ready: Box::new(|| {}),
            run: Box::new(move || run(&mut self.state.borrow_mut())),
            left: Box::new(move || {
                let s = self.state.borrow();
                assert!(s.work.iter().all(|place| *place == 0), "{name}: the work list is not 0");
                0
            }),
            times: 1,
            apart: false,
        }
    }

    /// The tests in plain Rust, behind each pair of tests, then the library's.
    pub fn tests(&self) -> Vec<Side<'_>> {
        let peer = |name, blocks: audit::BlockTest, tree: audit::TreeTest| {
            self.side(name, move |s| {
                let (number, rule) = kiosk::test(s, blocks, tree);
                [number, rule, 0]
            })
        };
        vec![
            peer("careful", careful::blocks, careful::tree),
            peer("several walks", walks::blocks, sorted::tree),
            peer("by ends", ends::blocks, careful::tree),
            self.side("library", |s| answer(s.library())),
        ]
    }
}
