//! Files that fail at each call in turn, once or from then on, with nothing or half of the bytes written: the call is answered with the failure, tables in
//! memory are as before it, and so are the files as soon as they can be written. Then the same call is made again, or another, and does what it should.
//!
//! The original leaves half a change behind, so that this is asked of our modules alone.

use super::subject::{self, Failure, Tables, Volume, FAILED};
use super::{blocks, tree};
use compare::chance::Chance;
use compare::{block_history, tree_history, volumes};
use port::{BlockCall, Blocks, Kind, Port, Stated, Tree, TreeCall};
use std::sync::atomic::{AtomicUsize, Ordering};

static FAILED_CALLS: AtomicUsize = AtomicUsize::new(0);

/// How many calls failed.
pub fn told() -> String {
    match FAILED_CALLS.load(Ordering::Relaxed) {
        0 => "it is not asked how it fails".into(),
        failed => format!("{failed} calls that failed"),
    }
}

/// Every way to fail after so many calls.
fn ways(after: usize) -> [Failure; 4] {
    let way = |lasting, torn| Failure { after, lasting, torn };
    [way(false, false), way(false, true), way(true, false), way(true, true)]
}

/// Fails at each file call in turn until the call needs no more of them. `attempt` gives false where nothing failed any more.
fn each_in_turn(mut attempt: impl FnMut(Failure) -> bool) {
    for after in 0.. {
        let mut failed = false;
        for way in ways(after) {
            failed |= attempt(way);
        }
        if !failed {
            return;
        }
        FAILED_CALLS.fetch_add(4, Ordering::Relaxed);
    }
}

pub fn blocks(chance: &mut Chance) {
    if !subject::OUR_FAT {
        return;
    }
    let mut lent = volumes::any_sound(chance);
    for _ in 0..6 {
        let call = block_history::any_call(chance, &mut lent);
        if changes_blocks(&call) {
            let other = another(|| block_history::any_call(chance, &mut lent.clone()), |other| changed_by(&lent, other));
            for next in [&call, other.as_ref().unwrap_or(&call)] {
                each_in_turn(|failure| one_block_call(&lent, &call, next, failure));
            }
            Stated.block_call(&call, &mut lent);
        }
    }
    each_in_turn(|failure| opening_blocks(&lent, failure));
    writing(chance, &lent);
}

fn changes_blocks(call: &BlockCall) -> bool {
    matches!(call, BlockCall::Create { .. } | BlockCall::Resize { .. } | BlockCall::Delete { .. })
}

/// Whether a call changes the table.
fn changed_by(lent: &Blocks, call: &BlockCall) -> bool {
    let mut after = lent.clone();
    changes_blocks(call) && Stated.block_call(call, &mut after).number == 0 && after.table != lent.table
}

/// A call that will do, if one comes soon.
fn another<T>(mut any: impl FnMut() -> T, will_do: impl Fn(&T) -> bool) -> Option<T> {
    (0..20).map(|_| any()).find(will_do)
}

/// What the rules answer, and the volume afterwards.
fn stated(lent: &Blocks, call: &BlockCall) -> (Result<usize, u32>, Blocks) {
    let mut after = lent.clone();
    let answered = Stated.block_call(call, &mut after);
    (blocks::named(answered.number).map(|()| answered.fields[0] as usize), after)
}

/// A call that fails, and the next one, which does not.
fn one_block_call(lent: &Blocks, call: &BlockCall, next: &BlockCall, failure: Failure) -> bool {
    let mut volume = Volume::open(&lent.table, &lent.data, lent.block_len).unwrap();
    blocks::lists(&mut volume, &lent.table);
    volume.fail(Some(failure));
    let answer = blocks::change(&mut volume, call);
    volume.fail(None);
    let failed = answer == Err(FAILED);
    if failed {
        assert!(failure.lasting || volume.holds(&lent.table, &lent.data), "{call:?}, {failure:?}: the file is another");
        blocks::lists(&mut volume, &lent.table);
    }
    let (last, answer) = if failed { (next, blocks::change(&mut volume, next)) } else { (call, answer) };
    let (wanted, after) = stated(lent, last);
    assert_eq!(answer, wanted, "{last:?} after {failure:?} of {call:?}");
    assert!(volume.holds(&after.table, &after.data), "{last:?} after {failure:?} of {call:?}");
    blocks::lists(&mut volume, &after.table);
    failed
}

/// A volume that can't be read does not open, and opens when it can.
fn opening_blocks(lent: &Blocks, failure: Failure) -> bool {
    let mut volume = Volume::open(&lent.table, &lent.data, lent.block_len).unwrap();
    volume.fail(Some(failure));
    let answer = volume.reopen(lent.block_len);
    volume.fail(None);
    assert!(matches!(answer, Ok(()) | Err(FAILED)));
    volume.reopen(lent.block_len).unwrap();
    blocks::lists(&mut volume, &lent.table);
    answer.is_err()
}

/// A write or read of data that fails leaves the table alone.
fn writing(chance: &mut Chance, lent: &Blocks) {
    let held = rules::blocks::layout(&lent.table).unwrap();
    let Some(chain) = held.files.first() else { return };
    let (first, len) = (chain[0].start, rules::blocks::blocks(chain) * lent.block_len);
    let bytes = chance.bytes(len);
    each_in_turn(|failure| {
        let mut volume = Volume::open(&lent.table, &lent.data, lent.block_len).unwrap();
        volume.fail(Some(failure));
        let written = volume.write(first, 0, &bytes);
        volume.fail(Some(failure));
        let read = volume.read(first, 0, &mut vec![0; len]);
        volume.fail(None);
        assert_eq!(written, read);
        assert!(volume.table() == lent.table);
        blocks::lists(&mut volume, &lent.table);
        written == Err(FAILED)
    });
}

pub fn tree(chance: &mut Chance) {
    if !subject::OUR_META {
        return;
    }
    let (mut lent, _, held) = tree::begin(chance);
    for _ in 0..6 {
        let call = tree_history::any_call(chance, &mut lent);
        let other =
            another(|| tree_history::any_call(chance, &mut lent.clone()), |other| changed_tables(&lent, &held, other));
        for next in [&call, other.as_ref().unwrap_or(&call)] {
            each_in_turn(|failure| one_tree_call(&lent, &held, &call, next, failure));
        }
    }
    each_in_turn(|failure| opening_tree(&lent, failure));
}

/// Whether a call changes tables, and by a handle that is held.
fn changes(call: &TreeCall, held: &tree::Held) -> bool {
    let handle = |kind: Kind, inode: u32| held.get(&(kind == Kind::File, inode)).is_some_and(|handles| *handles > 0);
    match *call {
        TreeCall::Make { .. } | TreeCall::SetCarried { kind: Kind::File, .. } => true,
        TreeCall::Rename { kind, inode, .. } | TreeCall::Delete { kind, inode } => handle(kind, inode),
        _ => false,
    }
}

/// Whether a call changes the tables.
fn changed_tables(lent: &Tree, held: &tree::Held, call: &TreeCall) -> bool {
    let mut after = lent.clone();
    tree::note(&mut after, held);
    changes(call, held) && Stated.tree_call(call, &mut after).number == 0 && after.four() != lent.four()
}

/// A call that fails, and the next one, which does not.
fn one_tree_call(lent: &Tree, held: &tree::Held, call: &TreeCall, next: &TreeCall, failure: Failure) -> bool {
    if !changes(call, held) {
        return false;
    }
    let (mut tables, mut held_now) = (Tables::open(lent.four()).unwrap(), tree::Held::new());
    for (&(file, inode), &handles) in held {
        let kind = if file { Kind::File } else { Kind::Dir };
        (0..handles).for_each(|_| tree::open(&mut tables, &mut held_now, kind, inode).unwrap());
    }
    tables.fail(Some(failure));
    let answer = tree::change(&mut tables, call);
    tables.fail(None);
    let failed = answer == Err(FAILED);
    let mut lent = lent.clone();
    if failed {
        assert!(failure.lasting || tables.holds(lent.four()), "{call:?}, {failure:?}: the files are others");
        tree::lists(&tables, &lent);
    }
    // A delete uses its handle up, whatever the answer.
    if let (TreeCall::Delete { kind, inode }, true) = (call, failed) {
        match kind {
            Kind::Dir => tables.open_dir(*inode),
            Kind::File => tables.open_file(*inode),
        }
    }
    if failed {
        tree::step(&mut tables, &mut held_now, next, &mut lent);
        tree::lists(&tables, &lent);
    }
    failed
}

/// Tables that can't be read do not open, and open when they can.
fn opening_tree(lent: &Tree, failure: Failure) -> bool {
    let mut tables = Tables::open(lent.four()).unwrap();
    tables.fail(Some(failure));
    let answer = tables.reopen();
    tables.fail(None);
    assert!(matches!(answer, Ok(()) | Err(FAILED)));
    tables.reopen().unwrap();
    tree::lists(&tables, lent);
    answer.is_err()
}
