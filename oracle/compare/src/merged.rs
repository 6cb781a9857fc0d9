//! Merge of free neighbours: the rules and the library on any tables, and what a merge leaves beside the original.

use crate::block_history::{any_call, Session};
use crate::chance::Chance;
use crate::volumes;
use port::{Blocks, Merge};
use rules::blocks::{blocks, layout, Layout};
use rules::put_word;

/// Both answer the same and leave the same bytes, and so does the inner call where the table is sound: the number.
fn same(lent: &mut Merge) -> u32 {
    let before = lent.clone();
    let (mut library, mut inner) = (lent.clone(), lent.clone());
    let answered = lent.stated();
    assert_eq!(library.library(), answered, "{before:?}");
    assert!(*lent == library, "the library leaves other bytes: {before:?}\nrules {lent:?}\nlibrary {library:?}");
    let number = answered.number;
    if matches!(number, 0 | 20) {
        assert_eq!(inner.inner(), answered, "{before:?}");
        assert!(*lent == inner, "the inner call leaves other bytes: {before:?}\nrules {lent:?}\ninner {inner:?}");
    }
    if number != 0 {
        assert!(lent.table == before.table, "the rules changed something and refused with {number}");
    }
    number
}

/// The merge of a volume, whose other parts are not lent.
fn merged(volume: &mut Blocks) -> u32 {
    let (table, work) = (std::mem::take(&mut volume.table), std::mem::take(&mut volume.work));
    let mut lent = Merge { table, block_len: volume.block_len, work };
    let number = same(&mut lent);
    (volume.table, volume.work) = (lent.table, lent.work);
    number
}

/// What is asked of a merge, besides the rules' own words: files and free blocks as before, the free chain rising with gaps, and no byte changed but in
/// entry 0 and in the entries that are read in the new free nodes.
fn asked(before: &[u8], held: &Layout, after: &[u8]) {
    let now = layout(after).expect("a merge leaves a sound table");
    assert_eq!(now.files, held.files, "the files stay");
    assert_eq!(blocks(&now.free), blocks(&held.free), "the free blocks stay");
    let apart = now.free.windows(2).all(|two| two[0].start + two[0].size < two[1].start);
    assert!(apart, "the free chain rises, and no two of its nodes touch: {:?}", now.free);
    let mut may: Vec<usize> = vec![0];
    for run in &now.free {
        may.push(run.start + 1);
        if run.size > 1 {
            may.extend([run.start + 2, run.start + run.size]);
        }
    }
    let entries = before.chunks(8).zip(after.chunks(8)).enumerate();
    for (entry, (was, is)) in entries {
        assert!(was == is || may.contains(&entry), "entry {entry} was {was:?} and is {is:?}");
    }
}

/// A sound table merged: what is left of it.
pub fn merged_table(table: &[u8]) -> Vec<u8> {
    let held = layout(table).expect("a sound table");
    let mut lent = Merge { table: table.to_vec(), block_len: 512, work: vec![77; table.len() / 8] };
    assert_eq!(same(&mut lent), 0);
    asked(table, &held, &lent.table);
    lent.table
}

/// A sound volume: merged, merged again, and then used beside the original.
fn sound(chance: &mut Chance) {
    let mut volume = volumes::any_sound(chance);
    let before = volume.table.clone();
    let held = layout(&before).expect("a sound volume");
    assert_eq!(merged(&mut volume), 0);
    asked(&before, &held, &volume.table);
    let once = volume.table.clone();
    assert_eq!(merged(&mut volume), 0);
    assert!(volume.table == once, "a second merge changes something");
    let mut session = Session::new(volume);
    session.compare_lists();
    for _ in 0..chance.within(1, 6) {
        let call = any_call(chance, &mut session.lent);
        session.run(&call);
    }
    session.compare_lists();
    assert_eq!(merged(&mut session.lent), 0);
    session.follow_merge();
    session.compare_lists();
}

/// A sound table with a block length that is not in use.
pub fn refused(lent: &mut Merge) {
    assert_eq!(same(lent), 20);
}

/// A table with a few words changed, a length that does not fit, or a short work list; sometimes another block length.
fn any(chance: &mut Chance) {
    let mut volume = volumes::any_sound(chance);
    let n = volume.table.len() / 8 - 1;
    if chance.one_in(3) {
        volume.block_len = chance.pick(&[0, 1, 511, 513, 4_095, 4_097, 65_536, 65_537, 1 << 63, usize::MAX]);
    }
    match chance.below(5) {
        0 => volume.table.truncate(chance.pick(&[0, 7, 8, 9, 15, 8 * n, 8 * n + 1])),
        1 => volume.work.truncate(chance.pick(&[0, 1, n / 2, n - 1])),
        2 => {}
        _ => {
            for _ in 0..chance.within(1, 3) {
                let at = 4 * chance.below(volume.table.len() / 4);
                let flag = chance.pick(&[0, 0x8000_0000]);
                put_word(&mut volume.table, at, flag | chance.within(0, n + 2) as u32);
            }
        }
    }
    merged(&mut volume);
}

/// One of each.
pub fn run(chance: &mut Chance) {
    sound(chance);
    any(chance);
}

/// The largest volume and one block more, all of whose nodes are single blocks in falling order.
pub fn large() {
    for n in [1_000_000, 1_000_001] {
        let mut table = vec![0xA5; 8 * (n + 1)];
        let run = |start| rules::blocks::Run { start, size: 1 };
        let free = (0..n).rev().filter(|block| block % 3 != 1).map(run).collect();
        let files = (0..n).filter(|block| block % 3 == 1).map(|block| vec![run(block)]).collect();
        rules::blocks::lay_out(&mut table, &Layout { free, files });
        let number = same(&mut Merge { table, block_len: 4_096, work: vec![9; n] });
        assert_eq!(number, if n > 1_000_000 { 2 } else { 0 });
    }
}
