//! Histories of block calls through `Fat` and `FatFile`, beside the rules.

use super::subject::{self, Volume};
use compare::block_history::any_call;
use compare::chance::Chance;
use compare::volumes;
use port::{BlockCall, Blocks, Port, Stated};
use rules::blocks::{blocks, layout, listed};

/// What the modules answer for a number of the rules: NotAFile has no name there.
pub fn named(number: u32) -> Result<(), u32> {
    match number {
        0 => Ok(()),
        5 => Err(4),
        number => Err(number),
    }
}

/// Where the original does something else, as docs/DIFFERENCES.md lists: a block that begins no file, a position that wraps.
fn differs(call: &BlockCall, number: u32, len: usize) -> bool {
    let wraps = match call {
        BlockCall::Read { pos, .. } | BlockCall::Write { pos, .. } => pos.checked_add(len).is_none(),
        _ => false,
    };
    number == 5 || wraps
}

/// A changing call through the handles.
pub fn change(volume: &mut Volume, call: &BlockCall) -> Result<usize, u32> {
    match *call {
        BlockCall::Create { count } => volume.create(count),
        BlockCall::Resize { first, count } => volume.resize(first, count).map(|()| 0),
        BlockCall::Delete { first } => volume.delete(first).map(|()| 0),
        _ => unreachable!("no changing call"),
    }
}

/// Runs one call on the rules and on the modules, and compares answer and bytes.
pub fn step(volume: &mut Volume, call: &BlockCall, lent: &mut Blocks) {
    let (before, mut buf) = (lent.table.clone(), lent.buf.clone());
    let answered = Stated.block_call(call, lent);
    if differs(call, answered.number, buf.len()) && !subject::OUR_FAT {
        return;
    }
    let (wanted, field) = (named(answered.number), answered.fields[0] as usize);
    volume.watch();
    match *call {
        BlockCall::Format => {
            let mut table = volume.table();
            assert_eq!(Volume::format(&mut table), wanted, "{call:?}");
            assert!(table == lent.table, "formatted otherwise");
            volume.set(&lent.table, &lent.data);
            volume.reopen(lent.block_len).unwrap();
        }
        BlockCall::Test => assert_eq!(volume.free(), field, "{call:?}"),
        BlockCall::OpenList { first } => match answered.number {
            8 => (),
            _ => assert_eq!(volume.fresh_list(first), wanted.map(|()| lent.list[..field].to_vec()), "{call:?}"),
        },
        BlockCall::Create { .. } => assert_eq!(change(volume, call), wanted.map(|()| field), "{call:?}"),
        BlockCall::Resize { .. } | BlockCall::Delete { .. } => {
            assert_eq!(change(volume, call), wanted.map(|()| 0), "{call:?}")
        }
        BlockCall::Read { first, pos } => {
            assert_eq!(volume.read(first, pos, &mut buf), wanted, "{call:?}");
            assert!(buf == lent.buf, "read otherwise: {call:?}");
        }
        BlockCall::Write { first, pos } => assert_eq!(volume.write(first, pos, &buf), wanted, "{call:?}"),
        #[allow(unreachable_patterns)]
        _ => (),
    }
    assert!(volume.holds(&lent.table, &lent.data), "other bytes after {call:?}");
    let written = volume.watched();
    if subject::OUR_FAT && *call != BlockCall::Format {
        assert_eq!(written, changed(&before, &lent.table), "{call:?}");
    }
}

/// Each entry that changed, once, as a place and a length.
fn changed(before: &[u8], after: &[u8]) -> Vec<(usize, usize)> {
    let entries = (0..before.len()).step_by(8);
    entries.filter(|&at| before[at..at + 8] != after[at..at + 8]).map(|at| (at, 8)).collect()
}

/// Every file's list, by a kept handle and by a fresh one, and the free blocks.
pub fn lists(volume: &mut Volume, table: &[u8]) {
    let held = layout(table).expect("every step keeps the table sound");
    assert_eq!(volume.free(), blocks(&held.free), "free blocks");
    for chain in &held.files {
        let first = chain[0].start;
        let wanted: Vec<u32> = listed(chain).iter().map(|b| *b as u32).collect();
        assert_eq!(volume.list(first), Ok(wanted.clone()), "list of {first}");
        assert_eq!(volume.fresh_list(first), Ok(wanted), "fresh list of {first}");
    }
}

pub fn run(chance: &mut Chance) {
    let mut lent = if chance.one_in(2) { volumes::formatted(chance) } else { volumes::any_sound(chance) };
    let mut volume = Volume::open(&lent.table, &lent.data, lent.block_len).expect("a sound volume opens");
    for _ in 0..chance.within(1, 40) {
        let call = any_call(chance, &mut lent);
        step(&mut volume, &call, &mut lent);
        if chance.one_in(4) {
            lists(&mut volume, &lent.table);
        }
        if chance.one_in(16) {
            volume.reopen(lent.block_len).unwrap();
        }
    }
    lists(&mut volume, &lent.table);
}

/// A volume of a block length that is not shipped is read as ever; ours does not change it.
pub fn odd(chance: &mut Chance) {
    let start = volumes::any_sound(chance);
    let block_len = chance.pick(&[1, 3, 7, 64, 511, 513]);
    let mut lent = volumes::volume(chance, start.table, block_len);
    let mut volume = Volume::open(&lent.table, &lent.data, block_len).expect("a sound volume opens");
    for _ in 0..20 {
        let call = any_call(chance, &mut lent);
        match call {
            BlockCall::OpenList { .. } | BlockCall::Read { .. } | BlockCall::Test => step(&mut volume, &call, &mut lent),
            BlockCall::Write { first, pos } if subject::OUR_FAT => {
                let written = volume.write(first, pos, &lent.buf);
                assert!(matches!(written, Err(20 | 4)), "{call:?}");
            }
            BlockCall::Create { .. } | BlockCall::Resize { .. } | BlockCall::Delete { .. } if subject::OUR_FAT => {
                assert!(matches!(change(&mut volume, &call), Err(20 | 4)), "{call:?}");
            }
            _ => (),
        }
        assert!(volume.holds(&lent.table, &lent.data), "other bytes after {call:?}");
    }
    lists(&mut volume, &lent.table);
}
