//! Read and write by a block list: the rules and the library on any lists, and beside read and write where the list is a file's own.

use crate::chance::Chance;
use crate::volumes;
use port::{BlockCall, ByList, Library, ListCall, Port};
use rules::blocks::{layout, listed};

/// Both answer the same and leave the same bytes: the number.
pub fn same(call: ListCall, lent: &mut ByList) -> u32 {
    let mut other = lent.clone();
    let (stated, library) = (lent.stated(call), other.library(call));
    assert_eq!(stated, library, "{call:?} {lent:?}");
    assert!(*lent == other, "the library leaves other bytes: {call:?}");
    library
}

/// A call at a position near a block's border, the list's end, or anywhere.
fn any_call(chance: &mut Chance, block_len: usize, places: usize) -> ListCall {
    let border = chance.within(0, places + 1).saturating_mul(block_len);
    let near = border.saturating_add(chance.below(3)).saturating_sub(1);
    let pos = if chance.one_in(12) { chance.pick(&[usize::MAX, usize::MAX - 1, 1 << 32, 1 << 63]) } else { near };
    chance.pick(&[ListCall::Read { pos }, ListCall::Write { pos }])
}

/// Lists with blocks named twice and blocks that are not there, sizes that do not fit and sizes out of bounds.
fn any_list(chance: &mut Chance) {
    let block_len = chance.pick(&[0, 1, 2, 3, 4, 512, 512, 512, 4_096, 65_536, 65_537, 1 << 63, usize::MAX]);
    let n = chance.within(0, 6);
    let whole = block_len.checked_mul(n).filter(|len| *len <= 1 << 19).unwrap_or(n);
    let (odd, places) = (usize::from(chance.one_in(8)), chance.within(0, 7));
    let most = if chance.one_in(3) { n + 1 } else { n.max(1) };
    let list = (0..places).map(|_| if chance.one_in(40) { u32::MAX } else { chance.below(most) as u32 }).collect();
    let len = if chance.one_in(4) { 0 } else { chance.below(3 * block_len.min(600) + 3) };
    let mut lent = ByList { data: chance.bytes(whole + odd), block_len, list, buf: chance.bytes(len) };
    let call = any_call(chance, block_len, places);
    same(call, &mut lent);
}

/// A file's own list: what read and write do to the same volume.
fn own_list(chance: &mut Chance) {
    let mut volume = volumes::any_sound(chance);
    let held = layout(&volume.table).expect("a sound volume");
    if held.files.is_empty() {
        return;
    }
    let chain = chance.pick(&held.files);
    let list: Vec<u32> = listed(&chain).iter().map(|block| *block as u32).collect();
    let call = any_call(chance, volume.block_len, list.len());
    let len = chance.below(3 * volume.block_len + 3);
    volume.buf = chance.bytes(len);
    let mut lent = ByList { data: volume.data.clone(), block_len: volume.block_len, list, buf: volume.buf.clone() };
    let number = same(call, &mut lent);
    let first = chain[0].start;
    let beside = match call {
        ListCall::Read { pos } => BlockCall::Read { first, pos },
        ListCall::Write { pos } => BlockCall::Write { first, pos },
    };
    assert_eq!(Library.block_call(&beside, &mut volume).number, number, "{beside:?}");
    assert!(volume.data == lent.data && volume.buf == lent.buf, "read and write do otherwise: {beside:?}");
}

/// One of each.
pub fn run(chance: &mut Chance) {
    any_list(chance);
    own_list(chance);
}
