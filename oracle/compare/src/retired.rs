//! Volumes with a block length that is not in use: every call that would change something is refused with 20, and the rest is as it was: the same lists and
//! bytes as in the original.

use crate::block_history::{any_call, Session};
use crate::chance::Chance;
use crate::volumes;
use port::{BlockCall, ByList, ListCall, Merge};
use rules::blocks::{layout, listed};
use std::sync::atomic::{AtomicU64, Ordering};

/// How often create, resize, delete, write, write by a list and merge were refused with 20, and how often open list and read were answered Done.
static MET: [AtomicU64; 8] = [const { AtomicU64::new(0) }; 8];

/// The same, as numbers.
pub fn met() -> Vec<u64> {
    MET.iter().map(|times| times.load(Ordering::Relaxed)).collect()
}

/// A block length of a volume that can only be read.
fn any_length(chance: &mut Chance, n: usize) -> usize {
    if n <= 12 && chance.one_in(8) {
        return chance.pick(&[4_095, 4_097, 8_192, 65_535, 65_536]);
    }
    chance.pick(&[1, 2, 3, 4, 5, 7, 9, 16, 64, 256, 511, 513, 1_024])
}

fn count(place: usize) {
    MET[place].fetch_add(1, Ordering::Relaxed);
}

/// What is asked of a call on such a volume, whose sizes fit, besides that the rules and the library agree.
fn asked(call: &BlockCall, number: u32) {
    let place = match call {
        BlockCall::Create { .. } => 0,
        BlockCall::Resize { .. } => 1,
        BlockCall::Delete { .. } => 2,
        BlockCall::Write { .. } => 3,
        BlockCall::OpenList { .. } => 6,
        BlockCall::Read { .. } => 7,
        BlockCall::Format | BlockCall::Test => return,
    };
    if place < 4 {
        assert_eq!(number, 20, "{call:?}");
        count(place);
    } else {
        assert_ne!(number, 20, "{call:?}");
        if number == 0 {
            count(place);
        }
    }
}

/// Merge and write by a list change nothing either; read by a list does what read does.
fn beside(chance: &mut Chance, session: &Session) {
    let volume = &session.lent;
    let mut lent = Merge { table: volume.table.clone(), block_len: volume.block_len, work: volume.work.clone() };
    crate::merged::refused(&mut lent);
    count(5);
    let Some(chain) = layout(&volume.table).expect("a sound volume").files.first().cloned() else { return };
    let list = listed(&chain).iter().map(|block| *block as u32).collect();
    let len = chance.below(3);
    let mut lent = ByList { data: volume.data.clone(), block_len: volume.block_len, list, buf: chance.bytes(len) };
    let pos = chance.below(volume.block_len + 2);
    assert_eq!(crate::by_list::same(ListCall::Write { pos }, &mut lent), 20);
    count(4);
    assert!(lent.data == volume.data, "a write by a list changes something");
    crate::by_list::same(ListCall::Read { pos }, &mut lent);
}

/// A sound volume of such a length, beside the original: calls of any kind but format, and the lists before and after.
pub fn run(chance: &mut Chance) {
    let mut volume = volumes::any_sound(chance);
    let n = volume.table.len() / 8 - 1;
    volume.block_len = any_length(chance, n);
    volume.data = chance.bytes(n * volume.block_len);
    let mut session = Session::new(volume);
    let (table, data) = (session.lent.table.clone(), session.lent.data.clone());
    session.compare_lists();
    for _ in 0..chance.within(4, 12) {
        let call = any_call(chance, &mut session.lent);
        if !matches!(call, BlockCall::Format) {
            asked(&call, session.run(&call).number);
        }
    }
    beside(chance, &session);
    session.compare_lists();
    assert!(session.lent.table == table && session.lent.data == data, "a volume that can only be read was changed");
}
