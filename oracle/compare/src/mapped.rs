//! The calls with a free map: the rules and the library on sound volumes in runs of calls, and on maps and tables that are damaged.

use crate::chance::Chance;
use crate::volumes;
use port::{count_library, count_stated, MapCall, Mapped};
use rules::blocks::{blocks, layout};
use rules::map::map_of;
use rules::put_word;
use std::sync::atomic::{AtomicU64, Ordering};

/// How often each number was met: 0, 1, 2, 3, 4 with a place, 4 with none, 5, 6, 20; and as many of the query: 0, 2, 3.
static MET: [AtomicU64; 12] = [const { AtomicU64::new(0) }; 12];

pub fn met() -> [u64; 12] {
    std::array::from_fn(|i| MET[i].load(Ordering::Relaxed))
}

fn meet(place: usize) {
    MET[place].fetch_add(1, Ordering::Relaxed);
}

/// Both answer the same and leave the same bytes and words; so does the inner call where the public one comes to it: the number.
fn same(lent: &mut Mapped, call: &MapCall) -> u32 {
    let before = lent.clone();
    let (mut library, mut inner) = (lent.clone(), lent.clone());
    let answered = lent.stated(call);
    assert_eq!(library.library(call), answered, "{call:?} {before:?}");
    assert!(*lent == library, "the library leaves other bytes: {call:?} {before:?}\nrules {lent:?}\nlibrary {library:?}");
    let number = answered.number;
    meet(match number {
        4 if answered.fault == (0, 0) => 5,
        0..=4 => number as usize,
        5 | 6 => number as usize + 1,
        _ => 8,
    });
    if number != 0 {
        assert!(lent.table == before.table && lent.map == before.map, "the rules changed something and refused with {number}");
    }
    let asked = matches!(number, 5 | 6 | 20) || (number == 2 && lent.work != before.work) || number == 0;
    if asked {
        assert_eq!(inner.inner(call), answered, "{call:?} {before:?}");
        assert!(*lent == inner, "the inner call leaves other bytes: {call:?} {before:?}\nrules {lent:?}\ninner {inner:?}");
    }
    number
}

/// A stretch, asked of both.
fn asked(words: &[u32], n: usize, a: usize, b: usize) {
    let answered = count_stated(words, n, a, b);
    assert_eq!(count_library(words, n, a, b), answered, "{n} blocks, from {a} to {b}: {words:?}");
    meet(match answered.number {
        0 => 9,
        2 => 10,
        _ => 11,
    });
}

fn any_stretch(chance: &mut Chance, n: usize) -> (usize, usize) {
    let near = |chance: &mut Chance| match chance.below(4) {
        0 => 32 * chance.below(n / 32 + 2),
        _ => chance.within(0, n + 2),
    };
    (near(chance), near(chance))
}

/// A sound volume with words to spare behind its map, and a work list that is not clear.
fn any_mapped(chance: &mut Chance) -> Mapped {
    let volume = volumes::any_sound(chance);
    let n = volume.table.len() / 8 - 1;
    let spare = chance.below(3);
    let map = chance.words(n.div_ceil(32) + spare);
    Mapped { table: volume.table, data: volume.data, block_len: volume.block_len, work: vec![77; n + chance.below(2)], map }
}

fn any_call(chance: &mut Chance, table: &[u8]) -> MapCall {
    let n = table.len() / 8 - 1;
    let files: Vec<usize> = layout(table).map_or(vec![], |held| held.files.iter().map(|chain| chain[0].start).collect());
    let first = match files.is_empty() || chance.one_in(5) {
        true => chance.within(0, n + 1),
        false => chance.pick(&files),
    };
    let count = chance.within(0, n + 1);
    match chance.below(5) {
        0 | 1 => MapCall::Create { count: if chance.one_in(2) { chance.within(1, n / 4 + 1) } else { count } },
        2 | 3 => MapCall::Resize { first, count },
        _ => MapCall::Delete { first },
    }
}

/// Built, then a run of calls, whatever they answer: after each the map equals one built afresh, and the query over all is the free count.
fn sound(chance: &mut Chance) {
    let mut lent = any_mapped(chance);
    let n = lent.table.len() / 8 - 1;
    assert_eq!(same(&mut lent, &MapCall::Build), 0);
    for _ in 0..chance.within(1, 8) {
        let call = any_call(chance, &lent.table);
        same(&mut lent, &call);
        let free = layout(&lent.table).expect("a sound table stays sound").free;
        assert!(lent.map[..n.div_ceil(32)] == map_of(n, &free), "the map is not the table's after {call:?}");
        assert_eq!(count_library(&lent.map, n, 0, n).fields[0], blocks(&free) as u64);
        let (a, b) = any_stretch(chance, n);
        asked(&lent.map, n, a, b);
    }
}

/// A map or a table with something wrong, and a length that does not fit.
fn damaged(chance: &mut Chance) {
    let mut lent = any_mapped(chance);
    let n = lent.table.len() / 8 - 1;
    let words = n.div_ceil(32);
    assert_eq!(same(&mut lent, &MapCall::Build), 0);
    match chance.below(6) {
        0 => lent.map.truncate(chance.below(words)),
        1 => lent.work.truncate(chance.below(n)),
        // one block more and one less: the count is right
        2 => {
            for _ in 0..2 {
                let block = chance.below(n);
                lent.map[block / 32] ^= 1 << (block % 32);
            }
        }
        // any bit, also an unused one
        3 => {
            let block = chance.below(32 * words);
            lent.map[block / 32] ^= 1 << (block % 32);
        }
        4 => {
            let at = 4 * chance.below(lent.table.len() / 4);
            put_word(&mut lent.table, at, chance.pick(&[0, 0x8000_0000]) | chance.within(0, n + 2) as u32);
        }
        _ => {
            lent.block_len = chance.pick(&[0, 1, 511, 65_536, 65_537, usize::MAX]);
            let len = n.checked_mul(lent.block_len).filter(|len| *len <= 1 << 20);
            lent.data = vec![0; len.unwrap_or(3)];
        }
    }
    let call = if chance.one_in(4) { MapCall::Build } else { any_call(chance, &lent.table) };
    same(&mut lent, &call);
}

/// Any words, any n, any stretch.
fn any_query(chance: &mut Chance) {
    let len = chance.below(5);
    let words = chance.words(len);
    let n = chance.pick(&[0, 1, 31, 32, 33, 64, 32 * len, 32 * len + 1, 1_000_000, 1_000_001, usize::MAX]);
    let (a, b) = any_stretch(chance, n.min(32 * len));
    asked(&words, n, a, b);
    asked(&words, n, chance.pick(&[0, usize::MAX]), chance.pick(&[n, usize::MAX, 0]));
}

/// One of each.
pub fn run(chance: &mut Chance) {
    sound(chance);
    damaged(chance);
    any_query(chance);
}

/// The largest volume, of single free blocks and files of one block in turn.
pub fn large() {
    let n = 1_000_000;
    let mut table = vec![0xA5; 8 * (n + 1)];
    let run = |start| rules::blocks::Run { start, size: 1 };
    let free = (0..n).filter(|block| block % 2 == 0).map(run).collect();
    let files = (0..n).filter(|block| block % 2 == 1).map(|block| vec![run(block)]).collect();
    rules::blocks::lay_out(&mut table, &rules::blocks::Layout { free, files });
    let mut lent = Mapped { table, data: vec![0; n * 512], block_len: 512, work: vec![9; n], map: vec![7; n.div_ceil(32) + 1] };
    assert_eq!(same(&mut lent, &MapCall::Build), 0);
    assert_eq!(same(&mut lent, &MapCall::Create { count: n / 4 }), 0);
    assert_eq!(same(&mut lent, &MapCall::Delete { first: 1 }), 0);
    for (a, b) in [(0, n), (1, n), (31, 33), (n / 2, n - 1), (n, n)] {
        asked(&lent.map, n, a, b);
    }
}
