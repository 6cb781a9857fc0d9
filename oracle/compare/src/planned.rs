//! Plans that make a file whole: the rules and the library on any tables and any plans, and what an applied one leaves beside the original.

use crate::block_history::{any_call, Session};
use crate::chance::Chance;
use crate::volumes;
use port::{Blocks, Plan, PlanCall};
use rules::blocks::{blocks, layout, listed, Chain, Layout, Run};
use rules::put_word;
use std::sync::atomic::{AtomicU64, Ordering::Relaxed};

/// How often each answer was given (0 to 6, 8 and 20), and each way in which a plan was made wrong.
static ANSWERS: [AtomicU64; 9] = [const { AtomicU64::new(0) }; 9];
static WAYS: [AtomicU64; 5] = [const { AtomicU64::new(0) }; 5];

pub fn met() -> (Vec<u64>, Vec<u64>) {
    let read = |counts: &[AtomicU64]| counts.iter().map(|count| count.load(Relaxed)).collect();
    (read(&ANSWERS), read(&WAYS))
}

/// Both answer the same and leave the same bytes, and so do the inner calls where the table is sound: number and field.
fn same(call: PlanCall, lent: &mut Plan, first: usize) -> (u32, usize) {
    let before = lent.clone();
    let (mut library, mut inner) = (lent.clone(), lent.clone());
    let said = lent.stated(call, first);
    let asked = || format!("{call:?} of {first}: {before:?}");
    assert_eq!(library.library(call, first), said, "{}", asked());
    assert!(*lent == library, "the library leaves other bytes\n{}\nrules {lent:?}\nlibrary {library:?}", asked());
    let number = said.number;
    if !(1..=4).contains(&number) || number == 2 && lent.work != before.work {
        // The gate has passed: the work list was cleared.
        assert_eq!(inner.inner(call, first), said, "{}", asked());
        assert!(*lent == inner, "the inner call leaves other bytes\n{}\nrules {lent:?}\ninner {inner:?}", asked());
    }
    if number != 0 {
        let kept = lent.table == before.table && lent.data == before.data && lent.list == before.list;
        assert!(kept, "the rules changed something and refused with {number}");
    }
    let place = [0, 1, 2, 3, 4, 5, 6, 8, 20].iter().position(|n| *n == number).expect("a number of these calls");
    ANSWERS[place].fetch_add(1, Relaxed);
    (number, said.fields.first().copied().unwrap_or(0) as usize)
}

/// A volume lent with a plan.
fn lend(volume: &Blocks, list: Vec<u32>) -> Plan {
    Plan { table: volume.table.clone(), data: volume.data.clone(), block_len: volume.block_len, work: volume.work.clone(), list }
}

fn bytes_of(chain: &[Run], data: &[u8], block_len: usize) -> Vec<u8> {
    listed(chain).into_iter().flat_map(|block| data[block * block_len..(block + 1) * block_len].to_vec()).collect()
}

/// What is asked of an applied plan, besides the rules' own words: the file is one node and reads as before, every other file keeps list and bytes, as
/// many blocks are free, and no byte of the data changed but in the targets.
fn asked(before: &Plan, held: &Layout, chain: &Chain, first: usize, after: &Plan) {
    let now = layout(&after.table).expect("an applied plan leaves a sound table");
    let (len, count) = (before.block_len, blocks(chain));
    let whole = vec![Run { start: first, size: count }];
    assert_eq!(bytes_of(&whole, &after.data, len), bytes_of(chain, &before.data, len), "the file reads as before");
    let mut files: Vec<Chain> = held.files.iter().filter(|file| *file != chain).cloned().collect();
    for file in &files {
        assert_eq!(bytes_of(file, &after.data, len), bytes_of(file, &before.data, len), "another file keeps its bytes");
    }
    files.push(whole);
    files.sort_by_key(|file| file[0].start);
    assert_eq!(now.files, files, "the file is one node, and the others stay");
    assert_eq!(blocks(&now.free), blocks(&held.free), "as many blocks are free");
    assert_eq!(now.free[..chain.len()], chain[..], "the old nodes stand in front, in their order");
    let targets = first * len..(first + count) * len;
    let kept = (0..before.data.len()).all(|at| targets.contains(&at) || before.data[at] == after.data[at]);
    assert!(kept, "only the targets' bytes change");
}

/// A plan made wrong in one way, which is counted.
fn spoilt(chance: &mut Chance, plan: &[u32], held: &Layout, n: usize) -> Vec<u32> {
    let mut plan = plan.to_vec();
    let moves = plan.len() / 2;
    let way = chance.below(5);
    match way {
        0 => match chance.below(3) {
            0 => plan.truncate(chance.below(plan.len())),
            1 => plan.push(chance.below(n) as u32),
            _ => plan.extend([chance.below(n) as u32, plan[1] + moves as u32]),
        },
        1 if moves > 1 => {
            let (one, two) = (chance.below(moves), chance.below(moves));
            if chance.one_in(2) {
                plan.swap(2 * one, 2 * two);
            } else {
                plan[2 * one] = plan[2 * two];
            }
        }
        1 => plan[0] = chance.below(n + 2) as u32,
        2 => {
            let to = chance.pick(&[0, n - 1, n, n + 1, u32::MAX as usize, 1 << 31]) as u32;
            plan.chunks_mut(2).enumerate().for_each(|(i, two)| two[1] = to.wrapping_add(i as u32));
        }
        3 => {
            let at = chance.below(moves);
            plan[2 * at + 1] = plan[2 * at + 1].wrapping_add(chance.pick(&[1, 2, u32::MAX]));
        }
        _ => {
            let used = held.files.iter().flatten().map(|run| run.start + chance.below(run.size)).collect::<Vec<_>>();
            let to = chance.pick(&used).saturating_sub(chance.below(moves)) as u32;
            plan.chunks_mut(2).enumerate().for_each(|(i, two)| two[1] = to + i as u32);
        }
    }
    WAYS[way].fetch_add(1, Relaxed);
    plan
}

/// The plan of a file, found, checked, spoilt and applied; then the volume is used beside the original.
fn sound(chance: &mut Chance) {
    let mut volume = volumes::any_sound(chance);
    let held = layout(&volume.table).expect("a sound volume");
    let n = volume.table.len() / 8 - 1;
    let Some(chain) = (!held.files.is_empty()).then(|| chance.pick(&held.files)) else { return };
    let (first, count) = (chain[0].start, blocks(&chain));
    let room = chance.pick(&[0, 2 * count - 1, 2 * count, 2 * count + 3]);
    let junk = chance.words(room);
    same(PlanCall::Find, &mut lend(&volume, junk), first);
    let mut lent = lend(&volume, vec![9; 2 * count]);
    let (number, moves) = same(PlanCall::Find, &mut lent, first);
    let mut plan = lent.list;
    if number == 0 {
        assert_eq!(moves, count);
        assert_eq!(same(PlanCall::Check, &mut lend(&volume, plan.clone()), first).0, 0, "the planner's plan is accepted");
    } else {
        plan = listed(&chain).iter().enumerate().flat_map(|(i, block)| [*block as u32, i as u32]).collect();
    }
    // Any other free stretch will do as well.
    let to = chance.below(n);
    let other: Vec<u32> = plan.chunks(2).enumerate().flat_map(|(i, two)| [two[0], (to + i) as u32]).collect();
    if same(PlanCall::Check, &mut lend(&volume, other.clone()), first).0 == 0 {
        plan = other;
    }
    let wrong = spoilt(chance, &plan, &held, n);
    let call = chance.pick(&[PlanCall::Check, PlanCall::Apply]);
    same(call, &mut lend(&volume, wrong), first);
    let given = chance.below(n + 2);
    same(chance.pick(&[PlanCall::Check, PlanCall::Apply, PlanCall::Find]), &mut lend(&volume, plan.clone()), given);
    let before = lend(&volume, plan);
    let mut after = before.clone();
    let (number, at) = same(PlanCall::Apply, &mut after, first);
    if number != 0 {
        return;
    }
    asked(&before, &held, &chain, at, &after);
    (volume.table, volume.data, volume.work) = (after.table, after.data, after.work);
    let mut session = Session::new(volume);
    session.compare_lists();
    for _ in 0..chance.within(1, 6) {
        let call = any_call(chance, &mut session.lent);
        session.run(&call);
    }
    session.compare_lists();
}

/// A table with a few words changed, a length that does not fit, or a short work list.
fn any(chance: &mut Chance) {
    let mut volume = volumes::any_sound(chance);
    let n = volume.table.len() / 8 - 1;
    match chance.below(8) {
        0 => volume.table.truncate(chance.pick(&[0, 7, 8, 9, 15, 8 * n, 8 * n + 1])),
        1 => volume.work.truncate(chance.pick(&[0, 1, n / 2, n - 1])),
        2 => volume.data.truncate(chance.below(volume.data.len())),
        3 | 4 => {
            // Another length that may be lent, but not be changed.
            volume.block_len = chance.pick(&[1, 8, 511, 513]);
            volume.data.resize(n * volume.block_len, 7);
        }
        5 => {
            volume.block_len = chance.pick(&[0, 65_537, usize::MAX]);
            volume.data.truncate(if volume.block_len == 0 { 0 } else { usize::MAX });
        }
        _ => {
            for _ in 0..chance.within(1, 3) {
                let at = 4 * chance.below(volume.table.len() / 4);
                let flag = chance.pick(&[0, 0x8000_0000]);
                put_word(&mut volume.table, at, flag | chance.within(0, n + 2) as u32);
            }
        }
    }
    let places = chance.below(8);
    let list = chance.words(places);
    let call = chance.pick(&[PlanCall::Check, PlanCall::Apply, PlanCall::Find]);
    same(call, &mut lend(&volume, list), chance.below(n));
}

/// One of each.
pub fn run(chance: &mut Chance) {
    sound(chance);
    any(chance);
}

/// A volume of which a file has an eighth in single blocks, falling, and half is free, in falling order; every block has so many bytes.
fn worn(n: usize, block_len: usize) -> (Plan, usize) {
    let mut table = vec![0xA5; 8 * (n + 1)];
    let run = |start| Run { start, size: 1 };
    let file: Chain = (0..n / 2).filter(|block| block % 4 == 3).rev().map(run).collect();
    let others = (0..n / 2).filter(|block| block % 4 != 3).map(|block| vec![run(block)]);
    let mut files: Vec<Chain> = others.chain([file.clone()]).collect();
    files.sort_by_key(|file| file[0].start);
    rules::blocks::lay_out(&mut table, &Layout { free: (n / 2..n).rev().map(run).collect(), files });
    let data = (0..n * block_len).map(|at| (at % 251) as u8).collect();
    (Plan { table, data, block_len, work: vec![9; n], list: vec![7; 2 * file.len()] }, file[0].start)
}

/// The largest volume and one block more, found and checked; a smaller one applied.
pub fn large() {
    for n in [1_000_000, 1_000_001] {
        let (mut lent, first) = worn(n, 1);
        let refused = if n > 1_000_000 { 2 } else { 0 };
        assert_eq!(same(PlanCall::Find, &mut lent, first).0, refused);
        assert_eq!(same(PlanCall::Check, &mut lent, first).0, refused);
    }
    let (mut lent, first) = worn(20_000, 512);
    assert_eq!(same(PlanCall::Find, &mut lent, first).0, 0);
    assert_eq!(same(PlanCall::Apply, &mut lent, first), (0, 10_000));
}
