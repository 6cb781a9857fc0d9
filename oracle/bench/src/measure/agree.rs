//! Peers are no peers if they do less: on small tables of every kind, sound and damaged, they must answer as the library does.

use super::sides::{library_merge, library_plan, peer_plan};
use crate::peers::nodes::entries;
use crate::peers::{audit, calls, careful, ends, fault, kiosk, merge, salvage, sorted, walks};
use compare::chance::Chance;
use compare::{audited, profiled, trees, volumes};
use port::{Asked, Audit, BlockCall, Blocks, Kiosk, Library, PlanCall, Port, Salvage, Tree, TreeCall};
use rules::put_word;

/// A word that a table might wrongly hold.
fn likely(chance: &mut Chance, n: usize) -> u32 {
    match chance.below(8) {
        0 => chance.next() as u32,
        1 => chance.pick(&[0x8000_0000, 0x7FFF_FFFF, u32::MAX]),
        way => chance.within(0, n + 2) as u32 | if way < 4 { 0x8000_0000 } else { 0 },
    }
}

/// Nothing, or a few words of these bytes, written over.
fn damage(chance: &mut Chance, bytes: &mut [u8], n: usize) {
    for _ in 0..chance.below(3) {
        let at = chance.below(bytes.len() / 4) * 4;
        put_word(bytes, at, likely(chance, n));
    }
}

/// Some nodes linked to a ring.
fn ringed(chance: &mut Chance, lent: &mut Blocks) {
    let Some(layout) = rules::blocks::layout(&lent.table) else { return };
    let mut runs: Vec<_> = layout.files.into_iter().flatten().chain(layout.free).collect();
    chance.shuffle(&mut runs);
    let size = chance.within(1, runs.len());
    for i in 0..size {
        let (prev, next) = (runs[(i + size - 1) % size].start, runs[(i + 1) % size].start);
        rules::blocks::set_node(&mut lent.table, runs[i], Some(prev), Some(next));
    }
}

fn block_tests(lent: &Blocks) -> bool {
    let test = Library.block_call(&BlockCall::Test, &mut lent.clone());
    let ours = (test.number == 0).then_some((test.fields[0] as usize, test.fields[1] as usize));
    for peer in [careful::blocks, walks::blocks, walks::blocks_by_twos, ends::blocks] {
        let mut work = lent.work.clone();
        assert_eq!(peer(&lent.table, &mut work), ours, "the block test of {:?}", lent.table);
        assert!(work[..lent.table.len() / 8 - 1].iter().all(|place| *place == 0));
    }
    if ours.is_none() {
        let n = lent.table.len() / 8 - 1;
        let place = fault::locate(entries(&lent.table), n, &mut vec![0; n]);
        assert_eq!(place, (test.fault.0 as u64, test.fault.1.into()), "where {:?} is broken", lent.table);
    }
    ours.is_some()
}

fn block_merges(lent: &Blocks) {
    let mut ours = lent.clone();
    let number = library_merge(&mut ours);
    for test in [careful::blocks, walks::blocks, ends::blocks] {
        let mut theirs = lent.clone();
        assert_eq!(merge::merge(&mut theirs.table, &mut theirs.work, test), number, "the merge of {:?}", lent.table);
        assert!(theirs.table == ours.table, "the merge of {:?}", lent.table);
    }
}

fn audits(lent: &Audit) {
    let mut ours = lent.clone();
    let answer = ours.library();
    let tests: [(audit::BlockTest, audit::TreeTest); 2] = [(careful::blocks, careful::tree), (walks::blocks, sorted::tree)];
    for (blocks, tree) in tests {
        let mut theirs = lent.clone();
        let told = audit::audit(&mut theirs, blocks, tree);
        assert!(told == (answer.number.into(), answer.fields[0]) && theirs == ours, "the audit: {told:?} beside {answer:?}");
    }
}

/// Any first blocks of a table of any bytes.
fn salvages(chance: &mut Chance, table: &[u8]) {
    let n = table.len() / 8 - 1;
    let firsts: Vec<u32> = (0..chance.within(1, 3 * n)).map(|_| chance.below(n + 1) as u32).collect();
    let ends = vec![9; 3 * firsts.len()];
    for asked in [Asked::Chain(chance.below(n)), Asked::Shared(firsts.clone()), Asked::Chains(firsts, ends)] {
        let mut ours = Salvage { asked, table: table.to_vec(), work: vec![7; n], list: vec![9; 5 * n] };
        let mut theirs = ours.clone();
        let told = (salvage::salvage(&mut theirs), super::salvages::answered(&mut ours));
        assert!(told.0 == told.1 && theirs == ours, "the salvage of {ours:?}: {told:?}");
    }
}

fn kiosks(lent: &Kiosk) {
    let mut ours = lent.clone();
    let answer = ours.library();
    let tests: [(audit::BlockTest, audit::TreeTest); 2] = [(careful::blocks, careful::tree), (walks::blocks, sorted::tree)];
    for (blocks, tree) in tests {
        let mut theirs = lent.clone();
        let told = kiosk::test(&mut theirs, blocks, tree);
        assert!(told == (answer.number.into(), answer.fields[0]) && theirs == ours, "the kiosk's test: {told:?} beside {answer:?}");
    }
}

fn block_plans(chance: &mut Chance, lent: &Blocks) {
    let n = lent.table.len() / 8 - 1;
    let first = chance.below(n);
    let mut ours = lent.clone();
    ours.list = chance.words(2 * n);
    let found = library_plan(PlanCall::Find, &mut ours, first);
    let mut lent = ours.clone();
    lent.list.truncate(2 * found.1 as usize);
    for call in [PlanCall::Find, PlanCall::Check, PlanCall::Apply] {
        let mut ours = lent.clone();
        let said = library_plan(call, &mut ours, first);
        for test in [walks::tested, ends::tested] {
            let mut theirs = lent.clone();
            assert_eq!(peer_plan(call, &mut theirs, first, test), said, "{call:?} of {first} in {lent:?}");
            assert!(theirs == ours, "{call:?} of {first} in {lent:?} leaves other bytes");
        }
    }
}

fn block_call(chance: &mut Chance, lent: &Blocks) {
    let n = lent.table.len() / 8 - 1;
    let (first, count, pos) = (chance.below(n), chance.within(0, n + 1), chance.below(n * lent.block_len));
    let mut ours = lent.clone();
    ours.buf = vec![7; chance.within(1, 2 * lent.block_len)];
    let before = ours.clone();
    let call = match chance.below(6) {
        0 => BlockCall::OpenList { first },
        1 => BlockCall::Create { count },
        2 => BlockCall::Resize { first, count },
        3 => BlockCall::Delete { first },
        4 => BlockCall::Read { first, pos },
        _ => BlockCall::Write { first, pos },
    };
    let answer = Library.block_call(&call, &mut ours);
    for test in [walks::tested, ends::tested] {
        let mut theirs = before.clone();
        assert_eq!(calls::block_call(&call, &mut theirs, test), (answer.number, answer.fields[0]), "{call:?}");
        assert!(ours == theirs, "{call:?} leaves other bytes");
    }
}

/// A file given the name of another in its directory, if such a pair is found. Where they share a bucket, only a comparison of keys can tell.
fn twinned(chance: &mut Chance, lent: &mut Tree) {
    let count = rules::word(&lent.file_table, 0) as usize;
    let table = &mut lent.file_table;
    for _ in 0..4 * count {
        let (from, to) = (chance.below(count), chance.below(count));
        let same_parent = table[from * 48..][..4] == table[to * 48..][..4];
        if from != to && from != 0 && to != 0 && same_parent {
            return table.copy_within(from * 48 + 4..from * 48 + 20, to * 48 + 4);
        }
    }
}

fn tree_tests(lent: &Tree) -> bool {
    let ours = Library.tree_call(&TreeCall::Test, &mut lent.clone()).number == 0;
    for peer in [careful::tree, sorted::tree] {
        let mut work = lent.work.clone();
        assert_eq!(peer(lent.four(), &mut work), ours, "the tree test");
    }
    ours
}

pub fn run(quick: bool) {
    let mut chance = Chance::new(14);
    let cases = if quick { 2_000 } else { 5_000 };
    let (mut tables, mut trees_sound) = (0, 0);
    for _ in 0..cases {
        let mut lent = volumes::any_sound(&mut chance);
        block_call(&mut chance, &lent);
        block_plans(&mut chance, &lent);
        let n = lent.work.len();
        if chance.one_in(8) {
            ringed(&mut chance, &mut lent);
        }
        damage(&mut chance, &mut lent.table, n);
        tables += block_tests(&lent) as usize;
        block_merges(&lent);
        block_call(&mut chance, &lent);
        salvages(&mut chance, &lent.table);
        let mut lent = audited::any_volume(&mut chance);
        audits(&lent);
        damage(&mut chance, &mut lent.table, 8);
        damage(&mut chance, &mut lent.file_table, 8);
        audits(&lent);
        kiosks(&profiled::any_volume(&mut chance));
        let mut lent = trees::any_sound(&mut chance);
        let n = lent.work.len();
        if chance.one_in(2) {
            twinned(&mut chance, &mut lent);
        }
        let part = chance.below(4);
        let bytes = [&mut lent.dir_hash, &mut lent.dir_table, &mut lent.file_hash, &mut lent.file_table];
        damage(&mut chance, bytes.into_iter().nth(part).expect("four"), n);
        trees_sound += tree_tests(&lent) as usize;
    }
    println!("On {cases} small block tables ({tables} sound), {cases} trees ({trees_sound} sound) and {} volumes of both every peer answers as the library does.", 2 * cases);
}
