//! Salvage: the rules and the library on sound tables, on damaged ones and on junk.

use crate::chance::Chance;
use crate::{trees, volumes};
use port::{Asked, Salvage};
use rules::blocks::lay_out;
use rules::put_word;
use std::sync::atomic::{AtomicU64, Ordering};

/// How often each number was answered, how often a chain ended by each rule, and how often each kind was told.
static ANSWERS: [AtomicU64; 9] = [const { AtomicU64::new(0) }; 9];
static RULES: [AtomicU64; 9] = [const { AtomicU64::new(0) }; 9];
static KINDS: [AtomicU64; 4] = [const { AtomicU64::new(0) }; 4];

/// The answers 0, 1, 2, 3, 5 and 8; the ends by rules 0, 1, 3, 4, 5, 7 and 8; the kinds 0 to 3.
pub fn met() -> (Vec<u64>, Vec<u64>, Vec<u64>) {
    let read = |times: &AtomicU64| times.load(Ordering::Relaxed);
    (
        [0, 1, 2, 3, 5, 8].map(|number| read(&ANSWERS[number])).to_vec(),
        [0, 1, 3, 4, 5, 7, 8].map(|rule| read(&RULES[rule])).to_vec(),
        KINDS.iter().map(read).collect(),
    )
}

/// Both answer the same and leave the same in everything that is lent.
fn same(asked: Asked, table: &[u8], places: usize, room: usize) {
    let before = Salvage { asked, table: table.to_vec(), work: vec![77; places], list: vec![99; room] };
    let (mut lent, mut library) = (before.clone(), before.clone());
    let stated = lent.stated();
    let answered = library.library();
    assert!(
        answered == stated && library == lent,
        "the library differs\nlent {before:?}\nrules {stated:?} {:?} {:?}\nlibrary {answered:?} {:?} {:?}",
        lent.list, lent.work, library.list, library.work
    );
    let kept = lent.list == before.list && lent.asked == before.asked;
    assert!(stated.number == 0 || kept, "the rules changed a list and refused");
    ANSWERS[stated.number as usize].fetch_add(1, Ordering::Relaxed);
    match (stated.number, &before.asked) {
        (0, Asked::Chain(_)) => {
            RULES[stated.fault.1 as usize].fetch_add(1, Ordering::Relaxed);
        }
        (0, Asked::Shared(firsts)) => {
            for kind in &lent.list[..firsts.len()] {
                KINDS[*kind as usize].fetch_add(1, Ordering::Relaxed);
            }
        }
        _ => (),
    }
}

/// Overwrites some words: with an index, a flag and an index, or anything.
fn damaged(chance: &mut Chance, table: &mut [u8], words: usize, n: usize) {
    for _ in 0..words {
        let at = 4 * chance.below(table.len() / 4);
        let index = chance.within(0, n + 1) as u32;
        let word = chance.next() as u32;
        put_word(table, at, chance.pick(&[index, index | 1 << 31, 1 << 31, 0, word]));
    }
}

/// One table with its chains, a list of first blocks, and two entry tables.
pub fn run(chance: &mut Chance) {
    let n = volumes::any_size(chance).min(40);
    let mut table = chance.bytes(8 * (n + 1));
    lay_out(&mut table, &volumes::any_layout(chance, n));
    let words = chance.pick(&[0, 1, 1, 2, 4, 16]);
    damaged(chance, &mut table, words, n);
    let places = n + chance.below(2) - usize::from(chance.one_in(16));
    for first in 0..n + 2 {
        let room = chance.pick(&[n, n, n, first]);
        same(Asked::Chain(first), &table, places, room);
    }
    same(Asked::Chain(usize::MAX), &table, places, 0);
    let many = chance.within(0, 2 * n + 8);
    let most = chance.pick(&[n, n + 3, 1]);
    let firsts: Vec<u32> = (0..many).map(|_| chance.below(most) as u32).collect();
    let room = many + chance.below(2) - usize::from(many > 0 && chance.one_in(8));
    same(Asked::Shared(firsts.clone()), &table, places, room);
    let ends = vec![55; 3 * many + chance.below(2) - usize::from(many > 0 && chance.one_in(8))];
    let room = chance.pick(&[5 * n, 5 * n, n, 1]);
    same(Asked::Chains(firsts, ends), &table, places, room);
    let whole: Vec<u32> = (0..n as u32).collect();
    same(Asked::Shared(whole.repeat(6)), &table, places, 6 * n);
    same(Asked::Chains(whole.repeat(6), vec![55; 18 * n]), &table, places, 5 * n);
    let cut = chance.below(20);
    same(Asked::Chain(0), &table[..cut.min(table.len())], places, n);
    same(Asked::Shared(vec![0]), &table[..cut.min(table.len())], places, n);
    same(Asked::Chains(vec![0], vec![55; 3]), &table[..cut.min(table.len())], places, n);
    let tree = trees::any_sound(chance);
    for (asked, width, mut table) in [(Asked::Dirs, 40, tree.dir_table), (Asked::Files, 48, tree.file_table)] {
        let room = table.len() / width;
        if chance.one_in(2) {
            let words = chance.within(1, 4);
            damaged(chance, &mut table, words, room);
        }
        let places = room + chance.below(2) - usize::from(chance.one_in(8));
        let list = chance.pick(&[room, room, room / 2, 0]);
        same(asked.clone(), &table, places, list);
        if asked == Asked::Dirs {
            for inode in 0..room as u32 + 2 {
                same(Asked::Way(inode), &table, places, list);
            }
            same(Asked::Way(u32::MAX), &table, places, list);
        }
        let cut = chance.below(2 * width);
        same(asked, &table[..cut.min(table.len())], places, list);
    }
}
