//! Which trees an honest writer could have left: the rules and the library, after each step of histories that the original follows, on trees with two
//! entries of a list exchanged, on arbitrary sound trees and on damaged ones.

use crate::chance::Chance;
use crate::check::short;
use crate::tree_history::{any_call, seen, Session};
use crate::trees;
use port::{Answered, Kind, Tree};
use rules::put_word;
use rules::tree::tree;
use std::sync::atomic::{AtomicU64, Ordering};

/// How often each number was answered; and with 0 how often each of these was told: nothing, the root, another directory, a file.
static ANSWERS: [AtomicU64; 10] = [const { AtomicU64::new(0) }; 10];
static TOLD: [AtomicU64; 4] = [const { AtomicU64::new(0) }; 4];

/// The calls that gave each of 0, 1, 2, 3 and 9, which are all its numbers; those that told nothing, the root, another directory and a file.
pub fn met() -> (Vec<u64>, Vec<u64>) {
    let read = |times: &AtomicU64| times.load(Ordering::Relaxed);
    ([0, 1, 2, 3, 9].map(|number| read(&ANSWERS[number])).to_vec(), TOLD.iter().map(read).collect())
}

/// Both answer the same and leave the same in everything that is lent: the answer.
fn same(lent: &mut Tree) -> Answered {
    let before = lent.clone();
    let mut library = lent.clone();
    let (stated, answered) = (lent.aged_stated(), library.aged_library());
    assert!(
        answered == stated && library == *lent,
        "the library differs\nlent {}\nrules {stated:?} {:?}\nlibrary {answered:?} {:?}",
        short(&before), lent.work, library.work
    );
    assert!(lent.four() == before.four(), "a table was changed");
    ANSWERS[stated.number as usize].fetch_add(1, Ordering::Relaxed);
    if stated.number == 0 {
        let told = match stated.fields {
            [0, ..] => 0,
            [1, 1, ..] => 1,
            [1, ..] => 2,
            _ => 3,
        };
        TOLD[told].fetch_add(1, Ordering::Relaxed);
    }
    stated
}

/// Exchanges two neighbours of a bucket or of a directory's list: still sound, and perhaps no honest writer's. Says whether there was a list of two.
fn exchanged(chance: &mut Chance, lent: &mut Tree) -> bool {
    let held = tree(seen(lent)).expect("sound tables");
    let kind = chance.pick(&[Kind::Dir, Kind::File]);
    let by_bucket = chance.one_in(2);
    let lists: Vec<(usize, Vec<u32>)> = if by_bucket {
        held.held(kind).buckets.iter().cloned().enumerate().collect()
    } else {
        held.dirs.inodes().map(|dir| (dir as usize, held.children(kind, dir).to_vec())).collect()
    };
    let long: Vec<_> = lists.into_iter().filter(|(_, list)| list.len() > 1).collect();
    if long.is_empty() {
        return false;
    }
    let (start, mut list) = chance.pick(&long);
    let at = chance.below(list.len() - 1);
    list.swap(at, at + 1);
    let width = kind.width();
    let place = if by_bucket { width - 4 } else { 20 };
    let Tree { dir_hash, dir_table, file_hash, file_table, .. } = lent;
    let (hash, first_child) = match kind {
        Kind::Dir => (dir_hash, 24),
        Kind::File => (file_hash, 28),
    };
    if by_bucket {
        put_word(hash, 4 * start, list[0]);
    } else {
        put_word(dir_table, 40 * start + first_child, list[0]);
    }
    let table = match kind {
        Kind::Dir => dir_table,
        Kind::File => file_table,
    };
    for (i, x) in list.iter().enumerate() {
        put_word(table, width * *x as usize + place, list.get(i + 1).copied().unwrap_or(0));
    }
    true
}

/// A history from a format on, which the original follows: after each step nothing is told. Then some lists have entries exchanged.
pub fn run(chance: &mut Chance) {
    let mut session = Session::new(trees::formatted(chance));
    for _ in 0..chance.within(1, 60) {
        let call = any_call(chance, &mut session.lent);
        session.run(&call);
        let answered = same(&mut session.lent.clone());
        assert_eq!(answered, Answered::number(0), "an honest tree is told after {call:?}");
    }
    let mut lent = session.lent;
    for _ in 0..3 {
        if exchanged(chance, &mut lent) {
            assert_eq!(same(&mut lent).number, 0, "an exchange keeps the tables sound");
        }
    }
    let mut lent = trees::any_sound(chance);
    assert_eq!(same(&mut lent).number, 0);
    match chance.below(4) {
        0 => lent.work.truncate(chance.below(lent.work.len())),
        1 => lent.dir_hash.truncate(chance.below(lent.dir_hash.len())),
        2 => lent.file_hash = vec![0; 4 * 65_537],
        _ => {
            let at = chance.below(lent.dir_table.len());
            lent.dir_table[at] ^= 1 << chance.below(8);
        }
    }
    same(&mut lent);
}
