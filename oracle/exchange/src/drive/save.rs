//! Whole saves, as callers of these modules make them: files with bytes in directories, the entry tables in files of the block table.

use super::subject::Save;
use compare::chance::Chance;
use std::collections::HashMap;

type Name = [u8; 16];

fn any_name(chance: &mut Chance) -> Name {
    let mut name = [0; 16];
    name[0] = chance.pick(b"abcdef");
    name
}

/// A path of a directory that was made, or of the root.
fn any_dir(chance: &mut Chance, dirs: &[Vec<Name>]) -> Vec<Name> {
    match dirs.len() {
        0 => vec![],
        some if chance.one_in(some + 1) => vec![],
        _ => chance.pick(dirs),
    }
}

/// Adds to a digest.
fn digest(sum: &mut u64, bytes: &[u8]) {
    for byte in bytes {
        *sum = (*sum ^ u64::from(*byte)).wrapping_mul(0x100_0000_01B3);
    }
}

/// What a history leaves, step by step: answers and every byte, as digests. What is read back is held against what was put.
pub fn run(chance: &mut Chance) -> Vec<u64> {
    let (dirs, files) = (chance.within(2, 8), chance.within(1, 12));
    let mut save = Save::new(chance.within(8, 60), dirs, files, chance.within(1, 5)).expect("a new save");
    let (mut made, mut held, mut trace) = (vec![], HashMap::<Vec<Name>, Vec<u8>>::new(), vec![]);
    for _ in 0..40 {
        let mut path = any_dir(chance, &made);
        path.push(any_name(chance));
        let len = chance.within(1, 3_000);
        let bytes = chance.bytes(len);
        let mut to = any_dir(chance, &made);
        to.push(any_name(chance));
        let answer = match chance.below(10) {
            0 => save.mkdir(&path).map(|()| made.push(path)),
            1..=4 => save.put(&path, &bytes).map(|()| drop(held.insert(path, bytes))),
            5 => save.remove(&path).map(|()| drop(held.remove(&path))),
            // A rename that meets a name has removed the entry already in the original.
            6 if held.contains_key(&path) && !held.contains_key(&to) => {
                save.rename(&path, &to).map(|()| drop(held.remove(&path).map(|bytes| held.insert(to, bytes))))
            }
            7 => save.rmdir(&path).map(|()| made.retain(|dir| *dir != path)),
            8 => save.reopen(),
            _ => save.list(&path[..path.len() - 1]).map(drop),
        };
        let mut sum = u64::from(answer.err().unwrap_or(0)) + save.free() as u64;
        save.bytes().iter().for_each(|bytes| digest(&mut sum, bytes));
        trace.push(sum);
    }
    for (path, bytes) in &held {
        assert!(save.get(path).as_ref() == Ok(bytes), "a file has other bytes than it was given");
    }
    trace
}
