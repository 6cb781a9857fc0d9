//! Volumes of which nothing is written but what the modules write themselves: the files refuse to read the rest, as files with hashes do.

use super::subject::{Tables, Volume};
use super::{blocks, tree};
use compare::chance::Chance;
use compare::{block_history, tree_history};
use port::{BlockCall, Blocks, Kind, Port, Stated, Tree, TreeCall};
use rules::opens::Packed;

pub fn run(chance: &mut Chance) {
    some_blocks(chance);
    some_entries(chance);
}

/// Creates, resizes and deletes; the rules begin with zeros. The volume is opened anew now and then, from what was written.
fn some_blocks(chance: &mut Chance) {
    let n = chance.within(1, 60);
    let mut volume = Volume::unwritten(n, 512).expect("a formatted volume opens");
    let mut lent = Blocks {
        table: vec![0; (n + 1) * 8],
        data: vec![0; n * 512],
        block_len: 512,
        work: vec![0; n],
        list: vec![0; n],
        buf: vec![],
    };
    assert_eq!(Stated.block_call(&BlockCall::Format, &mut lent).number, 0);
    for _ in 0..30 {
        let call = block_history::any_call(chance, &mut lent);
        if let BlockCall::Create { .. } | BlockCall::Resize { .. } | BlockCall::Delete { .. } = call {
            let answered = Stated.block_call(&call, &mut lent);
            if answered.number != 5 {
                let wanted = blocks::named(answered.number).map(|()| answered.fields[0] as usize);
                assert_eq!(blocks::change(&mut volume, &call), wanted, "{call:?}");
            }
            assert!(volume.holds(&lent.table, &lent.data), "other bytes after {call:?}");
            blocks::lists(&mut volume, &lent.table);
        }
        if chance.one_in(6) {
            volume.reopen(512).expect("what was written is enough");
        }
    }
}

/// Makes, renames and deletes.
fn some_entries(chance: &mut Chance) {
    let (dirs, files) = (chance.within(2, 9), chance.within(1, 9));
    let lens = [4 * chance.within(1, 7), 40 * dirs, 4 * chance.within(1, 7), 48 * files];
    let mut tables = Tables::unwritten(lens, dirs, files).expect("formatted tables open");
    let [dir_hash, dir_table, file_hash, file_table] = lens.map(|len| vec![0; len]);
    let mut lent = Tree {
        dir_hash,
        dir_table,
        file_hash,
        file_table,
        work: vec![0; dirs + files],
        dir_opens: Packed::none(2 * dirs),
        file_opens: Packed::none(2 * files),
        list: vec![],
    };
    assert_eq!(Stated.tree_call(&TreeCall::Format { dir_max: dirs, file_max: files }, &mut lent).number, 0);
    let mut held = tree::Held::new();
    for _ in 0..30 {
        let call = tree_history::any_call(chance, &mut lent);
        if matches!(call, TreeCall::SetCarried { kind: Kind::Dir, .. }) {
            continue;
        }
        tree::step(&mut tables, &mut held, &call, &mut lent);
        tree::lists(&tables, &lent);
        if chance.one_in(6) {
            held.clear();
            tables.reopen().expect("what was written is enough");
        }
    }
}
