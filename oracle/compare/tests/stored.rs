//! The stored answers, replayed on the statement of the rules and on the proved library.

use compare::stored::bytes::Reader;
use compare::stored::{self, block_bytes, block_record, tree_bytes, tree_record};
use compare::stored::{BlockRecord, TreeRecord};
use port::{Library, Port, Stated};
use std::path::Path;

fn file(name: &str) -> Vec<u8> {
    std::fs::read(Path::new(env!("CARGO_MANIFEST_DIR")).join("../..").join(name)).unwrap()
}

/// How many records follow, by the header of a part.
fn count(r: &mut Reader, mark: u32, width: usize) -> usize {
    assert_eq!((r.word(), r.word()), (mark, stored::VERSION));
    let count = r.word() as usize;
    assert_eq!(r.word() as usize, width);
    assert!(count > 200, "{count} records");
    count
}

fn replay_block(record: &BlockRecord) {
    for port in [&Stated as &dyn Port, &Library] {
        let mut lent = record.before.clone();
        let answered = port.block_call(&record.call, &mut lent);
        assert_eq!((answered, &lent), (record.answered, &record.after), "{record:?}");
    }
}

fn replay_tree(record: &TreeRecord) {
    for port in [&Stated as &dyn Port, &Library] {
        let mut lent = record.before.clone();
        let answered = port.tree_call(&record.call, &mut lent);
        assert_eq!((answered, &lent), (record.answered, &record.after), "{record:?}");
    }
}

#[test]
fn both_parts() {
    let bytes = file("crates/stored/stdin");
    let r = &mut Reader { bytes: &bytes };
    for _ in 0..count(r, stored::BLOCK_MARK, stored::BLOCK_RECORD) {
        let before = r.bytes;
        let record = block_record(r);
        assert_eq!(block_bytes(&record), before[..before.len() - r.bytes.len()]);
        replay_block(&record);
    }
    for _ in 0..count(r, stored::TREE_MARK, stored::TREE_RECORD) {
        let bytes = r.take(stored::TREE_RECORD);
        let record = tree_record(bytes);
        assert_eq!(tree_bytes(&record), bytes);
        replay_tree(&record);
    }
    assert!(r.bytes.is_empty());
}
