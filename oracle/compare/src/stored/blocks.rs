//! Records of block calls: a head of fixed width, and for read and write a tail with data and buffer. Of data that a call does not read the length alone is kept.

use super::bytes::{Reader, Writer};
use super::{BlockRecord, Record};
use port::{Answered, BlockCall, Blocks};

/// Areas of the head: table in bytes, work and list in places.
const TABLE: usize = 72;
const WORK: usize = 12;
const LIST: usize = 10;
pub const BLOCK_RECORD: usize = 88 + 2 * (TABLE + 4 * WORK + 4 * LIST);

/// The most data of a call that looks at their length, and of read and write, which have a tail; and the longest buffer.
const DATA: usize = 4_096;
const TAIL_DATA: usize = 2_048;
const BUF: usize = 2_052;

fn has_tail(call: &BlockCall) -> bool {
    matches!(call, BlockCall::Read { .. } | BlockCall::Write { .. })
}

/// Whether the record outlives the retirement of odd block lengths: a call that would change something has a length in use, or is refused before that matters.
fn lasts(call: &BlockCall, lent: &Blocks, number: u32) -> bool {
    let changes = match *call {
        BlockCall::Create { count } | BlockCall::Resize { count, .. } => number != 2 || count == 0,
        BlockCall::Delete { .. } | BlockCall::Write { .. } => number != 2,
        _ => false,
    };
    matches!(lent.block_len, 512 | 4_096) || matches!(number, 1 | 3 | 4) || !changes
}

pub fn block_fits(call: &BlockCall, lent: &Blocks, number: u32) -> bool {
    let (data, buf) = if has_tail(call) { (TAIL_DATA, BUF) } else { (DATA, usize::MAX) };
    lasts(call, lent, number)
        && lent.table.len() <= TABLE
        && lent.data.len() <= data
        && lent.buf.len() <= buf
        && lent.work.len() <= WORK
        && lent.list.len() <= LIST
}

pub fn block_number(call: &BlockCall) -> u32 {
    match call {
        BlockCall::Format => 0,
        BlockCall::Test => 1,
        BlockCall::OpenList { .. } => 2,
        BlockCall::Create { .. } => 3,
        BlockCall::Resize { .. } => 4,
        BlockCall::Delete { .. } => 5,
        BlockCall::Read { .. } => 6,
        BlockCall::Write { .. } => 7,
    }
}

/// First block, and block count or position; what a call does not take is 0.
fn block_numbers(call: &BlockCall) -> (usize, usize) {
    match *call {
        BlockCall::Format | BlockCall::Test => (0, 0),
        BlockCall::OpenList { first } | BlockCall::Delete { first } => (first, 0),
        BlockCall::Create { count } => (0, count),
        BlockCall::Resize { first, count } => (first, count),
        BlockCall::Read { first, pos } | BlockCall::Write { first, pos } => (first, pos),
    }
}

pub fn block_of(number: u32, first: usize, second: usize) -> BlockCall {
    match number {
        0 => BlockCall::Format,
        1 => BlockCall::Test,
        2 => BlockCall::OpenList { first },
        3 => BlockCall::Create { count: second },
        4 => BlockCall::Resize { first, count: second },
        5 => BlockCall::Delete { first },
        6 => BlockCall::Read { first, pos: second },
        _ => BlockCall::Write { first, pos: second },
    }
}

/// What is kept of lent things: data and buffer where the call has a tail, else data of 0 bytes and no buffer.
pub fn kept_part(call: &BlockCall, lent: &Blocks) -> Blocks {
    let mut part = lent.clone();
    if !has_tail(call) {
        part.data.fill(0);
        part.buf.clear();
    }
    part
}

pub fn block_bytes(record: &BlockRecord) -> Vec<u8> {
    let mut w = Writer { bytes: vec![] };
    let (first, second) = block_numbers(&record.call);
    let (before, after) = (&record.before, &record.after);
    w.word(block_number(&record.call));
    w.word(record.original.into());
    w.number(first as u64);
    w.number(second as u64);
    w.number(before.block_len as u64);
    for len in [before.table.len(), before.data.len(), before.buf.len(), before.work.len(), before.list.len()] {
        w.word(len as u32);
    }
    w.word(record.answered.number);
    w.number(record.answered.fields[0]);
    w.number(record.answered.fields[1]);
    let (entry, rule) = record.answered.fault;
    w.number(entry as u64);
    w.word(rule);
    w.word(0);
    for lent in [before, after] {
        w.area(&lent.table, TABLE);
        w.words(&lent.work, WORK);
        w.words(&lent.list, LIST);
    }
    assert_eq!(w.bytes.len(), BLOCK_RECORD);
    if has_tail(&record.call) {
        for piece in [&before.data, &after.data, &before.buf, &after.buf] {
            w.area(piece, piece.len());
        }
    }
    w.bytes
}

/// The record that begins there; what is left is the rest.
pub fn block_record(r: &mut Reader) -> BlockRecord {
    let (number, original) = (r.word(), r.word() == 1);
    let (first, second) = (r.number() as usize, r.number() as usize);
    let block_len = r.number() as usize;
    let [table, data, buf, work, list] = std::array::from_fn(|_| r.word() as usize);
    let mut answered = Answered::number(r.word());
    (answered.fields[0], answered.fields[1]) = (r.number(), r.number());
    answered.fault = (r.number() as usize, r.word());
    assert_eq!(r.word(), 0);
    let [mut before, mut after] = std::array::from_fn(|_| Blocks {
        block_len,
        table: r.area(TABLE, table),
        work: r.words(WORK, work),
        list: r.words(LIST, list),
        data: vec![0; data],
        buf: vec![],
    });
    let call = block_of(number, first, second);
    if has_tail(&call) {
        [before.data, after.data] = std::array::from_fn(|_| r.take(data).to_vec());
        [before.buf, after.buf] = std::array::from_fn(|_| r.take(buf).to_vec());
    }
    Record { call, before, after, answered, original }
}
