//! Histories of block calls on the rules, the library and the original.

use crate::chance::Chance;
use crate::check;
use crate::stored;
use crate::volumes;
use original::Volume;
use port::{Answered, BlockCall, Blocks};
use rules::blocks::{blocks, layout, Layout};

/// A session: what the rules say is there, and the original beside it with its handles.
pub struct Session {
    pub lent: Blocks,
    original: Option<Volume>,
}

impl Session {
    pub fn new(lent: Blocks) -> Session {
        let open = || Volume::open(&lent.table, &lent.data, lent.block_len);
        let original = original::PRESENT.then(|| open().expect("the original opens a sound volume"));
        Session { lent, original }
    }

    /// Runs one call everywhere and compares.
    pub fn run(&mut self, call: &BlockCall) -> Answered {
        let mut read = self.lent.buf.clone();
        let answered = check::block_call(call, &mut self.lent);
        if let Some(original) = &mut self.original {
            // Only calls on files: the original opens more than the files of a sound table. And only those that are not refused for the block length: it
            // changes volumes of any.
            let followed = !matches!(answered.number, 5 | 20) && !wraps(call, &read);
            if followed {
                follow(original, call, &answered, &self.lent, &mut read);
            }
            let same = original.holds(&self.lent.table, &self.lent.data);
            assert!(same, "the original's bytes differ after {call:?}\nrules {}", check::short(&self.lent));
            if followed {
                stored::confirm_block();
            }
        }
        answered
    }

    /// A merge, of which the original has none: it is given the bytes, and its handles stay.
    pub fn follow_merge(&mut self) {
        if let Some(original) = &mut self.original {
            original.set_table(&self.lent.table);
        }
    }

    /// Drops every handle of the original and opens the volume anew.
    pub fn reopen(&mut self) {
        if let Some(original) = &mut self.original {
            original.reopen(self.lent.block_len).expect("the original opens a sound volume");
        }
    }

    /// Every file's list, by a kept handle and by a fresh one, and the free blocks.
    pub fn compare_lists(&mut self) {
        let held = layout(&self.lent.table).expect("every step keeps the table sound");
        let Some(original) = &mut self.original else { return };
        assert_eq!(original.free(), blocks(&held.free), "free blocks of {}", check::short(&self.lent));
        for chain in &held.files {
            let first = chain[0].start;
            let listed: Vec<u32> =
                rules::blocks::listed(chain).iter().map(|b| *b as u32).collect();
            assert_eq!(original.list(first), Ok(listed.clone()), "list of {first}");
            assert_eq!(original.fresh_list(first), Ok(listed), "fresh list of {first}");
        }
    }
}

/// Where position plus length wraps the original answers Ok: a listed difference.
fn wraps(call: &BlockCall, buf: &[u8]) -> bool {
    match call {
        BlockCall::Read { pos, .. } | BlockCall::Write { pos, .. } => pos.checked_add(buf.len()).is_none(),
        _ => false,
    }
}

/// Runs the call on the original and compares what it answers.
fn follow(original: &mut Volume, call: &BlockCall, answered: &Answered, lent: &Blocks, buf: &mut [u8]) {
    let rules = if answered.number == 0 { Ok(()) } else { Err(answered.number) };
    let field = answered.fields[0] as usize;
    match *call {
        BlockCall::Format => {
            let mut table = original.table();
            assert_eq!(Volume::format(&mut table), rules, "{call:?}");
            assert!(table == lent.table, "the original formats otherwise");
            original.set(&lent.table, &lent.data);
            original.reopen(lent.block_len).unwrap();
        }
        BlockCall::Test => assert_eq!(original.free(), field, "{call:?}"),
        BlockCall::OpenList { first } => {
            let listed = original.list(first).unwrap();
            if rules.is_ok() {
                assert_eq!(listed, lent.list[..field], "{call:?}");
            }
        }
        BlockCall::Create { count } => {
            assert_eq!(original.create(count), rules.map(|()| field), "{call:?}")
        }
        BlockCall::Resize { first, count } => {
            assert_eq!(original.resize(first, count), rules, "{call:?}")
        }
        BlockCall::Delete { first } => assert_eq!(original.delete(first), rules, "{call:?}"),
        BlockCall::Read { first, pos } => {
            assert_eq!(original.read(first, pos, buf), rules, "{call:?}");
            assert!(buf == lent.buf, "the original reads otherwise: {call:?}");
        }
        BlockCall::Write { first, pos } => {
            assert_eq!(original.write(first, pos, buf), rules, "{call:?}")
        }
    }
}

/// A first block: mostly a file's, sometimes any number.
fn any_first(chance: &mut Chance, held: &Layout, n: usize) -> usize {
    if held.files.is_empty() || chance.one_in(12) {
        return chance.pick(&[0, chance_block(held), n, n + 1, usize::MAX, 1 << 32]);
    }
    let at = chance.below(held.files.len());
    held.files[at][0].start
}

/// A block that is no file's first: the last of the first run there is.
fn chance_block(held: &Layout) -> usize {
    let run = held.free.first().or(held.files.first().and_then(|c| c.first()));
    run.map_or(0, |run| run.start + run.size - 1)
}

/// A position and a length near the edges of the file or of a block.
fn any_span(chance: &mut Chance, held: &Layout, first: usize, block_len: usize) -> (usize, usize) {
    let chain = held.files.iter().find(|chain| chain[0].start == first);
    let end = chain.map_or(0, |chain| blocks(chain) * block_len);
    if chance.one_in(12) {
        let pos = chance.pick(&[end, end + 1, usize::MAX, usize::MAX - 1, 1 << 32]);
        return (pos, chance.below(3));
    }
    let pos = chance.within(0, end);
    let len = match chance.below(4) {
        0 => end - pos,
        1 => (end - pos).min(block_len),
        2 => end - pos + 1,
        _ => chance.within(0, end - pos),
    };
    (pos, len)
}

/// Any call, with the lent buffers that it needs.
pub fn any_call(chance: &mut Chance, lent: &mut Blocks) -> BlockCall {
    let held = layout(&lent.table).expect("every step keeps the table sound");
    let n = lent.table.len() / 8 - 1;
    let free = blocks(&held.free);
    let first = any_first(chance, &held, n);
    let wanted = if chance.one_in(10) {
        chance.pick(&[0, free, free + 1, n, n + 1, usize::MAX])
    } else {
        chance.within(1, (n / 2).max(1))
    };
    let (pos, len) = any_span(chance, &held, first, lent.block_len);
    lent.buf = chance.bytes(len);
    lent.list = chance.words(n);
    match chance.below(32) {
        0 if chance.one_in(6) => BlockCall::Format,
        0..=1 => BlockCall::Test,
        2..=4 => {
            let count = held.files.iter().find(|c| c[0].start == first).map_or(0, |c| blocks(c));
            let len = chance.pick(&[n, count, count.saturating_sub(1), count + 1]);
            lent.list = chance.words(len);
            BlockCall::OpenList { first }
        }
        5..=12 => BlockCall::Create { count: wanted },
        13..=19 => BlockCall::Resize { first, count: wanted },
        20..=23 => BlockCall::Delete { first },
        24..=27 => BlockCall::Read { first, pos },
        _ => BlockCall::Write { first, pos },
    }
}

/// Reads and writes of a sound volume's files that begin and end at a block's border, a byte before it or a byte behind it.
pub fn borders(chance: &mut Chance) {
    let mut session = Session::new(volumes::any_sound(chance));
    let held = layout(&session.lent.table).expect("a sound volume");
    if held.files.is_empty() {
        return;
    }
    for _ in 0..24 {
        let chain = chance.pick(&held.files);
        let (first, most) = (chain[0].start, blocks(&chain).min(6));
        let mut border = || (chance.within(0, most) * session.lent.block_len + chance.below(3)).saturating_sub(1);
        let (pos, end) = (border(), border());
        session.lent.buf = chance.bytes(end.saturating_sub(pos));
        let call = chance.pick(&[BlockCall::Read { first, pos }, BlockCall::Write { first, pos }]);
        session.run(&call);
    }
    session.compare_lists();
}

/// One random history.
pub fn run(chance: &mut Chance) {
    let start = if chance.one_in(2) {
        volumes::formatted(chance)
    } else {
        volumes::any_sound(chance)
    };
    let mut session = Session::new(start);
    let steps = chance.within(1, 40);
    for _ in 0..steps {
        let call = any_call(chance, &mut session.lent);
        session.run(&call);
        if chance.one_in(4) {
            session.compare_lists();
        }
        if chance.one_in(16) {
            session.reopen();
        }
    }
    session.compare_lists();
}
