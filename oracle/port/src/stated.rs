//! The statement of the rules as a port.

use crate::{Answered, BlockCall, Blocks, Kind, Port, Tree, TreeCall};
use rules::answer::{number, Outcome};
use rules::fault::fault;
use rules::opens::Packed;
use rules::tree::{Four, FourMut};
use rules::{blocks, tree};

pub struct Stated;

fn plain(outcome: Outcome<()>) -> Answered {
    Answered::number(number(&outcome))
}

fn one(outcome: Outcome<u64>) -> Answered {
    Answered::with(number(&outcome), &[outcome.unwrap_or(0)])
}

fn seen(lent: &Tree) -> Four<'_> {
    let [dir_hash, dir_table, file_hash, file_table] = lent.four();
    Four { dir_hash, dir_table, file_hash, file_table }
}

/// The four tables, the work list and the open records of one kind.
fn parts(lent: &mut Tree, kind: Kind) -> (FourMut<'_>, &mut [u32], &mut Packed) {
    let four = FourMut {
        dir_hash: &mut lent.dir_hash,
        dir_table: &mut lent.dir_table,
        file_hash: &mut lent.file_hash,
        file_table: &mut lent.file_table,
    };
    let opens = match kind {
        Kind::Dir => &mut lent.dir_opens,
        Kind::File => &mut lent.file_opens,
    };
    (four, &mut lent.work, opens)
}

fn block_call(call: &BlockCall, lent: &mut Blocks) -> Answered {
    let Blocks { table, data, block_len, work, list, buf } = lent;
    let len = *block_len;
    match *call {
        BlockCall::Format => plain(blocks::format(table)),
        BlockCall::Test => match blocks::test(table, work) {
            Ok(t) => Answered::with(0, &[t.free as u64, t.files as u64]),
            Err(refusal) => Answered::number(refusal.number()),
        },
        BlockCall::OpenList { first } => {
            one(blocks::open_list(table, data, len, work, first, list).map(|c| c as u64))
        }
        BlockCall::Create { count } => {
            one(blocks::create(table, data, len, work, count).map(|b| b as u64))
        }
        BlockCall::Resize { first, count } => {
            plain(blocks::resize(table, data, len, work, first, count))
        }
        BlockCall::Delete { first } => plain(blocks::delete(table, data, len, work, first)),
        BlockCall::Read { first, pos } => {
            plain(blocks::read(table, data, len, work, first, pos, buf))
        }
        BlockCall::Write { first, pos } => {
            plain(blocks::write(table, data, len, work, first, pos, buf))
        }
    }
}

/// Calls that change no table and take no open records.
fn asked(call: &TreeCall, lent: &mut Tree) -> Option<Answered> {
    let (mut work, mut list) = (std::mem::take(&mut lent.work), std::mem::take(&mut lent.list));
    let four = seen(lent);
    let answered = match *call {
        TreeCall::Test => Some(plain(tree::test(four, &mut work))),
        TreeCall::Lookup { kind, parent, ref name } => {
            let f = tree::lookup(four, &mut work, kind, parent, name);
            Some(Answered::with(f.answer.number(), &[f.inode.into(), f.compared.into()]))
        }
        TreeCall::List { kind, inode } => {
            let count = tree::list(four, &mut work, kind, inode, &mut list);
            Some(one(count.map(|c| c as u64)))
        }
        TreeCall::Stat => Some(match tree::stat(four, &mut work) {
            Ok(s) => {
                let fields = [s.dir_total, s.dir_free, s.file_total, s.file_free];
                Answered::with(0, &fields.map(|f| f as u64))
            }
            Err(refusal) => Answered::number(refusal.number()),
        }),
        TreeCall::Name { kind, inode } => {
            let offset = tree::name_of_kind(four, &mut work, kind, inode);
            Some(one(offset.map(|o| o as u64)))
        }
        TreeCall::NameAnswer { kind, inode } => {
            let offset = tree::name_of_kind(four, &mut work, kind, inode);
            Some(plain(offset.map(|_| ())))
        }
        TreeCall::Carried { kind, inode } => {
            let bytes = tree::carried(four, &mut work, kind, inode);
            let number = number(&bytes);
            Some(Answered::carrying(number, &bytes.unwrap_or_default()))
        }
        _ => None,
    };
    (lent.work, lent.list) = (work, list);
    answered
}

/// Calls that change tables or open records.
fn done(call: &TreeCall, lent: &mut Tree) -> Answered {
    match *call {
        TreeCall::Format { dir_max, file_max } => {
            let (mut four, _, _) = parts(lent, Kind::Dir);
            plain(tree::format(&mut four, dir_max, file_max))
        }
        TreeCall::Make { kind, parent, ref name, ref carried } => {
            let (mut four, work, opens) = parts(lent, kind);
            let made = tree::make(&mut four, work, opens, kind, parent, name, carried);
            one(made.map(|x| x.into()))
        }
        TreeCall::Rename { kind, inode, parent, ref name } => {
            let (mut four, work, opens) = parts(lent, kind);
            plain(tree::rename(&mut four, work, opens, kind, inode, parent, name))
        }
        TreeCall::Delete { kind, inode } => {
            let (mut four, work, opens) = parts(lent, kind);
            plain(tree::delete(&mut four, work, opens, kind, inode))
        }
        TreeCall::SetCarried { kind, inode, ref carried } => {
            let (mut four, work, _) = parts(lent, kind);
            plain(tree::set_carried(&mut four, work, kind, inode, carried))
        }
        TreeCall::Open { kind, inode, want } => {
            let (four, work, opens) = parts(lent, kind);
            plain(tree::open(four.four(), work, opens, kind, inode, want))
        }
        TreeCall::Close { kind, inode, want } => {
            let (four, work, opens) = parts(lent, kind);
            plain(tree::close(four.four(), work, opens, kind, inode, want))
        }
        _ => unreachable!("asked, not done"),
    }
}

/// With 4 the answer says where the table is broken; a table that is accepted is broken nowhere.
pub(crate) fn located(answered: Answered, table: &[u8]) -> Answered {
    let found = matches!(answered.number, 0 | 4).then(|| fault(table)).flatten();
    assert_eq!(answered.number == 4, found.is_some(), "the rules refuse what no rule breaks");
    found.map_or(answered, |f| answered.at(f.entry, f.rule))
}

impl Port for Stated {
    fn block_call(&self, call: &BlockCall, lent: &mut Blocks) -> Answered {
        let answered = block_call(call, lent);
        located(answered, &lent.table)
    }
    fn tree_call(&self, call: &TreeCall, lent: &mut Tree) -> Answered {
        asked(call, lent).unwrap_or_else(|| done(call, lent))
    }
}
