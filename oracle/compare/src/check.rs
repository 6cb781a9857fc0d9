//! One call on the statement of the rules and on the proved library, compared whole.

use crate::stored;
use port::{Answered, BlockCall, Blocks, First, Inner, Library, Port, Stated, Tree, TreeCall};
use std::sync::atomic::{AtomicU64, Ordering};
use std::thread;
use std::time::Duration;

static CALLS: AtomicU64 = AtomicU64::new(0);
static INNER_CALLS: AtomicU64 = AtomicU64::new(0);

/// How often each rule of a broken block table was answered, by its number.
static BROKEN: [AtomicU64; 8] = [const { AtomicU64::new(0) }; 8];

/// How often each of the rules 1 to 7 was what a broken table broke.
pub fn broken() -> Vec<u64> {
    BROKEN[1..].iter().map(|rule| rule.load(Ordering::Relaxed)).collect()
}

/// How many calls were compared so far, and for how many of them the inner call too.
pub fn made() -> (u64, u64) {
    (CALLS.load(Ordering::Relaxed), INNER_CALLS.load(Ordering::Relaxed))
}

/// Ends the program if no call comes back for two minutes: "never a loop".
pub fn watch() {
    thread::spawn(|| {
        let mut last = made();
        loop {
            thread::sleep(Duration::from_secs(120));
            let now = made();
            if now == last {
                eprintln!("NO CALL CAME BACK FOR TWO MINUTES, after {} calls", now.0);
                std::process::exit(1);
            }
            last = now;
        }
    });
}

/// The rules' answer. The library must give the same on a copy, in every byte, and so must its inner call where the sizes fit and the tables are sound.
pub fn block_call(call: &BlockCall, lent: &mut Blocks) -> Answered {
    let before = lent.clone();
    let mut copy = lent.clone();
    let stated = Stated.block_call(call, lent);
    CALLS.fetch_add(1, Ordering::Relaxed);
    BROKEN[stated.fault.1 as usize].fetch_add(1, Ordering::Relaxed);
    let answered = Library.block_call(call, &mut copy);
    let same = answered == stated && copy == *lent;
    assert!(
        same,
        "the library differs\ncall {call:?}\nlent {}\nrules {stated:?} {}\nlibrary {answered:?} {}",
        short(&before), short(lent), short(&copy)
    );
    if !matches!(stated.number, 1 | 3 | 4) && sizes_fit(call, stated.number, &before) {
        let mut copy = before.clone();
        if let Some(answered) = Inner.block_call(call, &mut copy) {
            INNER_CALLS.fetch_add(1, Ordering::Relaxed);
            copy.work.clone_from(&lent.work);
            let same = answered == stated && copy == *lent;
            assert!(
                same,
                "the inner call differs\ncall {call:?}\nlent {}\nrules {stated:?} {}\ninner {answered:?} {}",
                short(&before), short(lent), short(&copy)
            );
        }
        let mut copy = before.clone();
        if let Some(answered) = First.block_call(call, &mut copy) {
            copy.work.clone_from(&lent.work);
            let same = answered == stated && copy == *lent;
            assert!(
                same,
                "the call beside both maps differs\ncall {call:?}\nlent {}\nrules {stated:?} {}\ncall {answered:?} {}",
                short(&before), short(lent), short(&copy)
            );
        }
    }
    unchanged_when_refused(stated.number, || before.table == lent.table && before.data == lent.data);
    stored::offer_block(call, &before, lent, &stated);
    stated
}

/// The same for a call that changes no data, over data that are too many to be copied. The inner call is left out.
pub fn block_call_on_data(call: &BlockCall, lent: &mut Blocks) -> Answered {
    assert!(!matches!(call, BlockCall::Write { .. }), "write changes data");
    let data = std::mem::take(&mut lent.data);
    let mut copy = Blocks { data, ..lent.clone() };
    let answered = Library.block_call(call, &mut copy);
    lent.data = std::mem::take(&mut copy.data);
    let stated = Stated.block_call(call, lent);
    CALLS.fetch_add(1, Ordering::Relaxed);
    let data = std::mem::take(&mut lent.data);
    assert!(answered == stated && copy == *lent, "the library differs on {} bytes of data: {call:?}", data.len());
    lent.data = data;
    stated
}

pub fn tree_call(call: &TreeCall, lent: &mut Tree) -> Answered {
    let before = lent.clone();
    let mut copy = lent.clone();
    let stated = Stated.tree_call(call, lent);
    CALLS.fetch_add(1, Ordering::Relaxed);
    let answered = Library.tree_call(call, &mut copy);
    let same = answered == stated && copy == *lent;
    assert!(
        same,
        "the library differs\ncall {call:?}\nlent {}\nrules {stated:?} {}\nlibrary {answered:?} {}",
        short(&before), short(lent), short(&copy)
    );
    if !matches!(stated.number, 1 | 3 | 9) && sound_at_two(call, stated.number, &before) {
        let mut copy = before.clone();
        if let Some(answered) = Inner.tree_call(call, &mut copy) {
            INNER_CALLS.fetch_add(1, Ordering::Relaxed);
            copy.work.clone_from(&lent.work);
            let same = answered == stated && copy == *lent;
            assert!(
                same,
                "the inner call differs\ncall {call:?}\nlent {}\nrules {stated:?} {}\ninner {answered:?} {}",
                short(&before), short(lent), short(&copy)
            );
        }
    }
    unchanged_when_refused(stated.number, || {
        let opens = before.dir_opens == lent.dir_opens && before.file_opens == lent.file_opens;
        before.four() == lent.four() && before.list == lent.list && opens
    });
    stored::offer_tree(call, &before, lent, &stated);
    stated
}

/// Whether InvalidValue is about the count asked for and not about a size: then the work list was cleared.
fn sizes_fit(call: &BlockCall, number: u32, before: &Blocks) -> bool {
    let zero = matches!(call, BlockCall::Create { count: 0 } | BlockCall::Resize { count: 0, .. });
    let block_len = (1..=65_536).contains(&before.block_len);
    number != 2 || (zero && block_len && (16..=8_000_008).contains(&before.table.len()))
}

/// Whether InvalidValue is about the new name and not about a size or the open records: then the tables pass their test, and the records are in order.
fn sound_at_two(call: &TreeCall, number: u32, before: &Tree) -> bool {
    let named = match *call {
        TreeCall::Make { kind, .. } | TreeCall::Rename { kind, .. } => before.opens(kind).in_order(),
        _ => false,
    };
    number != 2 || (named && Stated.tree_call(&TreeCall::Test, &mut before.clone()).number == 0)
}

/// What was lent, cut where it is long: a case can be run again by its seed.
pub fn short(lent: &dyn std::fmt::Debug) -> String {
    let mut text = format!("{lent:?}");
    text.truncate(1_500);
    text
}

/// The statement's own slips would show here: a refusal changes nothing but the work list.
fn unchanged_when_refused(number: u32, unchanged: impl Fn() -> bool) {
    assert!(number == 0 || unchanged(), "the rules changed something and refused with {number}");
}
