//! Open and close behind the test, with many and with few opened inodes: the packed list beside a sorted vector.

use super::{commas, digest_list, race, Answer, Side, JOB, LINE};
use crate::peers::opens;
use crate::report::Report;
use crate::shapes::tree::tree;
use mukthiban_ffi::tested::{mukthiban_tested_tree_close_file, mukthiban_tested_tree_open_file};
use port::Tree;
use rules::opens::Packed;
use std::cell::RefCell;
use std::hint::black_box;

/// A call of the library on the files, a reader's.
macro_rules! ours {
    ($call:ident, $lent:expr, $inode:expr) => {{
        let lent: &mut Tree = $lent;
        // SAFETY: the tables are sound and the list is in order, as the inner call requires; the lengths are their own.
        unsafe {
            $call(
                lent.dir_hash.as_ptr(), lent.dir_hash.len(),
                lent.dir_table.as_ptr(), lent.dir_table.len(),
                lent.file_hash.as_ptr(), lent.file_hash.len(),
                lent.file_table.as_ptr(), lent.file_table.len(),
                lent.file_opens.list.as_mut_ptr(), lent.file_opens.list.len(), &mut lent.file_opens.opened,
                $inode, 0,
            )
            .answer
        }
    }};
}

/// Each of the inodes opened and closed again, by one side.
fn side<'a>(name: &'static str, run: impl FnMut() -> Answer + 'a, left: impl Fn() -> u64 + 'a) -> Side<'a> {
    Side { name, spoil: Box::new(|| {}), ready: Box::new(|| {}), run: Box::new(run), left: Box::new(left), times: 1, apart: false }
}

/// So many files of which those from one on have a reader's open, in a list with a place for one more.
fn line(report: &mut Report, what: &str, first: u32, opened: u32, inodes: Vec<u32>, quick: bool) {
    let mut lent = tree(64, 65_000, 65_536).lent;
    let records: Vec<(u32, u32)> = (first..first + opened).map(|inode| (inode, 1)).collect();
    let list = records.iter().flat_map(|(inode, record)| [*inode, *record]).chain([0; 2]).collect();
    lent.file_opens = Packed { list, opened: records.len() };
    let (lent, records) = (RefCell::new(lent), RefCell::new(records));
    let plain = || -> Answer {
        let (lent, records) = (lent.borrow(), &mut *records.borrow_mut());
        let (hash, table) = (&lent.file_hash, &lent.file_table);
        let numbers = inodes.iter().map(|inode| opens::open(hash, table, records, black_box(*inode)) + opens::close(hash, table, records, *inode));
        [numbers.sum::<u32>().into(), 0, 0]
    };
    let proved = || -> Answer {
        let lent = &mut *lent.borrow_mut();
        let numbers = inodes.iter().map(|inode| {
            ours!(mukthiban_tested_tree_open_file, lent, black_box(*inode)) + ours!(mukthiban_tested_tree_close_file, lent, *inode)
        });
        [numbers.sum::<u32>().into(), 0, 0]
    };
    let plain_left = || digest_list(&records.borrow().iter().flat_map(|(inode, record)| [*inode, *record]).collect::<Vec<u32>>());
    let proved_left = || {
        let opens = &lent.borrow().file_opens;
        digest_list(&opens.list[..2 * opens.opened])
    };
    let sides = vec![side("sorted vector", plain, plain_left), side("inner", proved, proved_left)];
    let what = format!("{what}, {} opened", commas(opened as usize));
    let times = race(&what, sides, if quick { LINE } else { JOB });
    report.job(&what, &["sorted vector", "inner"], &times);
}

pub fn run(report: &mut Report, quick: bool) {
    let about = "The inner calls behind the test. `sorted vector` is plain Rust with a vector of inode and record.";
    report.table("Open and close, with packed records", about, &["job", "peer", "its time", "library", "ratio"]);
    let many = |step: usize| (101..65_000).step_by(step).collect::<Vec<u32>>();
    line(report, "1,000 opens and closes of listed files", 101, 64_900, many(65), quick);
    line(report, "1,000 opens and closes of listed files", 101, 10, (0..1_000).map(|i| 101 + i % 10).collect(), quick);
    line(report, "100 first opens and last closes before the others", 101, 64_900, (1..=100).collect(), quick);
    line(report, "100 first opens and last closes before the others", 101, 10, (1..=100).collect(), quick);
}
