//! What can be said of a volume that is refused. These are hints, read leniently from tables that can't be trusted;
//! the verdict is the library's, and so is the place where a block table is broken.

mod blocks;
mod entries;
mod sizes;

use mukthiban::fat::Fault;
use mukthiban::folder::Sizes;
use mukthiban::{fat, tree, Parts, Refusal};

/// Where the library finds a block table broken: the entry's bytes, and the file that it belongs to if one can be said.
pub struct Found {
    pub fault: Fault,
    pub bytes: [u8; 8],
    pub path: Option<String>,
}

/// The library's finding; what else points to faults, each in a line; the paths of the files that they touch; and what
/// the tests answer.
#[derive(Default)]
pub struct Hints {
    pub found: Option<Found>,
    pub lines: Vec<String>,
    pub touched: Vec<String>,
    pub answers: Answers,
}

/// What the two tests answer, each for its own tables.
#[derive(Default)]
pub enum Answers {
    /// They were not asked: lengths do not fit.
    #[default]
    None,
    Both {
        fat: Result<(), Refusal>,
        tree: Result<(), Refusal>,
    },
}

/// The hints for a refusal. Without parts the lengths alone are known.
pub fn hints(refusal: Refusal, sizes: &Sizes, parts: Option<&Parts>) -> Hints {
    let Some(parts) = parts.filter(|_| matches!(refusal, Refusal::BrokenFat | Refusal::BrokenTree)) else {
        return Hints { lines: sizes::lines(sizes), ..Hints::default() };
    };
    let places = parts.dir_table.len() / tree::DIR_WIDTH + parts.file_table.len() / tree::FILE_WIDTH;
    let found = fat::fault(&parts.fat, &mut vec![0; parts.blocks()]);
    let fat = found.and_then(|found| found.map_or(Ok(()), |_| Err(Refusal::BrokenFat)));
    let tree = tree::test(parts.tables(), &mut vec![0; places]);
    let mut hints = Hints::default();
    if let Ok(Some(found)) = found {
        blocks::look(parts, tree.is_ok(), found, &mut hints);
    }
    if tree == Err(Refusal::BrokenTree) {
        entries::look(parts, &mut hints);
    }
    hints.touched.sort();
    hints.touched.dedup();
    hints.answers = Answers::Both { fat, tree };
    hints
}

/// The first thing to say of lengths that do not fit.
pub fn size_line(sizes: &Sizes) -> Option<String> {
    sizes::lines(sizes).into_iter().next()
}

/// Whether lengths are answered by SizeMismatch: where they do not fit each other, whatever their bounds.
pub fn sizes_refusal(sizes: &Sizes) -> Refusal {
    match sizes::fit(sizes) {
        true => Refusal::InvalidValue,
        false => Refusal::SizeMismatch,
    }
}
