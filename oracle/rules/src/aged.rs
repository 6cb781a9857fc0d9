//! "Aged": whether the orders of the lists are those of one past (RULES 5.8, 6.19).

use crate::answer::Outcome;
use crate::entries::{Held, Kind, View};
use crate::sound::{Four, ROOT};
use crate::tree::gate;

/// A table, 1 the directories and 2 the files, and an entry of it; 0 and 0 where there is nothing to tell.
#[derive(Clone, Copy, PartialEq, Eq, Debug)]
pub struct Told {
    pub table: u32,
    pub inode: u32,
}

/// The live entries that are left where those that name none, or none that is left, are taken away again and again: from these, and from no others, links
/// lead into a circle. Told by how many of the two links of each still lead to an entry that is left.
fn lost(view: View, held: &Held) -> Vec<u32> {
    let mut left = vec![0; held.live.len()];
    let mut named_by = vec![vec![]; held.live.len()];
    for x in held.inodes() {
        for y in [view.collision(x), view.next(x)] {
            if y != 0 {
                left[x as usize] += 1;
                named_by[y as usize].push(x);
            }
        }
    }
    let mut gone: Vec<u32> = held.inodes().filter(|x| left[*x as usize] == 0).collect();
    while let Some(y) = gone.pop() {
        for x in named_by[y as usize].drain(..) {
            left[x as usize] -= 1;
            if left[x as usize] == 0 {
                gone.push(x);
            }
        }
    }
    held.inodes().filter(|x| left[*x as usize] != 0).collect()
}

/// "The root names another entry of its bucket; else the lowest directory from which links lead into a circle; else the lowest such file."
pub fn aged(four: Four, work: &mut [u32]) -> Outcome<Told> {
    let tree = gate(four, work, None)?;
    if four.view(Kind::Dir).collision(ROOT) != 0 {
        return Ok(Told { table: 1, inode: ROOT });
    }
    for (table, kind) in [(1, Kind::Dir), (2, Kind::File)] {
        if let Some(inode) = lost(four.view(kind), tree.held(kind)).first() {
            return Ok(Told { table, inode: *inode });
        }
    }
    Ok(Told { table: 0, inode: 0 })
}
