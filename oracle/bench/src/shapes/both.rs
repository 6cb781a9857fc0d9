//! Both layers of a volume: files of the tree with chains of the block table.

use super::blocks::many;
use super::tree::{planned, Names, Order, Plan};
use port::{Audit, Kiosk};
use rules::blocks::{lay_out, Layout, Run};
use rules::entries::Kind;
use rules::opens::Packed;
use rules::put_word;
use rules::tree::{self, FourMut};

/// How a file's record and its chain are to disagree: not at all, or one file in `each` by each kind in turn.
#[derive(Clone, Copy, PartialEq, Eq)]
pub enum Findings {
    None,
    OneIn(usize),
}

/// A volume of n blocks with that many files in chains of runs in any order, names that hash well.
pub fn volume(n: usize, files: usize, findings: Findings) -> Audit {
    let (table, chains) = many(n, files);
    let plan = Plan {
        dirs: files / 64 + 1,
        files,
        dir_buckets: files / 64 + 1,
        file_buckets: files,
        names: Names::Random,
        dir_order: Order::Made,
        file_order: Order::Made,
        spare: 1,
    };
    let lent = planned(plan).lent;
    let mut file_table = lent.file_table;
    for (i, (first, count)) in chains.iter().enumerate() {
        let at = (i + 1) * 48;
        let (mut block, mut size) = (*first as u32, *count as u64 * 512);
        match findings {
            Findings::OneIn(each) if i % each == 1 => match i / each % 4 {
                0 => block = n as u32 + i as u32,
                1 => block = chains[i - 1].0 as u32,
                2 => size += 1,
                _ => size = 0,
            },
            _ => {}
        }
        put_word(&mut file_table, at + 28, block);
        put_word(&mut file_table, at + 32, size as u32);
        put_word(&mut file_table, at + 36, (size >> 32) as u32);
    }
    let work = vec![0; n + lent.dir_table.len() / 40 + file_table.len() / 48];
    Audit {
        table,
        data: vec![0; n * 512],
        block_len: 512,
        dir_hash: lent.dir_hash,
        dir_table: lent.dir_table,
        file_hash: lent.file_hash,
        file_table,
        work,
        list: vec![0; 2 * n],
    }
}

/// A volume in the kiosk's profile of n blocks, with that many files, each a node with a free one behind it.
pub fn kiosk(n: usize, files: usize) -> Kiosk {
    let each = n / files;
    let run = |start, size| Run { start, size };
    let mut free: Vec<Run> = (0..files).map(|k| run(k * each + each / 2, each - each / 2)).collect();
    free.extend((files * each < n).then(|| run(files * each, n - files * each)));
    let mut table = vec![0; 8 * (n + 1)];
    lay_out(&mut table, &Layout { free, files: (0..files).map(|k| vec![run(k * each, each / 2)]).collect() });
    let (mut dir_hash, mut dir_table) = (vec![0; 4 * 3], vec![0; 40 * 2]);
    let (mut file_hash, mut file_table) = (vec![0; 4 * 67], vec![0; 48 * (files + 1)]);
    let mut four = FourMut { dir_hash: &mut dir_hash, dir_table: &mut dir_table, file_hash: &mut file_hash, file_table: &mut file_table };
    tree::format(&mut four, 2, files + 1).expect("sizes that fit");
    let (mut work, mut opens) = (vec![0; 2 + files + 1], Packed::none(2 * (files + 1)));
    for k in 0..files {
        let (mut name, mut carried) = ([0; 16], [0; 20]);
        let text = format!("SLOT{k}");
        name[..text.len()].copy_from_slice(text.as_bytes());
        put_word(&mut carried, 4, (k * each) as u32);
        put_word(&mut carried, 8, (each / 2 * 512) as u32);
        tree::make(&mut four, &mut work, &mut opens, Kind::File, 1, &name, &carried).expect("a new file");
    }
    let places = n + 2 + files + 1;
    Kiosk { table, data: vec![0; n * 512], block_len: 512, dir_hash, dir_table, file_hash, file_table, work: vec![0; places] }
}
