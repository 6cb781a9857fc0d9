//! Entry tables of a size and a shape.

use compare::chance::Chance;
use port::Tree;
use rules::entries::{hash, key};
use rules::opens::Packed;
use rules::put_word;

pub struct Full {
    pub lent: Tree,
    /// Parent and name of every file, by inode from 1.
    pub keys: Vec<Key>,
}

/// Parent and name.
pub type Key = (u32, [u8; 16]);

/// What names are like, and how the entries of a bucket follow each other.
#[derive(Clone, Copy, PartialEq, Eq)]
pub enum Names {
    /// Numbered, as `file00017.dat`.
    Numbered,
    /// Any 16 bytes.
    Random,
}

#[derive(Clone, Copy, PartialEq, Eq)]
pub enum Order {
    /// As they were made: the last one first.
    Made,
    Any,
    /// As they were made, and the last of a bucket names its first.
    Ring,
}

/// A tree to be made.
#[derive(Clone, Copy)]
pub struct Plan {
    pub dirs: usize,
    pub files: usize,
    pub dir_buckets: usize,
    pub file_buckets: usize,
    pub names: Names,
    pub dir_order: Order,
    pub file_order: Order,
    /// Free places behind the entries.
    pub spare: usize,
}

/// A name from a number: letters, as names on such volumes are.
pub fn name(number: usize) -> [u8; 16] {
    let mut name = [0; 16];
    for (i, letter) in format!("file{number:05}.dat").bytes().enumerate().take(16) {
        name[i] = letter;
    }
    name
}

impl Names {
    fn name(self, number: usize) -> [u8; 16] {
        match self {
            Names::Numbered => name(number),
            Names::Random => Chance::of_case(7, number as u64).bytes(16).try_into().unwrap(),
        }
    }
}

/// Threads a list through one field; its first inode.
fn thread(table: &mut [u8], width: usize, place: usize, list: &[u32], ring: bool) -> u32 {
    let first = list.first().copied().unwrap_or(0);
    for (i, x) in list.iter().enumerate() {
        let next = list.get(i + 1).copied().unwrap_or(if ring { first } else { 0 });
        put_word(table, *x as usize * width + place, next);
    }
    first
}

/// Writes keys, buckets and entry 0 of one table.
fn table(width: usize, keys: &[Key], buckets: usize, order: Order, spare: usize) -> (Vec<u8>, Vec<u8>) {
    let count = keys.len() + 1;
    let (mut hashes, mut bytes) = (vec![0; 4 * buckets], vec![0; width * (count + spare)]);
    put_word(&mut bytes, 0, count as u32);
    put_word(&mut bytes, 4, (count + spare) as u32);
    let mut lists = vec![vec![]; buckets];
    for (i, (parent, name)) in keys.iter().enumerate() {
        let (inode, key) = (i as u32 + 1, key(*parent, name));
        let at = inode as usize * width;
        bytes[at..at + 20].copy_from_slice(&key);
        lists[hash(&key) as usize % buckets].push(inode);
    }
    let mut chance = Chance::new(keys.len() as u64);
    for (bucket, list) in lists.iter_mut().enumerate() {
        match order {
            Order::Made | Order::Ring => list.reverse(),
            Order::Any => chance.shuffle(list),
        }
        let first = thread(&mut bytes, width, width - 4, list, order == Order::Ring);
        put_word(&mut hashes, bucket * 4, first);
    }
    (hashes, bytes)
}

/// The children of each directory, the last one first.
fn children(dirs: usize, keys: &[Key], from: usize) -> Vec<Vec<u32>> {
    let mut lists = vec![vec![]; dirs + 1];
    for (i, (parent, _)) in keys.iter().enumerate().skip(from).rev() {
        lists[*parent as usize].push(i as u32 + 1);
    }
    lists
}

/// The writer's open of every entry from 1 on, and places for one more.
pub fn all_held(room: usize) -> Packed {
    let records = (1..room as u32).flat_map(|x| [x, rules::opens::WRITER]);
    let list: Vec<u32> = records.chain([0; 2]).collect();
    Packed { opened: room - 1, list }
}

/// Directories below the root in a tree of eights, and files dealt to them.
pub fn planned(plan: Plan) -> Full {
    let Plan { dirs, files, names, spare, .. } = plan;
    let mut dir_keys = vec![(0, [0; 16])];
    dir_keys.extend((2..=dirs).map(|x| (((x - 2) / 8 + 1) as u32, names.name(x))));
    let file_keys: Vec<Key> = (1..=files).map(|x| ((x * 7919 % dirs + 1) as u32, names.name(x))).collect();
    let (dir_hash, mut dir_table) = table(40, &dir_keys, plan.dir_buckets, plan.dir_order, spare);
    let (file_hash, mut file_table) = table(48, &file_keys, plan.file_buckets, plan.file_order, spare);
    let (sub_dirs, sub_files) = (children(dirs, &dir_keys, 1), children(dirs, &file_keys, 0));
    for dir in 1..=dirs {
        let first = thread(&mut dir_table, 40, 20, &sub_dirs[dir], false);
        put_word(&mut dir_table, dir * 40 + 24, first);
        let first = thread(&mut file_table, 48, 20, &sub_files[dir], false);
        put_word(&mut dir_table, dir * 40 + 28, first);
    }
    let (dir_room, file_room) = (dirs + 1 + spare, files + 1 + spare);
    let lent = Tree {
        work: vec![0; dir_room + file_room],
        dir_opens: Packed::none(2 * dir_room),
        file_opens: all_held(file_room),
        list: vec![0; files],
        dir_hash,
        dir_table,
        file_hash,
        file_table,
    };
    Full { lent, keys: file_keys }
}

/// So many directories and files with numbered names, and one free place behind them.
pub fn tree(dirs: usize, files: usize, buckets: usize) -> Full {
    let (dir_buckets, file_buckets) = ((buckets / 8).max(1), buckets);
    let (names, dir_order, file_order, spare) = (Names::Numbered, Order::Made, Order::Made, 1);
    planned(Plan { dirs, files, dir_buckets, file_buckets, names, dir_order, file_order, spare })
}
