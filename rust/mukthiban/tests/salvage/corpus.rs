//! Volumes made by a seed, damage done to them by a seed, and what is lifted of their files: by the salvage, and by a
//! reading without checks.

use mukthiban::salvage::{naive, Salvage, Way};
use mukthiban::{Name, Parts, Record, Shape, Volume, ROOT};
use std::collections::HashMap;

/// Numbers that look random, the same for the same seed.
pub struct Rng(u64);

impl Rng {
    pub fn new(seed: u64) -> Rng {
        Rng(seed.wrapping_mul(0x9E37_79B9_7F4A_7C15) | 1)
    }

    pub fn next(&mut self) -> u64 {
        self.0 ^= self.0 << 13;
        self.0 ^= self.0 >> 7;
        self.0 ^= self.0 << 17;
        self.0
    }

    pub fn below(&mut self, n: usize) -> usize {
        (self.next() >> 11) as usize % n.max(1)
    }
}

/// A file as it was before the damage.
pub struct Original {
    pub path: Vec<Name>,
    pub bytes: Vec<u8>,
    pub blocks: Vec<u32>,
    /// The inodes of the directories above it.
    pub way: Vec<u32>,
}

/// A sound volume, its chains in pieces, with its files by inode.
pub fn volume(rng: &mut Rng) -> (Parts, HashMap<u32, Original>) {
    let block_len = [512, 512, 4_096][rng.below(3)];
    let shape = Shape {
        blocks: 120 + rng.below(200),
        block_len,
        dir_max: 8,
        file_max: 24 + rng.below(24),
        buckets: 1 + rng.below(16),
    };
    let mut volume = Volume::new(shape).expect("a shape");
    let mut ways: Vec<Vec<u32>> = vec![vec![]];
    for name in 0..3 + rng.below(4) as u8 {
        let above = ways[rng.below(ways.len())].clone();
        let parent = above.last().copied().unwrap_or(ROOT);
        let inode = volume.make_dir(parent, &[b'a' + name; 16], &[0; 4]).expect("a directory");
        ways.push([above, vec![inode]].concat());
    }
    // files come, go and grow, so that chains lie in pieces
    let mut live: Vec<(u32, usize)> = Vec::new();
    for step in 0..36u32 {
        if live.len() > 4 && rng.below(4) == 0 {
            let (inode, first) = live.swap_remove(rng.below(live.len()));
            volume.delete_file(inode).expect("deleted");
            volume.delete(first).expect("its chain too");
            continue;
        }
        if live.len() > 4 && rng.below(3) == 0 {
            let (_, first) = live[rng.below(live.len())];
            let count = volume.block_count(first).expect("a file") + 1 + rng.below(4);
            let _ = volume.resize(first, count);
        }
        let Ok(first) = volume.create(1 + rng.below(6)) else { continue };
        let mut name = [0; 16];
        name[..8].copy_from_slice(format!("f{step:07}").as_bytes());
        let way = &ways[rng.below(ways.len())];
        let mut carried = [0; 20];
        Record { first_block: first as u32, size: 1 }.put(&mut carried);
        match volume.make_file(way.last().copied().unwrap_or(ROOT), &name, &carried) {
            Ok(inode) => live.push((inode, first)),
            Err(_) => volume.delete(first).expect("given back"),
        }
    }
    let mut files = HashMap::new();
    for (inode, first) in live {
        let blocks = volume.open_list(first).expect("its blocks");
        let size = (blocks.len() - 1) * block_len + 1 + rng.below(block_len);
        let bytes: Vec<u8> = (0..size).map(|_| rng.next() as u8).collect();
        volume.write(first, 0, &bytes).expect("written");
        let mut carried = [0; 20];
        Record { first_block: first as u32, size: size as u64 }.put(&mut carried);
        volume.set_carried_file(inode, &carried).expect("its record");
        let entry = volume.parts().file_table[inode as usize * 48..][..48].to_vec();
        let parent = u32::from_le_bytes(entry[..4].try_into().expect("4 bytes"));
        let way = ways.iter().find(|w| w.last().copied().unwrap_or(ROOT) == parent).expect("a way").clone();
        let mut path: Vec<Name> = way.iter().map(|&d| *volume.name(mukthiban::Kind::Dir, d).expect("a name")).collect();
        path.push(entry[4..20].try_into().expect("16 bytes"));
        files.insert(inode, Original { path, bytes, blocks, way });
    }
    (volume.into_parts(), files)
}

/// The sorts of damage.
pub const DAMAGE: [&str; 7] = [
    "flipped bits",
    "overwritten words",
    "crossed links",
    "rings",
    "cut-off files",
    "zeroed stretches",
    "swapped stretches",
];

fn files_of(p: &mut Parts) -> [&mut Vec<u8>; 6] {
    [&mut p.fat, &mut p.data, &mut p.dir_hash, &mut p.dir_table, &mut p.file_hash, &mut p.file_table]
}

/// Damages a volume in one way. The seventh file, the block length, is damaged with the cut-off files.
pub fn damage(rng: &mut Rng, p: &mut Parts, sort: usize) {
    let which = rng.below(6);
    let tables = [0, 2, 3, 4, 5][rng.below(5)];
    match sort {
        0 => {
            let file = &mut *files_of(p)[which];
            for _ in 0..1 + rng.below(3) {
                let at = rng.below(file.len());
                file[at] ^= 1 << rng.below(8);
            }
        }
        1 => {
            let file = &mut *files_of(p)[which];
            for _ in 0..1 + rng.below(4) {
                let at = rng.below(file.len() / 4) * 4;
                let word = [0, u32::MAX, rng.next() as u32, rng.below(64) as u32][rng.below(4)];
                file[at..at + 4].copy_from_slice(&word.to_le_bytes());
            }
        }
        2 | 3 => {
            // the next of two nodes exchanged, or one led back
            let n = p.blocks();
            let starts: Vec<usize> =
                (0..n).filter(|b| p.fat[8 * (b + 1) + 3] == 0x80 || p.fat[8 * (b + 1)] != 0).collect();
            let (a, b) = (starts[rng.below(starts.len())], starts[rng.below(starts.len())]);
            let next =
                |p: &Parts, b: usize| u32::from_le_bytes(p.fat[8 * (b + 1) + 4..8 * (b + 1) + 8].try_into().unwrap());
            let (x, y) = (next(p, a), next(p, b));
            let with = |old: u32, link: u32| (old & 1 << 31) | (link & !(1 << 31));
            let put = |p: &mut Parts, b: usize, v: u32| {
                p.fat[8 * (b + 1) + 4..8 * (b + 1) + 8].copy_from_slice(&v.to_le_bytes())
            };
            if sort == 2 {
                put(p, a, with(x, y));
                put(p, b, with(y, x));
            } else {
                put(p, a, with(x, b as u32 + 1));
            }
        }
        4 => {
            if rng.below(7) == 0 {
                p.block_len = [0, p.block_len / 10, p.block_len + 1, 7][rng.below(4)];
                return;
            }
            let file = &mut *files_of(p)[which];
            let keep = rng.below(file.len());
            file.truncate(keep);
        }
        5 => {
            let file = &mut *files_of(p)[tables];
            let (at, len) = (rng.below(file.len()), 16 << rng.below(5));
            let end = (at + len).min(file.len());
            file[at..end].fill(0);
        }
        _ => {
            let file = &mut *files_of(p)[tables];
            let len = (16 << rng.below(4)).min(file.len() / 2);
            let (a, b) = (rng.below(file.len() / 2 - len + 1), file.len() / 2 + rng.below(file.len() / 2 - len + 1));
            for k in 0..len {
                file.swap(a + k, b + k);
            }
        }
    }
}

/// What came of the files of some volumes.
#[derive(Clone, Copy, Debug, Default)]
pub struct Tally {
    pub volumes: usize,
    pub files: usize,
    /// Called whole, with its path and its bytes.
    pub right: usize,
    /// Marked, and yet with its path and its bytes.
    pub right_marked: usize,
    /// Marked, with another path or other bytes.
    pub wrong_marked: usize,
    /// Called whole, with another path or other bytes: its own record or its data was damaged.
    pub own: usize,
    /// Called whole, with its bytes and another path: a directory above it was damaged, and nothing of its own.
    pub above: usize,
    /// Of these, those of a volume whose entry tables are sound as they are now: nothing in them can tell.
    pub above_sound: usize,
    /// The same where none of them was.
    pub wrong: usize,
    pub missing: usize,
    /// Right by the reading without checks.
    pub naive: usize,
}

impl Tally {
    pub fn add(&mut self, o: &Tally) {
        self.volumes += o.volumes;
        self.files += o.files;
        self.right += o.right;
        self.right_marked += o.right_marked;
        self.wrong_marked += o.wrong_marked;
        self.own += o.own;
        self.above += o.above;
        self.above_sound += o.above_sound;
        self.wrong += o.wrong;
        self.missing += o.missing;
        self.naive += o.naive;
    }
}

/// Whether the four entry tables of a volume are sound.
pub fn tree_sound(p: &Parts) -> bool {
    let mut work = vec![0; p.dir_table.len() / 40 + p.file_table.len() / 48];
    mukthiban::tree::test(p.tables(), &mut work).is_ok()
}

/// Makes a volume, damages it in one way, and counts.
pub fn run(seed: u64, sort: usize) -> Tally {
    let mut rng = Rng::new(seed);
    let (sound, files) = volume(&mut rng);
    let mut broken = sound.clone();
    damage(&mut rng, &mut broken, sort);
    let scripted = naive(&broken);
    let salvage = Salvage::of(&broken);
    let mut tally = Tally { volumes: 1, files: files.len(), ..Tally::default() };
    let same = |a: &[u8], b: &[u8], at: usize, len: usize| a.get(at..at + len) == b.get(at..at + len);
    let mut met = 0;
    for file in &salvage.files {
        let bytes = file.bytes(&broken.data, salvage.block_len);
        let way = match &file.way {
            Way::Root(way) => way.clone(),
            Way::Lost(_) => vec![u32::MAX],
        };
        let mut path: Vec<Name> = way.iter().map(|&d| salvage.entries.dir_name(d)).collect();
        path.push(file.name);
        let own_record = || same(&sound.file_table, &broken.file_table, file.inode as usize * 48, 48);
        let Some(original) = files.get(&file.inode) else {
            // an entry that is none: only where its own bytes, or the count, or a removed entry were damaged
            match file.doubt {
                None if own_record() => tally.wrong += 1,
                _ => (),
            }
            continue;
        };
        met += 1;
        let right = original.path == path && original.bytes == bytes;
        let ways = || original.way.iter().all(|&d| same(&sound.dir_table, &broken.dir_table, d as usize * 40, 40));
        let data = || {
            let len = sound.block_len;
            original.blocks.iter().all(|&b| same(&sound.data, &broken.data, b as usize * len, len))
        };
        match (right, file.doubt.is_none()) {
            (true, true) => tally.right += 1,
            (true, false) => tally.right_marked += 1,
            (false, false) => tally.wrong_marked += 1,
            (false, true) if !own_record() || !data() => tally.own += 1,
            (false, true) if !ways() && original.bytes == bytes => {
                tally.above += 1;
                tally.above_sound += usize::from(tree_sound(&broken));
            }
            (false, true) => tally.wrong += 1,
        }
    }
    tally.missing = files.len() - met;
    let right = |o: &&Original| scripted.iter().any(|f| f.path == o.path && f.bytes == o.bytes);
    tally.naive = files.values().filter(right).count();
    tally
}
