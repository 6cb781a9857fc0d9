//! The tree's test written for speed: several buckets and several child lists are walked at once, keys of a long bucket are sorted, those of a short one compared
//! with each other where they were gathered.

/// How many walks take turns.
const SLOTS: usize = 12;
/// A bucket with more entries than this is sorted.
const SHORT: usize = 16;

const REMOVED: u32 = 1;
const IN_BUCKET: u32 = 2;
const LISTED: u32 = 4;
const REACHES: u32 = 8;

/// Name and parent.
type Key = (u64, u64, u32);

/// One entry table with its buckets; its marks begin at `off` in the work list.
#[derive(Clone, Copy)]
struct Table<'a, const W: usize> {
    heads: &'a [[u8; 4]],
    entries: &'a [[u8; W]],
    off: usize,
    /// The root's inode, or 0.
    root: u32,
    count: u32,
}

fn table<'a, const W: usize>(hash: &'a [u8], bytes: &'a [u8], off: usize, root: u32) -> Option<Table<'a, W>> {
    let entries = bytes.as_chunks().0;
    let t = Table { heads: hash.as_chunks().0, entries, off, root, count: 0 };
    let (count, maximum) = (t.word(0, 0), t.word(0, 4));
    let fits = maximum as usize <= entries.len() && count > root && count <= maximum;
    fits.then_some(Table { count, ..t })
}

impl<const W: usize> Table<'_, W> {
    #[inline]
    fn word(&self, inode: u32, place: usize) -> u32 {
        u32::from_le_bytes(*self.entries[inode as usize][place..].first_chunk().unwrap())
    }
    #[inline]
    fn link(&self, inode: u32) -> u32 {
        self.word(inode, W - 4)
    }
    #[inline]
    fn key(&self, inode: u32) -> Key {
        let entry = &self.entries[inode as usize];
        let long = |place: usize| u64::from_le_bytes(*entry[place..].first_chunk().unwrap());
        (long(4), long(12), self.word(inode, 0))
    }
}

#[inline]
fn hash(key: &Key) -> u32 {
    let words = [key.2, key.0 as u32, (key.0 >> 32) as u32, key.1 as u32, (key.1 >> 32) as u32];
    words.iter().fold(0x1234_5678u32, |h, word| h.rotate_right(1) ^ word)
}

fn removed<const W: usize>(t: Table<W>, work: &mut [u32]) -> Option<u32> {
    let (mut x, mut met) = (t.link(0), 0);
    while x != 0 {
        let mark = work.get_mut(t.off + x as usize)?;
        if x >= t.count || *mark != 0 {
            return None;
        }
        *mark = REMOVED;
        met += 1;
        x = t.link(x);
    }
    Some(met)
}

/// Whether no two keys are equal.
fn differ(keys: &mut [Key]) -> bool {
    if keys.len() > SHORT {
        keys.sort_unstable();
        return keys.windows(2).all(|two| two[0] != two[1]);
    }
    keys.iter().enumerate().all(|(i, key)| keys[..i].iter().all(|other| other != key))
}

/// The entries met in buckets, each once, where its hash says, with a key of its own.
fn buckets<const W: usize>(t: Table<W>, work: &mut [u32]) -> Option<u32> {
    let mut keys: [Vec<Key>; SLOTS] = Default::default();
    let (count, buckets, mut met) = (t.count, t.heads.len() as u32, 0);
    for (group, heads) in t.heads.chunks(SLOTS).enumerate() {
        let (mut at, mut busy) = ([(0, 0); SLOTS], 0);
        for (slot, head) in heads.iter().enumerate() {
            at[busy] = (slot, u32::from_le_bytes(*head));
            busy += (at[busy].1 != 0) as usize;
        }
        while busy > 0 {
            let mut i = 0;
            while i < busy {
                let (slot, x) = at[i];
                if x >= count || work[t.off + x as usize] != 0 {
                    return None;
                }
                work[t.off + x as usize] = IN_BUCKET;
                let key = t.key(x);
                if hash(&key) % buckets != (group * SLOTS + slot) as u32 {
                    return None;
                }
                keys[slot].push(key);
                met += 1;
                at[i].1 = t.link(x);
                if at[i].1 == 0 {
                    busy -= 1;
                    at[i] = at[busy];
                } else {
                    i += 1;
                }
            }
        }
        for keys in &mut keys {
            if keys.len() > 1 && !differ(keys) {
                return None;
            }
            keys.clear();
        }
    }
    Some(met)
}

/// Every live entry but the root once, in the list of the directory that it names: the list's first at `place` of the directory's entry.
fn lists<const W: usize>(dirs: Table<40>, t: Table<W>, place: usize, live: u32, work: &mut [u32]) -> bool {
    let (mut met, mut dir) = (0, 1);
    while dir < dirs.count {
        let (mut at, mut busy) = ([(0, 0); SLOTS], 0);
        while busy < SLOTS && dir < dirs.count {
            at[busy] = (dir, dirs.word(dir, place));
            busy += (work[dirs.off + dir as usize] & IN_BUCKET != 0 && at[busy].1 != 0) as usize;
            dir += 1;
        }
        while busy > 0 {
            let mut i = 0;
            while i < busy {
                let (of, x) = at[i];
                if x >= t.count || t.word(x, 0) != of {
                    return false;
                }
                let mark = &mut work[t.off + x as usize];
                if *mark & (IN_BUCKET | LISTED) != IN_BUCKET {
                    return false;
                }
                *mark |= LISTED;
                met += 1;
                at[i].1 = t.word(x, 20);
                if at[i].1 == 0 {
                    busy -= 1;
                    at[i] = at[busy];
                } else {
                    i += 1;
                }
            }
        }
    }
    met + t.root == live
}

/// Every directory reaches the root by parents, which are known to be live.
fn parents(dirs: Table<40>, work: &mut [u32]) -> bool {
    work[1] |= REACHES;
    for dir in 2..dirs.count {
        if work[dir as usize] & IN_BUCKET == 0 {
            continue;
        }
        let (mut x, mut steps) = (dir, 0);
        while work[x as usize] & REACHES == 0 {
            if steps > dirs.count {
                return false;
            }
            x = dirs.word(x, 0);
            steps += 1;
        }
        let mut x = dir;
        while work[x as usize] & REACHES == 0 {
            work[x as usize] |= REACHES;
            x = dirs.word(x, 0);
        }
    }
    true
}

fn judged(four: [&[u8]; 4], rooms: usize, work: &mut [u32]) -> Option<bool> {
    let dirs: Table<40> = table(four[0], four[1], 0, 1)?;
    let files: Table<48> = table(four[2], four[3], rooms, 0)?;
    let mut live = [0; 2];
    live[0] = dirs.count - 1 - removed(dirs, work)?;
    let met = buckets(dirs, work)?;
    if met != live[0] || work[1] != IN_BUCKET || dirs.key(1) != (0, 0, 0) || dirs.word(1, 20) != 0 {
        return None;
    }
    live[1] = files.count - 1 - removed(files, work)?;
    if buckets(files, work)? != live[1] {
        return None;
    }
    Some(lists(dirs, dirs, 24, live[0], work) && lists(dirs, files, 28, live[1], work) && parents(dirs, work))
}

/// Whether the four tables are sound. The work list is 0 afterwards.
pub fn tree(four: [&[u8]; 4], work: &mut [u32]) -> bool {
    let (dirs, files) = (four[1].len() / 40, four[3].len() / 48);
    let work = &mut work[..dirs + files];
    work.fill(0);
    let sound = judged(four, dirs, work).unwrap_or(false);
    work.fill(0);
    sound
}
