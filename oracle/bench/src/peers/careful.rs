//! The two tests as a careful programmer writes them in plain Rust: linear, over the bytes, with a lent work list. The port's tests are measured against these.

#[inline]
fn word(bytes: &[u8], at: usize) -> u32 {
    u32::from_le_bytes(bytes[at..at + 4].try_into().unwrap())
}

const FLAG: u32 = 0x8000_0000;
const INDEX: u32 = 0x7FFF_FFFF;

/// The size of the node at block b, and its links as indexes; none where the entries have no such form.
#[inline]
fn node(table: &[u8], n: usize, b: usize) -> Option<(usize, u32, u32)> {
    let (u, v) = (word(table, (b + 1) * 8), word(table, (b + 1) * 8 + 4));
    if (u & FLAG != 0) != (u & INDEX == 0) {
        return None;
    }
    if v & FLAG == 0 {
        return Some((1, u & INDEX, v));
    }
    if b + 2 > n {
        return None;
    }
    let (back, end) = (word(table, (b + 2) * 8), word(table, (b + 2) * 8 + 4));
    let last = end as usize;
    if back != (b as u32 + 1) | FLAG || last < b + 2 || last > n {
        return None;
    }
    if word(table, last * 8) != back || word(table, last * 8 + 4) != end {
        return None;
    }
    Some((last - b, u & INDEX, v & INDEX))
}

/// Free blocks and files of a sound table. A first pass marks where nodes start; then each chain is followed from its first node.
pub fn blocks(table: &[u8], work: &mut [u32]) -> Option<(usize, usize)> {
    let n = table.len() / 8 - 1;
    let work = &mut work[..n];
    work.fill(0);
    let answer = judged(table, n, work);
    work.fill(0);
    answer
}

fn judged(table: &[u8], n: usize, work: &mut [u32]) -> Option<(usize, usize)> {
    let head = word(table, 4);
    if word(table, 0) != 0 || head & FLAG != 0 || head as usize > n {
        return None;
    }
    let (mut b, mut nodes) = (0, 0);
    while b < n {
        let (size, _, _) = node(table, n, b)?;
        work[b] = size as u32;
        nodes += 1;
        b += size;
    }
    let (mut reached, mut files, mut free, mut head_met) = (0, 0, 0, head == 0);
    let mut b = 0;
    while b < n {
        let size = work[b] as usize;
        if word(table, (b + 1) * 8) & INDEX == 0 {
            let (count, blocks) = followed(table, n, work, b)?;
            reached += count;
            if head as usize == b + 1 {
                (free, head_met) = (blocks, true);
            } else {
                files += 1;
            }
        }
        b += size;
    }
    (reached == nodes && head_met).then_some((free, files))
}

/// Nodes and blocks of the chain that starts at block b.
fn followed(table: &[u8], n: usize, work: &[u32], first: usize) -> Option<(usize, usize)> {
    let (mut at, mut count, mut blocks) = (first, 1, work[first] as usize);
    loop {
        let next = (word(table, (at + 1) * 8 + 4) & INDEX) as usize;
        if next == 0 {
            return Some((count, blocks));
        }
        if next > n || work[next - 1] == 0 || word(table, next * 8) != at as u32 + 1 {
            return None;
        }
        at = next - 1;
        count += 1;
        blocks += work[at] as usize;
    }
}

/// One entry table and its hash.
#[derive(Clone, Copy)]
struct Table<'a> {
    hash: &'a [u8],
    bytes: &'a [u8],
    width: usize,
    /// 1 for directories, whose inode 1 has no parent; 0 for files.
    root: u32,
}

impl Table<'_> {
    #[inline]
    fn field(&self, inode: u32, place: usize) -> u32 {
        word(self.bytes, inode as usize * self.width + place)
    }
    #[inline]
    fn key(&self, inode: u32) -> &[u8] {
        let at = inode as usize * self.width;
        &self.bytes[at..at + 20]
    }
    #[inline]
    fn bucket(&self, inode: u32) -> usize {
        let mut h = 0x1234_5678u32;
        for place in [0, 4, 8, 12, 16] {
            h = h.rotate_right(1) ^ self.field(inode, place);
        }
        h as usize % (self.hash.len() / 4)
    }
    fn count(&self) -> u32 {
        self.field(0, 0)
    }
}

const REMOVED: u32 = 1;
const IN_BUCKET: u32 = 2;
const LISTED: u32 = 4;
const REACHES: u32 = 8;

/// Counts and maximum, the removed entries, and the buckets: each live entry once, where its hash says, with no equal key behind it.
fn table_sound(t: Table, marks: &mut [u32]) -> bool {
    let (count, maximum) = (t.count(), t.field(0, 4));
    let room = t.bytes.len() / t.width;
    if maximum as usize > room || count < 1 + t.root || count > maximum {
        return false;
    }
    let mut x = t.field(0, t.width - 4);
    let mut removed = 0;
    while x != 0 {
        if x >= count || marks[x as usize] != 0 {
            return false;
        }
        marks[x as usize] = REMOVED;
        removed += 1;
        x = t.field(x, t.width - 4);
    }
    let mut met = 0;
    for bucket in 0..t.hash.len() / 4 {
        let mut x = word(t.hash, bucket * 4);
        while x != 0 {
            if x >= count || marks[x as usize] != 0 || t.bucket(x) != bucket {
                return false;
            }
            marks[x as usize] = IN_BUCKET;
            met += 1;
            let mut y = t.field(x, t.width - 4);
            let mut steps = 0;
            while y != 0 {
                if y >= count || steps > count || t.key(y) == t.key(x) {
                    return false;
                }
                y = t.field(y, t.width - 4);
                steps += 1;
            }
            x = t.field(x, t.width - 4);
        }
    }
    met + removed == count - 1
}

/// Every child once, in the list of the directory that it names.
fn lists_sound(dirs: Table, dir_marks: &[u32], t: Table, place: usize, marks: &mut [u32]) -> bool {
    let mut met = 0;
    for dir in 1..dirs.count() {
        if dir_marks[dir as usize] & IN_BUCKET == 0 {
            continue;
        }
        let mut x = dirs.field(dir, place);
        while x != 0 {
            let live = x < t.count() && marks[x as usize] & (IN_BUCKET | LISTED) == IN_BUCKET;
            if !live || t.field(x, 0) != dir {
                return false;
            }
            marks[x as usize] |= LISTED;
            met += 1;
            x = t.field(x, 20);
        }
    }
    let live = (1..t.count()).filter(|x| marks[*x as usize] & IN_BUCKET != 0).count();
    met + t.root as usize == live
}

/// Every directory reaches the root by parents, which are known to be live.
fn parents_sound(dirs: Table, marks: &mut [u32]) -> bool {
    marks[1] |= REACHES;
    for x in 2..dirs.count() {
        if marks[x as usize] & IN_BUCKET == 0 {
            continue;
        }
        let (mut y, mut steps) = (x, 0);
        while marks[y as usize] & REACHES == 0 {
            if steps > dirs.count() {
                return false;
            }
            y = dirs.field(y, 0);
            steps += 1;
        }
        let mut y = x;
        while marks[y as usize] & REACHES == 0 {
            marks[y as usize] |= REACHES;
            y = dirs.field(y, 0);
        }
    }
    true
}

/// Whether the four tables are sound.
pub fn tree(four: [&[u8]; 4], work: &mut [u32]) -> bool {
    let dirs = Table { hash: four[0], bytes: four[1], width: 40, root: 1 };
    let files = Table { hash: four[2], bytes: four[3], width: 48, root: 0 };
    let (dir_room, file_room) = (four[1].len() / 40, four[3].len() / 48);
    let work = &mut work[..dir_room + file_room];
    work.fill(0);
    let (dir_marks, file_marks) = work.split_at_mut(dir_room);
    let sound = table_sound(dirs, dir_marks)
        && table_sound(files, file_marks)
        && dir_marks[1] == IN_BUCKET
        && dirs.key(1) == [0; 20]
        && dirs.field(1, 20) == 0
        && lists_sound(dirs, &dir_marks.to_vec(), dirs, 24, dir_marks)
        && lists_sound(dirs, dir_marks, files, 28, file_marks)
        && parents_sound(dirs, dir_marks);
    work.fill(0);
    sound
}
