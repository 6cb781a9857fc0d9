//! Hints for entry tables that are refused, rule by rule as RULES 5.7 has them.

use super::Hints;
use crate::name::shown;
use mukthiban::{tree, Name, Parts};
use std::collections::HashMap;

/// One of the two tables, read leniently.
struct Table<'a> {
    file: &'static str,
    word_for: &'static str,
    bytes: &'a [u8],
    hash: &'a [u8],
    width: usize,
    /// Which entries below the count are live; entry 0 is not.
    live: Vec<bool>,
}

/// How an entry of a list was met.
#[derive(Clone, Copy, PartialEq, Eq)]
enum Met {
    Now,
    Again,
    Dead,
}

/// The place of the next entry of the same directory, in both tables.
const NEXT: usize = 20;

fn word(bytes: &[u8], at: usize) -> u32 {
    u32::from_le_bytes(bytes[at..at + 4].try_into().expect("4 bytes"))
}

impl<'a> Table<'a> {
    fn new(file: &'static str, word_for: &'static str, bytes: &'a [u8], hash: &'a [u8], width: usize) -> Table<'a> {
        Table { file, word_for, bytes, hash, width, live: Vec::new() }
    }

    fn field(&self, entry: usize, at: usize) -> usize {
        word(self.bytes, entry * self.width + at) as usize
    }

    fn collision(&self, entry: usize) -> usize {
        self.field(entry, self.width - 4)
    }

    fn key(&self, entry: usize) -> &'a [u8] {
        &self.bytes[entry * self.width..][..20]
    }

    fn name(&self, entry: usize) -> String {
        let name: &Name = self.key(entry)[4..].try_into().expect("16 bytes");
        shown(name)
    }

    fn bucket(&self, entry: usize) -> usize {
        let words = (0..5).map(|i| word(self.key(entry), i * 4));
        words.fold(0x1234_5678u32, |hash, w| hash.rotate_right(1) ^ w) as usize % (self.hash.len() / 4)
    }

    fn is_live(&self, entry: usize) -> bool {
        self.live.get(entry).copied().unwrap_or(false)
    }

    /// Entry 0: the counts, and the list of removed entries. Finds out who is live.
    fn read_head(&mut self, least: usize, lines: &mut Vec<String>) {
        let (count, maximum, room) = (self.field(0, 0), self.field(0, 4), self.bytes.len() / self.width);
        if maximum > room {
            lines.push(format!("{}: its maximum is {maximum}, but it has room for {room}", self.file));
        }
        if count < least || count > maximum {
            lines.push(format!("{}: its count is {count}, not from {least} to its maximum {maximum}", self.file));
        }
        let count = count.min(room);
        self.live = (0..count).map(|i| i > 0).collect();
        let mut at = self.collision(0);
        while at != 0 {
            if !self.is_live(at) {
                lines
                    .push(format!("{}: the list of removed entries comes to {at}, twice or past the count", self.file));
                break;
            }
            self.live[at] = false;
            at = self.collision(at);
        }
    }

    /// Goes along a list of entries, and tells of each how it was met. It ends at one that is not live, and where it
    /// has been.
    fn along(&self, first: usize, next: usize, seen: &mut [bool], mut tell: impl FnMut(usize, Met)) {
        let mut at = first;
        while at != 0 {
            let met = match (self.is_live(at), seen.get(at)) {
                (true, Some(false)) => Met::Now,
                (true, _) => Met::Again,
                (false, _) => Met::Dead,
            };
            tell(at, met);
            if met != Met::Now {
                return;
            }
            seen[at] = true;
            at = self.field(at, next);
        }
    }

    /// The buckets: each live entry once, in the bucket of its key.
    fn read_buckets(&self, paths: &Paths, hints: &mut Hints) {
        let (file, mut seen) = (self.file, vec![false; self.live.len()]);
        for bucket in 0..self.hash.len() / 4 {
            self.along(word(self.hash, bucket * 4) as usize, self.width - 4, &mut seen, |at, met| {
                let who = || paths.who(self, at);
                match met {
                    Met::Dead => hints.lines.push(format!("{file}: bucket {bucket} comes to {at}, which is not live")),
                    Met::Again => hints.lines.push(format!("{file}: bucket {bucket} comes to {} twice", who())),
                    Met::Now if self.bucket(at) != bucket => {
                        let right = self.bucket(at);
                        hints.lines.push(format!("{file}: {} is in bucket {bucket}, its key's is {right}", who()));
                    }
                    Met::Now => (),
                }
            });
        }
        for at in (1..self.live.len()).filter(|&i| self.live[i] && !seen[i]) {
            hints.lines.push(format!("{file}: {} is in no bucket: no look-up finds it", paths.who(self, at)));
            hints.touched.push(paths.of(self, at));
        }
    }

    /// Keys that stand twice.
    fn read_keys(&self, paths: &Paths, hints: &mut Hints) {
        let mut first: HashMap<&[u8], usize> = HashMap::new();
        for at in (1..self.live.len()).filter(|&i| self.live[i]) {
            let other = *first.entry(self.key(at)).or_insert(at);
            if other != at {
                hints.lines.push(format!("{}: {} and entry {other} have one name", self.file, paths.who(self, at)));
                hints.touched.push(paths.of(self, at));
            }
        }
    }
}

/// Says all that can be said of the entry tables.
pub fn look(parts: &Parts, hints: &mut Hints) {
    let mut dirs = Table::new("dir_table.bin", "directory", &parts.dir_table, &parts.dir_hash, tree::DIR_WIDTH);
    let mut files = Table::new("file_table.bin", "file", &parts.file_table, &parts.file_hash, tree::FILE_WIDTH);
    dirs.read_head(2, &mut hints.lines);
    files.read_head(1, &mut hints.lines);
    if !dirs.is_live(1) || dirs.key(1).iter().any(|&b| b != 0) || dirs.field(1, 20) != 0 {
        hints.lines.push("dir_table.bin: entry 1 does not have the root's form".into());
    }
    let paths = Paths { rooted: rooted(&dirs), dirs: &dirs };
    for table in [&dirs, &files] {
        table.read_buckets(&paths, hints);
        table.read_keys(&paths, hints);
    }
    for (table, list) in [(&dirs, 24), (&files, 28)] {
        read_lists(table, list, &paths, hints);
    }
    for at in (2..dirs.live.len()).filter(|&i| dirs.live[i] && !paths.rooted[i] && dirs.is_live(dirs.field(i, 0))) {
        hints.lines.push(format!("{}: {} does not come to the root by its parents", dirs.file, paths.who(&dirs, at)));
        hints.touched.push(paths.of(&dirs, at));
    }
}

/// Paths as far as the directories give them.
struct Paths<'a> {
    dirs: &'a Table<'a>,
    /// Whether a directory comes to the root by its parents.
    rooted: Vec<bool>,
}

impl Paths<'_> {
    /// The path of an entry, no more than so many names of it.
    fn of(&self, table: &Table, at: usize) -> String {
        const MOST: usize = 64;
        let (mut names, mut up) = (vec![table.name(at)], table.field(at, 0));
        while up != 1 && self.rooted.get(up) == Some(&true) && names.len() < MOST {
            names.push(self.dirs.name(up));
            up = self.dirs.field(up, 0);
        }
        let front = if up == 1 { "" } else { "?" };
        names.iter().rev().fold(front.to_string(), |path, name| format!("{path}/{name}"))
    }

    fn who(&self, table: &Table, at: usize) -> String {
        match (table.width == tree::DIR_WIDTH, at) {
            (true, 1) => "the root".into(),
            _ => format!("{} {at} ({})", table.word_for, self.of(table, at)),
        }
    }
}

/// Which directories come to the root by their parents. Each is gone through once.
fn rooted(dirs: &Table) -> Vec<bool> {
    let mut rooted = vec![false; dirs.live.len()];
    let mut tried = rooted.clone();
    if let Some(root) = rooted.get_mut(1) {
        *root = dirs.live[1];
        tried[1] = true;
    }
    for from in 2..dirs.live.len() {
        let (mut up, mut at) = (Vec::new(), from);
        while dirs.is_live(at) && !tried[at] {
            tried[at] = true;
            up.push(at);
            at = dirs.field(at, 0);
        }
        let end = rooted.get(at).copied().unwrap_or(false);
        up.into_iter().for_each(|below| rooted[below] = end);
    }
    rooted
}

/// The lists of the directories' children, in one of the two tables: each live entry once, below its parent.
fn read_lists(table: &Table, list: usize, paths: &Paths, hints: &mut Hints) {
    let (file, dirs, mut seen) = (table.file, paths.dirs, vec![false; table.live.len()]);
    for dir in (1..dirs.live.len()).filter(|&d| dirs.live[d]) {
        table.along(dirs.field(dir, list), NEXT, &mut seen, |at, met| {
            let who = || paths.who(table, at);
            match met {
                Met::Dead => hints.lines.push(format!("{file}: directory {dir} lists {at}, which is not live")),
                Met::Again => hints.lines.push(format!("{file}: {} is listed twice, now by directory {dir}", who())),
                Met::Now if table.field(at, 0) != dir => {
                    hints.lines.push(format!("{file}: directory {dir} lists {}, which is another's", who()));
                    hints.touched.push(paths.of(table, at));
                }
                Met::Now => (),
            }
        });
    }
    unlisted(table, &seen, paths, hints);
}

/// Entries that no directory lists.
fn unlisted(table: &Table, seen: &[bool], paths: &Paths, hints: &mut Hints) {
    let is_root = |at: usize| table.width == tree::DIR_WIDTH && at == 1;
    for at in (1..table.live.len()).filter(|&i| table.live[i] && !is_root(i)) {
        let (who, parent) = (|| paths.who(table, at), table.field(at, 0));
        let line = match (paths.dirs.is_live(parent), seen[at]) {
            (false, _) => format!("{}: {} is in directory {parent}, which is not live", table.file, who()),
            (true, false) => format!("{}: {} is in no directory's list", table.file, who()),
            (true, true) => continue,
        };
        hints.lines.push(line);
        hints.touched.push(paths.of(table, at));
    }
}
