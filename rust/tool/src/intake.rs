//! Files and directories that come onto a volume, from the host or from another volume, all in one change.

use crate::args::Call;
use crate::change::Change;
use crate::fail::{Fail, Outcome};
use crate::name::joined;
use crate::session::Session;
use crate::show::term::Progress;
use crate::words::{are, count};
use mukthiban::{Kind, Name, Record, Refusal};
use std::fs::{self, File};
use std::io::{self, Read};
use std::path::{Path, PathBuf};

/// Where a thing comes from.
pub enum Source<'a> {
    /// A directory, with the bytes that it carries.
    Dir([u8; 4]),
    /// A file of the host.
    Host(PathBuf),
    /// Standard input.
    Input,
    /// A file of another volume.
    Entry(&'a Session, usize),
}

/// A thing that comes, with its place in the list of the directory that it goes to; none for the first ones.
pub struct Incoming<'a> {
    pub parent: Option<usize>,
    pub name: Name,
    pub source: Source<'a>,
}

/// A file that was taken in.
pub struct Put {
    pub path: String,
    pub bytes: u64,
    pub blocks: u64,
}

/// What was taken in.
#[derive(Default)]
pub struct Taken {
    /// Directories that were not there before.
    pub dirs: Vec<String>,
    pub files: Vec<Put>,
}

/// Takes all in, below the directory with those names, which is there.
pub fn take_in(call: &Call, change: &mut Change, base: &[Name], incoming: &[Incoming]) -> Outcome<Taken> {
    let root = change.session.entries[change.session.dir(base)?].inode;
    let mut inodes = Vec::with_capacity(incoming.len());
    let mut taken = Taken::default();
    let mut progress = Progress::new(call, incoming.len() as u64);
    for (at, item) in incoming.iter().enumerate() {
        let parent = item.parent.map_or(root, |p| inodes[p]);
        let path = path_of(base, incoming, at);
        progress.at(at as u64, &path);
        inodes.push(match &item.source {
            Source::Dir(carried) => dir(change, parent, &item.name, *carried, path, &mut taken)?,
            source => {
                let put = file(call, change, parent, &item.name, source, path)?;
                taken.files.push(put);
                0
            }
        });
    }
    Ok(taken)
}

fn path_of(base: &[Name], incoming: &[Incoming], at: usize) -> String {
    let (mut names, mut up) = (Vec::new(), Some(at));
    while let Some(at) = up {
        names.push(&incoming[at].name);
        up = incoming[at].parent;
    }
    joined(base.iter().chain(names.into_iter().rev()))
}

/// The directory of that name, made where it is not there.
fn dir(
    change: &mut Change,
    parent: u32,
    name: &Name,
    carried: [u8; 4],
    path: String,
    taken: &mut Taken,
) -> Outcome<u32> {
    if let Ok(found) = change.session.volume.lookup_dir(parent, name) {
        return Ok(found.inode);
    }
    Fail::new_name(&path, name)?;
    let inode = change.make_dir(parent, name, carried).map_err(|r| full(&path, r, Kind::Dir))?;
    taken.dirs.push(path);
    Ok(inode)
}

/// A refusal to make an entry.
pub fn full(about: &str, refusal: Refusal, kind: Kind) -> Fail {
    match (refusal, kind) {
        (Refusal::NoSpace, Kind::Dir) => Fail::failed(format!("{about}: the table of directories is full [NoSpace 6]")),
        (Refusal::NoSpace, Kind::File) => Fail::failed(format!("{about}: the table of files is full [NoSpace 6]")),
        _ => Fail::refused(about, refusal),
    }
}

fn file(call: &Call, change: &mut Change, parent: u32, name: &Name, source: &Source, path: String) -> Outcome<Put> {
    let there = change.session.volume.lookup_file(parent, name).ok().map(|found| found.inode);
    if there.is_some() && !call.has("--replace") {
        let line = format!("{path}: there is such a file; --replace would change it [AlreadyExist 11]");
        return Err(Fail::failed(line));
    }
    if there.is_none() {
        Fail::new_name(&path, name)?;
    }
    let volume = &change.session.volume;
    let before = there.and_then(|inode| volume.carried_file(inode).ok()).map(|carried| Record::of(&carried));
    let held = before.filter(|r| r.size > 0).and_then(|r| volume.block_count(r.first_block as usize).ok());
    let room = volume.free() + held.unwrap_or(0);
    let (bytes, carried) = read(source, &path, room, change.block_len())?;
    match there {
        Some(inode) => change.replace(inode, &bytes),
        None => change.add(parent, name, &bytes, carried),
    }
    .map_err(|r| full(&path, r, Kind::File))?;
    let blocks = bytes.len().div_ceil(change.block_len()) as u64;
    Ok(Put { path, bytes: bytes.len() as u64, blocks })
}

/// A source's bytes and what it carries, if so many blocks have room for it. No more is read than has room.
fn read(source: &Source, about: &str, room: usize, block_len: usize) -> Outcome<(Vec<u8>, [u8; 20])> {
    let too_long = |need: String| {
        let line = format!("{about}: it needs {need}, and {} free [NoSpace 6]", are(room as u64));
        Err(Fail::failed(line))
    };
    let blocks = |bytes: u64| count(bytes.div_ceil(block_len as u64), "block");
    let most = room as u64 * block_len as u64;
    let known = match source {
        Source::Host(host) => fs::metadata(host).map_err(|e| Fail::host(host, &e))?.len(),
        Source::Entry(session, at) => session.entries[*at].record.size,
        _ => 0,
    };
    if known > most {
        return too_long(blocks(known));
    }
    let limited = |from: &mut dyn Read, name: &Path| {
        let mut bytes = Vec::new();
        from.take(most + 1).read_to_end(&mut bytes).map_err(|e| Fail::host(name, &e))?;
        Ok(bytes)
    };
    let (bytes, carried) = match source {
        Source::Host(host) => {
            let mut file = File::open(host).map_err(|e| Fail::host(host, &e))?;
            (limited(&mut file, host)?, [0; 20])
        }
        Source::Input => (limited(&mut io::stdin().lock(), Path::new("standard input"))?, [0; 20]),
        Source::Entry(session, at) => {
            let carried = session.volume.carried_file(session.entries[*at].inode);
            (session.content(*at), carried.map_err(|r| Fail::refused(about, r))?)
        }
        Source::Dir(_) => (Vec::new(), [0; 20]),
    };
    match bytes.len() as u64 > most {
        true => too_long(format!("more than {}", count(room as u64, "block"))),
        false => Ok((bytes, carried)),
    }
}
