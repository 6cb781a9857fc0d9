//! A volume that is open: its tables, its tree, and what the two layers say of each other.

use crate::diagnose;
use crate::fail::{Fail, Outcome};
use crate::name::{self, joined};
use crate::records::{Account, Finding};
use crate::salvaged::Broken;
use crate::tree::{path_of, read_tree, Chain, Entry};
use mukthiban::folder::{Access, Data, Folder, FolderError, Sizes};
use mukthiban::{Kind, Name, NotSound, Parts, Refusal, Volume, Want};
use std::collections::HashSet;
use std::path::Path;
use std::time::Duration;

/// A sound volume, read whole.
pub struct Session {
    pub volume: Volume,
    /// The root first, each directory before what is in it; names in order.
    pub entries: Vec<Entry>,
    /// What is wrong or remarkable though the tables are sound.
    pub account: Account,
    /// The blocks' bytes, as far as they were read; else nothing.
    bytes: Vec<u8>,
}

/// A volume whose tables or lengths are refused. Where a file is too long for any volume it was not read.
pub struct Refused {
    pub refusal: Refusal,
    pub sizes: Sizes,
    pub parts: Option<Box<Parts>>,
}

impl From<NotSound> for Refused {
    fn from(no: NotSound) -> Refused {
        let p = &no.parts;
        let files = [&p.fat, &p.data, &p.dir_hash, &p.dir_table, &p.file_hash, &p.file_table];
        let sizes = Sizes { block_len: p.block_len, files: files.map(|f| f.len() as u64) };
        Refused { refusal: no.refusal, sizes, parts: Some(no.parts) }
    }
}

impl Refused {
    /// The one line for a command that needs a sound volume.
    pub fn fail(&self, path: &Path) -> Fail {
        let detail = match self.refusal {
            Refusal::SizeMismatch | Refusal::InvalidValue => diagnose::size_line(&self.sizes),
            _ => None,
        };
        let detail = detail.unwrap_or_else(|| self.refusal.meaning().into());
        let (name, number) = (self.refusal.name(), self.refusal.number());
        Fail::not_sound(format!("{}: not sound: {detail} [{name} {number}]", path.display()))
    }
}

impl Session {
    /// Tests the parts and reads the tree.
    pub fn open(parts: Parts) -> Result<Session, Refused> {
        let volume = Volume::open(parts)?;
        let mut entries = read_tree(&volume).expect("a sound tree can be walked");
        let account = Account::take(&volume, &mut entries);
        Ok(Session { volume, entries, account, bytes: Vec::new() })
    }

    /// The volume in a folder, without the blocks' bytes. Lengths that no volume has are judged before anything is read.
    pub fn load(folder: &Folder) -> Outcome<Result<Session, Refused>> {
        match folder.load(Data::Length) {
            Ok(parts) => Ok(Session::open(parts)),
            Err(FolderError::TooLong(_)) => {
                let sizes = folder.sizes().map_err(|e| Fail::folder(&e))?;
                Ok(Err(Refused { refusal: diagnose::sizes_refusal(&sizes), sizes, parts: None }))
            }
            Err(e) => Err(Fail::folder(&e)),
        }
    }

    /// The volume at that path, to be looked at. The blocks' bytes are not read.
    pub fn read(path: &Path, wait: Duration) -> Outcome<Session> {
        Session::read_with(path, wait, |_| Ok(())).map(|(session, ())| session)
    }

    /// The volume at that path, to be looked at; where its tables are broken, what can be salvaged of it.
    pub fn read_or_broken(path: &Path, wait: Duration) -> Outcome<Result<Session, (Refused, Box<Broken>)>> {
        let folder = Folder::open(path, Access::Read, wait).map_err(|e| Fail::folder(&e))?;
        match Session::load(&folder)? {
            Ok(session) => Ok(Ok(session)),
            Err(refused) => match (refused.refusal, refused.parts.as_deref().cloned()) {
                (Refusal::BrokenFat | Refusal::BrokenTree, Some(parts)) => {
                    Ok(Err((refused, Box::new(Broken::of(parts)))))
                }
                _ => Err(refused.fail(path)),
            },
        }
    }

    /// The volume at that path with the blocks' bytes of what is chosen, once its tables are known.
    pub fn read_with<T: Chosen>(
        path: &Path,
        wait: Duration,
        choose: impl FnOnce(&Session) -> Outcome<T>,
    ) -> Outcome<(Session, T)> {
        let folder = Folder::open(path, Access::Read, wait).map_err(|e| Fail::folder(&e))?;
        let mut session = Session::load(&folder)?.map_err(|refused| refused.fail(path))?;
        let chosen = choose(&session)?;
        session.open_to_read(chosen.entries()).map_err(|r| Fail::refused(&path.display().to_string(), r))?;
        let stretches = chosen.stretches(&session);
        if !stretches.is_empty() {
            session.bytes = folder.bytes(&stretches).map_err(|e| Fail::folder(&e))?;
        }
        Ok((session, chosen))
    }

    /// Opens files as a reader, for as long as the session is there.
    fn open_to_read(&mut self, entries: Vec<usize>) -> Result<(), Refusal> {
        for entry in entries.into_iter().map(|at| &self.entries[at]).filter(|entry| entry.kind == Kind::File) {
            self.volume.open_file(entry.inode, Want::Reader)?;
        }
        Ok(())
    }

    /// Nothing is allowed to be wrong with a volume that is changed.
    pub fn must_be_sound(&self, path: &Path) -> Outcome<()> {
        match self.account.findings.first() {
            None => Ok(()),
            Some(finding) => Err(Fail::not_sound(format!("{}: not sound: {}", path.display(), finding.line))),
        }
    }

    pub fn path(&self, entry: usize) -> String {
        path_of(&self.entries, entry)
    }

    /// The entry with that name in a directory.
    pub fn child(&self, dir: usize, kind: Kind, name: &Name) -> Option<usize> {
        let inside = self.entries[dir].inside.clone();
        let key = |e: &Entry| (e.kind == Kind::File, e.name);
        let found = self.entries[inside.clone()].binary_search_by_key(&(kind == Kind::File, *name), key);
        found.ok().map(|place| inside.start + place)
    }

    /// The directory with those names, from the root down.
    pub fn dir(&self, names: &[Name]) -> Outcome<usize> {
        let mut at = 0;
        for name in names {
            at = self
                .child(at, Kind::Dir, name)
                .ok_or_else(|| Fail::failed(format!("{}: no such directory", joined(names))))?;
        }
        Ok(at)
    }

    /// What the path names, of the kinds wanted, the first one that is there. A slash at its end asks for a directory.
    pub fn find(&self, path: &name::Path, kinds: &[Kind]) -> Outcome<usize> {
        let none = || Fail::failed(format!("{}: no such file or directory", joined(&path.names)));
        let Some((parents, last)) = path.split() else {
            return if kinds.contains(&Kind::Dir) { Ok(0) } else { Err(Fail::failed("/: this is a directory")) };
        };
        let dir = self.dir(parents).map_err(|_| none())?;
        let wanted = kinds.iter().filter(|&&k| k == Kind::Dir || !path.slash);
        if let Some(found) = wanted.filter_map(|&k| self.child(dir, k, last)).next() {
            return Ok(found);
        }
        let other = [Kind::Dir, Kind::File].into_iter().find(|&k| self.child(dir, k, last).is_some());
        Err(match other {
            Some(Kind::Dir) => Fail::failed(format!("{}: this is a directory", joined(&path.names))),
            Some(Kind::File) => Fail::failed(format!("{}: this is a file", joined(&path.names))),
            None => none(),
        })
    }

    /// Where the path is a directory, or a slash ends it, the thing's own name comes behind it.
    pub fn named_below(&self, path: &mut name::Path, own: impl Fn() -> Outcome<Name>) -> Outcome<()> {
        let is_dir = self.dir(&path.names).is_ok();
        if path.slash && !is_dir {
            return Err(Fail::failed(format!("{}: no such directory", joined(&path.names))));
        }
        if is_dir {
            path.names.push(own()?);
            path.slash = false;
        }
        Ok(())
    }

    /// What is in a directory; with `all`, each directory followed by what is in it.
    pub fn inside(&self, dir: usize, all: bool) -> Vec<usize> {
        let mut out = Vec::new();
        let mut ahead: Vec<usize> = self.entries[dir].inside.clone().rev().collect();
        while let Some(at) = ahead.pop() {
            out.push(at);
            if all {
                ahead.extend(self.entries[at].inside.clone().rev());
            }
        }
        out
    }

    /// What is wrong with a file's record, if anything is.
    pub fn finding_of(&self, entry: usize) -> Option<&Finding> {
        self.entries[entry].faults.first().map(|&f| &self.account.findings[f])
    }

    /// A file's bytes: as many as its record says, or as its blocks hold. They must have been read.
    pub fn content(&self, entry: usize) -> Vec<u8> {
        let entry = &self.entries[entry];
        let size = usize::try_from(entry.record.size).unwrap_or(usize::MAX);
        self.block_bytes(entry.blocks(), size)
    }

    /// The bytes of blocks, one after another, and no more than so many. This is the one place that copies them.
    pub fn block_bytes(&self, blocks: &[u32], size: usize) -> Vec<u8> {
        let length = self.volume.parts().block_len;
        let mut bytes = Vec::with_capacity(size.min(blocks.len() * length));
        for &b in blocks {
            let block = &self.bytes[b as usize * length..][..length];
            bytes.extend(&block[..length.min(size - bytes.len())]);
        }
        bytes
    }
}

/// The stretches of chains, each chain once: many files may claim one.
pub fn stretches_of<'a>(chains: impl Iterator<Item = &'a Chain>) -> Vec<(u32, u32)> {
    let mut met = HashSet::new();
    chains.filter(|c| met.insert(c.blocks.first())).flat_map(|c| c.pieces.iter().copied()).collect()
}

/// What of a volume is chosen to be read.
pub trait Chosen {
    /// The stretches of its blocks.
    fn stretches(&self, session: &Session) -> Vec<(u32, u32)>;

    /// The entries that it is.
    fn entries(&self) -> Vec<usize>;
}

impl Chosen for () {
    fn entries(&self) -> Vec<usize> {
        Vec::new()
    }

    fn stretches(&self, _: &Session) -> Vec<(u32, u32)> {
        Vec::new()
    }
}

/// One entry.
impl Chosen for usize {
    fn entries(&self) -> Vec<usize> {
        vec![*self]
    }

    fn stretches(&self, session: &Session) -> Vec<(u32, u32)> {
        session.entries[*self].pieces().to_vec()
    }
}
