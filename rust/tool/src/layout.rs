//! A volume as files and folders of the host: what each thing is called there, and what a name there means.
//!
//! A file that can't stand under its own name gets a mark behind it: a backslash and a word, which no name has.

use crate::name::{self, shown};
use crate::records::Finding;
use crate::session::{stretches_of, Chosen, Session};
use mukthiban::{Kind, Name};
use std::ffi::OsStr;
use std::os::unix::ffi::OsStrExt;
use std::path::PathBuf;

/// There is a directory of that name.
const TAKEN: &str = "\\file";
/// Another file claims its blocks, and who is right can't be told.
const SHARED: &str = "\\shared";
/// Its blocks hold less than its record says.
const SHORT: &str = "\\short";

#[derive(Clone, Copy, PartialEq, Eq)]
pub enum What {
    Dir,
    /// A file, by its place in the list of entries.
    File(usize),
    /// A chain that no file names, by its place in the list of lost ones.
    Lost(usize),
    /// A folder of the host alone.
    Folder,
}

/// A thing on the host.
pub struct Item {
    /// Where, below the folder that all of it is in. Empty for that folder itself.
    pub host: PathBuf,
    /// The path that it has on the volume, or would have.
    pub path: String,
    pub what: What,
    /// How many things below it are left out, since no host takes so long a path.
    pub below: u64,
}

/// The longest path of the host below which things are looked at.
const LONGEST: usize = 4096;

/// All that is in a directory, folders before what is in them; from the root, with the lost chains.
pub fn layout(session: &Session, from: usize) -> Vec<Item> {
    let item = |host: PathBuf, at: usize, what: What| Item { host, path: session.path(at), what, below: 0 };
    let mut items = vec![item(PathBuf::new(), from, What::Dir)];
    // for each entry its item, or that of the directory that it is left out below
    let mut places = vec![0; session.entries.len()];
    for at in session.inside(from, true) {
        let (entry, above) = (&session.entries[at], places[session.entries[at].parent]);
        if items[above].host.as_os_str().len() > LONGEST {
            (places[at], items[above].below) = (above, items[above].below + 1);
            continue;
        }
        let what = match entry.kind {
            Kind::Dir => What::Dir,
            Kind::File => What::File(at),
        };
        places[at] = items.len();
        items.push(item(items[above].host.join(host_name(session, at)), at, what));
    }
    if from == 0 && !session.account.lost.is_empty() {
        add_lost(session, &mut items);
    }
    items
}

fn add_lost(session: &Session, items: &mut Vec<Item>) {
    let taken = items.iter().any(|i| i.host == OsStr::new("lost+found"));
    let folder = if taken { "lost+found\\lost" } else { "lost+found" };
    items.push(Item { host: folder.into(), path: format!("/{folder}"), what: What::Folder, below: 0 });
    for (place, lost) in session.account.lost.iter().enumerate() {
        let name = format!("{folder}/block-{}", lost.first_block);
        items.push(Item { path: format!("/{name}"), host: name.into(), what: What::Lost(place), below: 0 });
    }
}

impl Chosen for Vec<Item> {
    fn entries(&self) -> Vec<usize> {
        let at = |item: &Item| match item.what {
            What::File(at) => Some(at),
            What::Lost(_) | What::Dir | What::Folder => None,
        };
        self.iter().filter_map(at).collect()
    }

    fn stretches(&self, session: &Session) -> Vec<(u32, u32)> {
        stretches_of(self.iter().filter_map(|item| match item.what {
            What::File(at) => session.entries[at].chain.as_deref(),
            What::Lost(place) => Some(&session.account.lost[place].chain),
            What::Dir | What::Folder => None,
        }))
    }
}

/// The name that an entry gets on the host.
fn host_name(session: &Session, at: usize) -> String {
    let entry = &session.entries[at];
    let name = shown(&entry.name);
    if entry.kind == Kind::Dir {
        return name;
    }
    let faults = || entry.faults.iter().map(|&f| &session.account.findings[f]);
    let is = |kind: u32| faults().any(|f: &Finding| f.kind == kind);
    let taken = session.child(entry.parent, Kind::Dir, &entry.name).is_some();
    match (is(2), is(3), taken) {
        (true, ..) => name + SHARED,
        (_, true, _) => name + SHORT,
        (.., true) => name + TAKEN,
        _ => name,
    }
}

/// The bytes of an item that is no folder.
pub fn bytes(session: &Session, what: What) -> Vec<u8> {
    match what {
        What::File(at) => session.content(at),
        What::Lost(place) => session.block_bytes(&session.account.lost[place].chain.blocks, usize::MAX),
        What::Dir | What::Folder => Vec::new(),
    }
}

/// A host name as a name of the volume: what lift wrote is read back, marks of files left out; any other is taken as it
/// stands.
pub fn name_of(host: &OsStr, kind: Kind) -> Result<Name, String> {
    let mut bytes = host.as_bytes();
    for mark in [TAKEN, SHARED, SHORT] {
        bytes = match kind {
            Kind::File => bytes.strip_suffix(mark.as_bytes()).unwrap_or(bytes),
            Kind::Dir => bytes,
        };
    }
    match name::parse(bytes) {
        Err(_) if bytes.len() <= 16 => {
            let mut name = [0; 16];
            name[..bytes.len()].copy_from_slice(bytes);
            Ok(name)
        }
        parsed => parsed.map_err(|line| format!("{}: {line}", host.to_string_lossy())),
    }
}
