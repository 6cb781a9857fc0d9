//! Folders of the host, gone through.

use crate::fail::{Fail, Outcome};
use mukthiban::Kind;
use std::ffi::OsString;
use std::fs;
use std::path::{Path, PathBuf};

/// A file or a folder of the host.
pub struct HostItem {
    pub full: PathBuf,
    pub name: OsString,
    pub kind: Kind,
    /// The place in the list of the folder that it is in; none for what is directly in the first one.
    pub parent: Option<usize>,
}

/// All that is in a folder, by name, folders before what is in them. What is neither file nor folder is refused, a link
/// too: it might lead anywhere.
pub fn walk(folder: &Path) -> Outcome<Vec<HostItem>> {
    let mut items: Vec<HostItem> = Vec::new();
    inside(folder, None, &mut items)?;
    let mut at = 0;
    while at < items.len() {
        if items[at].kind == Kind::Dir {
            let folder = items[at].full.clone();
            inside(&folder, Some(at), &mut items)?;
        }
        at += 1;
    }
    Ok(items)
}

fn inside(folder: &Path, parent: Option<usize>, items: &mut Vec<HostItem>) -> Outcome<()> {
    let first = items.len();
    for entry in fs::read_dir(folder).map_err(|e| Fail::host(folder, &e))? {
        let entry = entry.map_err(|e| Fail::host(folder, &e))?;
        let full = entry.path();
        let kind = match entry.file_type().map_err(|e| Fail::host(&full, &e))? {
            kind if kind.is_dir() => Kind::Dir,
            kind if kind.is_file() => Kind::File,
            _ => return Err(Fail::failed(format!("{}: neither a file nor a folder", full.display()))),
        };
        items.push(HostItem { full, name: entry.file_name(), kind, parent });
    }
    items[first..].sort_by(|a, b| a.name.cmp(&b.name));
    Ok(())
}
