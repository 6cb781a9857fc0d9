//! The folder that is lifted to, until all of it is there.

use crate::fail::{Fail, Outcome};
use std::ffi::OsString;
use std::path::{Path, PathBuf};

/// Where the files stand until all are there. Neither it nor OUT may exist.
pub fn part_of(out: &Path) -> Outcome<PathBuf> {
    if out.symlink_metadata().is_ok() {
        return Err(Fail::failed(format!("{}: it exists already; lift to a new name", out.display())));
    }
    let Some(name) = out.file_name() else {
        return Err(Fail::failed(format!("{}: this can't be a new folder", out.display())));
    };
    let mut part = OsString::from(name);
    part.push(".part");
    let part = out.with_file_name(part);
    if part.symlink_metadata().is_ok() {
        let line = format!("{}: left by a lift that was interrupted; remove it first", part.display());
        return Err(Fail::failed(line));
    }
    Ok(part)
}

pub fn parent(path: &Path) -> &Path {
    path.parent().filter(|p| *p != Path::new("")).unwrap_or(Path::new("."))
}
