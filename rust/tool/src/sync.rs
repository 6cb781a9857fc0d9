//! All that was written to a file system, on the disk at once.

use std::fs::File;
use std::io;
use std::os::fd::AsRawFd;
use std::path::Path;

extern "C" {
    fn syncfs(fd: std::ffi::c_int) -> std::ffi::c_int;
}

/// Syncs the file system that a folder is on. For many files this is much quicker than one by one.
pub fn sync_around(folder: &Path) -> io::Result<()> {
    let folder = File::open(folder)?;
    // SAFETY: the descriptor is open, and the call takes no memory.
    match unsafe { syncfs(folder.as_raw_fd()) } {
        0 => Ok(()),
        _ => Err(io::Error::last_os_error()),
    }
}
