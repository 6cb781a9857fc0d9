//! The manifest of a shipped archive, and the digest of what it was proved from. `tools/dist` writes the one and
//! `tools/sources` says the other.

use crate::sha256;
use std::fs;
use std::path::Path;

/// What `dist/TARGET/MANIFEST` says.
pub struct Manifest {
    pub sources: String,
    pub archive: String,
}

impl Manifest {
    /// A line for each: its name, a space, what it is.
    pub fn parse(text: &str) -> Option<Manifest> {
        let of =
            |name: &str| text.lines().find_map(|line| line.strip_prefix(name)?.strip_prefix(' ')).map(String::from);
        Some(Manifest { sources: of("sources")?, archive: of("archive")? })
    }
}

/// The digest of the lines that `sha256sum` prints for every .rt and .antt file below crates/ and for crates.txt,
/// sorted by path. What the toolchain makes, `crates/*/out`, is left out.
pub fn sources(root: &Path) -> Result<String, String> {
    let mut paths = vec!["crates.txt".to_string()];
    below(root, "crates", &mut paths)?;
    paths.sort();
    let mut lines = String::new();
    for path in paths {
        let bytes = fs::read(root.join(&path)).map_err(|e| format!("{path}: {e}"))?;
        lines += &format!("{}  {path}\n", sha256::hex(&bytes));
    }
    Ok(sha256::hex(lines.as_bytes()))
}

/// Adds the source files below a folder.
fn below(root: &Path, folder: &str, paths: &mut Vec<String>) -> Result<(), String> {
    for entry in fs::read_dir(root.join(folder)).map_err(|e| format!("{folder}: {e}"))? {
        let entry = entry.map_err(|e| format!("{folder}: {e}"))?;
        let path = format!("{folder}/{}", entry.file_name().to_string_lossy());
        let kind = entry.file_type().map_err(|e| format!("{path}: {e}"))?;
        if kind.is_dir() {
            if !(path.ends_with("/out") && path.matches('/').count() == 2) {
                below(root, &path, paths)?;
            }
        } else if kind.is_file() && (path.ends_with(".rt") || path.ends_with(".antt")) {
            paths.push(path);
        }
    }
    Ok(())
}
