//! The tool's files know each other in one direction only.

use std::collections::BTreeMap;
use std::fs;
use std::path::{Path, PathBuf};

/// Each file below `folder`, as its path of modules, with its text.
fn files(folder: &Path) -> BTreeMap<String, String> {
    let mut out = BTreeMap::new();
    let mut ahead = vec![folder.to_path_buf()];
    while let Some(at) = ahead.pop() {
        for entry in fs::read_dir(&at).unwrap() {
            let path: PathBuf = entry.unwrap().path();
            if path.is_dir() {
                ahead.push(path);
                continue;
            }
            let short = path.strip_prefix(folder).unwrap().with_extension("");
            let module = short.to_str().unwrap().replace('/', "::");
            out.insert(module.trim_end_matches("::mod").into(), fs::read_to_string(&path).unwrap());
        }
    }
    out
}

/// The files that a file names, by `crate::` paths and by its own `mod` lines.
fn named(all: &BTreeMap<String, String>, module: &str) -> Vec<String> {
    let text = &all[module];
    let below = match module {
        "main" => String::new(),
        _ => format!("{module}::"),
    };
    let own = text.lines().filter_map(|l| l.trim_start_matches("pub ").strip_prefix("mod ")?.strip_suffix(';'));
    let mut out: Vec<String> = own.map(|m| format!("{below}{m}")).collect();
    for part in text.split("crate::").skip(1) {
        let mut path = part.split(|c: char| !c.is_alphanumeric() && c != '_' && c != ':').next().unwrap();
        while !all.contains_key(path) {
            path = path.rsplit_once("::").unwrap_or_else(|| panic!("{module}: crate::{path}")).0;
        }
        out.push(path.into());
    }
    out
}

#[test]
fn no_two_files_know_each_other() {
    let all = files(&Path::new(env!("CARGO_MANIFEST_DIR")).join("src"));
    let mut left: Vec<&str> = all.keys().map(String::as_str).collect();
    loop {
        let free = |m: &&str| named(&all, m).iter().all(|n| !left.contains(&n.as_str()));
        let gone: Vec<&str> = left.iter().copied().filter(free).collect();
        if gone.is_empty() {
            break;
        }
        left.retain(|m| !gone.contains(m));
    }
    assert!(left.is_empty(), "these go round in a circle, or stand above one: {left:?}");
}
