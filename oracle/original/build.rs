//! Finds the original's source and puts it, unchanged, where the crate includes it. Where it is not to be had the crate is built without it.
//!
//! The crates of `exchanged/` are this crate with some of the modules of `rust/save3ds` in the original's place: which of them, the crate's name says.

use std::env;
use std::fs;
use std::path::{Path, PathBuf};

const FILES: [&str; 6] = [
    "fat.rs",
    "fs_meta.rs",
    "save_ext_common.rs",
    "byte_struct_common.rs",
    "random_access_file.rs",
    "error.rs",
];

/// The files of `rust/save3ds` that a crate has in the original's place, and the cfg words that say so.
fn ours(package: &str) -> (&'static [&'static str], &'static [&'static str]) {
    match package {
        "exchanged_fat" => (&["fat.rs"], &["our_fat"]),
        "exchanged_meta" => (&["fs_meta.rs", "fs_meta_store.rs"], &["our_meta"]),
        "exchanged_common" => (&["save_ext_common.rs"], &[]),
        "exchanged_all" => (&["fat.rs", "fs_meta.rs", "fs_meta_store.rs", "save_ext_common.rs"], &["our_fat", "our_meta"]),
        _ => (&[], &[]),
    }
}

/// The repository's root.
fn root() -> PathBuf {
    let here = env::var("CARGO_MANIFEST_DIR").unwrap();
    let root = Path::new(&here).ancestors().find(|folder| folder.join("crates.txt").is_file());
    root.expect("the crate is in the repository").into()
}

/// The folder that SAVE3DS_SRC names, seen from the repository's root.
fn folder() -> PathBuf {
    let named = env::var("SAVE3DS_SRC").unwrap_or("../shared/docs/src/libsave3ds/src".into());
    root().join(named)
}

fn copy(from: &Path, name: &str, to: &Path) {
    println!("cargo::rerun-if-changed={}", from.join(name).display());
    let text = fs::read(from.join(name)).unwrap();
    fs::write(to, text).unwrap();
}

fn main() {
    println!("cargo::rustc-check-cfg=cfg(original, our_fat, our_meta)");
    println!("cargo::rerun-if-env-changed=SAVE3DS_SRC");
    println!("cargo::rerun-if-changed={}", root().join("oracle/original/build.rs").display());
    let from = folder();
    let to = PathBuf::from(env::var("OUT_DIR").unwrap());
    println!("cargo::rerun-if-changed={}", from.display());
    if FILES.iter().any(|name| !from.join(name).is_file()) {
        return;
    }
    for name in FILES {
        copy(&from, name, &to.join(name));
    }
    // The original's own stays beside ours, as the guide has it for entries of other widths.
    copy(&from, "fs_meta.rs", &to.join("fs_meta_beside.rs"));
    let (files, words) = ours(&env::var("CARGO_PKG_NAME").unwrap());
    for name in files {
        copy(&root().join("rust/save3ds"), name, &to.join(name));
    }
    for word in words {
        println!("cargo::rustc-cfg={word}");
    }
    println!("cargo::rustc-cfg=original");
}
