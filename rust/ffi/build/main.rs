//! Links the proved library: the archive that `MUKTHIBAN_LIB` names, or else the one in `dist/` for this target, if it
//! was proved from the crates that stand beside it.

mod manifest;
mod sha256;

use manifest::Manifest;
use std::env;
use std::fs;
use std::path::{Path, PathBuf};

fn main() {
    println!("cargo::rerun-if-env-changed=MUKTHIBAN_LIB");
    println!("cargo::rerun-if-changed=build");
    let root = PathBuf::from(env::var_os("CARGO_MANIFEST_DIR").expect("cargo sets it")).join("../..");
    let found = match env::var_os("MUKTHIBAN_LIB").filter(|named| !named.is_empty()) {
        Some(named) => read(&root.join(named), "MUKTHIBAN_LIB names it"),
        None => shipped(&root, &env::var("TARGET").expect("cargo sets it")),
    };
    match found.and_then(|archive| link(&archive)) {
        Ok(()) => (),
        Err(why) => println!("cargo::error={why}"),
    }
}

fn read(file: &Path, why: &str) -> Result<Vec<u8>, String> {
    println!("cargo::rerun-if-changed={}", file.display());
    fs::read(file).map_err(|e| format!("{}: {e} ({why})", file.display()))
}

/// The archive of `dist/`. It is never linked where it is not what the manifest says, or was proved from other sources.
fn shipped(root: &Path, target: &str) -> Result<Vec<u8>, String> {
    let folder = root.join("dist").join(target);
    println!("cargo::rerun-if-changed={}", root.join("dist").display());
    if !folder.is_dir() {
        return Err(format!("no proved library for {target} in dist/: MUKTHIBAN_LIB names another archive to link"));
    }
    let archive = read(&folder.join("libmukthiban.a"), "`make dist` proves and writes it")?;
    let text = read(&folder.join("MANIFEST"), "`make dist` writes it")?;
    let manifest = Manifest::parse(&String::from_utf8_lossy(&text)).ok_or("dist/: MANIFEST has another form")?;
    if manifest.archive != sha256::hex(&archive) {
        return Err("dist/: libmukthiban.a is not the one of its MANIFEST; `make dist` writes both".into());
    }
    for file in ["crates", "crates.txt"] {
        println!("cargo::rerun-if-changed={}", root.join(file).display());
    }
    if root.join("crates.txt").exists() && manifest.sources != manifest::sources(root)? {
        return Err("crates/ changed since the library in dist/ was proved: run `make dist`, which proves it anew, \
                    or let MUKTHIBAN_LIB name an archive"
            .into());
    }
    Ok(archive)
}

/// A copy of its own for the linker, so that the archive may have any name.
fn link(archive: &[u8]) -> Result<(), String> {
    let out = PathBuf::from(env::var_os("OUT_DIR").expect("cargo sets it"));
    fs::write(out.join("libmukthiban.a"), archive).map_err(|e| format!("{}: {e}", out.display()))?;
    println!("cargo::rustc-link-search=native={}", out.display());
    println!("cargo::rustc-link-lib=static=mukthiban");
    Ok(())
}
