//! What the tests share: a folder to work in, and a few volumes.

use std::fs;
use std::path::{Path, PathBuf};
use std::process::{Command, Output};
use std::sync::atomic::{AtomicU32, Ordering};

/// A folder of its own for each test, removed when it is done.
pub struct Bench(pub PathBuf);

impl Bench {
    pub fn new() -> Bench {
        static NEXT: AtomicU32 = AtomicU32::new(0);
        let name = format!("mukthiban-{}-{}", std::process::id(), NEXT.fetch_add(1, Ordering::Relaxed));
        // where the host keeps files in memory, syncs cost nothing
        let memory = Path::new("/dev/shm");
        let folder = if memory.is_dir() { memory.into() } else { std::env::temp_dir() }.join(name);
        fs::create_dir(&folder).unwrap();
        Bench(folder)
    }

    /// A bench with a small volume `v`: 40 blocks of 512 bytes, room for 4 directories and 6 files.
    pub fn with_volume() -> Bench {
        let bench = Bench::new();
        bench.done(&[
            "new",
            "v",
            "--blocks",
            "40",
            "--block-len",
            "512",
            "--dirs",
            "4",
            "--files",
            "6",
            "--buckets",
            "5",
        ]);
        bench
    }

    pub fn at(&self, name: &str) -> PathBuf {
        self.0.join(name)
    }

    pub fn host(&self, name: &str, bytes: &[u8]) {
        fs::write(self.at(name), bytes).unwrap();
    }

    pub fn run(&self, words: &[&str]) -> Output {
        self.run_with(words, &[])
    }

    pub fn run_aborted(&self, words: &[&str], step: u32) -> Output {
        self.run_with(words, &[("MUKTHIBAN_ABORT_AT_STEP", &step.to_string())])
    }

    pub fn run_with(&self, words: &[&str], environment: &[(&str, &str)]) -> Output {
        self.tool(words).envs(environment.iter().copied()).output().unwrap()
    }

    /// The tool with its words, to be started.
    pub fn tool(&self, words: &[&str]) -> Command {
        let mut command = Command::new(env!("CARGO_BIN_EXE_mukthiban"));
        command.args(words).current_dir(&self.0);
        command
    }

    /// What a command says that must succeed.
    pub fn done(&self, words: &[&str]) -> String {
        let out = self.run(words);
        assert_eq!(out.status.code(), Some(0), "{words:?}: {}", String::from_utf8_lossy(&out.stderr));
        assert!(out.stderr.is_empty(), "{words:?}: {}", String::from_utf8_lossy(&out.stderr));
        String::from_utf8(out.stdout).unwrap()
    }

    /// The one line of a command that must fail with that code.
    pub fn fails(&self, words: &[&str], code: i32) -> String {
        let before = tree(&self.0);
        let out = self.run(words);
        let line = String::from_utf8(out.stderr).unwrap();
        assert_eq!(out.status.code(), Some(code), "{words:?}: {line}");
        assert!(out.stdout.is_empty(), "{words:?} wrote to standard output");
        assert_eq!(line.lines().count(), 1, "{words:?} says one line: {line}");
        assert!(line.starts_with("mukthiban: "), "{line}");
        assert_eq!(tree(&self.0), before, "{words:?} changed something");
        line
    }

    /// Changes bytes of a file in place.
    pub fn poke(&self, name: &str, at: usize, bytes: &[u8]) {
        let mut all = fs::read(self.at(name)).unwrap();
        all[at..at + bytes.len()].copy_from_slice(bytes);
        fs::write(self.at(name), all).unwrap();
    }
}

impl Drop for Bench {
    fn drop(&mut self) {
        let _ = fs::remove_dir_all(&self.0);
    }
}

/// Every file below a folder, with its bytes.
pub fn tree(folder: &Path) -> Vec<(PathBuf, Option<Vec<u8>>)> {
    let mut out = Vec::new();
    let mut ahead = vec![folder.to_path_buf()];
    while let Some(at) = ahead.pop() {
        for entry in fs::read_dir(&at).unwrap() {
            let path = entry.unwrap().path();
            let short = path.strip_prefix(folder).unwrap().to_path_buf();
            if path.is_dir() {
                out.push((short, None));
                ahead.push(path);
            } else {
                out.push((short, Some(fs::read(&path).unwrap())));
            }
        }
    }
    out.sort();
    out
}

/// Bytes that are not all alike.
pub fn noise(len: usize, seed: u32) -> Vec<u8> {
    let mut x = seed;
    let mut next = || {
        x = x.wrapping_mul(1_664_525).wrapping_add(1_013_904_223);
        (x >> 24) as u8
    };
    (0..len).map(|_| next()).collect()
}

/// A volume with two files of two blocks, at blocks 0 and 2.
pub fn two_files() -> Bench {
    let b = Bench::with_volume();
    b.host("one", &noise(600, 1));
    b.host("two", &noise(600, 2));
    b.done(&["put", "v", "one", "one"]);
    b.done(&["put", "v", "two", "two"]);
    b
}

/// The names that stand on the bench.
pub fn leftovers(b: &Bench) -> Vec<String> {
    let mut names: Vec<String> =
        fs::read_dir(&b.0).unwrap().map(|e| e.unwrap().file_name().into_string().unwrap()).collect();
    names.sort();
    names
}

/// A copy of a folder.
pub fn copy(from: &Path, to: &Path) {
    fs::create_dir(to).unwrap();
    for entry in fs::read_dir(from).unwrap() {
        let entry = entry.unwrap();
        fs::copy(entry.path(), to.join(entry.file_name())).unwrap();
    }
}
