//! What a lift did.

use crate::args::Call;
use crate::fail::Outcome;
use crate::layout::{Item, What};
use crate::session::Session;
use crate::show::json;
use crate::show::term::{complain, say};
use crate::words::{count, directories, number};
use std::path::{Path, PathBuf};

/// Something to say of one file.
pub struct Note {
    path: String,
    /// Where it is, or would be, below the folder that all of it is in.
    host: PathBuf,
    line: String,
}

impl Note {
    pub fn new(item: &Item, line: String) -> Note {
        Note { path: item.path.clone(), host: item.host.clone(), line }
    }

    fn to(&self, place: &Path) -> PathBuf {
        if self.host.as_os_str().is_empty() {
            place.into()
        } else {
            place.join(&self.host)
        }
    }

    fn as_json(&self, place: &Path) -> String {
        json::object(&[
            ("path", json::text(&self.path)),
            ("to", json::text(&self.to(place).to_string_lossy())),
            ("what", json::text(&self.line)),
        ])
    }
}

#[derive(Default)]
pub struct Lifted {
    pub files: u64,
    pub dirs: u64,
    pub lost: u64,
    pub bytes: u64,
    /// Every file, by its path on the volume.
    pub paths: Vec<String>,
    /// Files whose record is wrong, lifted under another name.
    pub marked: Vec<Note>,
    /// Files of which nothing can be lifted.
    pub left: Vec<Note>,
    /// What the host refused.
    pub failed: Vec<Note>,
}

impl Lifted {
    /// One more file, read back and equal.
    pub fn count(&mut self, session: &Session, item: &Item, bytes: u64) {
        self.bytes += bytes;
        self.paths.push(item.path.clone());
        match item.what {
            What::File(at) => {
                self.files += 1;
                let finding = session.finding_of(at);
                self.marked.extend(finding.map(|f| Note::new(item, f.line.clone())));
            }
            _ => self.lost += 1,
        }
    }

    pub fn tell(&self, call: &Call, place: &Path) -> Outcome<()> {
        if call.json {
            return say(&self.as_json(call, place));
        }
        if call.verbose {
            self.paths.iter().try_for_each(|path| say(&format!("{path}\n")))?;
        }
        if !call.quiet {
            let lost = match self.lost {
                0 => String::new(),
                n => format!("; {} to lost+found/", count(n, "lost chain")),
            };
            say(&format!(
                "lifted {} and {}, {} bytes, to {}; all read back and equal{lost}\n",
                count(self.files, "file"),
                directories(self.dirs),
                number(self.bytes),
                place.display()
            ))?;
        }
        for note in &self.marked {
            complain("lift", &format!("lifted with a mark, to {}: {}", note.to(place).display(), note.line));
        }
        for note in self.left.iter().chain(&self.failed) {
            complain("lift", &format!("not lifted: {}", note.line));
        }
        if !self.failed.is_empty() {
            complain(
                "lift",
                &format!("{} failed; the rest is in {}", count(self.failed.len() as u64, "thing"), place.display()),
            );
        }
        Ok(())
    }

    fn as_json(&self, call: &Call, place: &Path) -> String {
        let notes = |all: &[Note]| json::list(all.iter().map(|n| n.as_json(place)));
        json::answer(
            "lift",
            &[
                ("volume", json::text(&call.volume(0).to_string_lossy())),
                ("to", json::text(&place.to_string_lossy())),
                ("files", self.files.to_string()),
                ("directories", self.dirs.to_string()),
                ("lost_chain_files", self.lost.to_string()),
                ("bytes", self.bytes.to_string()),
                ("marked", notes(&self.marked)),
                ("left", notes(&self.left)),
                ("failed", notes(&self.failed)),
            ],
        )
    }
}
