//! What a comparison of a volume with a folder found.

use crate::args::Call;
use crate::fail::Outcome;
use crate::show::json;
use crate::show::term::{ink, say, Ink};
use crate::words::{count, directories, number};
use std::path::Path;

pub enum Difference {
    OnlyOnVolume,
    OnlyInFolder,
    /// So many bytes on the volume, so many in the folder.
    Length(u64, u64),
    /// The first byte that is another.
    Byte(u64),
    /// The host's file can't be read.
    Unread(String),
}

impl Difference {
    fn kind(&self) -> &'static str {
        match self {
            Difference::OnlyOnVolume => "only_on_volume",
            Difference::OnlyInFolder => "only_in_folder",
            Difference::Length(..) => "length",
            Difference::Byte(_) => "byte",
            Difference::Unread(_) => "unread",
        }
    }

    fn words(&self) -> String {
        match self {
            Difference::OnlyOnVolume => "only on the volume".into(),
            Difference::OnlyInFolder => "only in the folder".into(),
            Difference::Length(ours, theirs) => {
                format!("{} on the volume, {} in the folder", count(*ours, "byte"), number(*theirs))
            }
            Difference::Byte(at) => format!("differs from byte {} on", number(*at)),
            Difference::Unread(error) => format!("can't be read in the folder: {error}"),
        }
    }
}

#[derive(Default)]
pub struct Compared {
    /// The files that are equal.
    pub files: Vec<String>,
    pub dirs: u64,
    pub differences: Vec<(String, Difference)>,
}

impl Compared {
    pub fn tell(&self, call: &Call, folder: &Path) -> Outcome<()> {
        if call.json {
            return say(&self.as_json(call, folder));
        }
        let verdict = match self.differences.is_empty() {
            true => ink(Ink::Green, "EQUAL"),
            false => ink(Ink::Red, "NOT EQUAL"),
        };
        let mut out = format!("{verdict}  {}  {}\n", call.volume(0).display(), folder.display());
        if call.quiet {
            return say(&out);
        }
        for (path, difference) in &self.differences {
            out += &format!("  - {path}: {}\n", difference.words());
        }
        if call.verbose {
            self.files.iter().for_each(|path| out += &format!("  = {path}\n"));
        }
        out += &format!("  equal: {} and {}\n", count(self.files.len() as u64, "file"), directories(self.dirs));
        say(&out)
    }

    fn as_json(&self, call: &Call, folder: &Path) -> String {
        let difference = |(path, d): &(String, Difference)| {
            json::object(&[
                ("kind", json::text(d.kind())),
                ("path", json::text(path)),
                ("what", json::text(&d.words())),
            ])
        };
        json::answer(
            "verify",
            &[
                ("volume", json::text(&call.volume(0).to_string_lossy())),
                ("folder", json::text(&folder.to_string_lossy())),
                ("equal", self.differences.is_empty().to_string()),
                ("files", self.files.len().to_string()),
                ("directories", self.dirs.to_string()),
                ("differences", json::list(self.differences.iter().map(difference))),
            ],
        )
    }
}
