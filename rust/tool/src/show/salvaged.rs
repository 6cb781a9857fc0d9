//! What is said of a broken volume: the report of a salvage, and a listing with marks.

use crate::salvaged::Broken;
use crate::show::json;
use crate::words::{count, number};
use std::path::PathBuf;

/// A file or a chain, as the report has it.
pub struct Line {
    pub path: String,
    pub to: PathBuf,
    /// None of a chain that no file names.
    pub inode: Option<u32>,
    pub whole: bool,
    pub reason: String,
    pub size: u64,
    pub lifted: u64,
    pub blocks: usize,
    pub pieces: Vec<(u32, u32)>,
}

/// Stretches as people write them: 0-3, 7.
fn ranges(pieces: &[(u32, u32)]) -> String {
    let one = |&(first, len): &(u32, u32)| match len {
        1 => first.to_string(),
        _ => format!("{first}-{}", first + len - 1),
    };
    pieces.iter().map(one).collect::<Vec<_>>().join(", ")
}

impl Line {
    fn text(&self) -> String {
        let trust = match (self.inode, self.whole) {
            (None, _) => "lost",
            (_, true) => "whole",
            (_, false) => "doubtful",
        };
        let why = if self.whole && self.inode.is_some() { String::new() } else { format!(": {}", self.reason) };
        let blocks = match self.blocks {
            0 => "no blocks".into(),
            n => format!("{} {}", count(n as u64, "block"), ranges(&self.pieces)),
        };
        let bytes = match self.lifted == self.size {
            true => count(self.size, "byte"),
            false => format!("{} of {}", number(self.lifted), count(self.size, "byte")),
        };
        format!("{trust:<9} {}  ({bytes}; {blocks}){why}  -> {}\n", self.path, self.to.display())
    }

    fn json(&self) -> String {
        let mut fields = vec![("path", json::text(&self.path)), ("to", json::text(&self.to.to_string_lossy()))];
        fields.push(("inode", self.inode.map_or("null".into(), |i| i.to_string())));
        fields.extend([
            ("trust", json::text(if self.whole { "whole" } else { "doubtful" })),
            ("reason", json::text(&self.reason)),
            ("size", self.size.to_string()),
            ("lifted", self.lifted.to_string()),
            ("stretches", json::stretches(&self.pieces)),
        ]);
        json::object(&fields)
    }
}

/// What a salvage did.
#[derive(Default)]
pub struct Report {
    pub volume: PathBuf,
    pub to: PathBuf,
    /// What was remarkable in reading the volume's files.
    pub remarks: Vec<String>,
    pub files: Vec<Line>,
    pub lost: Vec<Line>,
    /// What the host refused.
    pub failed: Vec<String>,
}

impl Report {
    fn whole(&self) -> usize {
        self.files.iter().filter(|l| l.whole).count()
    }

    /// Every file is whole, and nothing was remarkable.
    pub fn all_whole(&self) -> bool {
        self.whole() == self.files.len() && self.remarks.is_empty()
    }

    /// The text of salvage.txt.
    pub fn text(&self) -> String {
        let (whole, files) = (self.whole() as u64, self.files.len() as u64);
        let mut out = format!("{}: {} of {} whole\n", self.volume.display(), number(whole), count(files, "file"));
        out += "whole: its chain is whole by the proved call, shares no block and is long enough for its size, and no entry on\n";
        out += "its path shows damage\n";
        out += "doubtful: what there is of it, with the first reason; the bytes behind the blocks followed are a guess\n\n";
        self.remarks.iter().for_each(|line| out += &format!("remark    {line}\n"));
        self.files.iter().chain(&self.lost).for_each(|line| out += &line.text());
        out
    }

    /// What is said when it is done.
    pub fn summary(&self, report: &str) -> String {
        let (whole, files) = (self.whole(), self.files.len());
        let mut out = format!("lifted {} of {} whole", number(whole as u64), count(files as u64, "file"));
        if files > whole {
            out += &format!(", {} to doubtful/", number((files - whole) as u64));
        }
        if !self.lost.is_empty() {
            out += &format!(", {} to lost+found/", count(self.lost.len() as u64, "lost chain"));
        }
        out + &format!(
            "; all read back and equal; {} says how far each can be trusted\n",
            self.to.join(report).display()
        )
    }

    pub fn json(&self) -> String {
        json::answer(
            "lift",
            &[
                ("volume", json::text(&self.volume.to_string_lossy())),
                ("to", json::text(&self.to.to_string_lossy())),
                ("whole", self.whole().to_string()),
                ("salvaged", json::list(self.files.iter().map(Line::json))),
                ("lost_chains", json::list(self.lost.iter().map(Line::json))),
                ("remarks", json::list(self.remarks.iter().map(|r| json::text(r)))),
                ("failed", json::list(self.failed.iter().map(|f| json::text(f)))),
            ],
        )
    }
}

/// The files of a broken volume, each with its mark: + for one that can be lifted whole, ? for one that can't.
pub fn listing(broken: &Broken, below: &str, all: bool) -> String {
    let mut out = String::from("   size  blocks  fragments  name\n");
    let mut paths: Vec<_> = broken.salvage.files.iter().map(|f| (broken.path(f), f)).collect();
    paths.sort_by(|a, b| a.0.cmp(&b.0));
    let inside = |path: &str| {
        let rest = path.strip_prefix(below.trim_end_matches('/')).and_then(|r| r.strip_prefix('/'));
        path == below || rest.is_some_and(|r| all || !r.contains('/'))
    };
    for way in broken.directories() {
        let path = crate::name::joined(&way);
        if inside(&path) && path != below {
            out += &format!("      -       -          -  {path}/\n");
        }
    }
    for (path, file) in paths.iter().filter(|(path, _)| inside(path)) {
        let (mark, why) = match file.doubt {
            None => ('+', String::new()),
            Some(_) => ('?', format!("  ({})", broken.line(file))),
        };
        let (size, blocks) = (number(file.record.size), number(file.blocks.len() as u64));
        let pieces = number(broken.pieces(file).len() as u64);
        out += &format!("{mark} {size:>5}  {blocks:>6}  {pieces:>9}  {path}{why}\n");
    }
    out
}

/// The same as JSON.
pub fn listing_json(command: &str, volume: &str, refusal: mukthiban::Refusal, broken: &Broken) -> String {
    let file = |f: &mukthiban::salvage::SalvagedFile| {
        json::object(&[
            ("path", json::text(&broken.path(f))),
            ("inode", f.inode.to_string()),
            ("size", f.record.size.to_string()),
            ("trust", json::text(if f.doubt.is_none() { "whole" } else { "doubtful" })),
            ("reason", json::text(&broken.line(f))),
            ("stretches", json::stretches(&broken.pieces(f))),
        ])
    };
    json::answer(
        command,
        &[
            ("volume", json::text(volume)),
            ("sound", "false".into()),
            ("answer", refusal.number().to_string()),
            ("salvaged", json::list(broken.salvage.files.iter().map(file))),
        ],
    )
}
