//! The verdict on a volume.

use crate::args::Call;
use crate::diagnose::{self, Found, Hints};
use crate::fail::{Outcome, NOT_SOUND, SOUND};
use crate::name::wrong;
use crate::records::{Remark, Remarkable};
use crate::salvaged::Broken;
use crate::session::{Refused, Session};
use crate::show::aged;
use crate::show::json;
use crate::show::term::{ink, say, Ink};
use crate::tree::Chain;
use crate::words::{count, number};
use mukthiban::folder::Sizes;
use mukthiban::{Kind, Refusal};
use std::path::Path;

/// The most lines of one sort, unless all are asked for.
const MOST: usize = 20;

/// What is counted on a volume whose tables are sound.
struct Counts {
    files: usize,
    empty: usize,
    fragments: usize,
    directories: usize,
    /// Entries but the root whose name no new entry may have.
    bad_names: usize,
}

impl Counts {
    fn of(session: &Session) -> Counts {
        let of_kind = |kind| session.entries.iter().filter(move |e| e.kind == kind);
        Counts {
            files: of_kind(Kind::File).count(),
            empty: of_kind(Kind::File).filter(|e| e.record.size == 0).count(),
            fragments: of_kind(Kind::File).map(|e| e.pieces().len()).sum(),
            directories: of_kind(Kind::Dir).count(),
            bad_names: session.entries.iter().filter(|e| !e.is_root() && wrong(&e.name).is_some()).count(),
        }
    }
}

fn first_line(sound: bool, remarks: usize, path: &Path) -> String {
    let verdict = match (sound, remarks) {
        (false, _) => ink(Ink::Red, "NOT SOUND"),
        (true, 0) => ink(Ink::Green, "SOUND"),
        (true, n) => format!("{}, {}", ink(Ink::Green, "SOUND"), count(n as u64, "remark")),
    };
    format!("{verdict}  {}\n", path.display())
}

/// Lines with a sign before each; past the most, how many more there are.
fn lines<'a>(call: &Call, sign: char, all: impl ExactSizeIterator<Item = &'a str>) -> String {
    let (total, most) = (all.len(), if call.verbose { usize::MAX } else { MOST });
    let mut out: String = all.take(most).map(|line| format!("  {sign} {line}\n")).collect();
    if total > most {
        out += &format!("  {sign} and {} more; --verbose shows all\n", number((total - most) as u64));
    }
    out
}

/// Both tables are sound; the files' records may still be wrong.
pub fn tested(call: &Call, path: &Path, session: &Session) -> Outcome<u8> {
    let account = &session.account;
    let sound = account.findings.is_empty();
    let strict = call.has("--strict") && !account.remarks.is_empty();
    match call.json {
        true => say(&tested_json(path, session))?,
        false => {
            let first = first_line(sound, account.remarks.len(), path);
            say(&if call.quiet { first } else { first + &tested_text(call, session) })?;
        }
    }
    Ok(if sound && !strict { SOUND } else { NOT_SOUND })
}

fn tested_text(call: &Call, session: &Session) -> String {
    let (volume, account, counts) = (&session.volume, &session.account, Counts::of(session));
    let mut out = String::new();
    if !account.findings.is_empty() {
        out += "  the tables are sound, but these files and the block table disagree:\n";
        out += &lines(call, '-', account.findings.iter().map(|f| f.line.as_str()));
    }
    out += &lines(call, '!', account.remarks.iter().map(|r| r.line.as_str()));
    out.extend(aged::remark(session).map(|line| format!("  ! {line}\n")));
    let mut line = |name: &str, n: usize, note: String| {
        out += format!("  {name:<12} {:>11}  {note}", number(n as u64)).trim_end();
        out.push('\n');
    };
    let length = count(volume.parts().block_len as u64, "byte");
    let read_only = if volume.is_read_only() { ", a length that is not in use: read-only" } else { "" };
    line("blocks", volume.blocks(), format!("of {length}{read_only}"));
    line("free", volume.free(), String::new());
    let empty = format!("{} of them empty", number(counts.empty as u64));
    line("files", counts.files, if counts.empty > 0 { empty } else { String::new() });
    line("fragments", counts.fragments, String::new());
    line("directories", counts.directories, "the root included".into());
    if counts.bad_names > 0 {
        line("bad names", counts.bad_names, "no new entry may have such a one; mv gives another".into());
    }
    if !account.lost.is_empty() {
        let blocks: usize = account.lost.iter().map(|l| l.chain.blocks.len()).sum();
        let note = format!("no file names them; {}; lift writes them to lost+found/", count(blocks as u64, "block"));
        line("lost chains", account.lost.len(), note);
    }
    out
}

/// A chain that no file names; with its stretches where they are wanted.
pub fn lost_json(first_block: u32, chain: &Chain, stretches: bool) -> String {
    let mut fields = vec![
        ("first_block", first_block.to_string()),
        ("blocks", chain.blocks.len().to_string()),
        ("fragments", chain.pieces.len().to_string()),
    ];
    if stretches {
        fields.push(("stretches", json::stretches(&chain.pieces)));
    }
    json::object(&fields)
}

fn remark_json(remark: &Remark) -> String {
    let (kind, of, number) = match remark.kind {
        Remarkable::LostChain(first_block) => ("lost_chain", "first_block", first_block),
        Remarkable::UnusedBlocks(inode) => ("unused_blocks", "inode", inode),
    };
    json::object(&[("kind", json::text(kind)), (of, number.to_string()), ("what", json::text(&remark.line))])
}

fn tested_json(path: &Path, session: &Session) -> String {
    let (volume, account, counts) = (&session.volume, &session.account, Counts::of(session));
    let finding = |f: &crate::records::Finding| {
        json::object(&[
            ("kind", f.kind.to_string()),
            ("inode", f.inode.to_string()),
            ("path", json::text(&session.path(f.entry))),
            ("what", json::text(&f.line)),
        ])
    };
    let lost = account.lost.iter().map(|l| lost_json(l.first_block, &l.chain, false));
    json::answer(
        "check",
        &[
            ("volume", json::text(&path.to_string_lossy())),
            ("sound", account.findings.is_empty().to_string()),
            ("answer", "0".into()),
            ("name", json::text("Done")),
            ("meaning", json::text("the tables are sound")),
            ("block_len", volume.parts().block_len.to_string()),
            ("read_only", volume.is_read_only().to_string()),
            ("blocks", volume.blocks().to_string()),
            ("free", volume.free().to_string()),
            ("files", counts.files.to_string()),
            ("empty_files", counts.empty.to_string()),
            ("fragments", counts.fragments.to_string()),
            ("directories", counts.directories.to_string()),
            ("bad_names", counts.bad_names.to_string()),
            ("lost_chains", json::list(lost)),
            ("findings", json::list(account.findings.iter().map(finding))),
            ("remarks", json::list(account.remarks.iter().map(remark_json))),
            ("hints", json::list([])),
            ("touched", json::list([])),
            ("fault", "null".into()),
            ("salvage", "null".into()),
        ],
    )
}

/// A table was refused, or a length.
pub fn refused(call: &Call, path: &Path, no: &Refused, hints: &Hints, broken: Option<&Broken>) -> Outcome<u8> {
    match call.json {
        true => say(&refused_json(path, no.refusal, &no.sizes, hints, broken))?,
        false => {
            let first = first_line(false, 0, path);
            let offer = broken.map_or(String::new(), |b| {
                format!("  {}: mukthiban lift --salvage {} OUT\n", b.summary(), path.display())
            });
            say(&if call.quiet { first } else { first + &refused_text(call, no.refusal, hints) + &offer })?;
        }
    }
    Ok(NOT_SOUND)
}

fn refused_text(call: &Call, refusal: Refusal, hints: &Hints) -> String {
    let mut out = format!("  {refusal}\n");
    if let Some(found) = &hints.found {
        let (fault, bytes) = (found.fault, found.bytes.map(|b| format!("{b:02x}")).join(" "));
        let file = found.path.as_ref().map_or(String::new(), |path| format!(", of {path}"));
        out += &format!("  rule {} is broken at entry {}: {}\n", fault.rule, fault.entry, fault.meaning());
        out += &format!("  entry {} holds {bytes}{file}\n", fault.entry);
    }
    out += &lines(call, '-', hints.lines.iter().map(String::as_str));
    if !hints.touched.is_empty() {
        out += "  these files are touched:\n";
        out += &lines(call, '>', hints.touched.iter().map(String::as_str));
    }
    let says = |answer: &Result<(), Refusal>| match answer {
        Ok(()) => "sound".into(),
        Err(r) => format!("{} ({})", r.name(), r.number()),
    };
    if let diagnose::Answers::Both { fat, tree } = &hints.answers {
        out += &format!("  block table   {}\n  entry tables  {}\n", says(fat), says(tree));
    }
    out
}

fn fault_json(found: &Found) -> String {
    json::object(&[
        ("entry", found.fault.entry.to_string()),
        ("rule", found.fault.rule.to_string()),
        ("meaning", json::text(found.fault.meaning())),
        ("bytes", json::text(&found.bytes.map(|b| format!("{b:02x}")).concat())),
        ("path", found.path.as_ref().map_or("null".into(), |path| json::text(path))),
    ])
}

fn refused_json(path: &Path, refusal: Refusal, sizes: &Sizes, hints: &Hints, broken: Option<&Broken>) -> String {
    let salvage = broken.map_or("null".into(), |b| {
        let (files, whole) = (b.salvage.files.len().to_string(), b.salvage.whole().to_string());
        json::object(&[("files", files), ("whole", whole)])
    });
    let unknown = |name| (name, "null".into());
    let texts = |all: &[String]| json::list(all.iter().map(|h| json::text(h)));
    json::answer(
        "check",
        &[
            ("volume", json::text(&path.to_string_lossy())),
            ("sound", "false".into()),
            ("answer", refusal.number().to_string()),
            ("name", json::text(refusal.name())),
            ("meaning", json::text(refusal.meaning())),
            ("block_len", sizes.block_len.to_string()),
            unknown("read_only"),
            ("blocks", sizes.blocks().to_string()),
            unknown("free"),
            unknown("files"),
            unknown("empty_files"),
            unknown("fragments"),
            unknown("directories"),
            unknown("bad_names"),
            ("lost_chains", json::list([])),
            ("findings", json::list([])),
            ("remarks", json::list([])),
            ("hints", texts(&hints.lines)),
            ("touched", texts(&hints.touched)),
            ("fault", hints.found.as_ref().map_or("null".into(), fault_json)),
            ("salvage", salvage),
        ],
    )
}
