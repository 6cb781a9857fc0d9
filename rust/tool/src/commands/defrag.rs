//! `defrag`: free neighbours merged, and every file whole that can be.

use crate::args::{Call, Command};
use crate::change::Change;
use crate::fail::{Fail, Outcome, SOUND};
use crate::session::{stretches_of, Session};
use crate::show::json;
use crate::show::term::{say, Progress};
use crate::tree::stretches;
use crate::words::{are, count};
use mukthiban::{Kind, Record, Refusal};
use std::path::Path;

pub const COMMAND: Command = Command {
    name: "defrag",
    takes: "VOLUME",
    least: 1,
    most: 1,
    options: &[],
    short: "merge free neighbours, and make every file whole that can be",
    long: "The largest files first, each to the lowest place where as many blocks are free in a row; what a file\n\
           leaves is free for those behind it. A file for which there is no such place stays as it is. All in one\n\
           change.",
    run,
};

fn run(call: &Call) -> Outcome<u8> {
    let path = call.volume(0);
    let mut change = Change::open(path, call.wait()?)?;
    let before = fragments(&change.session);
    let mut left = scattered(&change.session);
    let chains = left.iter().filter_map(|&e| change.session.entries[e].chain.as_deref());
    let bytes = change.bytes(&stretches_of(chains))?;
    let (files, mut done) = (left.len() as u64, 0);
    let mut progress = Progress::new(call, files);
    merge(&mut change, path)?;
    // What one file leaves may be the place for another: again, as long as any is made whole.
    loop {
        let waiting = left.len();
        let mut still = Vec::new();
        for &e in &left {
            progress.at(done, &change.session.path(e));
            match make_whole(&mut change, e, &bytes)? {
                true => done += 1,
                false => still.push(e),
            }
        }
        left = still;
        if left.len() == waiting || left.is_empty() {
            break;
        }
    }
    merge(&mut change, path)?;
    let after = fragments(&change.session);
    change.save()?;
    drop(progress);
    tell(call, files - left.len() as u64, left.len() as u64, before, after)?;
    Ok(SOUND)
}

fn merge(change: &mut Change, path: &Path) -> Outcome<()> {
    change.session.volume.merge().map_err(|r| Fail::refused(&path.display().to_string(), r))
}

/// The files in several fragments, the largest first.
fn scattered(session: &Session) -> Vec<usize> {
    let entries = &session.entries;
    let mut files: Vec<usize> =
        (0..entries.len()).filter(|&e| entries[e].kind == Kind::File && entries[e].pieces().len() > 1).collect();
    files.sort_by_key(|&e| std::cmp::Reverse(entries[e].blocks().len()));
    files
}

/// Makes a file whole, where there is a place for it.
fn make_whole(change: &mut Change, e: usize, bytes: &[u8]) -> Outcome<bool> {
    let (path, inode, first) = {
        let entry = &change.session.entries[e];
        (change.session.path(e), entry.inode, entry.record.first_block as usize)
    };
    let plan = match change.session.volume.plan(first) {
        Err(Refusal::NoSpace) => return Ok(false),
        found => found.map_err(|r| Fail::refused(&path, r))?,
    };
    change.make_whole(inode, &plan, bytes).map_err(|r| Fail::refused(&path, r))?;
    Ok(true)
}

/// The fragments of all files, and of the free chain, as the volume is now.
fn fragments(session: &Session) -> (u64, u64) {
    let volume = &session.volume;
    let inodes = session.entries.iter().filter(|e| e.kind == Kind::File).map(|e| e.inode);
    let records = inodes.map(|inode| Record::of(&volume.carried_file(inode).expect("a file")));
    let blocks = records.filter(|r| r.size > 0).map(|r| volume.chain(r.first_block as usize).expect("its first block"));
    (blocks.map(|b| stretches(&b).len() as u64).sum(), volume.free_nodes().len() as u64)
}

fn tell(call: &Call, whole: u64, left: u64, before: (u64, u64), after: (u64, u64)) -> Outcome<()> {
    let volume = call.volume(0).to_string_lossy();
    if call.json {
        let fields = [
            ("volume", json::text(&volume)),
            ("made_whole", whole.to_string()),
            ("left", left.to_string()),
            ("fragments_before", before.0.to_string()),
            ("fragments", after.0.to_string()),
            ("free_nodes_before", before.1.to_string()),
            ("free_nodes", after.1.to_string()),
        ];
        return say(&json::answer("defrag", &fields));
    }
    if call.quiet {
        return Ok(());
    }
    let files = count(whole, "file");
    let mut out = format!("made {files} of {volume} whole: {} before, {} after", count(before.0, "fragment"), after.0);
    out += &format!("; {} before, {} after\n", count(before.1, "free node"), after.1);
    if left > 0 {
        out += &format!("{} left as they were: nowhere are so many blocks free in a row\n", are(left));
    }
    say(&out)
}
