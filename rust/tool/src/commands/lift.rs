//! `lift`: files out of the volume.

use crate::args::{Call, Command, STRICT};
use crate::commands::salvage;
use crate::fail::{Fail, Outcome, FAILED, NOT_SOUND, SOUND};
use crate::layout::{bytes, layout, Item, What};
use crate::name::Path as VolumePath;
use crate::out::{parent, part_of};
use crate::session::Session;
use crate::show::lifted::{Lifted, Note};
use crate::show::term::Progress;
use crate::sync::sync_around;
use crate::words::count;
use mukthiban::Kind;
use std::fs::{self, File};
use std::io::{self, Write};
use std::path::{Path, PathBuf};

pub const COMMAND: Command = Command {
    name: "lift",
    takes: "VOLUME OUT [PATH]",
    least: 2,
    most: 3,
    options: &[STRICT, ("--salvage", "", "of a broken volume, lift what can be trusted, and the rest apart")],
    short: "copy every file out, or one path, and compare",
    long: "OUT must not exist; it becomes a folder, or where PATH is a file, a file. Each file is written, synced, read\n\
           back and compared with the volume. OUT appears when all is there; until then it is called OUT.part. A host\n\
           error does not stop the others: what failed is listed, and OUT.part stays.\n\n\
           A file that has a directory's name is lifted as NAME\\file. Files that claim one chain are all lifted, as\n\
           NAME\\shared; one whose blocks hold less than its record says, as NAME\\short. Chains that no file names are\n\
           lifted to lost+found/.\n\n\
           With --salvage the volume may be broken in any way. A file whose chain is whole, shares no block and is long\n\
           enough goes to its path; of every other there is what can be had, in doubtful/, and chains that no file\n\
           names are in lost+found/. salvage.txt has a line for each: how far it can be trusted, and why.",
    run,
};

fn run(call: &Call) -> Outcome<u8> {
    if call.has("--salvage") {
        return salvage::run(call);
    }
    let out = PathBuf::from(&call.words[1]);
    let part = part_of(&out)?;
    let path = match call.words.len() {
        3 => call.path(2)?,
        _ => VolumePath { names: Vec::new(), slash: true },
    };
    let (session, items) = Session::read_with(call.volume(0), call.wait()?, |session| {
        let from = session.find(&path, &[Kind::File, Kind::Dir])?;
        let file = || Item { host: PathBuf::new(), path: session.path(from), what: What::File(from), below: 0 };
        Ok(match session.entries[from].kind {
            Kind::Dir => layout(session, from),
            Kind::File => vec![file()],
        })
    })?;
    let mut lifted = Lifted::default();
    lift(call, &session, &items, &part, &mut lifted)?;
    // of one file that can't be lifted there is nothing
    if lifted.failed.is_empty() && part.symlink_metadata().is_ok() {
        fs::rename(&part, &out).map_err(|e| Fail::host(&out, &e))?;
        File::open(parent(&out)).and_then(|f| f.sync_all()).map_err(|e| Fail::host(&out, &e))?;
    }
    let place = if lifted.failed.is_empty() { &out } else { &part };
    lifted.tell(call, place)?;
    let strict = call.has("--strict") && path.names.is_empty() && !session.account.remarks.is_empty();
    Ok(match (lifted.failed.is_empty(), lifted.left.is_empty() && lifted.marked.is_empty() && !strict) {
        (false, _) => FAILED,
        (true, false) => NOT_SOUND,
        (true, true) => SOUND,
    })
}

/// Lifts the items: all are written, then synced, then read back and compared.
fn lift(call: &Call, session: &Session, items: &[Item], part: &Path, lifted: &mut Lifted) -> Outcome<()> {
    let total: u64 = items.iter().map(|i| length(session, i.what) + 1).sum();
    let mut progress = Progress::new(call, total * 2);
    let (mut done, mut written) = (0, Vec::new());
    for (at, item) in items.iter().enumerate() {
        progress.at(done, &item.path);
        done += length(session, item.what) + 1;
        let host = if item.host.as_os_str().is_empty() { part.to_path_buf() } else { part.join(&item.host) };
        match write(session, item, &host, lifted) {
            Ok(true) => written.push((item, host)),
            Ok(false) => (),
            // without the first folder there is nowhere to go on
            Err(e) if at == 0 => return Err(Fail::host(&host, &e)),
            Err(e) => lifted.failed.push(Note::new(item, failed_line(item, &host, &e))),
        }
    }
    // many are synced together, few each by itself, so that they do not wait for what others wrote
    let synced = written.len() > 256 && sync_around(part).is_ok();
    for (item, host) in &written {
        progress.at(done, &item.path);
        done += length(session, item.what) + 1;
        compare(session, item, host, synced, lifted);
    }
    Ok(())
}

fn failed_line(item: &Item, host: &Path, error: &io::Error) -> String {
    let line = Fail::host(host, error).line;
    match item.below {
        0 => line,
        n => format!("{line}; and {} below it", count(n, "more thing")),
    }
}

/// Makes a folder or writes a file. Answers whether there is something to compare.
fn write(session: &Session, item: &Item, host: &Path, lifted: &mut Lifted) -> io::Result<bool> {
    let nowhere = |e: usize| session.entries[e].faults.iter().any(|&f| session.account.findings[f].kind == 1);
    match item.what {
        What::Dir | What::Folder => {
            fs::create_dir(host)?;
            lifted.dirs += u64::from(!item.host.as_os_str().is_empty() && item.what == What::Dir);
            Ok(false)
        }
        What::File(e) if nowhere(e) => {
            let line = session.finding_of(e).map(|f| f.line.clone()).unwrap_or_default();
            lifted.left.push(Note::new(item, line));
            Ok(false)
        }
        What::File(_) | What::Lost(_) => {
            let mut file = File::create_new(host)?;
            file.write_all(&bytes(session, item.what)).inspect_err(|_| drop(fs::remove_file(host)))?;
            Ok(true)
        }
    }
}

/// Reads a file back and compares it with the volume, which is read once more.
fn compare(session: &Session, item: &Item, host: &Path, synced: bool, lifted: &mut Lifted) {
    let sync = || if synced { Ok(()) } else { File::open(host)?.sync_all() };
    match sync().and_then(|()| fs::read(host)) {
        Err(e) => lifted.failed.push(Note::new(item, Fail::host(host, &e).line)),
        Ok(back) if back != bytes(session, item.what) => {
            let line = format!("{}: what was read back is not what was written", host.display());
            lifted.failed.push(Note::new(item, line));
        }
        Ok(back) => lifted.count(session, item, back.len() as u64),
    }
}

fn length(session: &Session, what: What) -> u64 {
    let block_len = session.volume.parts().block_len as u64;
    match what {
        What::File(at) => session.entries[at].record.size.min(session.entries[at].blocks().len() as u64 * block_len),
        What::Lost(place) => session.account.lost[place].chain.blocks.len() as u64 * block_len,
        What::Dir | What::Folder => 0,
    }
}
