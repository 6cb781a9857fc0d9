//! `rm`: a file or a directory goes.

use crate::args::{Call, Command};
use crate::change::Change;
use crate::fail::{Fail, Outcome, SOUND};
use crate::show::taken::tell_changes;
use crate::show::term::Progress;
use crate::words::{count, directories};
use mukthiban::Kind;

pub const COMMAND: Command = Command {
    name: "rm",
    takes: "VOLUME PATH",
    least: 2,
    most: 2,
    options: &[("-r", "", "a directory with all that is in it; of the root, all that is in it")],
    short: "remove a file or a directory",
    long: "PATH is a file, or else a directory; with a slash at its end a directory. Without -r a directory must be empty.",
    run,
};

fn run(call: &Call) -> Outcome<u8> {
    let path = call.path(1)?;
    let mut change = Change::open(call.volume(0), call.wait()?)?;
    let session = &change.session;
    let at = session.find(&path, &[Kind::File, Kind::Dir])?;
    let (about, kind) = (session.path(at), session.entries[at].kind);
    let mut going = if call.has("-r") { session.inside(at, true) } else { Vec::new() };
    if at != 0 || !call.has("-r") {
        going.insert(0, at);
    }
    // what is in a directory goes before it
    going.reverse();
    let mut progress = Progress::new(call, going.len() as u64);
    for (done, &e) in going.iter().enumerate() {
        progress.at(done as u64, &about);
        let (kind, inode) = (change.session.entries[e].kind, change.session.entries[e].inode);
        change.remove(kind, inode).map_err(|r| Fail::refused(&change.session.path(e), r))?;
    }
    let told = if call.json || call.verbose { &going[..] } else { &[] };
    let paths: Vec<String> = told.iter().map(|&e| change.session.path(e)).collect();
    let files = going.iter().filter(|&&e| change.session.entries[e].kind == Kind::File).count() as u64;
    change.save()?;
    drop(progress);
    let line = match going.len() {
        1 if kind == Kind::Dir => format!("removed {about}/\n"),
        1 => format!("removed {about}\n"),
        all => format!("removed {about}: {} and {}\n", count(files, "file"), directories(all as u64 - files)),
    };
    tell_changes(call, "rm", "removed", &paths, &line)?;
    Ok(SOUND)
}
