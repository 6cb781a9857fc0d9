//! `mv`: another name or another directory.

use crate::args::{Call, Command};
use crate::change::Change;
use crate::fail::{Fail, Outcome, SOUND};
use crate::name::joined;
use crate::show::taken::tell_change;
use mukthiban::{Kind, Refusal};

pub const COMMAND: Command = Command {
    name: "mv",
    takes: "VOLUME FROM TO",
    least: 3,
    most: 3,
    options: &[],
    short: "rename or move a file or a directory",
    long: "FROM is a file, or else a directory; with a slash at its end a directory. Where TO is a directory, or\n\
           ends with a slash, it keeps its name. A bad name that check counts is cured by a new one.",
    run,
};

fn run(call: &Call) -> Outcome<u8> {
    let (from, mut to) = (call.path(1)?, call.path(2)?);
    let mut change = Change::open(call.volume(0), call.wait()?)?;
    let session = &change.session;
    let at = session.find(&from, &[Kind::File, Kind::Dir])?;
    let (kind, inode, own) = (session.entries[at].kind, session.entries[at].inode, session.entries[at].name);
    let before = session.path(at);
    // a new name with a slash at its end is welcome for a directory
    if kind == Kind::Dir && session.dir(&to.names).is_err() {
        to.slash = false;
    }
    session.named_below(&mut to, || Ok(own))?;
    let about = joined(&to.names);
    let (parents, name) = to.split().expect("a name was added");
    Fail::new_name(&about, name)?;
    let dir = session.dir(parents)?;
    if session.child(dir, kind, name) == Some(at) {
        return Err(Fail::failed(format!("{before}: it is there already")));
    }
    let parent = session.entries[dir].inode;
    let moved = change.rename(kind, inode, parent, name);
    moved.map_err(|r| match r {
        Refusal::AlreadyExist => Fail::refused(&about, r),
        _ => Fail::refused(&before, r),
    })?;
    change.save()?;
    tell_change(call, "mv", "moved", &about, &format!("moved {before} to {about}\n"))?;
    Ok(SOUND)
}
