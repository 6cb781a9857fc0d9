//! `mkdir`: a directory.

use crate::args::{Call, Command};
use crate::change::Change;
use crate::fail::{Fail, Outcome, SOUND};
use crate::intake::full;
use crate::name::joined;
use crate::show::taken::tell_change;
use mukthiban::{Kind, Refusal};

pub const COMMAND: Command = Command {
    name: "mkdir",
    takes: "VOLUME PATH",
    least: 2,
    most: 2,
    options: &[],
    short: "make a directory",
    long: "",
    run,
};

fn run(call: &Call) -> Outcome<u8> {
    let path = call.path(1)?;
    let mut change = Change::open(call.volume(0), call.wait()?)?;
    let about = joined(&path.names);
    let Some((parents, name)) = path.split() else {
        return Err(Fail::refused("/", Refusal::AlreadyExist));
    };
    Fail::new_name(&about, name)?;
    let session = &change.session;
    let parent = session.entries[session.dir(parents)?].inode;
    let made = change.make_dir(parent, name, [0; 4]);
    made.map_err(|r| full(&about, r, Kind::Dir))?;
    change.save()?;
    tell_change(call, "mkdir", "made", &about, &format!("made {about}/\n"))?;
    Ok(SOUND)
}
