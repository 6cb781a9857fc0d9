//! `age`: the entries from the newest to the oldest, as far as the lists tell.

use crate::args::{Call, Command};
use crate::fail::{Outcome, NOT_SOUND, SOUND};
use crate::session::Session;
use crate::show::aged;
use crate::show::term::say;

pub const COMMAND: Command = Command {
    name: "age",
    takes: "VOLUME",
    least: 1,
    most: 1,
    options: &[],
    short: "list the entries from the newest to the oldest, as far as the lists tell",
    long: "New and renamed entries go to the front of their bucket and of their directory's list, so the lists tell which\n\
           of two entries was linked later. Directories first, then files; each line has a step, the path, and after\n\
           'over' the entries that it stands before. One entry is certainly newer than another where such\n\
           words lead from the one to the other; of two with the same step nothing is told. Carried bytes, as a file's\n\
           size, leave no trace. The tables must be sound. The exit code is 4 where no honest writer can have left\n\
           them: then some entries have no step, and stand last with a question mark.",
    run,
};

fn run(call: &Call) -> Outcome<u8> {
    let session = Session::read(call.volume(0), call.wait()?)?;
    let volume = call.volume(0).to_string_lossy();
    let ages = aged::Ages::of(&session);
    say(&match call.json {
        true => aged::as_json(&volume, &session, &ages),
        false => aged::as_text(&volume, &session, &ages, call.quiet),
    })?;
    Ok(if session.volume.aged().is_none() { SOUND } else { NOT_SOUND })
}
