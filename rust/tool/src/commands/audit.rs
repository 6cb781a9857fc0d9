//! `audit`: where the files' records and the block table disagree, as the library lists it.

use crate::args::{Call, Command};
use crate::fail::{Outcome, NOT_SOUND, SOUND};
use crate::session::Session;
use crate::show::audited;
use crate::show::term::say;

pub const COMMAND: Command = Command {
    name: "audit",
    takes: "VOLUME",
    least: 1,
    most: 1,
    options: &[],
    short: "list all that files and block table disagree in",
    long: "A line for each finding, which begins with its kind: 1, a file whose block begins no chain of a file;\n\
           2, one whose chain a file of lower inode has too; 3, one whose size is over what its blocks hold; in the\n\
           order of inodes. Then 4, a chain that no file names, by first blocks. The list is complete, and says each\n\
           thing once. A file of size 0 has no finding and names no chain. The tables must be sound. The exit code is\n\
           4 where anything is found.",
    run,
};

fn run(call: &Call) -> Outcome<u8> {
    let session = Session::read(call.volume(0), call.wait()?)?;
    let (volume, found) = (call.volume(0).to_string_lossy(), &session.account.audited);
    say(&match call.json {
        true => audited::as_json(&volume, &session, found),
        false => audited::as_text(&volume, found, call.quiet),
    })?;
    Ok(if found.is_empty() { SOUND } else { NOT_SOUND })
}
