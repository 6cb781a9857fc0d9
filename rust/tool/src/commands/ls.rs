//! `ls`: what is in a directory.

use crate::args::{Call, Command};
use crate::fail::{Outcome, NOT_SOUND, SOUND};
use crate::name::{joined, Path};
use crate::salvaged::Broken;
use crate::session::{Refused, Session};
use crate::show::listing;
use crate::show::salvaged::{listing as marked, listing_json};
use crate::show::term::{complain, say};
use mukthiban::Kind;

pub const COMMAND: Command = Command {
    name: "ls",
    takes: "VOLUME [PATH]",
    least: 1,
    most: 2,
    options: &[("--all", "", "with all that is below, by full paths")],
    short: "list a directory",
    long: "Size in bytes, blocks, fragments (stretches of blocks that follow each other) and name. A name that\n\
           is no text is shown with \\xNN for a byte, and may be written so in every PATH. Of a broken volume the files\n\
           that can be read are listed with a mark: + for one that lift --salvage lifts whole, ? for one in doubt.",
    run,
};

fn run(call: &Call) -> Outcome<u8> {
    let session = match Session::read_or_broken(call.volume(0), call.wait()?)? {
        Ok(session) => session,
        Err((refused, broken)) => return salvaged(call, &refused, &broken),
    };
    let path = match call.words.len() {
        1 => Path { names: Vec::new(), slash: true },
        _ => call.path(1)?,
    };
    let at = session.find(&path, &[Kind::Dir, Kind::File])?;
    let all = call.has("--all");
    let listed = match session.entries[at].kind {
        Kind::File => vec![at],
        Kind::Dir => session.inside(at, all),
    };
    let text = match call.json {
        true => listing::as_json(&call.volume(0).to_string_lossy(), &session, at, &listed),
        false => listing::as_text(&session, &listed, all),
    };
    say(&text)?;
    Ok(SOUND)
}

/// A broken volume's files, each with its mark.
fn salvaged(call: &Call, refused: &Refused, broken: &Broken) -> Outcome<u8> {
    let volume = call.volume(0).to_string_lossy();
    let below = match call.words.len() {
        1 => "/".into(),
        _ => joined(&call.path(1)?.names),
    };
    say(&match call.json {
        true => listing_json("ls", &volume, refused.refusal, broken),
        false => marked(broken, &below, call.has("--all")),
    })?;
    complain("ls", &refused.fail(call.volume(0)).line);
    Ok(NOT_SOUND)
}
