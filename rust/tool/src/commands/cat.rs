//! `cat`: a file to standard output.

use crate::args::{Call, Command};
use crate::fail::{Fail, Outcome, SOUND};
use crate::session::Session;
use crate::show::term::say_bytes;
use mukthiban::Kind;

pub const COMMAND: Command = Command {
    name: "cat",
    takes: "VOLUME PATH",
    least: 2,
    most: 2,
    options: &[],
    short: "write a file to standard output",
    long: "",
    run,
};

fn run(call: &Call) -> Outcome<u8> {
    let path = call.path(1)?;
    let (session, at) = Session::read_with(call.volume(0), call.wait()?, |session| {
        let at = session.find(&path, &[Kind::File])?;
        match session.finding_of(at) {
            Some(finding) => Err(Fail::not_sound(format!("{}; lift copies what is there, with a mark", finding.line))),
            None => Ok(at),
        }
    })?;
    say_bytes(&session.content(at))?;
    Ok(SOUND)
}
