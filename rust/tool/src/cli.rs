//! Where the commands meet: finds the one that is asked for, and runs it.

use crate::args::{take, Command};
use crate::commands::ALL;
use crate::fail::{Fail, Outcome, SOUND};
use crate::show::help::{help, overview};
use crate::show::term::say;
use std::ffi::OsString;

/// Runs the command that the words ask for. What fails comes with the command's name, where there is one.
pub fn run(words: &[OsString]) -> Result<u8, (Option<&'static str>, Fail)> {
    let Some((first, rest)) = words.split_first() else {
        return Err((None, Fail::usage("a command is needed; `mukthiban --help` lists them")));
    };
    if let Some(text) = first.to_str().filter(|f| ["--help", "-h", "help", "--version", "-V"].contains(f)) {
        return about(text, rest).map_err(|fail| (None, fail));
    }
    let command = command(first).map_err(|fail| (None, fail))?;
    let run = || match take(command, rest)? {
        Some(call) => (command.run)(&call),
        None => {
            say(&help(command))?;
            Ok(SOUND)
        }
    };
    run().map_err(|fail| (Some(command.name), fail))
}

/// Help and the version, which need no volume.
fn about(first: &str, rest: &[OsString]) -> Outcome<u8> {
    let text = match (first, rest) {
        ("--version" | "-V", []) => format!("mukthiban {}\n", env!("CARGO_PKG_VERSION")),
        ("--help" | "-h" | "help", []) => overview(ALL),
        ("--help" | "-h" | "help", [name]) => help(command(name)?),
        _ => return Err(Fail::usage("too many words; `mukthiban --help` lists the commands")),
    };
    say(&text)?;
    Ok(SOUND)
}

fn command(name: &OsString) -> Outcome<&'static Command> {
    let found = ALL.iter().find(|c| name == c.name);
    let line = || format!("{}: no such command; `mukthiban --help` lists them", name.to_string_lossy());
    found.ok_or_else(|| Fail::usage(line()))
}
