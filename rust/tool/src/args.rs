//! The command line: what a command is, and the words behind it.

use crate::fail::{Fail, Outcome};
use crate::name::Path;
use crate::words::number;
use std::ffi::{OsStr, OsString};
use std::os::unix::ffi::OsStrExt;
use std::time::Duration;

/// A command line, taken apart.
pub struct Call {
    pub words: Vec<OsString>,
    pub json: bool,
    pub quiet: bool,
    pub verbose: bool,
    options: Vec<(&'static str, OsString)>,
}

impl Call {
    /// The value of an option, if it was given; for a switch, an empty one.
    pub fn option(&self, name: &str) -> Option<&OsStr> {
        self.options.iter().rev().find(|(n, _)| *n == name).map(|(_, value)| value.as_os_str())
    }

    pub fn has(&self, name: &str) -> bool {
        self.option(name).is_some()
    }

    /// The number given by an option, or else the usual one.
    pub fn number(&self, name: &str, usual: Option<usize>) -> Outcome<usize> {
        match self.option(name) {
            None => usual.ok_or_else(|| Fail::usage(format!("{name} N is needed"))),
            Some(value) => {
                let number = value.to_str().and_then(|v| v.parse().ok());
                number.ok_or_else(|| Fail::usage(format!("{name} {}: this is no number", value.to_string_lossy())))
            }
        }
    }

    /// The volume, by its place among the words.
    pub fn volume(&self, place: usize) -> &std::path::Path {
        std::path::Path::new(&self.words[place])
    }

    /// How long to wait for another program that works on a volume.
    pub fn wait(&self) -> Outcome<Duration> {
        Ok(Duration::from_secs(self.number("--wait", Some(0))? as u64))
    }

    /// A word as a path inside the volume, by its place.
    pub fn path(&self, place: usize) -> Outcome<Path> {
        self.parse(&self.words[place])
    }

    /// A word as a path inside the volume.
    pub fn parse(&self, written: &OsStr) -> Outcome<Path> {
        Path::parse(written.as_bytes()).map_err(|line| Fail::usage(format!("{}: {line}", written.to_string_lossy())))
    }

    /// The number given by an option, from the least to the most.
    pub fn bounded(&self, name: &str, usual: Option<usize>, least: usize, most: usize) -> Outcome<usize> {
        match self.number(name, usual)? {
            n if n < least || n > most => {
                Err(Fail::usage(format!("{name} {n}: from {least} to {} is possible", number(most as u64))))
            }
            n => Ok(n),
        }
    }
}

/// An option: its name, what its value is called (empty for a switch), and what it is for.
pub type Opt = (&'static str, &'static str, &'static str);

/// A command: what it takes, its help, and what it does.
pub struct Command {
    pub name: &'static str,
    pub takes: &'static str,
    pub least: usize,
    pub most: usize,
    pub options: &'static [Opt],
    pub short: &'static str,
    pub long: &'static str,
    pub run: fn(&Call) -> Outcome<u8>,
}

/// Remarks are taken as faults.
pub const STRICT: Opt = ("--strict", "", "exit code 4 for a remark too");

/// What is there is changed.
pub const REPLACE: Opt = ("--replace", "", "where a file of that name is there, give it the new bytes");

/// What every command takes.
pub const COMMON: &[Opt] = &[
    ("--json", "", "answer in JSON, errors too"),
    ("--quiet", "", "say only what is wrong"),
    ("--verbose", "", "say all of it"),
    ("--wait", "SECONDS", "how long to wait where another program works on the volume (0)"),
];

/// The words behind the command. None: help was asked for.
pub fn take(command: &Command, words: &[OsString]) -> Outcome<Option<Call>> {
    let mut call = Call { words: Vec::new(), json: false, quiet: false, verbose: false, options: Vec::new() };
    let mut rest = words.iter();
    while let Some(word) = rest.next() {
        match word.as_bytes() {
            b"--" => call.words.extend(rest.by_ref().cloned()),
            b"--help" | b"-h" => return Ok(None),
            [b'-', _, ..] => take_option(command, word, &mut rest, &mut call)?,
            _ => call.words.push(word.clone()),
        }
    }
    if call.words.len() < command.least || call.words.len() > command.most {
        return Err(Fail::usage(format!("usage: mukthiban {} {}", command.name, command.takes)));
    }
    Ok(Some(call))
}

/// An option, with its value behind `=` or in the next word.
fn take_option<'a>(
    command: &Command,
    word: &OsStr,
    rest: &mut impl Iterator<Item = &'a OsString>,
    call: &mut Call,
) -> Outcome<()> {
    let mut halves = word.as_bytes().splitn(2, |&b| b == b'=');
    let (written, joined) = (halves.next().unwrap_or_default(), halves.next().map(OsStr::from_bytes));
    let known = command.options.iter().chain(COMMON).find(|o| o.0.as_bytes() == written);
    let Some((name, value, _)) = known else {
        let line = format!("{}: no such option; see `mukthiban {} --help`", word.to_string_lossy(), command.name);
        return Err(Fail::usage(line));
    };
    let given = match (value.is_empty(), joined) {
        (true, None) => OsString::new(),
        (true, Some(_)) => return Err(Fail::usage(format!("{name} takes no value"))),
        (false, Some(value)) => value.into(),
        (false, None) => {
            rest.next().cloned().ok_or_else(|| Fail::usage(format!("{name} needs its {value} behind it")))?
        }
    };
    call.json |= *name == "--json";
    call.quiet |= *name == "--quiet";
    call.verbose |= *name == "--verbose";
    call.options.push((name, given));
    Ok(())
}
