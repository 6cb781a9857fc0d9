//! What a terminal gets and a file does not: colours, and a line of progress.

use crate::args::Call;
use crate::fail::{Fail, Outcome};
use crate::show::json;
use std::ffi::OsString;
use std::io::{self, IsTerminal, Write};

/// Writes a command's whole answer to standard output.
pub fn say(text: &str) -> Outcome<()> {
    say_bytes(text.as_bytes())
}

pub fn say_bytes(bytes: &[u8]) -> Outcome<()> {
    let mut out = io::stdout().lock();
    out.write_all(bytes).and_then(|()| out.flush()).map_err(Fail::output)
}

/// Whether standard output is to be coloured.
pub fn colours() -> bool {
    let dumb = std::env::var_os("TERM").is_some_and(|t| t == "dumb");
    io::stdout().is_terminal() && !dumb && std::env::var_os("NO_COLOR").is_none()
}

pub enum Ink {
    Green,
    Red,
    Dim,
    Bold,
}

/// The text in that ink, on a terminal; else the text.
pub fn ink(ink: Ink, text: &str) -> String {
    if !colours() {
        return text.into();
    }
    let code = match ink {
        Ink::Green => "1;32",
        Ink::Red => "1;31",
        Ink::Dim => "2",
        Ink::Bold => "1",
    };
    format!("\x1b[{code}m{text}\x1b[0m")
}

/// Columns to fill.
pub fn columns() -> usize {
    std::env::var("COLUMNS").ok().and_then(|c| c.parse().ok()).unwrap_or(80).clamp(40, 200)
}

/// A line on standard error. Where that can't be written, nobody reads it.
pub fn complain(command: &str, line: &str) {
    let _ = writeln!(io::stderr(), "mukthiban: {command}: {line}");
}

/// What went wrong, in one line on standard error; as JSON where that was asked for. Where it can't be written, the exit
/// code still says it.
pub fn fail(words: &[OsString], command: Option<&str>, fail: &Fail) {
    if fail.line.is_empty() {
        return;
    }
    if words.iter().take_while(|w| *w != "--").any(|w| w == "--json") {
        let error = [("code", fail.code.to_string()), ("what", json::text(&fail.line))];
        let _ =
            io::stderr().write_all(json::answer(command.unwrap_or(""), &[("error", json::object(&error))]).as_bytes());
        return;
    }
    let _ = match command {
        Some(command) => writeln!(io::stderr(), "mukthiban: {command}: {}", fail.line),
        None => writeln!(io::stderr(), "mukthiban: {}", fail.line),
    };
}

/// A line of progress on standard error, where that is a terminal.
pub struct Progress {
    shown: bool,
    total: u64,
    last: Option<u64>,
}

impl Progress {
    pub fn new(call: &Call, total: u64) -> Progress {
        Progress { shown: !call.quiet && io::stderr().is_terminal(), total: total.max(1), last: None }
    }

    /// So much of the total is done; next comes the thing named.
    pub fn at(&mut self, done: u64, what: &str) {
        let percent = (done * 100 / self.total).min(100);
        if self.shown && self.last != Some(percent) {
            self.last = Some(percent);
            let filled = (percent / 5) as usize;
            let what: String = what.chars().take(columns() - 36).collect();
            let bar = format!("{}{}", "#".repeat(filled), ".".repeat(20 - filled));
            let _ = write!(io::stderr(), "\r\x1b[K[{bar}] {percent:3}%  {what}");
        }
    }
}

impl Drop for Progress {
    fn drop(&mut self) {
        if self.shown && self.last.is_some() {
            let _ = write!(io::stderr(), "\r\x1b[K");
        }
    }
}
