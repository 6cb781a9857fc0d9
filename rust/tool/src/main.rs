//! The technician's tool: says whether a volume is sound, shows what is on it, lifts its files, and changes it
//! without ever leaving it half written.

mod args;
mod change;
mod cli;
mod commands;
mod diagnose;
mod fail;
mod host;
mod intake;
mod layout;
mod name;
mod out;
mod records;
mod salvaged;
mod session;
mod show;
mod sync;
mod tree;
mod words;

use std::process::ExitCode;

fn main() -> ExitCode {
    let words: Vec<_> = std::env::args_os().skip(1).collect();
    match cli::run(&words) {
        Ok(code) => ExitCode::from(code),
        Err((command, fail)) => {
            show::term::fail(&words, command, &fail);
            ExitCode::from(fail.code)
        }
    }
}
