//! `merge`: free neighbours become one node.

use crate::args::{Call, Command};
use crate::change::Change;
use crate::fail::{Fail, Outcome, SOUND};
use crate::show::json;
use crate::show::term::say;
use crate::words::{count, number};

pub const COMMAND: Command = Command {
    name: "merge",
    takes: "VOLUME",
    least: 1,
    most: 1,
    options: &[],
    short: "merge free neighbours, so that new files come out in fewer pieces",
    long: "The free nodes are put in rising order, and those that touch become one. No file changes.",
    run,
};

fn run(call: &Call) -> Outcome<u8> {
    let path = call.volume(0);
    let mut change = Change::open(path, call.wait()?)?;
    let before = change.session.volume.free_nodes();
    change.session.volume.merge().map_err(|r| Fail::refused(&path.display().to_string(), r))?;
    let after = change.session.volume.free_nodes();
    change.save()?;
    let volume = path.to_string_lossy();
    if call.json {
        let fields = [
            ("volume", json::text(&volume)),
            ("free_nodes_before", json::stretches(&before)),
            ("free_nodes", json::stretches(&after)),
        ];
        say(&json::answer("merge", &fields))?;
    } else if !call.quiet {
        let (was, is) = (count(before.len() as u64, "free node"), number(after.len() as u64));
        say(&format!("merged {volume}: {was} before, {is} after{}\n", largest(&after)))?;
    }
    Ok(SOUND)
}

/// The largest of some nodes in words, behind their number.
pub fn largest(nodes: &[(u32, u32)]) -> String {
    let most = nodes.iter().map(|(_, blocks)| *blocks).max();
    most.map_or(String::new(), |blocks| format!(", the largest of {}", count(blocks.into(), "block")))
}
