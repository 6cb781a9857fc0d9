//! `whole`: a file in one stretch of blocks.

use crate::args::{Call, Command};
use crate::change::Change;
use crate::fail::{Fail, Outcome, SOUND};
use crate::session::{stretches_of, Session};
use crate::show::json;
use crate::show::term::say;
use crate::words::count;
use mukthiban::Kind;
use std::ffi::OsStr;
use std::fs;
use std::path::Path;

pub const COMMAND: Command = Command {
    name: "whole",
    takes: "VOLUME PATH...",
    least: 2,
    most: usize::MAX,
    options: &[
        ("--plan", "", "change nothing, and show the moves: a block of the file and a free block in each line"),
        ("--from", "FILE", "the moves of one file, a line each, as --plan shows them"),
    ],
    short: "make files whole: each in one fragment",
    long: "The blocks of each file move to the lowest place where as many are free in a row, and its record names\n\
           the new first block, all in one change. A file in one fragment is left as it is. A plan from a FILE may\n\
           be anyone's: one that does not move all blocks of the file in their order to free blocks in a row is\n\
           refused.",
    run,
};

/// A file that is to be made whole.
struct Moved {
    path: String,
    inode: u32,
    fragments: usize,
    plan: Vec<u32>,
    first_block: u32,
}

fn run(call: &Call) -> Outcome<u8> {
    if call.has("--plan") {
        let session = Session::read(call.volume(0), call.wait()?)?;
        let files = chosen(call, &session)?;
        let plans = files.iter().map(|&e| Ok((session.path(e), plan_of(&session, e)?)));
        show_plans(call, &plans.collect::<Outcome<Vec<_>>>()?)?;
        return Ok(SOUND);
    }
    let mut change = Change::open(call.volume(0), call.wait()?)?;
    let files = chosen(call, &change.session)?;
    let given = call.option("--from").map(|file| read_plan(file)).transpose()?;
    let chains = files.iter().filter_map(|&e| change.session.entries[e].chain.as_deref());
    let bytes = change.bytes(&stretches_of(chains))?;
    let mut moved = Vec::new();
    for &e in &files {
        let entry = &change.session.entries[e];
        let (path, inode, fragments) = (change.session.path(e), entry.inode, entry.pieces().len());
        if fragments == 1 && given.is_none() {
            continue;
        }
        let plan = given.clone().map_or_else(|| plan_of(&change.session, e), Ok)?;
        let first_block = change.make_whole(inode, &plan, &bytes).map_err(|r| Fail::refused(&path, r))?;
        moved.push(Moved { path, inode, fragments, plan, first_block });
    }
    if !moved.is_empty() {
        change.save()?;
    }
    tell(call, &moved, files.len() - moved.len())?;
    Ok(SOUND)
}

/// The files that the words name, each once.
fn chosen(call: &Call, session: &Session) -> Outcome<Vec<usize>> {
    let mut files = Vec::new();
    for place in 1..call.words.len() {
        let e = session.find(&call.path(place)?, &[Kind::File])?;
        if session.entries[e].record.size == 0 {
            return Err(Fail::failed(format!("{}: it is empty, and has no blocks", session.path(e))));
        }
        if !files.contains(&e) {
            files.push(e);
        }
    }
    if call.has("--from") && files.len() != 1 {
        return Err(Fail::usage("--from FILE has the moves of one file: one PATH is possible"));
    }
    Ok(files)
}

/// The library's plan for a file.
fn plan_of(session: &Session, e: usize) -> Outcome<Vec<u32>> {
    let first_block = session.entries[e].record.first_block as usize;
    session.volume.plan(first_block).map_err(|r| Fail::refused(&session.path(e), r))
}

/// A plan from a file of the host, or from standard input: a source and a target in each line.
fn read_plan(file: &OsStr) -> Outcome<Vec<u32>> {
    let path = Path::new(file);
    let text = match file == "-" {
        true => std::io::read_to_string(std::io::stdin()),
        false => fs::read_to_string(path),
    };
    let text = text.map_err(|e| Fail::host(path, &e))?;
    let lines = text.lines().filter(|line| !line.trim().is_empty() && !line.starts_with('#'));
    let mut plan = Vec::new();
    for line in lines {
        let two: Vec<u32> = line.split_whitespace().filter_map(|word| word.parse().ok()).collect();
        if two.len() != 2 || line.split_whitespace().count() != 2 {
            return Err(Fail::failed(format!("{}: `{line}` is not two block numbers", path.display())));
        }
        plan.extend(two);
    }
    Ok(plan)
}

fn pairs(plan: &[u32]) -> Vec<(u32, u32)> {
    plan.chunks_exact(2).map(|two| (two[0], two[1])).collect()
}

fn show_plans(call: &Call, plans: &[(String, Vec<u32>)]) -> Outcome<()> {
    if call.json {
        let each = |(path, plan): &(String, Vec<u32>)| {
            json::object(&[("path", json::text(path)), ("moves", json::stretches(&pairs(plan)))])
        };
        let volume = json::text(&call.volume(0).to_string_lossy());
        return say(&json::answer("whole", &[("volume", volume), ("plans", json::list(plans.iter().map(each)))]));
    }
    let mut out = String::new();
    for (path, plan) in plans {
        if plans.len() > 1 || call.verbose {
            out += &format!("# {path}\n");
        }
        pairs(plan).iter().for_each(|(source, target)| out += &format!("{source} {target}\n"));
    }
    say(&out)
}

fn tell(call: &Call, moved: &[Moved], left: usize) -> Outcome<()> {
    if call.json {
        let each = |m: &Moved| {
            json::object(&[
                ("change", json::text("whole")),
                ("path", json::text(&m.path)),
                ("inode", m.inode.to_string()),
                ("fragments_before", m.fragments.to_string()),
                ("blocks", (m.plan.len() / 2).to_string()),
                ("first_block", m.first_block.to_string()),
            ])
        };
        let volume = json::text(&call.volume(0).to_string_lossy());
        return say(&json::answer("whole", &[("volume", volume), ("moved", json::list(moved.iter().map(each)))]));
    }
    if call.quiet {
        return Ok(());
    }
    let mut out = String::new();
    for m in moved {
        let (was, blocks) = (count(m.fragments as u64, "fragment"), count(m.plan.len() as u64 / 2, "block"));
        out += &format!("made {} whole: {was} before, now {blocks} from block {}\n", m.path, m.first_block);
    }
    if left > 0 {
        out += &format!("{} in one fragment already\n", crate::words::are(left as u64));
    }
    say(&out)
}
