//! Which entries are newer than which, as far as the orders of the lists tell.

use crate::session::Session;
use crate::show::json;
use crate::words::number;
use mukthiban::tree::{DIR_WIDTH, FILE_WIDTH};
use mukthiban::Kind;
use std::collections::HashMap;

/// What is said of sound tables that no honest writer can have left; nothing of others.
pub fn remark(session: &Session) -> Option<String> {
    let (kind, inode) = session.volume.aged()?;
    let entry = session.entries.iter().position(|e| e.kind == kind && e.inode == inode).expect("a live entry");
    Some(match session.entries[entry].is_root() {
        true => "the root is not the last of its bucket, as it is with every honest writer".into(),
        false => format!(
            "the lists contradict each other, as with no honest writer: links lead from {} into a circle",
            session.path(entry)
        ),
    })
}

/// The entries of a session in order: directories, then files; the newest first.
pub struct Ages {
    lines: Vec<Line>,
}

struct Line {
    /// The entry's place in the session's list.
    entry: usize,
    /// The longest way by links that leads to it; none where a circle leads to it.
    step: Option<usize>,
    /// The entries that it stands before in its bucket and in its directory's list.
    over: Vec<usize>,
}

fn word(table: &[u8], at: usize) -> u32 {
    u32::from_le_bytes(table[at..at + 4].try_into().expect("four bytes"))
}

impl Ages {
    pub fn of(session: &Session) -> Ages {
        let lines = [Kind::Dir, Kind::File].into_iter().flat_map(|kind| of_kind(session, kind)).collect();
        Ages { lines }
    }
}

fn of_kind(session: &Session, kind: Kind) -> Vec<Line> {
    let parts = session.volume.parts();
    let (table, width) = match kind {
        Kind::Dir => (&parts.dir_table, DIR_WIDTH),
        Kind::File => (&parts.file_table, FILE_WIDTH),
    };
    let entries: Vec<usize> = (0..session.entries.len()).filter(|e| session.entries[*e].kind == kind).collect();
    let place: HashMap<u32, usize> =
        entries.iter().enumerate().map(|(at, e)| (session.entries[*e].inode, at)).collect();
    // What each names, by places in `entries`.
    let names = |e: &usize| {
        let start = session.entries[*e].inode as usize * width;
        let mut named: Vec<usize> =
            [width - 4, 20].iter().filter_map(|at| place.get(&word(table, start + at)).copied()).collect();
        named.dedup();
        named
    };
    let over: Vec<Vec<usize>> = entries.iter().map(names).collect();
    let mut newer = vec![0; entries.len()];
    over.iter().flatten().for_each(|y| newer[*y] += 1);
    let mut step = vec![None; entries.len()];
    let mut longest = vec![0; entries.len()];
    let mut next: Vec<usize> = (0..entries.len()).filter(|x| newer[*x] == 0).collect();
    while let Some(x) = next.pop() {
        step[x] = Some(longest[x]);
        for y in &over[x] {
            longest[*y] = longest[*y].max(longest[x] + 1);
            newer[*y] -= 1;
            if newer[*y] == 0 {
                next.push(*y);
            }
        }
    }
    let mut order: Vec<usize> = (0..entries.len()).collect();
    order.sort_by_key(|x| (step[*x].is_none(), step[*x], *x));
    order
        .into_iter()
        .map(|x| Line { entry: entries[x], step: step[x], over: over[x].iter().map(|y| entries[*y]).collect() })
        .collect()
}

/// A line for each entry, after the remark and how many there are; when quiet the lines alone.
pub fn as_text(volume: &str, session: &Session, ages: &Ages, quiet: bool) -> String {
    let entries = ages.lines.len() as u64;
    let words = format!("{} {}", number(entries), if entries == 1 { "entry" } else { "entries" });
    let mut out = String::new();
    if !quiet {
        out += &format!("{words}, the newest first  {volume}\n");
        out.extend(remark(session).map(|line| format!("  ! {line}\n")));
    }
    for line in &ages.lines {
        let step = line.step.map_or("?".into(), |step| step.to_string());
        let over: Vec<String> = line.over.iter().map(|e| session.path(*e)).collect();
        let over = if over.is_empty() { String::new() } else { format!("  over {}", over.join(", ")) };
        out += &format!("  {step:>5}  {}{over}\n", session.path(line.entry));
    }
    out
}

pub fn as_json(volume: &str, session: &Session, ages: &Ages) -> String {
    let line = |l: &Line| {
        let entry = &session.entries[l.entry];
        json::object(&[
            ("kind", json::text(if entry.kind == Kind::Dir { "directory" } else { "file" })),
            ("inode", entry.inode.to_string()),
            ("path", json::text(&session.path(l.entry))),
            ("step", l.step.map_or("null".into(), |step| step.to_string())),
            ("over", json::list(l.over.iter().map(|e| session.entries[*e].inode.to_string()))),
        ])
    };
    let told = remark(session).map_or("null".into(), |line| json::text(&line));
    json::answer(
        "age",
        &[("volume", json::text(volume)), ("remark", told), ("entries", json::list(ages.lines.iter().map(line)))],
    )
}
