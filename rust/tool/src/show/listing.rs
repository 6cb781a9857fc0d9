//! A listing of entries.

use crate::name::shown;
use crate::session::Session;
use crate::show::json;
use crate::show::term::{ink, Ink};
use crate::words::number;
use mukthiban::Kind;

/// The entries in columns; with `all`, by full paths.
pub fn as_text(session: &Session, listed: &[usize], all: bool) -> String {
    let rows: Vec<[String; 4]> = listed.iter().map(|&at| row(session, at, all)).collect();
    let heads = ["size", "blocks", "fragments", "name"];
    let width = |i: usize| rows.iter().map(|r| r[i].len()).chain([heads[i].len()]).max().unwrap_or(0);
    let (a, b, c) = (width(0), width(1), width(2));
    let line = |r: [&str; 4]| format!("{:>a$}  {:>b$}  {:>c$}  {}\n", r[0], r[1], r[2], r[3]);
    let mut out = ink(Ink::Dim, line(heads).trim_end());
    out.push('\n');
    for row in &rows {
        out += &line([&row[0], &row[1], &row[2], &row[3]]);
    }
    out
}

fn row(session: &Session, at: usize, all: bool) -> [String; 4] {
    let entry = &session.entries[at];
    let name = match all {
        true => session.path(at),
        false => shown(&entry.name),
    };
    if entry.kind == Kind::Dir {
        return ["-".into(), "-".into(), "-".into(), ink(Ink::Bold, &format!("{name}/"))];
    }
    let wrong = session.finding_of(at).map(|_| ink(Ink::Red, "  (its record is wrong: see check)"));
    [
        number(entry.record.size),
        number(entry.blocks().len() as u64),
        number(entry.pieces().len() as u64),
        name + &wrong.unwrap_or_default(),
    ]
}

/// The entries as JSON.
pub fn as_json(volume: &str, session: &Session, at: usize, listed: &[usize]) -> String {
    json::answer(
        "ls",
        &[
            ("volume", json::text(volume)),
            ("path", json::text(&session.path(at))),
            ("entries", json::list(listed.iter().map(|&e| entry_json(session, e, false)))),
        ],
    )
}

/// An entry as JSON; the name also as its 16 bytes, a file's stretches of blocks where they are wanted.
pub fn entry_json(session: &Session, at: usize, stretches: bool) -> String {
    let entry = &session.entries[at];
    let bytes: String = entry.name.iter().map(|b| format!("{b:02x}")).collect();
    let mut fields = vec![
        ("path", json::text(&session.path(at))),
        ("name", json::text(&shown(&entry.name))),
        ("name_bytes", json::text(&bytes)),
        ("kind", json::text(if entry.kind == Kind::Dir { "directory" } else { "file" })),
        ("inode", entry.inode.to_string()),
    ];
    if entry.kind == Kind::File {
        fields.extend([
            ("size", entry.record.size.to_string()),
            ("first_block", entry.blocks().first().map_or("null".into(), u32::to_string)),
            ("blocks", entry.blocks().len().to_string()),
            ("fragments", entry.pieces().len().to_string()),
            ("sound", entry.faults.is_empty().to_string()),
        ]);
        if stretches {
            fields.push(("stretches", json::stretches(entry.pieces())));
        }
    }
    json::object(&fields)
}
