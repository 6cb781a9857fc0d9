//! The audit's list.

use crate::records::Audited;
use crate::session::Session;
use crate::show::json;
use crate::words::count;
use mukthiban::volume::Finding;

/// How many findings there are, and a line for each; when quiet the lines alone.
pub fn as_text(volume: &str, found: &[Audited], quiet: bool) -> String {
    let first = format!("{}  {volume}\n", count(found.len() as u64, "finding"));
    let lines = found.iter().map(|a| format!("  {} {}\n", a.found.kind(), a.line));
    (!quiet).then_some(first).into_iter().chain(lines).collect()
}

pub fn as_json(volume: &str, session: &Session, found: &[Audited]) -> String {
    let finding = |a: &Audited| {
        let (of, number) = match a.found {
            Finding::Astray { inode } | Finding::Shared { inode } | Finding::Over { inode } => ("inode", inode),
            Finding::Lost { first_block } => ("first_block", first_block),
        };
        let mut fields = vec![("kind", a.found.kind().to_string()), (of, number.to_string())];
        if let Some(entry) = a.entry {
            fields.push(("path", json::text(&session.path(entry))));
            fields.push(("size", session.entries[entry].record.size.to_string()));
        }
        fields.push(("what", json::text(&a.line)));
        json::object(&fields)
    };
    json::answer("audit", &[("volume", json::text(volume)), ("findings", json::list(found.iter().map(finding)))])
}
