//! What was put onto a volume, and what else was changed.

use crate::args::Call;
use crate::fail::Outcome;
use crate::intake::Taken;
use crate::show::json;
use crate::show::term::say;
use crate::words::{count, directories};

/// What came onto the volume.
pub fn tell(call: &Call, command: &str, taken: &Taken) -> Outcome<()> {
    if call.json {
        return say(&as_json(call, command, taken));
    }
    let line = |path: &str, bytes: u64, blocks: u64| {
        format!("{command} {path}: {} in {}\n", count(bytes, "byte"), count(blocks, "block"))
    };
    let many = taken.files.len() != 1 || !taken.dirs.is_empty();
    let mut out = String::new();
    if call.verbose || !many {
        taken.dirs.iter().for_each(|path| out += &format!("made {path}/\n"));
        taken.files.iter().for_each(|f| out += &line(&f.path, f.bytes, f.blocks));
    }
    if many {
        let (bytes, blocks) = taken.files.iter().fold((0, 0), |(a, b), f| (a + f.bytes, b + f.blocks));
        let files = count(taken.files.len() as u64, "file");
        out += &line(&format!("{files} and {}", directories(taken.dirs.len() as u64)), bytes, blocks);
    }
    if call.quiet {
        return Ok(());
    }
    say(&out)
}

fn as_json(call: &Call, command: &str, taken: &Taken) -> String {
    let dirs = taken.dirs.iter().map(|p| change_json("made", p, &[]));
    let files = taken
        .files
        .iter()
        .map(|f| change_json(command, &f.path, &[("size", f.bytes.to_string()), ("blocks", f.blocks.to_string())]));
    changes_json(call, command, dirs.chain(files))
}

fn change_json(what: &str, path: &str, more: &[(&str, String)]) -> String {
    let mut fields = vec![("change", json::text(what)), ("path", json::text(path))];
    fields.extend(more.iter().cloned());
    json::object(&fields)
}

fn changes_json(call: &Call, command: &str, changes: impl Iterator<Item = String>) -> String {
    let volume = call.volume(match command {
        "cp" => 2,
        "kiosk put" => 1,
        _ => 0,
    });
    json::answer(command, &[("volume", json::text(&volume.to_string_lossy())), ("changes", json::list(changes))])
}

/// One change that is no file's coming: said in a line, or as JSON.
pub fn tell_change(call: &Call, command: &str, what: &str, path: &str, line: &str) -> Outcome<()> {
    tell_changes(call, command, what, &[path.into()], line)
}

/// Changes of one sort, said in one line.
pub fn tell_changes(call: &Call, command: &str, what: &str, paths: &[String], line: &str) -> Outcome<()> {
    match (call.json, call.quiet) {
        (true, _) => say(&changes_json(call, command, paths.iter().map(|p| change_json(what, p, &[])))),
        (false, true) => Ok(()),
        (false, false) => {
            let each = |p: &String| format!("{what} {p}\n");
            let all: String =
                if call.verbose && paths.len() > 1 { paths.iter().map(each).collect() } else { String::new() };
            say(&(all + line))
        }
    }
}
