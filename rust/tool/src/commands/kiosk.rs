//! `kiosk`: whether a volume is in the demo kiosk's profile, and files put onto it so that it stays there.

use crate::args::{Call, Command};
use crate::change::Change;
use crate::fail::{Fail, Outcome, NOT_SOUND, SOUND};
use crate::intake::{full, Put, Taken};
use crate::layout::name_of;
use crate::name::joined;
use crate::session::Session;
use crate::show::term::say;
use crate::show::{profiled, taken};
use crate::words::count;
use mukthiban::kiosk::Rule;
use mukthiban::{Kind, Name, Refusal, ROOT};
use std::ffi::OsStr;
use std::fs;
use std::path::Path;

pub const COMMAND: Command = Command {
    name: "kiosk",
    takes: "check VOLUME | put VOLUME HOST...",
    least: 2,
    most: usize::MAX,
    options: &[],
    short: "is it fit for a demo kiosk? put: files that keep it so",
    long: "A kiosk takes a volume on which 1, the audit finds nothing; 2, there are at most 8,191 blocks; 3, no directory\n\
           but the root; 4, at most 64 files; 5, every file is one node; 6, every name is of A to Z and 0 to 9 alone.\n\
           check says the first of these that is broken, and what breaks it; the exit code is then 4. put copies files\n\
           of this machine into the root, each in one node and under its own name, all in one change; what would break\n\
           a rule is refused.",
    run,
};

fn run(call: &Call) -> Outcome<u8> {
    match (call.words[0].to_str(), &call.words[2..]) {
        (Some("check"), []) => check(call),
        (Some("put"), hosts) if !hosts.is_empty() => put(call, hosts),
        _ => Err(Fail::usage("kiosk check VOLUME or kiosk put VOLUME HOST... is needed")),
    }
}

fn check(call: &Call) -> Outcome<u8> {
    let session = Session::read(call.volume(1), call.wait()?)?;
    let (volume, rule) = (call.volume(1).to_string_lossy(), session.volume.kiosk());
    let breaks = rule.map_or_else(Vec::new, |rule| breaks(&session, rule));
    say(&match call.json {
        true => profiled::as_json(&volume, rule, &breaks),
        false => profiled::as_text(&volume, rule, &breaks, call.quiet),
    })?;
    Ok(if rule.is_none() { SOUND } else { NOT_SOUND })
}

/// What breaks a rule, a line each.
fn breaks(session: &Session, rule: Rule) -> Vec<String> {
    let all = 0..session.entries.len();
    let of = |kind: Kind| all.clone().filter(move |at| session.entries[*at].kind == kind);
    let nodes = |at: &usize| {
        let first_block = session.entries[*at].record.first_block as usize;
        session.volume.nodes(first_block).map_or(0, |nodes| nodes.len() as u64)
    };
    match rule {
        Rule::Audit => session.account.audited.iter().map(|a| format!("{} {}", a.found.kind(), a.line)).collect(),
        Rule::Blocks => vec![count(session.volume.blocks() as u64, "block")],
        Rule::Directories => {
            of(Kind::Dir).filter(|at| !session.entries[*at].is_root()).map(|at| session.path(at)).collect()
        }
        Rule::Files => vec![count(of(Kind::File).count() as u64, "file")],
        Rule::Chains => {
            let full = of(Kind::File).filter(|at| session.entries[*at].record.size > 0);
            let many = full.filter(|at| nodes(at) > 1);
            many.map(|at| format!("{}: {}", session.path(at), count(nodes(&at), "node"))).collect()
        }
        Rule::Names => {
            of(Kind::File).filter(|at| !is_simple(&session.entries[*at].name)).map(|at| session.path(at)).collect()
        }
    }
}

/// One or more of A to Z and 0 to 9, then zeros to the end.
fn is_simple(name: &Name) -> bool {
    let used = mukthiban::name::trimmed(name);
    !used.is_empty() && used.iter().all(|b| b.is_ascii_uppercase() || b.is_ascii_digit())
}

fn put(call: &Call, hosts: &[std::ffi::OsString]) -> Outcome<u8> {
    let mut change = Change::open(call.volume(1), call.wait()?)?;
    if let Some(rule) = change.session.volume.kiosk() {
        let about = call.volume(1).display();
        return Err(Fail::failed(format!("{about}: not in the kiosk's profile: {rule} [rule {}]", rule.number())));
    }
    let mut taken = Taken::default();
    for host in hosts {
        taken.files.push(put_one(&mut change, host)?);
    }
    change.save()?;
    taken::tell(call, "kiosk put", &taken)?;
    Ok(SOUND)
}

/// A file of the host into the root, if the volume stays in the profile with it.
fn put_one(change: &mut Change, host: &OsStr) -> Outcome<Put> {
    let host = Path::new(host);
    let metadata = fs::metadata(host).map_err(|e| Fail::host(host, &e))?;
    if metadata.is_dir() {
        return Err(Fail::failed(format!("{}: a folder, and a kiosk has no directory but the root", host.display())));
    }
    let own = host.file_name().ok_or_else(|| Fail::failed(format!("{}: has no name", host.display())))?;
    let name = name_of(own, Kind::File).map_err(Fail::failed)?;
    let path = joined([&name]);
    if change.session.volume.lookup_file(ROOT, &name).is_ok() {
        return Err(Fail::failed(format!("{path}: there is such a file [AlreadyExist 11]")));
    }
    Fail::new_name(&path, &name)?;
    let blocks = metadata.len().div_ceil(change.block_len() as u64);
    if blocks > change.session.volume.free() as u64 {
        return Err(no_node(&path, blocks));
    }
    let bytes = fs::read(host).map_err(|e| Fail::host(host, &e))?;
    let blocks = bytes.len().div_ceil(change.block_len()) as u64;
    let record = change.kiosk_record(&bytes).map_err(|r| match r {
        Refusal::NoSpace => no_node(&path, blocks),
        _ => Fail::refused(&path, r),
    })?;
    change.add_record(ROOT, &name, record, [0; 20]).map_err(|r| full(&path, r, Kind::File))?;
    if let Some(rule) = change.session.volume.kiosk() {
        let number = rule.number();
        return Err(Fail::failed(format!(
            "{path}: with it the volume would leave the kiosk's profile: {rule} [rule {number}]"
        )));
    }
    Ok(Put { path, bytes: bytes.len() as u64, blocks })
}

fn no_node(path: &str, blocks: u64) -> Fail {
    Fail::failed(format!("{path}: it needs {}, and no free node has so many [NoSpace 6]", count(blocks, "block")))
}
