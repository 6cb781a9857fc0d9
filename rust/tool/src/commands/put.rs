//! `put`: files and folders of the host onto the volume.

use crate::args::{Call, Command, REPLACE};
use crate::change::Change;
use crate::fail::{Fail, Outcome, SOUND};
use crate::host::walk;
use crate::intake::{take_in, Incoming, Source};
use crate::layout::name_of;
use crate::name::joined;
use crate::show::taken;
use mukthiban::{Kind, Name};
use std::ffi::OsStr;
use std::fs;
use std::os::unix::ffi::OsStrExt;
use std::path::Path;

pub const COMMAND: Command = Command {
    name: "put",
    takes: "VOLUME HOST... PATH",
    least: 3,
    most: usize::MAX,
    options: &[REPLACE],
    short: "copy files and folders of this machine onto the volume",
    long: "All of it in one change. Where PATH is a directory, or ends with a slash, what is put keeps its own name; a\n\
           second HOST needs that. A folder is put with all that is in it; with a slash at its end, what is in it alone\n\
           is put into PATH, so that `put NEW OUT/ /` is the inverse of lift. Where HOST is -, standard input is put.",
    run,
};

fn run(call: &Call) -> Outcome<u8> {
    let (path, hosts) = call.words[1..].split_last().expect("two words at least");
    let path = call.parse(path)?;
    let mut change = Change::open(call.volume(0), call.wait()?)?;
    let is_dir = change.session.dir(&path.names).is_ok();
    if !is_dir && (path.slash || hosts.len() > 1) {
        return Err(Fail::failed(format!("{}: no such directory", joined(&path.names))));
    }
    let mut incoming = Vec::new();
    let base = match (is_dir, path.split()) {
        (false, Some((parents, name))) => {
            change.session.dir(parents)?;
            collect(&hosts[0], Some(*name), &mut incoming)?;
            parents
        }
        _ => {
            hosts.iter().try_for_each(|host| collect(host, None, &mut incoming))?;
            &path.names
        }
    };
    let all = take_in(call, &mut change, base, &incoming)?;
    change.save()?;
    taken::tell(call, "put", &all)?;
    Ok(SOUND)
}

/// What a word of the command line brings: a file, a folder with all in it, or what is in a folder. With a name, the
/// thing gets that in the place of its own.
fn collect(written: &OsStr, name: Option<Name>, incoming: &mut Vec<Incoming>) -> Outcome<()> {
    let host = Path::new(written);
    if written == "-" {
        let name = name.ok_or_else(|| Fail::usage("standard input has no name: PATH must be the file's"))?;
        incoming.push(Incoming { parent: None, name, source: Source::Input });
        return Ok(());
    }
    let is_folder = fs::metadata(host).map_err(|e| Fail::host(host, &e))?.is_dir();
    let inside_alone = is_folder && written.as_bytes().ends_with(b"/");
    let own = |kind: Kind| match (name, host.file_name()) {
        (Some(name), _) => Ok(name),
        (None, Some(own)) => name_of(own, kind).map_err(Fail::failed),
        (None, None) => Err(Fail::failed(format!("{}: has no name", host.display()))),
    };
    if !is_folder {
        incoming.push(Incoming { parent: None, name: own(Kind::File)?, source: Source::Host(host.into()) });
        return Ok(());
    }
    let mut first = None;
    if !inside_alone || name.is_some() {
        first = Some(incoming.len());
        incoming.push(Incoming { parent: None, name: own(Kind::Dir)?, source: Source::Dir([0; 4]) });
    }
    let start = incoming.len();
    for item in walk(host)? {
        let name = name_of(&item.name, item.kind)
            .map_err(|line| Fail::failed(format!("{}: {line}", item.full.parent().unwrap_or(host).display())))?;
        let source = match item.kind {
            Kind::Dir => Source::Dir([0; 4]),
            Kind::File => Source::Host(item.full),
        };
        incoming.push(Incoming { parent: item.parent.map(|p| start + p).or(first), name, source });
    }
    Ok(())
}
