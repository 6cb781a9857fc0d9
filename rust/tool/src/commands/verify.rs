//! `verify`: a volume held against a folder of the host, file by file, both ways.

use crate::args::{Call, Command};
use crate::fail::{Outcome, NOT_SOUND, SOUND};
use crate::host::{walk, HostItem};
use crate::layout::{bytes, layout, name_of, Item, What};
use crate::name::shown;
use crate::session::Session;
use crate::show::compared::{Compared, Difference};
use crate::show::term::Progress;
use mukthiban::Kind;
use std::collections::HashMap;
use std::fs;
use std::path::Path;

pub const COMMAND: Command = Command {
    name: "verify",
    takes: "VOLUME FOLDER",
    least: 2,
    most: 2,
    options: &[],
    short: "compare a volume with a lifted folder, both ways",
    long:
        "Every file's bytes and every directory, those that are on the volume and those that are in the folder. Names\n\
           are read as lift writes them, its marks left out; chains that no file names are compared with lost+found/.\n\
           Exit code 4 where anything differs.",
    run,
};

fn run(call: &Call) -> Outcome<u8> {
    let (session, items) = Session::read_with(call.volume(0), call.wait()?, |session| Ok(layout(session, 0)))?;
    let folder = Path::new(&call.words[1]);
    let on_host_now = walk(folder)?;
    let mut there = on_host(&on_host_now);
    let mut compared = Compared::default();
    let mut progress = Progress::new(call, items.len() as u64);
    for (done, item) in items.iter().enumerate().skip(1) {
        progress.at(done as u64, &item.path);
        compare(&session, item, &mut there, &mut compared);
    }
    drop(progress);
    let mut more: Vec<String> = there.into_keys().map(|(path, _)| path).collect();
    more.sort();
    compared.differences.extend(more.into_iter().map(|path| (path, Difference::OnlyInFolder)));
    compared.tell(call, folder)?;
    Ok(if compared.differences.is_empty() { SOUND } else { NOT_SOUND })
}

/// What stands on the host, by the path that it would have on the volume.
fn on_host(items: &[HostItem]) -> HashMap<(String, bool), &HostItem> {
    let mut paths: Vec<String> = Vec::with_capacity(items.len());
    let mut there = HashMap::new();
    for item in items {
        let above = item.parent.map_or("", |p| &paths[p]);
        let name = name_of(&item.name, item.kind).map_or(item.name.to_string_lossy().into_owned(), |n| shown(&n));
        let mut path = format!("{above}/{name}");
        // two names of the host that mean one: the second keeps its own
        if there.contains_key(&(path.clone(), item.kind == Kind::Dir)) {
            path = format!("{above}/{}", item.name.to_string_lossy());
        }
        there.insert((path.clone(), item.kind == Kind::Dir), item);
        paths.push(path);
    }
    there
}

fn compare(session: &Session, item: &Item, there: &mut HashMap<(String, bool), &HostItem>, compared: &mut Compared) {
    let is_dir = matches!(item.what, What::Dir | What::Folder);
    let Some(host) = there.remove(&(item.path.clone(), is_dir)) else {
        return compared.differences.push((item.path.clone(), Difference::OnlyOnVolume));
    };
    if is_dir {
        compared.dirs += 1;
        return;
    }
    let ours = bytes(session, item.what);
    let different = match fs::read(&host.full) {
        Err(e) => Some(Difference::Unread(e.to_string())),
        Ok(theirs) if theirs.len() != ours.len() => Some(Difference::Length(ours.len() as u64, theirs.len() as u64)),
        Ok(theirs) => ours.iter().zip(&theirs).position(|(a, b)| a != b).map(|at| Difference::Byte(at as u64)),
    };
    match different {
        Some(difference) => compared.differences.push((item.path.clone(), difference)),
        None => compared.files.push(item.path.clone()),
    }
}
