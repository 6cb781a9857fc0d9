//! `cp`: files and directories from one volume to another.

use crate::args::{Call, Command, REPLACE};
use crate::change::Change;
use crate::fail::{Outcome, NOT_SOUND, SOUND};
use crate::intake::{take_in, Incoming, Source};
use crate::session::{stretches_of, Chosen, Session};
use crate::show::taken;
use crate::show::term::complain;
use mukthiban::Kind;
use std::collections::HashMap;

pub const COMMAND: Command = Command {
    name: "cp",
    takes: "VOLUME FROM VOLUME2 TO",
    least: 4,
    most: 4,
    options: &[REPLACE],
    short: "copy a file or a directory from one volume to another",
    long: "With all that is in it, and in one change; what entries carry beside their records comes along. FROM is a\n\
           file, or else a directory; with a slash at its end, what is in the directory alone. Where TO is a directory,\n\
           or ends with a slash, the thing keeps its name. Files whose record is wrong are named and left.",
    run,
};

fn run(call: &Call) -> Outcome<u8> {
    let (from_path, mut to) = (call.path(1)?, call.path(3)?);
    let (from, chosen) = Session::read_with(call.volume(0), call.wait()?, |session| {
        let at = session.find(&from_path, &[Kind::File, Kind::Dir])?;
        let inside = session.inside(at, true);
        Ok(Entries { at, inside })
    })?;
    let at = chosen.at;
    let mut change = Change::open(call.volume(2), call.wait()?)?;
    let is_dir = change.session.dir(&to.names).is_ok();
    let inside_alone = from_path.slash && is_dir;
    if !inside_alone {
        // a new name with a slash at its end is welcome for a directory
        to.slash &= is_dir || from.entries[at].kind == Kind::File;
        change.session.named_below(&mut to, || Ok(from.entries[at].name))?;
    }
    let (base, name) = match (inside_alone, to.split()) {
        (false, Some((parents, name))) => (parents, Some(*name)),
        _ => (&to.names[..], None),
    };
    let mut left = Vec::new();
    let incoming = collect(&from, &chosen, name, &mut left);
    let all = take_in(call, &mut change, base, &incoming)?;
    change.save()?;
    taken::tell(call, "cp", &all)?;
    left.iter().for_each(|line| complain("cp", &format!("not copied: {line}")));
    Ok(if left.is_empty() { SOUND } else { NOT_SOUND })
}

/// An entry, and all that is in it.
struct Entries {
    at: usize,
    inside: Vec<usize>,
}

impl Chosen for Entries {
    fn entries(&self) -> Vec<usize> {
        self.inside.iter().chain([&self.at]).copied().collect()
    }

    fn stretches(&self, session: &Session) -> Vec<(u32, u32)> {
        stretches_of(self.inside.iter().chain([&self.at]).filter_map(|&e| session.entries[e].chain.as_deref()))
    }
}

/// An entry with all that is in it; without a name, what is in it alone.
fn collect<'a>(
    from: &'a Session,
    chosen: &Entries,
    name: Option<[u8; 16]>,
    left: &mut Vec<String>,
) -> Vec<Incoming<'a>> {
    let mut places: HashMap<usize, usize> = HashMap::new();
    let mut incoming = Vec::new();
    let at = chosen.at;
    let first = name.map(|name| (at, name));
    let inside = chosen.inside.iter().map(|&e| (e, from.entries[e].name));
    for (e, name) in first.into_iter().chain(inside) {
        if let Some(finding) = from.finding_of(e) {
            left.push(finding.line.clone());
            continue;
        }
        let parent = places.get(&from.entries[e].parent).copied().filter(|_| e != at);
        let source = match from.entries[e].kind {
            Kind::Dir => Source::Dir(from.volume.carried_dir(from.entries[e].inode).unwrap_or_default()),
            Kind::File => Source::Entry(from, e),
        };
        places.insert(e, incoming.len());
        incoming.push(Incoming { parent, name, source });
    }
    incoming
}
