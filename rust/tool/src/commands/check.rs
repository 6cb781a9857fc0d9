//! `check`: the verdict first.

use crate::args::{Call, Command, STRICT};
use crate::diagnose::hints;
use crate::fail::{Fail, Outcome};
use crate::salvaged::Broken;
use crate::session::Session;
use crate::show::verdict;
use mukthiban::folder::{Access, Folder};

pub const COMMAND: Command = Command {
    name: "check",
    takes: "VOLUME",
    least: 1,
    most: 1,
    options: &[STRICT],
    short: "say whether a volume is sound, and count what is on it",
    long: "The first line is the verdict. Then comes what is wrong, what is only remarkable, and the counts; or why\n\
           the tables are refused, by the refusal's name, number and meaning; of a block table the rule that is broken,\n\
           the entry where, its eight bytes, and the file it belongs to if one can be said; what else points to faults;\n\
           which files they touch; and how many files lift --salvage would lift whole. Nothing is changed, and nothing is said of the bytes in data.bin, which no\n\
           table guards.",
    run,
};

fn run(call: &Call) -> Outcome<u8> {
    let path = call.volume(0);
    let folder = Folder::open(path, Access::Read, call.wait()?).map_err(|e| Fail::folder(&e))?;
    let loaded = Session::load(&folder)?;
    drop(folder); // who changes the volume need not wait for who reads the verdict
    match loaded {
        Ok(session) => verdict::tested(call, path, &session),
        Err(no) => {
            let hints = hints(no.refusal, &no.sizes, no.parts.as_deref());
            let broken = no.parts.as_deref().cloned().map(Broken::of);
            verdict::refused(call, path, &no, &hints, broken.as_ref())
        }
    }
}
