//! `map`: the volume as a picture, in letters and colours on a terminal, or as an SVG file for a report.

use crate::args::{Call, Command};
use crate::fail::{Fail, Outcome, NOT_SOUND, SOUND};
use crate::session::Session;
use crate::show::map::{as_json, as_text};
use crate::show::picture::Picture;
use crate::show::salvaged::listing_json;
use crate::show::svg;
use crate::show::term::{complain, say};
use std::fs;
use std::path::Path;

pub const COMMAND: Command = Command {
    name: "map",
    takes: "VOLUME",
    least: 1,
    most: 1,
    options: &[("--svg", "FILE", "write the picture to an SVG file")],
    short: "show the volume as a picture",
    long: "A cell is a block, or a range of blocks on a large volume; a colour and a sign is a file, in one\n\
           line of the legend; where there are more than 62, the smaller ones share the sign +. ? is a chain that no\n\
           file names. Free blocks are light. Of a broken volume the legend marks the files that are in doubt, ! is a\n\
           block that several claim, and ? one that no chain has.",
    run,
};

fn run(call: &Call) -> Outcome<u8> {
    let path = Path::new(&call.words[0]);
    let title = path.canonicalize().ok().and_then(|p| p.file_name().map(|n| n.to_string_lossy().into_owned()));
    let title = title.unwrap_or_else(|| path.display().to_string());
    match Session::read_or_broken(call.volume(0), call.wait()?)? {
        Ok(session) => {
            let picture = Picture::take(title, &session);
            draw(call, &picture, || as_json(&path.to_string_lossy(), &session))?;
            Ok(SOUND)
        }
        Err((refused, broken)) => {
            let picture = Picture::broken(title, &broken);
            draw(call, &picture, || listing_json("map", &path.to_string_lossy(), refused.refusal, &broken))?;
            complain("map", &refused.fail(call.volume(0)).line);
            Ok(NOT_SOUND)
        }
    }
}

/// Shows a picture as it was asked for.
fn draw(call: &Call, picture: &Picture, json: impl Fn() -> String) -> Outcome<()> {
    if let Some(file) = call.option("--svg") {
        let file = Path::new(file);
        fs::write(file, svg::draw(picture)).map_err(|e| Fail::host(file, &e))?;
        if !call.json && !call.quiet {
            say(&format!("drew {}: {}\n", file.display(), picture.summary()))?;
        }
    }
    match (call.json, call.has("--svg")) {
        (true, _) => say(&json()),
        (false, true) => Ok(()),
        (false, false) => say(&as_text(picture)),
    }
}
