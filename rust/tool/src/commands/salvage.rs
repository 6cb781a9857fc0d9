//! `lift --salvage`: what can still be trusted on a broken volume, and the rest apart.

use crate::args::Call;
use crate::fail::{Fail, Outcome, FAILED, NOT_SOUND, SOUND};
use crate::name::shown;
use crate::out::{parent, part_of};
use crate::salvaged::Broken;
use crate::show::salvaged::{Line, Report};
use crate::show::term::{complain, say};
use mukthiban::salvage::load;
use std::collections::HashSet;
use std::fs::{self, File};
use std::io::{self, Write};
use std::path::{Path, PathBuf};

/// A name of the tool's own, marked where the volume has it in its root.
fn own_name(broken: &Broken, name: &str) -> String {
    let root = broken.directories().into_iter().filter(|way| way.len() == 1).map(|way| shown(&way[0]));
    let files = broken.salvage.files.iter().map(|f| broken.path(f)).filter_map(|p| p.strip_prefix('/').map(Into::into));
    match root.chain(files).any(|other: String| other == name) {
        true => format!("{name}\\salvage"),
        false => name.into(),
    }
}

pub fn run(call: &Call) -> Outcome<u8> {
    let out = PathBuf::from(&call.words[1]);
    if call.words.len() > 2 {
        return Err(Fail::usage("--salvage lifts all of a volume; a PATH can't be chosen"));
    }
    let part = part_of(&out)?;
    let (parts, mut remarks) = load(call.volume(0), call.wait()?).map_err(|e| Fail::folder(&e))?;
    let broken = Broken::of(parts);
    remarks.extend(broken.salvage.remark.clone());
    fs::create_dir(&part).map_err(|e| Fail::host(&part, &e))?;
    let mut report = Report { volume: call.volume(0).into(), to: out.clone(), remarks, ..Report::default() };
    let mut failed = lift(&broken, &part, &mut report);
    let name = own_name(&broken, "salvage.txt");
    if let Err(e) = write(&part.join(&name), report.text().as_bytes()) {
        failed.push(Fail::host(&part.join(&name), &e).line);
    }
    if failed.is_empty() {
        fs::rename(&part, &out).map_err(|e| Fail::host(&out, &e))?;
        File::open(parent(&out)).and_then(|f| f.sync_all()).map_err(|e| Fail::host(&out, &e))?;
    } else {
        report.to = part;
    }
    report.failed = failed;
    match call.json {
        true => say(&report.json())?,
        false if call.quiet => (),
        false => say(&report.summary(&name))?,
    }
    report.failed.iter().for_each(|line| complain("lift", &format!("not lifted: {line}")));
    Ok(match (report.failed.is_empty(), report.all_whole()) {
        (false, _) => FAILED,
        (true, true) => SOUND,
        (true, false) => NOT_SOUND,
    })
}

/// Writes every file, and reads it back; what the host refused.
fn lift(broken: &Broken, part: &Path, report: &mut Report) -> Vec<String> {
    let (mut failed, mut taken) = (Vec::new(), HashSet::new());
    let (doubtful, lost) = (own_name(broken, "doubtful"), own_name(broken, "lost+found"));
    for way in broken.directories() {
        let host: PathBuf = way.iter().map(shown).collect();
        taken.insert(host.clone());
        if let Err(e) = fs::create_dir_all(part.join(&host)) {
            failed.push(Fail::host(&part.join(&host), &e).line);
        }
    }
    let mut put = |host: &Path, bytes: &[u8]| {
        let full = part.join(host);
        let made = full.parent().map_or(Ok(()), fs::create_dir_all);
        if let Err(e) = made.and_then(|()| write(&full, bytes)) {
            failed.push(Fail::host(&full, &e).line);
        }
    };
    for file in &broken.salvage.files {
        let host = broken.host(file, &doubtful, &mut taken);
        let bytes = file.bytes(&broken.parts.data, broken.salvage.block_len);
        put(&host, &bytes);
        report.files.push(Line {
            path: broken.path(file),
            to: host,
            inode: Some(file.inode),
            whole: file.doubt.is_none(),
            reason: broken.line(file),
            size: file.record.size,
            lifted: bytes.len() as u64,
            blocks: file.blocks.len(),
            pieces: broken.pieces(file),
        });
    }
    for chain in &broken.salvage.lost {
        let first = chain.blocks.first().copied().unwrap_or(0);
        let (data, len) = (&broken.parts.data, broken.salvage.block_len);
        let block = |b: u32| {
            let from = (b as usize * len).min(data.len());
            &data[from..(from + len).min(data.len())]
        };
        let bytes: Vec<u8> = chain.blocks.iter().flat_map(|&b| block(b)).copied().collect();
        let host = Path::new(&lost).join(format!("block-{first}"));
        put(&host, &bytes);
        report.lost.push(Line {
            path: format!("/{lost}/block-{first}"),
            to: host,
            inode: None,
            whole: true,
            reason: "a whole chain that no file names".into(),
            size: bytes.len() as u64,
            lifted: bytes.len() as u64,
            blocks: chain.blocks.len(),
            pieces: crate::tree::stretches(&chain.blocks),
        });
    }
    failed
}

/// Writes a file, syncs it, and compares what is read back.
fn write(path: &Path, bytes: &[u8]) -> io::Result<()> {
    let mut file = File::create_new(path)?;
    file.write_all(bytes)?;
    file.sync_all()?;
    match fs::read(path)? == bytes {
        true => Ok(()),
        false => Err(io::Error::other("what was read back is not what was written")),
    }
}
