//! The picture of a volume in letters and colours, and as JSON.

use crate::commands::merge::largest;
use crate::session::Session;
use crate::show::colour::colour;
use crate::show::json;
use crate::show::listing::entry_json;
use crate::show::picture::{Picture, Sort};
use crate::show::term::{colours, columns, ink, Ink};
use crate::show::verdict::lost_json;
use crate::tree::stretches;
use crate::words::{count, number};

pub fn as_text(picture: &Picture) -> String {
    const ROWS: usize = 24;
    let n = picture.of.len();
    let gutter = number(n as u64).len() + 2;
    let wide = ((columns() - gutter) / 8 * 8).min(64);
    let per = picture.blocks_a_cell(wide * ROWS);
    let mut out = format!("{}: {}", ink(Ink::Bold, &picture.title), picture.summary());
    if per > 1 {
        out += &format!("; a cell is {}", count(per as u64, "block"));
    }
    out += "\n\n";
    for (row, first) in (0..n).step_by(per * wide).enumerate() {
        if row > 0 {
            out.push('\n');
        }
        out += &format!("{:>w$}  ", number(first as u64), w = gutter - 2);
        for cell in (first..n.min(first + per * wide)).step_by(per) {
            out += &cell_text(picture, picture.main_owner(cell, per));
        }
    }
    out += "\n\n";
    for (place, owner) in picture.owners.iter().enumerate() {
        out += &format!("  {}  {}: {}\n", cell_text(picture, place as u32 + 1), owner.label, owner.words());
    }
    let (free, nodes) = (count(picture.free as u64, "block"), count(picture.free_nodes.len() as u64, "node"));
    out + &format!("  {}  free: {free}, {nodes}{}\n", cell_text(picture, 0), largest(&picture.free_nodes))
}

/// A cell: a sign, on a terminal on its file's colour.
fn cell_text(picture: &Picture, owner: u32) -> String {
    let Some(place) = (owner as usize).checked_sub(1) else {
        return ink(Ink::Dim, "·");
    };
    let owner = &picture.owners[place];
    if !colours() || owner.sort != Sort::File {
        return owner.sign.to_string();
    }
    let [r, g, b] = colour(place);
    format!("\x1b[48;2;{r};{g};{b}m\x1b[38;2;255;255;255m{}\x1b[0m", owner.sign)
}

/// Every file and every stretch.
pub fn as_json(volume: &str, session: &Session) -> String {
    let mut used = vec![false; session.volume.blocks()];
    let chains = session.entries.iter().filter_map(|e| e.chain.as_deref());
    for &(first, blocks) in chains.chain(session.account.lost.iter().map(|l| &l.chain)).flat_map(|c| &c.pieces) {
        used[first as usize..(first + blocks) as usize].fill(true);
    }
    let free: Vec<u32> = (0..used.len() as u32).filter(|&b| !used[b as usize]).collect();
    let files = (0..session.entries.len()).filter(|&e| !session.entries[e].blocks().is_empty());
    let lost = session.account.lost.iter().map(|l| lost_json(l.first_block, &l.chain, true));
    json::answer(
        "map",
        &[
            ("volume", json::text(volume)),
            ("block_len", session.volume.parts().block_len.to_string()),
            ("blocks", session.volume.blocks().to_string()),
            ("free", session.volume.free().to_string()),
            ("entries", json::list(files.map(|e| entry_json(session, e, true)))),
            ("lost_chains", json::list(lost)),
            ("free_stretches", json::stretches(&stretches(&free))),
            ("free_nodes", json::stretches(&session.volume.free_nodes())),
        ],
    )
}
