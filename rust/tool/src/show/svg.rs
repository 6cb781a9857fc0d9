//! The picture of a volume as SVG.

use crate::show::colour::colour;
use crate::show::picture::{Owner, Picture, Sort};
use crate::words::{count, number};

/// The most rows.
const ROWS: usize = 48;

const WIDTH: usize = 960;
const EDGE: usize = 32;
const TOP: usize = 96;

fn hex([r, g, b]: [u8; 3]) -> String {
    format!("#{r:02x}{g:02x}{b:02x}")
}

fn escaped(text: &str) -> String {
    text.replace('&', "&amp;").replace('<', "&lt;").replace('>', "&gt;").replace('"', "&quot;")
}

/// The text, cut where it would run out of its place.
fn cut(text: &str, most: usize) -> String {
    match text.chars().count() > most {
        true => text.chars().take(most - 1).chain(['…']).collect(),
        false => text.into(),
    }
}

/// A stretch of cells in one row that belong together.
struct Bar {
    first: usize,
    cells: usize,
    owner: u32,
    /// Which fragment of its file, from 0.
    piece: usize,
    /// Whether the fragment begins here.
    begins: bool,
}

/// Where the cells stand, and how large they are.
struct Grid {
    left: usize,
    wide: usize,
    per: usize,
    cell: usize,
    high: usize,
}

impl Grid {
    fn of(picture: &Picture) -> Grid {
        let n = picture.of.len();
        let wide = match n {
            0..=64 => 16,
            65..=512 => 32,
            _ => 64,
        };
        let left = EDGE + number(n as u64).len() * 7 + 8;
        let cell = (WIDTH - EDGE - left) / wide;
        Grid { left, wide, per: picture.blocks_a_cell(wide * ROWS), cell, high: cell.clamp(14, 34) }
    }

    fn place(&self, cell: usize) -> (usize, usize) {
        (self.left + cell % self.wide * self.cell, TOP + cell / self.wide * (self.high + 4))
    }
}

pub fn draw(picture: &Picture) -> String {
    let grid = Grid::of(picture);
    let rows = picture.of.len().div_ceil(grid.per).div_ceil(grid.wide);
    let legend_top = TOP + rows * (grid.high + 4) + 34;
    let height = legend_top + (picture.owners.len() + 1).div_ceil(2) * 26 + 24;
    let mut out = format!(
        "<svg xmlns=\"http://www.w3.org/2000/svg\" width=\"{WIDTH}\" height=\"{height}\" viewBox=\"0 0 {WIDTH} {height}\" \
         role=\"img\" font-family=\"system-ui, 'Segoe UI', Helvetica, Arial, sans-serif\">\n\
         <title>{title}</title>\n<desc>{summary}</desc>\n\
         <defs><pattern id=\"lost\" width=\"6\" height=\"6\" patternUnits=\"userSpaceOnUse\" patternTransform=\"rotate(45)\">\
         <rect width=\"6\" height=\"6\" fill=\"#6b7280\"/><rect width=\"2\" height=\"6\" fill=\"#9ca3af\"/></pattern></defs>\n\
         <rect width=\"100%\" height=\"100%\" fill=\"#ffffff\"/>\n\
         <text x=\"{EDGE}\" y=\"44\" font-size=\"22\" font-weight=\"600\" fill=\"#111827\">{title}</text>\n\
         <text x=\"{EDGE}\" y=\"70\" font-size=\"14\" fill=\"#4b5563\">{summary}{cell_is}</text>\n",
        title = escaped(&cut(&picture.title, 70)),
        summary = escaped(&picture.summary()),
        cell_is = match grid.per {
            1 => String::new(),
            _ => format!("; a cell is {}", count(grid.per as u64, "block")),
        },
    );
    for row in 0..rows {
        let (first, y) = (row * grid.wide * grid.per, grid.place(row * grid.wide).1 + grid.high / 2 + 4);
        out += &format!(
            "<text x=\"{}\" y=\"{y}\" font-size=\"11\" text-anchor=\"end\" fill=\"#6b7280\">{}</text>\n",
            grid.left - 8,
            number(first as u64)
        );
    }
    for bar in bars(picture, grid.per, grid.wide) {
        draw_bar(&mut out, picture, &bar, &grid);
    }
    draw_legend(&mut out, picture, legend_top);
    out + "</svg>\n"
}

/// How an owner's blocks are filled.
fn fill(owner: &Owner, place: usize) -> String {
    match owner.sort {
        Sort::File => hex(colour(place)),
        Sort::Rest => "#64748b".into(),
        Sort::Lost => "url(#lost)".into(),
    }
}

/// The cells, joined where they are one fragment and stand in one row.
fn bars(picture: &Picture, per: usize, wide: usize) -> Vec<Bar> {
    let n = picture.of.len();
    // which fragment a block belongs to, by its file's order
    let mut piece_of = vec![0; n];
    for owner in &picture.owners {
        for (piece, &(first, len)) in owner.pieces.iter().enumerate() {
            piece_of[first as usize..(first + len) as usize].fill(piece);
        }
    }
    let mut out: Vec<Bar> = Vec::new();
    for (cell, first) in (0..n).step_by(per).enumerate() {
        let owner = picture.main_owner(first, per);
        let at = (first..n.min(first + per)).find(|&b| picture.of[b] == owner).unwrap_or(first);
        let piece = piece_of[at];
        match out.last_mut() {
            Some(bar) if (bar.owner, bar.piece) == (owner, piece) && cell % wide != 0 => bar.cells += 1,
            last => {
                let begins = last.is_none_or(|bar| (bar.owner, bar.piece) != (owner, piece));
                out.push(Bar { first: cell, cells: 1, owner, piece, begins });
            }
        }
    }
    out
}

fn draw_bar(out: &mut String, picture: &Picture, bar: &Bar, grid: &Grid) {
    let ((x, y), high, cell) = (grid.place(bar.first), grid.high, grid.cell);
    let Some(place) = (bar.owner as usize).checked_sub(1) else {
        // free blocks stay single and light
        for i in 0..bar.cells {
            *out += &format!(
                "<rect x=\"{}\" y=\"{y}\" width=\"{}\" height=\"{high}\" rx=\"3\" fill=\"#f1f3f6\" stroke=\"#e2e6eb\"/>\n",
                x + i * cell + 1,
                cell - 2
            );
        }
        return;
    };
    let owner = &picture.owners[place];
    *out += &format!(
        "<g><title>{}</title><rect x=\"{}\" y=\"{y}\" width=\"{}\" height=\"{high}\" rx=\"4\" fill=\"{}\"/>",
        escaped(&bar_title(picture, owner, bar, grid)),
        x + 1,
        bar.cells * cell - 2,
        fill(owner, place)
    );
    // the blocks of a fragment stay countable
    if bar.cells > 1 && cell >= 8 {
        let lines: String = (1..bar.cells).map(|i| format!("M{} {}v{}", x + i * cell, y + 1, high - 2)).collect();
        *out += &format!("<path d=\"{lines}\" stroke=\"#ffffff\" stroke-opacity=\"0.35\"/>");
    }
    let label = match owner.sort == Sort::File && owner.pieces.len() > 1 {
        true => format!("{}{}", owner.sign, bar.piece + 1),
        false => owner.sign.to_string(),
    };
    let size = (high / 2).clamp(9, 14);
    if bar.begins && cell >= 13 && label.len() * size * 6 / 10 + 6 < bar.cells * cell {
        *out += &format!(
            "<text x=\"{}\" y=\"{}\" font-size=\"{size}\" font-weight=\"600\" fill=\"#ffffff\">{label}</text>",
            x + 6,
            y + high / 2 + size * 4 / 10
        );
    }
    *out += "</g>\n";
}

/// What a bar is, for who points at it.
fn bar_title(picture: &Picture, owner: &Owner, bar: &Bar, grid: &Grid) -> String {
    let (from, to) = (bar.first * grid.per, ((bar.first + bar.cells) * grid.per).min(picture.of.len()) - 1);
    let range = if from == to { format!("block {from}") } else { format!("blocks {from} to {to}") };
    match owner.sort == Sort::File && owner.pieces.len() > 1 {
        true => format!("{}: {range}, fragment {} of {}", owner.label, bar.piece + 1, owner.pieces.len()),
        false => format!("{}: {range}", owner.label),
    }
}

fn draw_legend(out: &mut String, picture: &Picture, top: usize) {
    let line = |(place, owner): (usize, &Owner)| {
        (fill(owner, place), format!("{}  {}", owner.sign, owner.label), owner.words())
    };
    let mut lines: Vec<(String, String, String)> = picture.owners.iter().enumerate().map(line).collect();
    lines.push(("#f1f3f6".into(), "free".into(), count(picture.free as u64, "block")));
    let half = lines.len().div_ceil(2);
    for (i, (fill, label, words)) in lines.iter().enumerate() {
        let (x, y) = (EDGE + i / half * (WIDTH - 2 * EDGE) / 2, top + i % half * 26);
        *out += &format!(
            "<rect x=\"{x}\" y=\"{}\" width=\"14\" height=\"14\" rx=\"3\" fill=\"{fill}\" stroke=\"#d1d5db\" stroke-width=\"0.5\"/>\
             <text x=\"{}\" y=\"{y}\" font-size=\"13\" fill=\"#111827\">{}<tspan fill=\"#6b7280\" dx=\"8\">{}</tspan></text>\n",
            y - 12,
            x + 22,
            escaped(&cut(label, 30)),
            escaped(words)
        );
    }
}
