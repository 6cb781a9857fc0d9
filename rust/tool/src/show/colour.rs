//! Colours for files.

/// A file's colour: a few that are easy to tell apart, then ever new ones.
pub fn colour(place: usize) -> [u8; 3] {
    const FIRST: [[u8; 3]; 10] = [
        [0x2f, 0x6f, 0xde],
        [0xd9, 0x54, 0x1e],
        [0x1f, 0x9d, 0x6b],
        [0x8e, 0x4e, 0xc6],
        [0xb8, 0x86, 0x0b],
        [0xc2, 0x36, 0x6f],
        [0x0e, 0x8f, 0xa8],
        [0x6b, 0x8e, 0x23],
        [0xa0, 0x52, 0x2d],
        [0x4b, 0x5d, 0x8a],
    ];
    match FIRST.get(place) {
        Some(colour) => *colour,
        None => hue(place as f64 * 137.508 % 360.0),
    }
}

fn hue(degrees: f64) -> [u8; 3] {
    let part = |n: f64| {
        let k = (n + degrees / 30.0) % 12.0;
        let light = 0.44 - 0.26 * (k - 3.0).min(9.0 - k).clamp(-1.0, 1.0);
        (light * 255.0).round() as u8
    };
    [part(0.0), part(8.0), part(4.0)]
}
