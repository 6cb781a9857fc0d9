//! Names: 16 bytes, made from text or bytes and shown as text.
//!
//! ```
//! use mukthiban::name;
//! let save = name::from_text("slot1.sav")?;
//! assert_eq!(&save, b"slot1.sav\0\0\0\0\0\0\0");
//! assert_eq!(name::trimmed(&save), b"slot1.sav");
//! assert_eq!(name::shown(&save).to_string(), "slot1.sav");
//! assert_eq!(name::from_text("seventeen letters"), Err(name::BadName::TooLong));
//! # Ok::<(), name::BadName>(())
//! ```

use crate::tables::Name;
use core::fmt::{self, Write};

/// Why text or bytes make no name for a new entry.
#[derive(Clone, Copy, Debug, PartialEq, Eq)]
#[non_exhaustive]
pub enum BadName {
    /// A name has at least one byte.
    Empty,
    /// A name has at most 16 bytes.
    TooLong,
    /// A zero ends a name, and so can't stand in it.
    HasZero,
}

impl fmt::Display for BadName {
    fn fmt(&self, f: &mut fmt::Formatter<'_>) -> fmt::Result {
        f.write_str(match self {
            BadName::Empty => "a name has at least one byte",
            BadName::TooLong => "a name has at most 16 bytes",
            BadName::HasZero => "a name can't have a zero byte within it",
        })
    }
}

impl core::error::Error for BadName {}

/// The name with those bytes, and zeros behind them.
pub fn from_bytes(bytes: &[u8]) -> Result<Name, BadName> {
    if bytes.is_empty() {
        return Err(BadName::Empty);
    }
    if bytes.len() > 16 {
        return Err(BadName::TooLong);
    }
    if bytes.contains(&0) {
        return Err(BadName::HasZero);
    }
    let mut name = [0; 16];
    name[..bytes.len()].copy_from_slice(bytes);
    Ok(name)
}

/// The name with that text's bytes in UTF-8.
pub fn from_text(text: &str) -> Result<Name, BadName> {
    from_bytes(text.as_bytes())
}

/// Whether a new entry may have this name: its first byte is not zero, and behind a zero there are only zeros. An entry
/// that is there already may have any bytes for a name.
pub fn is_legal(name: &Name) -> bool {
    name[0] != 0 && !trimmed(name).contains(&0)
}

/// The name's bytes without the zeros at its end.
pub fn trimmed(name: &Name) -> &[u8] {
    let zeros = name.iter().rev().take_while(|&&byte| byte == 0).count();
    &name[..16 - zeros]
}

/// The name as text: `\xNN` for each byte that is no text, for a slash and for a backslash. Two names never look alike.
pub fn shown(name: &Name) -> Shown<'_> {
    Shown(trimmed(name))
}

/// A name to be shown.
#[derive(Clone, Copy, Debug)]
pub struct Shown<'a>(&'a [u8]);

impl fmt::Display for Shown<'_> {
    fn fmt(&self, f: &mut fmt::Formatter<'_>) -> fmt::Result {
        // None of these can be a file name on the host.
        if matches!(self.0, b"" | b"." | b"..") {
            return escaped(f, if self.0.is_empty() { &[0] } else { self.0 });
        }
        for chunk in self.0.utf8_chunks() {
            for c in chunk.valid().chars() {
                match is_text(c) {
                    true => f.write_char(c)?,
                    false => escaped(f, c.encode_utf8(&mut [0; 4]).as_bytes())?,
                }
            }
            escaped(f, chunk.invalid())?;
        }
        Ok(())
    }
}

fn is_text(c: char) -> bool {
    match c {
        '/' | '\\' => false,
        '"' | '\'' => true,
        _ => c.escape_debug().count() == 1,
    }
}

fn escaped(f: &mut fmt::Formatter<'_>, bytes: &[u8]) -> fmt::Result {
    bytes.iter().try_for_each(|byte| write!(f, "\\x{byte:02x}"))
}

#[cfg(test)]
mod tests {
    use super::*;

    #[test]
    fn made() {
        assert_eq!(from_bytes(b""), Err(BadName::Empty));
        assert_eq!(from_bytes(&[b'a'; 16]), Ok([b'a'; 16]));
        assert_eq!(from_bytes(&[b'a'; 17]), Err(BadName::TooLong));
        assert_eq!(from_bytes(b"a\0b"), Err(BadName::HasZero));
        assert_eq!(from_text("b"), Ok(*b"b\0\0\0\0\0\0\0\0\0\0\0\0\0\0\0"));
    }

    #[test]
    fn legal() {
        for (name, is) in [([0; 16], false), ([1; 16], true), (*b"a\0\0\0\0\0\0\0\0\0\0\0\0\0\0\0", true)] {
            assert_eq!(is_legal(&name), is);
        }
        assert!(!is_legal(b"a\0b\0\0\0\0\0\0\0\0\0\0\0\0\0"));
        assert!(!is_legal(b"\0b\0\0\0\0\0\0\0\0\0\0\0\0\0\0"));
    }

    #[test]
    fn as_text() {
        let show = |bytes: &[u8]| {
            let mut name = [0; 16];
            name[..bytes.len()].copy_from_slice(bytes);
            shown(&name).to_string()
        };
        assert_eq!(show(b""), "\\x00");
        assert_eq!(show(b"."), "\\x2e");
        assert_eq!(show(b".."), "\\x2e\\x2e");
        assert_eq!(show(b"..."), "...");
        assert_eq!(show(b"a/b\\"), "a\\x2fb\\x5c");
        assert_eq!(show(b"\0a"), "\\x00a");
        assert_eq!(show("é\u{ff}".as_bytes()), "éÿ");
        assert_eq!(show(b"\xffx"), "\\xffx");
    }
}
