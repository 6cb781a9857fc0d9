//! Names and paths. A name is any 16 bytes; people write and read it as text, with \xNN for what is no text.

use mukthiban::Name;

/// A name as it is shown: the zeros behind it left out, and \xNN for each byte that is no text, for a slash and for a
/// backslash. Two names never look alike, and what is shown is fit to be a file name of the host: it is not empty, and
/// not `.` or `..`.
pub fn shown(name: &Name) -> String {
    let used = 16 - name.iter().rev().take_while(|&&b| b == 0).count();
    let mut out = String::new();
    for chunk in name[..used].utf8_chunks() {
        for c in chunk.valid().chars() {
            match is_text(c) {
                true => out.push(c),
                false => escape(&mut out, c.encode_utf8(&mut [0; 4]).as_bytes()),
            }
        }
        escape(&mut out, chunk.invalid());
    }
    match out.as_str() {
        "" => "\\x00".into(),
        "." => "\\x2e".into(),
        ".." => "\\x2e\\x2e".into(),
        _ => out,
    }
}

fn is_text(c: char) -> bool {
    match c {
        '/' | '\\' => false,
        '"' | '\'' => true,
        _ => c.escape_debug().count() == 1,
    }
}

fn escape(out: &mut String, bytes: &[u8]) {
    for b in bytes {
        out.push_str(&format!("\\x{b:02x}"));
    }
}

/// The name that a person wrote: bytes as they are, \xNN for a byte, zeros behind it up to 16.
pub fn parse(written: &[u8]) -> Result<Name, String> {
    let mut bytes = Vec::new();
    let mut rest = written;
    while let Some((&b, after)) = rest.split_first() {
        if b == b'\\' {
            let (byte, left) =
                hex(after).ok_or("a backslash in a name must be \\xNN (\\x5c is the backslash itself)")?;
            bytes.push(byte);
            rest = left;
        } else {
            bytes.push(b);
            rest = after;
        }
    }
    while bytes.len() > 16 && bytes.last() == Some(&0) {
        bytes.pop();
    }
    if bytes.len() > 16 {
        return Err(format!("a name has at most 16 bytes, this one has {}", bytes.len()));
    }
    bytes.resize(16, 0);
    Ok(bytes.try_into().expect("16 bytes"))
}

/// What is wrong with a name for a new entry. One that is there already may have any.
pub fn wrong(name: &Name) -> Option<&'static str> {
    match (name[0], mukthiban::name::is_legal(name)) {
        (_, true) => None,
        (0, _) => Some("a new name can't be empty or begin with a zero byte"),
        _ => Some("a new name can't have a byte behind a zero one"),
    }
}

fn hex(after: &[u8]) -> Option<(u8, &[u8])> {
    let [b'x', high, low, rest @ ..] = after else { return None };
    let digit = |b: &u8| (*b as char).to_digit(16);
    Some(((digit(high)? * 16 + digit(low)?) as u8, rest))
}

/// A path inside a volume: names, and whether a slash ends it. No names at all is the root.
#[derive(Clone, Debug, PartialEq, Eq)]
pub struct Path {
    pub names: Vec<Name>,
    pub slash: bool,
}

impl Path {
    /// Names between slashes. `.` is the directory itself and `..` the one above it, as everywhere; a name of one or two
    /// dots is written `\x2e` and `\x2e\x2e`.
    pub fn parse(written: &[u8]) -> Result<Path, String> {
        let mut names = Vec::new();
        let mut slash = false;
        for part in written.split(|&b| b == b'/') {
            slash = matches!(part, b"" | b"." | b"..");
            match part {
                b"" | b"." => (),
                b".." => drop(names.pop()),
                _ => names.push(parse(part)?),
            }
        }
        Ok(Path { names, slash })
    }

    /// The path of the directory that holds it, and its own name. None for the root.
    pub fn split(&self) -> Option<(&[Name], &Name)> {
        let (last, parents) = self.names.split_last()?;
        Some((parents, last))
    }
}

/// Names as a path is shown.
pub fn joined<'a>(names: impl IntoIterator<Item = &'a Name>) -> String {
    let path: String = names.into_iter().map(|n| format!("/{}", shown(n))).collect();
    match path.as_str() {
        "" => "/".into(),
        _ => path,
    }
}

#[cfg(test)]
mod tests {
    use super::*;

    fn name(bytes: &[u8]) -> Name {
        let mut n = [0; 16];
        n[..bytes.len()].copy_from_slice(bytes);
        n
    }

    #[test]
    fn text_is_shown_as_it_is() {
        assert_eq!(shown(&name(b"slot 1")), "slot 1");
        assert_eq!(shown(&name(b"0123456789abcdef")), "0123456789abcdef");
        assert_eq!(shown(&name("größe".as_bytes())), "größe");
    }

    #[test]
    fn the_rest_is_escaped() {
        assert_eq!(shown(&name(b"a\x00b")), "a\\x00b");
        assert_eq!(shown(&name(b"")), "\\x00");
        assert_eq!(shown(&name(b".")), "\\x2e");
        assert_eq!(shown(&name(b"..")), "\\x2e\\x2e");
        assert_eq!(shown(&name(b"a/b\\c\n\xff")), "a\\x2fb\\x5cc\\x0a\\xff");
        assert_eq!(shown(&name("a\u{202e}b".as_bytes())), "a\\xe2\\x80\\xaeb");
    }

    #[test]
    fn what_is_shown_is_read_back() {
        let mut seed = 1u32;
        for _ in 0..20_000 {
            let mut n = [0; 16];
            for b in &mut n {
                seed = seed.wrapping_mul(1_664_525).wrapping_add(1_013_904_223);
                *b = match seed >> 30 {
                    0 => 0,
                    1 => b"./\\ax"[(seed >> 20) as usize % 5],
                    _ => (seed >> 16) as u8,
                };
            }
            assert_eq!(parse(shown(&n).as_bytes()), Ok(n), "{n:?}");
        }
    }

    #[test]
    fn bad_names_are_refused() {
        assert!(parse(b"0123456789abcdefg").is_err());
        assert!(parse(b"a\\b").is_err());
        assert!(parse(b"a\\x1").is_err());
        assert_eq!(parse(b"0123456789abcdef\\x00"), Ok(*b"0123456789abcdef"));
    }

    #[test]
    fn new_names() {
        assert_eq!(wrong(&name(b"slot 1")), None);
        assert_eq!(wrong(&name(b"0123456789abcdef")), None);
        assert!(wrong(&name(b"")).is_some_and(|what| what.contains("empty")));
        assert!(wrong(&name(b"\0a")).is_some_and(|what| what.contains("begin")));
        assert!(wrong(&name(b"a\0b")).is_some_and(|what| what.contains("behind")));
    }

    #[test]
    fn paths() {
        let path = Path::parse(b"/a//b/").unwrap();
        assert_eq!((path.names.len(), path.slash), (2, true));
        assert_eq!(joined(&path.names), "/a/b");
        assert_eq!(Path::parse(b"/").unwrap().names.len(), 0);
        assert_eq!(joined([]), "/");
        for (written, shown, slash) in [
            (".", "/", true),
            ("./a", "/a", false),
            ("a/.", "/a", true),
            ("a/../b", "/b", false),
            ("..", "/", true),
            ("a/b/..", "/a", true),
            ("a/...", "/a/...", false),
            ("\\x2e", "/\\x2e", false),
        ] {
            let path = Path::parse(written.as_bytes()).unwrap();
            assert_eq!((joined(&path.names).as_str(), path.slash), (shown, slash), "{written}");
        }
    }
}
