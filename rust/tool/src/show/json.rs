//! A little JSON, written by hand.

/// A string with its quotes.
pub fn text(s: &str) -> String {
    let mut out = String::from("\"");
    for c in s.chars() {
        match c {
            '"' => out.push_str("\\\""),
            '\\' => out.push_str("\\\\"),
            '\n' => out.push_str("\\n"),
            c if (c as u32) < 0x20 || c as u32 == 0x7F => out.push_str(&format!("\\u{:04x}", c as u32)),
            c => out.push(c),
        }
    }
    out.push('"');
    out
}

/// An object of fields whose values are JSON already.
pub fn object(fields: &[(&str, String)]) -> String {
    let inside: Vec<String> = fields.iter().map(|(key, value)| format!("{}: {value}", text(key))).collect();
    format!("{{{}}}", inside.join(", "))
}

/// A command's answer: an object with the version of these shapes and the command first.
pub fn answer(command: &str, fields: &[(&str, String)]) -> String {
    let mut all = vec![("version", "1".into()), ("command", text(command))];
    all.extend(fields.iter().cloned());
    format!("{}\n", object(&all))
}

/// A list, an item a line.
pub fn list(items: impl IntoIterator<Item = String>) -> String {
    let items: Vec<String> = items.into_iter().collect();
    match items.is_empty() {
        true => "[]".into(),
        false => format!("[\n  {}\n]", items.join(",\n  ")),
    }
}

/// Stretches of blocks, each as its first block and its length, in one line.
pub fn stretches(pieces: &[(u32, u32)]) -> String {
    let inside: Vec<String> = pieces.iter().map(|(first, length)| format!("[{first}, {length}]")).collect();
    format!("[{}]", inside.join(", "))
}

#[cfg(test)]
mod tests {
    #[test]
    fn strings_are_escaped() {
        assert_eq!(super::text("a\"b\\c\n\u{1}"), "\"a\\\"b\\\\c\\n\\u0001\"");
    }
}
