//! Numbers as people read them.

/// 1234567 as 1,234,567.
pub fn number(n: u64) -> String {
    let digits = n.to_string();
    let mut out = String::new();
    for (i, c) in digits.chars().enumerate() {
        if i > 0 && (digits.len() - i).is_multiple_of(3) {
            out.push(',');
        }
        out.push(c);
    }
    out
}

/// "1 block", "2 blocks".
pub fn count(n: u64, one: &str) -> String {
    match n {
        1 => format!("1 {one}"),
        _ => format!("{} {one}s", number(n)),
    }
}

/// "1 is", "2 are".
pub fn are(n: u64) -> String {
    match n {
        1 => "1 is".into(),
        _ => format!("{} are", number(n)),
    }
}

/// "1 directory", "2 directories".
pub fn directories(n: u64) -> String {
    match n {
        1 => "1 directory".into(),
        _ => format!("{} directories", number(n)),
    }
}

#[cfg(test)]
mod tests {
    use super::*;

    #[test]
    fn numbers_as_people_read_them() {
        assert_eq!(number(0), "0");
        assert_eq!(number(999), "999");
        assert_eq!(number(1000), "1,000");
        assert_eq!(number(1234567), "1,234,567");
        assert_eq!(count(1, "block"), "1 block");
        assert_eq!(count(0, "block"), "0 blocks");
    }
}
