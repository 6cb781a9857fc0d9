//! Pictures, JSON and colours.

use crate::bench::{noise, two_files, Bench};
use crate::json;
use std::fs;

#[test]
fn json_is_json() {
    let b = two_files();
    b.host("a\"b", b"1");
    b.done(&["put", "v", "a\"b", "/"]);
    b.done(&["put", "v", "one", "\\x01\\x5c"]);
    let check = json::parse(&b.done(&["check", "--json", "v"]));
    assert_eq!(check.get("sound"), &json::Value::Bool(true));
    for (key, n) in
        [("answer", 0.0), ("blocks", 40.0), ("free", 33.0), ("files", 4.0), ("fragments", 4.0), ("directories", 1.0)]
    {
        assert_eq!(check.get(key), &json::Value::Number(n), "{key}");
    }
    let ls = json::parse(&b.done(&["ls", "--json", "v"]));
    let json::Value::List(entries) = ls.get("entries") else { panic!("a list") };
    assert_eq!(entries.len(), 4);
    assert_eq!(entries[0].get("name"), &json::Value::Text("\\x01\\x5c".into()));
    assert_eq!(entries[1].get("name"), &json::Value::Text("a\"b".into()));
    assert_eq!(entries[2].get("size"), &json::Value::Number(600.0));
    let map = json::parse(&b.done(&["map", "--json", "v"]));
    let json::Value::List(files) = map.get("entries") else { panic!("a list") };
    assert_eq!(files.len(), 4);
    let empty = json::parse(&b.done(&["ls", "--json", "v", "two"]));
    assert_eq!(empty.get("path"), &json::Value::Text("/two".into()));
}

#[test]
fn maps_of_all_sizes() {
    let b = Bench::new();
    b.host("f", &noise(5000, 1));
    for (n, block_len) in [(2, 4096), (40, 512), (500, 512), (5000, 4096), (1_000_000, 512)] {
        let (name, svg) = (format!("v{n}"), format!("{n}.svg"));
        b.done(&["new", &name, "--blocks", &n.to_string(), "--block-len", &block_len.to_string()]);
        b.done(&["put", &name, "f", "<f> & \"g\""]);
        let text = b.done(&["map", &name]);
        assert!(text.lines().count() < 40, "{text}");
        b.done(&["map", &name, "--svg", &svg]);
        let svg = fs::read_to_string(b.at(&svg)).unwrap();
        assert!(svg.starts_with("<svg ") && svg.ends_with("</svg>\n"));
        assert!(svg.contains("&lt;f&gt; &amp; &quot;g&quot;"));
        assert_eq!(svg.matches("<text").count(), svg.matches("</text>").count());
        assert!(svg.len() < 1_000_000);
    }
}

#[test]
fn colours_are_for_terminals_only() {
    let b = two_files();
    for words in [&["check", "v"][..], &["ls", "v"], &["map", "v"], &["lift", "v", "out"]] {
        let out = b.run(words);
        assert!(!out.stdout.contains(&0x1b) && !out.stderr.contains(&0x1b), "{words:?}");
    }
}

#[test]
fn each_sign_has_one_line_of_the_legend() {
    let b = Bench::new();
    b.done(&["new", "v", "--blocks", "900", "--block-len", "512", "--files", "100"]);
    fs::create_dir(b.at("src")).unwrap();
    for i in 0..100 {
        b.host(&format!("src/f{i:02}"), &noise(32 * (16 + i * 2 % 90), 1));
    }
    b.done(&["put", "v", "src/", "/"]);
    b.done(&["put", "v", "src/f99", "src/f98", "/", "--replace"]);
    let text = b.done(&["map", "v"]);
    let (cells, legend) = text.split_once("\n\n").unwrap().1.split_once("\n\n").unwrap();
    let signs: Vec<char> = legend.lines().map(|l| l.chars().nth(2).unwrap()).collect();
    let mut once = signs.clone();
    once.sort();
    once.dedup();
    assert_eq!(once.len(), signs.len(), "{legend}");
    let mut met: Vec<char> = cells.lines().flat_map(|l| l.rsplit_once("  ").unwrap().1.chars()).collect();
    met.sort();
    met.dedup();
    assert!(met.len() > 60 && met.iter().all(|c| signs.contains(c)), "{text}");
    assert!(legend.contains("  +  39 smaller files: "), "{legend}");
    // The SVG has the first block of each row.
    b.done(&["map", "v", "--svg", "v.svg"]);
    let svg = fs::read_to_string(b.at("v.svg")).unwrap();
    for row in (0..900).step_by(64) {
        assert!(svg.contains(&format!(">{row}</text>")), "{row}");
    }
    let value = json::parse(&b.done(&["map", "--json", "v"]));
    let json::Value::List(entries) = value.get("entries") else { panic!("a list") };
    assert_eq!(entries.len(), 100);
}

#[test]
fn quiet_and_verbose() {
    let b = two_files();
    assert_eq!(b.done(&["check", "--quiet", "v"]), "SOUND  v\n");
    for words in [
        &["mkdir", "v", "d", "--quiet"][..],
        &["put", "v", "one", "d", "--quiet"],
        &["mv", "v", "d/one", "x", "--quiet"],
        &["rm", "v", "x", "--quiet"],
        &["cp", "v", "one", "v", "y", "--quiet"],
        &["lift", "v", "out", "--quiet"],
        &["map", "v", "--svg", "m.svg", "--quiet"],
        &["new", "w", "--blocks", "9", "--quiet"],
    ] {
        assert_eq!(b.done(words), "", "{words:?}");
    }
    assert!(b.done(&["lift", "v", "out2", "--verbose"]).starts_with("/one\n/two\n/y\nlifted 3 files"));
    assert!(b.done(&["rm", "-r", "v", "/", "--verbose"]).contains("removed /two\n"));
}
