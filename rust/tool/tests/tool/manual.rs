//! The manual page and the completion know every command and option, and no other.

use crate::bench::Bench;
use std::fs;
use std::path::Path;
use std::process::Command;

/// Every command with its options, as the help has them.
fn commands(b: &Bench) -> Vec<(String, Vec<String>)> {
    let overview = b.done(&["--help"]);
    let names = overview.lines().filter_map(|l| l.strip_prefix("  ")).map(|l| l.split(' ').next().unwrap().to_string());
    let with_options = names.map(|name| {
        let help = b.done(&[&name, "--help"]);
        let options =
            help.lines().filter_map(|l| l.strip_prefix("  -")).map(|l| format!("-{}", l.split(' ').next().unwrap()));
        (name, options.collect())
    });
    with_options.collect()
}

fn file(name: &str) -> String {
    fs::read_to_string(Path::new(env!("CARGO_MANIFEST_DIR")).join("man").join(name)).unwrap()
}

/// The words that bash offers behind others.
fn offered(words: &[&str]) -> Vec<String> {
    let script = "source \"$1\"; shift; COMP_WORDS=(\"$@\"); COMP_CWORD=$(($# - 1)); _mukthiban; printf '%s\\n' \"${COMPREPLY[@]}\"";
    let path = Path::new(env!("CARGO_MANIFEST_DIR")).join("man/mukthiban.bash");
    let out =
        Command::new("bash").args(["-c", script, "bash"]).arg(path).arg("mukthiban").args(words).output().unwrap();
    assert!(out.status.success(), "{}", String::from_utf8_lossy(&out.stderr));
    let mut words: Vec<String> = String::from_utf8(out.stdout).unwrap().lines().map(Into::into).collect();
    words.sort();
    words
}

#[test]
fn the_completion_knows_every_command_and_option() {
    let b = Bench::new();
    let commands = commands(&b);
    assert!(commands.len() >= 12);
    let mut all: Vec<String> = commands.iter().map(|(name, _)| name.clone()).collect();
    all.extend(["help", "--help", "--version"].map(Into::into));
    all.sort();
    assert_eq!(offered(&[""]), all);
    for (name, options) in &commands {
        let mut expected = options.clone();
        expected.push("--help".into());
        expected.sort();
        assert_eq!(offered(&[name, "-"]), expected, "{name}");
    }
    assert_eq!(offered(&["ls", "--al"]), ["--all"]);
    assert_eq!(offered(&["new", "v", "--blocks", ""]), [""]);
}

#[test]
fn the_manual_page_knows_every_command_and_option() {
    let b = Bench::new();
    let page = file("mukthiban.1");
    let plain = page.replace("\\-", "-").replace("\\fB", "").replace("\\fI", "").replace("\\fR", "");
    let commands = commands(&b);
    for (name, options) in &commands {
        let takes = b.done(&[name, "--help"]).lines().next().unwrap().to_string();
        let takes = takes.split(" [-").next().unwrap().trim_start_matches("mukthiban ").to_string();
        let head = plain.lines().find(|l| l.starts_with(&takes)).unwrap_or_else(|| panic!("{name}: {takes}"));
        for option in options {
            let common = plain.contains(&format!("\n.B {option}\n")) || plain.contains(&format!("\n{option} "));
            assert!(head.contains(option.as_str()) || common, "{name} {option}");
        }
    }
    // Nor does it know one that is not there.
    let known: Vec<&String> = commands.iter().flat_map(|(_, options)| options).collect();
    for word in plain.split(|c: char| !(c.is_alphanumeric() || c == '-')).filter(|w| w.starts_with("--")) {
        assert!(known.iter().any(|k| *k == word) || ["--help", "--version"].contains(&word), "{word}");
    }
    for code in ["0 sound", "4 not sound", "8 could not", "16 wrong"] {
        assert!(plain.contains(code) && b.done(&["--help"]).contains(code), "{code}");
    }
}
