//! docs/JSON.md shows the shapes that the commands answer.

use crate::bench::{two_files, Bench};
use crate::json::{parse, Value};
use std::fs;
use std::path::Path;

/// The examples of docs/JSON.md, by command.
fn examples() -> Vec<Value> {
    let text = fs::read_to_string(Path::new(env!("CARGO_MANIFEST_DIR")).join("../../docs/JSON.md")).unwrap();
    text.lines().filter_map(|l| l.strip_prefix("    {")).map(|l| parse(&format!("{{{l}"))).collect()
}

fn command(value: &Value) -> &Value {
    value.get("command")
}

/// Fails unless both have the same fields in the same order, and values of the same sorts. An empty list and null fit
/// anything.
fn alike(a: &Value, b: &Value, at: &str) {
    match (a, b) {
        (Value::Null, _) | (_, Value::Null) => (),
        (Value::Object(a), Value::Object(b)) => {
            let keys = |o: &[(String, Value)]| o.iter().map(|(k, _)| k.clone()).collect::<Vec<_>>();
            assert_eq!(keys(a), keys(b), "{at}");
            a.iter().zip(b).for_each(|((key, a), (_, b))| alike(a, b, &format!("{at}.{key}")));
        }
        (Value::List(a), Value::List(b)) => {
            if let (Some(a), Some(b)) = (a.first(), b.first()) {
                alike(a, b, at);
            }
        }
        _ => assert_eq!(std::mem::discriminant(a), std::mem::discriminant(b), "{at}"),
    }
}

fn answer(b: &Bench, words: &[&str]) -> Value {
    let out = b.run(&[words, &["--json"]].concat());
    parse(&String::from_utf8(if out.stdout.is_empty() { out.stderr } else { out.stdout }).unwrap())
}

/// A volume with two records on one chain, and a chain without one.
fn muddled() -> Bench {
    let b = two_files();
    b.poke("v/file_table.bin", 2 * 48 + 28, &[0, 0, 0, 0]);
    b
}

#[test]
fn answers_have_the_shapes_of_the_paper() {
    let b = muddled();
    let mut answers = vec![
        answer(&b, &["check", "v"]),
        answer(&b, &["audit", "v"]),
        answer(&b, &["age", "v"]),
        answer(&b, &["ls", "v"]),
        answer(&b, &["map", "v"]),
        answer(&b, &["lift", "v", "out"]),
        answer(&b, &["verify", "v", "."]),
        answer(&b, &["ls", "w"]),
    ];
    b.poke("v/file_table.bin", 2 * 48 + 28, &[2, 0, 0, 0]);
    answers.push(answer(&b, &["put", "v", "one", "new"]));
    answers.push(answer(&b, &["cp", "v", "one", "v", "newer"]));
    answers.push(answer(&b, &["merge", "v"]));
    answers.push(answer(&b, &["whole", "v", "one"]));
    answers.push(answer(&b, &["defrag", "v"]));
    answers.push(answer(&b, &["status", "v"]));
    answers.push(answer(&b, &["kiosk", "check", "v"]));
    b.poke("v/file_table.bin", 2 * 48 + 28, &[7, 0, 0, 0]);
    answers.push(answer(&b, &["lift", "v", "out2"]));
    b.poke("v/fat.bin", 0, &[1]);
    answers.push(answer(&b, &["check", "v"]));
    let examples = examples();
    assert_eq!(examples.len(), 14);
    for answer in &answers {
        let of_error = |v: &Value| matches!(v, Value::Object(o) if o.iter().any(|(k, _)| k == "error"));
        let Value::Text(name) = command(answer) else { panic!("a text") };
        let name = Value::Text(if name == "cp" { "put" } else { name }.into());
        let example = examples.iter().find(|e| *command(e) == name && of_error(e) == of_error(answer));
        alike(answer, example.unwrap_or_else(|| panic!("{name:?} is in the paper")), &format!("{name:?}"));
    }
}

#[test]
fn each_change_is_told() {
    let b = two_files();
    for (words, change, path) in [
        (&["mkdir", "v", "d"][..], "made", "/d"),
        (&["mv", "v", "one", "d"], "moved", "/d/one"),
        (&["rm", "v", "two"], "removed", "/two"),
        (&["put", "v", "two", "/"], "put", "/two"),
        (&["cp", "v", "two", "v", "d"], "cp", "/d/two"),
        (&["new", "w", "--blocks", "4"], "made", "w"),
    ] {
        let value = answer(&b, words);
        assert_eq!(command(&value), &Value::Text(words[0].into()));
        let Value::List(changes) = value.get("changes") else { panic!("a list") };
        assert_eq!(changes.len(), 1, "{words:?}");
        assert_eq!(changes[0].get("change"), &Value::Text(change.into()));
        assert_eq!(changes[0].get("path"), &Value::Text(path.into()));
    }
}
