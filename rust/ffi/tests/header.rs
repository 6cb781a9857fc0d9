//! The Rust declarations say what the C headers and the exports of the proved crates say: the same answers with the same
//! fields, and the same calls with the same parameters, in the same order.

use std::collections::BTreeMap;
use std::fs;
use std::path::Path;

const PUBLIC: &str = include_str!("../../../include/mukthiban.h");
const TYPES: &str = include_str!("../../../include/mukthiban_types.h");
const TESTED: &str = include_str!("../../../include/mukthiban_tested.h");

/// A text with one space where it had any white space, and none beside brackets.
fn tidy(text: &str) -> String {
    let one = text.split_whitespace().collect::<Vec<_>>().join(" ");
    one.replace("( ", "(").replace(" )", ")").replace(",)", ")").replace("{ ", "{").replace(" }", "}")
}

/// A header without comments and directives.
fn declarations(header: &str) -> String {
    let mut rest = header;
    let mut kept = String::new();
    while let Some((before, comment)) = rest.split_once("/*") {
        kept.push_str(before);
        rest = comment.split_once("*/").expect("a comment ends").1;
    }
    kept.push_str(rest);
    let lines = kept.lines().filter(|line| !line.starts_with('#') && !line.starts_with("extern") && *line != "}");
    tidy(&lines.collect::<Vec<_>>().join(" "))
}

fn rust_type(c: &str) -> &str {
    match c {
        "uint8_t" => "u8",
        "uint32_t" => "u32",
        "size_t" => "usize",
        other => panic!("{other} is no type of the interface"),
    }
}

/// `mukthiban_plain` is `Plain`; a number is a number.
fn answer_name(c: &str) -> String {
    match c.strip_prefix("mukthiban_") {
        Some(name) => name[..1].to_uppercase() + &name[1..],
        None => rust_type(c).to_string(),
    }
}

/// `const uint8_t name[16]` is `name: &[u8; 16]`. A pointer is a slice, whose length is what follows it; one to a size that no
/// length follows is to one number.
fn parameter(c: &str, next: Option<&str>) -> String {
    let (c, mutable) = match c.strip_prefix("const ") {
        Some(rest) => (rest, ""),
        None => (c, "mut "),
    };
    let (kind, name) = c.split_once(' ').expect("type and name");
    let kind = rust_type(kind);
    if let Some(name) = name.strip_prefix('*') {
        if kind == "usize" && next != Some(&format!("size_t {name}_len")) {
            return format!("{name}: &{mutable}{kind}");
        }
        return format!("{name}: &{mutable}[{kind}]");
    }
    match name.split_once('[') {
        Some((name, len)) => format!("{name}: &{mutable}[{kind}; {len}"),
        None => format!("{name}: {kind}"),
    }
}

/// Every parameter, a slice's pointer and length as one.
fn parameters(c: &str) -> String {
    let mut taken: Vec<String> = vec![];
    let mut all = c.split(", ").filter(|one| *one != "void").peekable();
    while let Some(one) = all.next() {
        let slice = taken.last().filter(|last| last.ends_with(']') && !last.contains(';'));
        let length = slice.and_then(|slice| slice.split_once(':')).map(|(name, _)| format!("size_t {name}_len"));
        if length.as_deref() != Some(one) {
            taken.push(parameter(one, all.peek().copied()));
        }
    }
    taken.join(", ")
}

/// The calls of a header, each as Rust says it.
fn calls_of(header: &str) -> Vec<String> {
    let text = declarations(header);
    let prototypes = text.split(';').filter(|part| part.contains('('));
    let calls = prototypes.map(|prototype| {
        let (front, back) = prototype.trim().split_once('(').expect("parameters");
        let (answer, name) = front.split_once(' ').expect("answer and name");
        format!("fn {name}({}) -> {}", parameters(back.trim_end_matches(')')), answer_name(answer))
    });
    calls.collect()
}

/// The calls that a source file declares.
fn declared(source: &str) -> Vec<String> {
    let text = tidy(source.split_once("calls! {").expect("the calls").1);
    // What stands behind a call's last semicolon is the file's end.
    let calls = text.split("fn ").skip(1).map(|call| call.rsplit_once(';').expect("a call ends").0);
    calls.map(|call| format!("fn {call}")).collect()
}

/// The structs of the header, by their Rust names, each with its fields.
fn answers_of(header: &str) -> BTreeMap<String, String> {
    let text = declarations(header);
    let structs = text.split("typedef struct").skip(1).map(|part| {
        let (fields, rest) = part.trim().trim_start_matches('{').split_once('}').expect("fields");
        let name = rest.trim().split(';').next().expect("a name");
        let fields = fields.split(';').filter(|field| !field.trim().is_empty());
        (answer_name(name), fields.map(parameter_of_field).collect::<Vec<_>>().join(", "))
    });
    structs.collect()
}

fn parameter_of_field(field: &str) -> String {
    let (kind, name) = field.trim().split_once(' ').expect("type and name");
    format!("{name}: {}", rust_type(kind))
}

/// Both have the same calls, at least so many.
fn same(header: &str, source: &str, least: usize) {
    let (in_c, in_rust) = (calls_of(header), declared(source));
    assert!(in_c.len() >= least, "the header declares {} calls", in_c.len());
    for (c, rust) in in_c.iter().zip(&in_rust) {
        assert_eq!(c, rust);
    }
    assert_eq!(in_c.len(), in_rust.len());
}

#[test]
fn public_calls() {
    same(PUBLIC, include_str!("../src/calls.rs"), 35);
}

#[test]
fn inner_calls() {
    same(TESTED, include_str!("../src/tested.rs"), 26);
}

#[test]
fn answers() {
    let text = tidy(include_str!("../src/answers.rs").split_once("\nanswers! {").expect("the answers").1);
    let answers = answers_of(TYPES);
    assert!(answers.len() >= 10, "the header declares {} answers", answers.len());
    for (name, fields) in answers {
        assert!(text.contains(&format!("{name} {{{fields}}}")), "{name} has other fields than {fields}");
    }
}

/// The structs of a source in Rust's form, `NAME {FIELD: TYPE, ..}`, each with its fields.
fn structs(tidy: &str, before: &str) -> BTreeMap<String, String> {
    let parts = tidy.split(before).skip(1).filter_map(|part| part.split_once('}')?.0.split_once(" {"));
    parts
        .map(|(name, fields)| (name.to_string(), fields.replace("pub ", "").trim_end_matches(',').to_string()))
        .collect()
}

/// Every call with its parameters and the fields of its answer. Rattle's answers may have other names.
fn with_fields(calls: Vec<String>, answers: &BTreeMap<String, String>) -> BTreeMap<String, String> {
    let calls = calls.iter().map(|call| {
        let (front, answer) = call.split_once(" -> ").expect("an answer");
        let (name, parameters) = front.split_once('(').expect("parameters");
        let fields = answers.get(answer).map_or(answer, String::as_str);
        (name.to_string(), format!("({parameters} -> {fields}"))
    });
    calls.collect()
}

/// The exports of the proved crates, as they are written there.
fn exports() -> BTreeMap<String, String> {
    let folder = Path::new(env!("CARGO_MANIFEST_DIR")).join("../../crates/mukthiban/src");
    let files = fs::read_dir(folder).expect("the crate of the exports").map(|file| file.unwrap().path());
    let text: String = files.map(|file| fs::read_to_string(file).unwrap() + "\n").collect();
    // What a struct derives is no part of its form.
    let text = tidy(&text.lines().filter(|line| !line.starts_with("#[derive(")).collect::<Vec<_>>().join("\n"));
    let answers = structs(&text, "#[repr(C)] pub struct ");
    let calls = text.split("pub extern \"C\" ").skip(1).map(|part| {
        let (front, back) = part.split_once(" -> ").expect("an answer");
        format!("{front} -> {}", back.split_whitespace().next().expect("its name"))
    });
    with_fields(calls.collect(), &answers)
}

#[test]
fn exports_of_the_crates() {
    let answers = include_str!("../src/answers.rs").split_once("\nanswers! {").expect("the answers").1;
    let plain: String = answers.lines().filter(|line| !line.trim().starts_with("///")).collect::<Vec<_>>().join(" # ");
    let answers = structs(&tidy(&plain), "# ");
    let mut calls = declared(include_str!("../src/calls.rs"));
    calls.extend(declared(include_str!("../src/tested.rs")));
    let (declared, exported) = (with_fields(calls, &answers), exports());
    assert!(exported.len() >= 59, "{} exports", exported.len());
    for (name, call) in &declared {
        assert_eq!(exported.get(name), Some(call), "{name}");
    }
    assert_eq!(declared.len(), exported.len());
}

#[test]
fn version() {
    assert!(TYPES.contains(concat!("#define MUKTHIBAN_VERSION \"", env!("CARGO_PKG_VERSION"), "\"\n")));
    for (name, number) in [
        ("MAJOR", env!("CARGO_PKG_VERSION_MAJOR")),
        ("MINOR", env!("CARGO_PKG_VERSION_MINOR")),
        ("PATCH", env!("CARGO_PKG_VERSION_PATCH")),
    ] {
        assert!(TYPES.contains(&format!("#define MUKTHIBAN_VERSION_{name} {number}\n")), "{name}");
    }
}
