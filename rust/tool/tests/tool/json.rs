//! A strict little reader of JSON, for the tests.

#[derive(Debug, PartialEq)]
pub enum Value {
    Null,
    Bool(bool),
    Number(f64),
    Text(String),
    List(Vec<Value>),
    Object(Vec<(String, Value)>),
}

impl Value {
    pub fn get(&self, key: &str) -> &Value {
        let Value::Object(fields) = self else { panic!("{self:?} is no object") };
        &fields.iter().find(|(k, _)| k == key).unwrap_or_else(|| panic!("no {key}")).1
    }
}

pub fn parse(text: &str) -> Value {
    let mut rest = text;
    let value = value(&mut rest);
    assert_eq!(rest.trim(), "", "nothing stands behind the value");
    value
}

fn value(rest: &mut &str) -> Value {
    *rest = rest.trim_start();
    for (word, value) in [("null", Value::Null), ("true", Value::Bool(true)), ("false", Value::Bool(false))] {
        if let Some(after) = rest.strip_prefix(word) {
            *rest = after;
            return value;
        }
    }
    match rest.chars().next().expect("a value") {
        '"' => Value::Text(text(rest)),
        '[' => Value::List(items(rest, '[', ']', value)),
        '{' => Value::Object(items(rest, '{', '}', |rest| {
            *rest = rest.trim_start();
            let key = text(rest);
            *rest = rest.trim_start().strip_prefix(':').expect("a colon");
            (key, value(rest))
        })),
        _ => {
            let end = rest.find(|c: char| !"+-.eE0123456789".contains(c)).unwrap_or(rest.len());
            let (number, after) = rest.split_at(end);
            *rest = after;
            Value::Number(number.parse().expect("a number"))
        }
    }
}

fn items<T>(rest: &mut &str, open: char, close: char, item: impl Fn(&mut &str) -> T) -> Vec<T> {
    *rest = rest.strip_prefix(open).expect("an opening bracket").trim_start();
    let mut out = Vec::new();
    if let Some(after) = rest.strip_prefix(close) {
        *rest = after;
        return out;
    }
    loop {
        out.push(item(rest));
        *rest = rest.trim_start();
        if let Some(after) = rest.strip_prefix(close) {
            *rest = after;
            return out;
        }
        *rest = rest.strip_prefix(',').expect("a comma or a closing bracket").trim_start();
    }
}

fn text(rest: &mut &str) -> String {
    let mut chars = rest.strip_prefix('"').expect("a quote").chars();
    let mut out = String::new();
    loop {
        match chars.next().expect("a closing quote") {
            '"' => break,
            '\\' => match chars.next().expect("an escape") {
                'n' => out.push('\n'),
                'u' => {
                    let code: String = chars.by_ref().take(4).collect();
                    out.push(char::from_u32(u32::from_str_radix(&code, 16).unwrap()).unwrap());
                }
                c @ ('"' | '\\') => out.push(c),
                c => panic!("escape {c}"),
            },
            c if (c as u32) < 0x20 => panic!("a bare control character"),
            c => out.push(c),
        }
    }
    *rest = chars.as_str();
    out
}
