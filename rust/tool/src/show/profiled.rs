//! Whether a volume is in the kiosk's profile.

use crate::show::json;
use mukthiban::kiosk::Rule;

/// That it is, or the rule in words and what breaks it.
pub fn as_text(volume: &str, rule: Option<Rule>, breaks: &[String], quiet: bool) -> String {
    match rule {
        None if quiet => String::new(),
        None => format!("in the kiosk's profile  {volume}\n"),
        Some(rule) => {
            let first = format!("not in the kiosk's profile  {volume}\n  rule {}: {rule}\n", rule.number());
            breaks.iter().fold(first, |out, line| out + &format!("    {line}\n"))
        }
    }
}

pub fn as_json(volume: &str, rule: Option<Rule>, breaks: &[String]) -> String {
    let text = |rule: Rule| json::text(&rule.to_string());
    json::answer(
        "kiosk check",
        &[
            ("volume", json::text(volume)),
            ("in_profile", rule.is_none().to_string()),
            ("rule", rule.map_or(0, Rule::number).to_string()),
            ("meaning", rule.map_or("null".into(), text)),
            ("breaks", json::list(breaks.iter().map(|line| json::text(line)))),
        ],
    )
}
