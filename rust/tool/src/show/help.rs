//! The help texts.

use crate::args::{Command, COMMON};

/// All commands in short.
pub fn overview(commands: &[Command]) -> String {
    let mut out = String::from("mukthiban: looks after saved-game volumes\n\n");
    for c in commands {
        out += &format!("  {:<27} {}\n", format!("{} {}", c.name, c.takes), c.short);
    }
    out + "\n\
        A volume is a folder with fat.bin, data.bin, dir_hash.bin, dir_table.bin, file_hash.bin, file_table.bin\n\
        and block_len. `mukthiban COMMAND --help` says more of a command.\n\n\
        Exit codes: 0 sound, equal or done, 4 not sound or not equal, 8 could not be done, 16 wrong usage.\n"
}

/// What there is to know of one command.
pub fn help(c: &Command) -> String {
    let options: String = c.options.iter().map(|(n, v, _)| format!(" [{}]", format!("{n} {v}").trim())).collect();
    let mut out = format!("mukthiban {} {}{options}\n\n{}", c.name, c.takes, capital(c.short));
    out += ".\n";
    if !c.long.is_empty() {
        out += &format!("\n{}\n", c.long);
    }
    out.push('\n');
    for (name, value, what) in c.options.iter().chain(COMMON) {
        out += &format!("  {:<16} {what}\n", format!("{name} {value}"));
    }
    out
}

fn capital(text: &str) -> String {
    let mut chars = text.chars();
    chars.next().map_or_else(String::new, |c| c.to_uppercase().collect::<String>() + chars.as_str())
}
