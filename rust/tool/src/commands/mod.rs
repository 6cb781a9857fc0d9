//! The commands, a file each.

mod age;
mod audit;
mod cat;
mod check;
mod cp;
mod defrag;
mod kiosk;
mod lift;
mod ls;
mod map;
pub mod merge;
mod mkdir;
mod mv;
mod new;
mod put;
mod rm;
mod salvage;
mod status;
mod verify;
mod whole;

use crate::args::Command;

/// All commands, in the order of the help.
pub const ALL: &[Command] = &[
    check::COMMAND,
    audit::COMMAND,
    age::COMMAND,
    ls::COMMAND,
    cat::COMMAND,
    lift::COMMAND,
    verify::COMMAND,
    put::COMMAND,
    cp::COMMAND,
    mkdir::COMMAND,
    mv::COMMAND,
    rm::COMMAND,
    merge::COMMAND,
    whole::COMMAND,
    defrag::COMMAND,
    kiosk::COMMAND,
    new::COMMAND,
    map::COMMAND,
    status::COMMAND,
];
