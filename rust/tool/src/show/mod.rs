//! What draws and prints.

pub mod aged;
pub mod audited;
pub mod colour;
pub mod compared;
pub mod help;
pub mod json;
pub mod lifted;
pub mod listing;
pub mod map;
pub mod picture;
pub mod profiled;
pub mod salvaged;
pub mod svg;
pub mod taken;
pub mod term;
pub mod verdict;
