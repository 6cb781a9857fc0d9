//! Runs the same calls on the statement of the rules, on the original and on the proved library, and compares every byte.

pub mod aged;
pub mod audited;
pub mod block_history;
pub mod by_list;
pub mod chance;
pub mod check;
pub mod closure;
pub mod damage;
pub mod edges;
pub mod mapped;
pub mod merged;
pub mod planned;
pub mod profiled;
pub mod retired;
pub mod salvaged;
pub mod stored;
pub mod tree_history;
pub mod trees;
pub mod volumes;
