//! "A port": something that answers the calls of RULES 1.3 over lent bytes. The statement of the rules is one, the proved library another.

mod aged;
mod audit;
mod by_list;
mod calls;
mod first;
mod inner;
mod kiosk;
mod library;
mod map;
mod merge;
mod plan;
mod salvage;
mod stated;

pub use audit::Audit;
pub use by_list::{library_version, ByList, ListCall};
pub use calls::{Answered, BlockCall, Blocks, Kind, Tree, TreeCall};
pub use first::First;
pub use inner::Inner;
pub use library::Library;
pub use map::{count_library, count_stated, MapCall, Mapped};
pub use merge::Merge;
pub use kiosk::{Kiosk, KioskCreate};
pub use plan::{Plan, PlanCall};
pub use salvage::{Asked, Salvage};
pub use stated::Stated;

pub trait Port {
    fn block_call(&self, call: &BlockCall, lent: &mut Blocks) -> Answered;
    fn tree_call(&self, call: &TreeCall, lent: &mut Tree) -> Answered;
}
