//! The answers: the number first, then the call's own fields, then entry and rule where a block table is judged. A
//! refusal has every field 0, but for entry and rule with number 4. The answers of block calls and of tree calls are
//! separate types; `Plain` is that of both formats, of read and write by a list, and of the tree.

macro_rules! answers {
    ($($(#[$doc:meta])* $name:ident { $($field:ident: $type:ty),* })*) => {$(
        $(#[$doc])*
        #[repr(C)]
        #[derive(Clone, Copy, Debug, Default, PartialEq, Eq)]
        pub struct $name {
            $(pub $field: $type,)*
        }
    )*};
}

answers! {
    /// Format, read and write by a list, and every tree call that gives nothing else.
    Plain { answer: u32 }
    /// A block call that gives nothing else.
    Answered { answer: u32, entry: usize, rule: u32 }
    /// The block table's test.
    Tested { answer: u32, free: usize, files: usize, entry: usize, rule: u32 }
    /// Create.
    Created { answer: u32, first_block: usize, entry: usize, rule: u32 }
    /// Open list.
    Opened { answer: u32, count: usize, entry: usize, rule: u32 }
    /// Audit.
    Audited { answer: u32, count: usize, entry: usize, rule: u32 }
    /// Find of a plan.
    Planned { answer: u32, count: usize, entry: usize, rule: u32 }
    /// The kiosk's test.
    Profiled { answer: u32, broken: u32, entry: usize, rule: u32 }
    /// Stretch query of a free map.
    Counted { answer: u32, free: usize }
    /// A chain of a table of any bytes: entry and rule say why it ends, 0 and 0 where it is whole.
    Salvaged { answer: u32, count: usize, entry: usize, rule: u32 }
    /// Listing.
    Listed { answer: u32, count: usize }
    /// Make.
    Made { answer: u32, inode: u32 }
    /// Lookup.
    Found { answer: u32, inode: u32, compared: u32 }
    /// Stat.
    Stat { answer: u32, dir_total: usize, dir_free: usize, file_total: usize, file_free: usize }
    /// An entry by which the tables are no honest writer's: its table (1 directories, 2 files) and inode, 0 and 0 for none.
    Aged { answer: u32, table: u32, inode: u32 }
    /// Where the 16 name bytes begin in the table that the kind selects.
    Named { answer: u32, offset: usize }
}
