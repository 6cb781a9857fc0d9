//! Stands in for the original's `misc`, whose file leans on a hash crate: only `divide_up` is used by the three modules.

pub fn divide_up(value: usize, align: usize) -> usize {
    value.div_ceil(align)
}
