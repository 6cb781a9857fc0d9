//! What is measured on: volumes and trees of a size and a shape.

pub mod blocks;
pub mod both;
pub mod tree;
