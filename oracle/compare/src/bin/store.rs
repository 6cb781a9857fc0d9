//! `store FILE`: writes a sample of answers, of the block calls and then of the tree calls. It needs the original, and starts from a fixed seed.

use compare::chance::Chance;
use compare::stored::{self, block_bytes, tree_bytes};
use compare::{block_history, damage, edges, tree_history};

const SEED: u64 = 0x4D75_6B74_6869_6261;
/// At most so many for each call and refusal.
const EACH: usize = 4;

fn main() {
    let path = std::env::args().nth(1).expect("store FILE");
    assert!(original::PRESENT, "the original's source is not here: SAVE3DS_SRC names its folder");
    stored::keep(EACH);
    // Sessions with the original first, so that it gave most of what is kept.
    for case in 0..3_000 {
        block_history::run(&mut Chance::of_case(SEED, case));
        tree_history::run(&mut Chance::of_case(!SEED, case));
    }
    let chance = &mut Chance::new(SEED);
    damage::run(chance, 0, 3_000);
    edges::run(chance, 16);
    let kept = stored::kept();
    let blocks: Vec<Vec<u8>> = kept.blocks.iter().map(block_bytes).collect();
    let tree: Vec<Vec<u8>> = kept.tree.iter().map(tree_bytes).collect();
    let mut bytes = stored::part(stored::BLOCK_MARK, stored::BLOCK_RECORD, &blocks);
    bytes.extend(stored::part(stored::TREE_MARK, stored::TREE_RECORD, &tree));
    std::fs::write(&path, &bytes).expect("the file can be written");
    println!("{path}: {} bytes", bytes.len());
    let given = |of: usize, all: usize| println!("{of} of {all} given by the original too");
    given(kept.blocks.iter().filter(|r| r.original).count(), blocks.len());
    given(kept.tree.iter().filter(|r| r.original).count(), tree.len());
}
