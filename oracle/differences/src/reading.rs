//! The departures of lookup and expansion, each at its smallest input. `oracle/reading` sees that the port does at these inputs what is said here.
use crate::arena::{NONE, branch, first, original};
use crate::show;
use glam::IVec3;
use std::hint::black_box;
use voxelis::utils::common::{get_at_depth, to_vec};
use voxelis::{BlockId, MaxDepth, TraversalDepth, VoxInterner};

fn look_from(
    arena: &VoxInterner<u16>,
    id: BlockId,
    [x, y, z]: [i32; 3],
    level: u8,
    depth: u8,
) -> Option<u16> {
    let depths = TraversalDepth::new(black_box(level), black_box(depth));
    get_at_depth(arena, id, &IVec3::new(x, y, z), &depths)
}

pub fn look(arena: &VoxInterner<u16>, id: BlockId, cell: [i32; 3], depth: u8) -> Option<u16> {
    look_from(arena, id, cell, 0, depth)
}

fn expand(arena: &VoxInterner<u16>, id: BlockId, depth: u8) -> Vec<u16> {
    to_vec(arena, &id, MaxDepth::new(black_box(depth)))
}

fn cells_and_depths() {
    let mut arena = original(8);
    let leaf = arena.get_or_create_leaf(5);
    let mut children = [NONE; 8];
    children[7] = leaf;
    let last = branch(&mut arena, children);
    for cell in [[-1, -1, -1], [3, 3, 3]] {
        show(
            "D9",
            &format!("branch[7: leaf 5], depth 1, cell {cell:?}"),
            || look(&arena, last, cell, 1),
            "refuses with 3",
        );
    }
    show(
        "D9",
        "leaf 5, depth 0, cell [1, 0, 0]",
        || look(&arena, leaf, [1, 0, 0], 0),
        "refuses with 3",
    );
    show(
        "D11",
        "leaf 5 looked up at depth 7",
        || look(&arena, leaf, [0; 3], 7),
        "refuses with 2",
    );
    show(
        "D11",
        "branch[7: leaf 5] looked up at depth 65",
        || look(&arena, last, [0; 3], 65),
        "refuses with 2",
    );
    for depth in [7, 22] {
        show(
            "D11",
            &format!("leaf 5 expanded at depth {depth}: how many values"),
            || expand(&arena, leaf, depth).len(),
            "refuses with 2",
        );
    }
    show(
        "D12",
        "branch[7: leaf 5], [1, 1, 1], level 1 of depth 2",
        || look_from(&arena, last, [1; 3], 1, 2),
        "starts at level 0: answers 5 at depth 1",
    );
    show(
        "D12",
        "branch[7: leaf 5], level 2 of depth 1",
        || look_from(&arena, last, [1; 3], 2, 1),
        "starts at level 0: answers 0 at depth 0",
    );
}

fn ids() {
    let mut arena = original(8);
    let leaf = arena.get_or_create_leaf(1);
    let low = branch(&mut arena, first([leaf], NONE));
    show(
        "D13",
        "branch[leaf 1] at depth 0, looked up and expanded",
        || (look(&arena, low, [0; 3], 0), expand(&arena, low, 0)),
        "answers 0 for both",
    );
    show(
        "D13",
        "EMPTY at depth 0, looked up and expanded",
        || (look(&arena, NONE, [0; 3], 0), expand(&arena, NONE, 0)),
        "answers 0 for both",
    );
    let unflagged = BlockId::from_raw(leaf.raw() & !(1 << 63));
    show(
        "D14",
        "leaf 1 in slot 1; raw 1 at depth 0, both",
        || {
            let looked = look(&arena, unflagged, [0; 3], 0);
            (looked, expand(&arena, unflagged, 0))
        },
        "refuses both with 4",
    );
    let reused = || {
        let mut arena = original(8);
        let leaf = arena.get_or_create_leaf(5);
        arena.dec_ref_recursive(&leaf);
        arena.get_or_create_leaf(6);
        (arena, leaf)
    };
    show(
        "D15",
        "leaf 5, release, leaf 6; the first id looked up",
        || {
            let (arena, leaf) = reused();
            look(&arena, leaf, [0; 3], 1)
        },
        "refuses with 4",
    );
    show(
        "D15",
        "and the first id expanded at depth 0",
        || {
            let (arena, leaf) = reused();
            expand(&arena, leaf, 0)
        },
        "refuses with 4",
    );
    show(
        "D16",
        "INVALID looked up",
        || look(&original(8), BlockId::INVALID, [0; 3], 1),
        "refuses with 4",
    );
    show(
        "D16",
        "INVALID expanded at depth 0",
        || expand(&original(8), BlockId::INVALID, 0),
        "refuses with 4",
    );
}

/// The original makes the cube itself, so that no length can be wrong.
fn lent_cube() {
    show(
        "D29",
        "EMPTY expanded at depth 0",
        || expand(&original(8), NONE, 0),
        "writes a lent cube; one of 0 or 2 values it refuses with 9",
    );
}

pub fn all() {
    cells_and_depths();
    ids();
    lent_cube();
}
