//! Reading as document 01 has it, over the port's tables, whatever stands in them: a lookup walks down, and an expansion is a lookup for each cell.
use crate::document01::{EMPTY, child, is_leaf};
use crate::tables::Tables;

/// Depth 0 to 6.
pub const DEEPEST: u32 = 6;

/// A coordinate below 0 or at least 2^d.
fn is_outside(depth: u32, cell: [i32; 3]) -> bool {
    cell.iter().any(|c| *c < 0 || *c >= 1 << depth)
}

pub(crate) fn is_empty_or_live(tables: &Tables, id: u64) -> bool {
    id == EMPTY || tables.is_live(id)
}

/// The number of the refusal of a lookup, the lowest that applies, or 0.
pub fn lookup_refusal(tables: &Tables, id: u64, depth: u32, cell: [i32; 3]) -> u32 {
    if !tables.fit(tables.capacity) {
        1
    } else if depth > DEEPEST {
        2
    } else if is_outside(depth, cell) {
        3
    } else if !is_empty_or_live(tables, id) {
        4
    } else {
        0
    }
}

/// The number of the refusal and 0, or 0 and the value at the cell.
pub fn lookup(tables: &Tables, id: u64, depth: u32, cell: [i32; 3]) -> (u32, u16) {
    match lookup_refusal(tables, id, depth, cell) {
        0 => (0, value_at(tables, id, depth, cell)),
        refusal => (refusal, 0),
    }
}

/// Lookup starts at the given id as level 0 and goes down until EMPTY (0), a leaf (its value), or level d (the stored value).
pub(crate) fn value_at(tables: &Tables, id: u64, depth: u32, [x, y, z]: [i32; 3]) -> u16 {
    let mut at = id;
    for level in 0..depth {
        if at == EMPTY || is_leaf(at) {
            break;
        }
        at = tables.child(at, child(x, y, z, level, depth).1);
    }
    tables.value(at)
}

/// The number of the refusal of an expansion into so many values, the lowest that applies, or 0.
pub fn expansion_refusal(tables: &Tables, id: u64, depth: u32, length: usize) -> u32 {
    if !tables.fit(tables.capacity) {
        1
    } else if depth > DEEPEST {
        2
    } else if !is_empty_or_live(tables, id) {
        4
    } else if length != 1 << (3 * depth) {
        9
    } else {
        0
    }
}

/// The cells of a depth in the order of an expansion: cell (x, y, z) stands at y·4^d + z·2^d + x.
pub fn cells(depth: u32) -> impl Iterator<Item = [i32; 3]> {
    let side = 1 << depth;
    (0..side).flat_map(move |y| (0..side).flat_map(move |z| (0..side).map(move |x| [x, y, z])))
}

/// Expansion writes 8^d values, of a depth to 6. Each cell equals lookup.
pub fn expansion(tables: &Tables, id: u64, depth: u32) -> Vec<u16> {
    cells(depth)
        .map(|cell| value_at(tables, id, depth, cell))
        .collect()
}
