//! The finding table as docs/TABLES.md has it: which slot has a content. Document 01 leaves it to the port, and no answer depends on it.
use crate::document01::is_leaf;

/// The homes of contents are so many times the slots.
pub const HOMES: usize = 4;
/// The cells are so many times the slots: the homes, and past the last of them a cell for each slot.
pub const CELLS: usize = HOMES + 1;

/// A leaf's value is multiplied by the first, and the low half of child i of a branch by number i.
const MULTIPLIERS: [u32; 8] = [
    0x9E37_79B1,
    0x85EB_CA77,
    0xC2B2_AE3D,
    0x27D4_EB2F,
    0x1656_67B1,
    0xD6E8_FEB9,
    0xA136_AAAD,
    0x7FEB_352D,
];

/// The hash of a leaf of this value.
pub fn leaf_hash(value: u32) -> u32 {
    value.wrapping_mul(MULTIPLIERS[0])
}

/// The hash of a branch of these children.
pub fn branch_hash(children: &[u64]) -> u32 {
    children
        .iter()
        .zip(MULTIPLIERS)
        .map(|(id, multiplier)| (*id as u32).wrapping_mul(multiplier))
        .fold(0, u32::wrapping_add)
}

/// The hash of the content of a node of this id.
pub fn hash(id: u64, children: &[u64], value: u32) -> u32 {
    if is_leaf(id) {
        leaf_hash(value)
    } else {
        branch_hash(children)
    }
}

/// The first cell in which a search looks for a content of this hash.
pub fn home(capacity: usize, hash: u32) -> usize {
    ((u64::from(hash) * (HOMES * capacity) as u64) >> 32) as usize
}

/// The table of an arena of so many slots: in each cell a slot number, or 0.
#[derive(Clone)]
pub struct Finding {
    capacity: usize,
    cells: Vec<u16>,
}

impl Finding {
    pub fn fresh(capacity: usize) -> Self {
        Self {
            capacity,
            cells: vec![0; CELLS * capacity],
        }
    }

    pub fn cells(&self) -> &[u16] {
        &self.cells
    }

    /// Names a slot in the first empty cell from the home of its hash on.
    pub fn insert(&mut self, slot: u32, hash: u32) {
        let mut at = home(self.capacity, hash);
        while self.cells[at] != 0 {
            at += 1;
        }
        self.cells[at] = slot as u16;
    }

    /// Takes out a slot that is named. What stands in the cells after it, up to the first empty one, moves into the hole if its home is there or lower, and
    /// leaves a hole in its turn. The other slots have these hashes.
    pub fn remove(&mut self, slot: u32, hash: u32, hash_of: impl Fn(u16) -> u32) {
        let mut hole = home(self.capacity, hash);
        while u32::from(self.cells[hole]) != slot {
            hole += 1;
        }
        for at in hole + 1..self.cells.len() {
            let named = self.cells[at];
            if named == 0 {
                break;
            }
            if home(self.capacity, hash_of(named)) <= hole {
                self.cells[hole] = named;
                hole = at;
            }
        }
        self.cells[hole] = 0;
    }
}
