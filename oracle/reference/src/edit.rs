//! The single-voxel edit as document 01 has it, on document 01's arena: the result is written down first, as parts that are there and parts that are
//! to be made, then refused or made.
use crate::arena::{Arena, MOST_HOLDS};
use crate::document01::{EMPTY, INVALID, child, is_leaf};

/// Depth is at most this.
const DEEPEST: u32 = 6;

/// A part of the result.
#[derive(Clone, Debug, PartialEq, Eq)]
enum Part {
    /// EMPTY, or a node that is live.
    There(u64),
    /// A leaf that is not yet live.
    Leaf(u16),
    /// A branch that is not yet live.
    Branch(Box<[Part; 8]>),
}

impl Part {
    fn is_leaf(&self) -> bool {
        match self {
            Part::There(id) => is_leaf(*id),
            Part::Leaf(_) => true,
            Part::Branch(_) => false,
        }
    }

    /// The nodes of the part that are not yet live.
    fn not_yet_live(&self) -> usize {
        match self {
            Part::There(_) => 0,
            Part::Leaf(_) => 1,
            Part::Branch(parts) => 1 + parts.iter().map(Part::not_yet_live).sum::<usize>(),
        }
    }
}

/// The voxel to be set.
#[derive(Clone, Copy)]
struct Voxel {
    depth: u32,
    cell: [i32; 3],
    value: u16,
}

impl Voxel {
    fn child_at(&self, level: u32) -> usize {
        let [x, y, z] = self.cell;
        child(x, y, z, level, self.depth).1 as usize
    }
}

impl Arena {
    /// The number of the refusal and INVALID, or 0 and the root with the cell set to the value.
    pub fn edit(&mut self, root: u64, depth: u32, cell: [i32; 3], value: u16) -> (u32, u64) {
        self.begin();
        if depth > DEEPEST {
            return (2, INVALID);
        }
        if cell.iter().any(|c| *c < 0 || *c >= 1 << depth) {
            return (3, INVALID);
        }
        if !self.is_empty_or_live(root) {
            return (4, INVALID);
        }
        if u32::from(self.height(root)) > depth {
            return (8, INVALID);
        }
        let voxel = Voxel { depth, cell, value };
        let result = if self.value_of_cell(root, depth, cell) == value {
            Part::There(root)
        } else {
            self.made_anew(root, 0, voxel)
        };
        if let Part::There(id) = result
            && id != EMPTY
            && self.node(id).holds >= MOST_HOLDS
        {
            return (10, INVALID);
        }
        if result.not_yet_live() > self.capacity() - 1 - self.live() {
            return (11, INVALID);
        }
        match self.make(&result) {
            EMPTY => (0, EMPTY),
            id => self.grant(id),
        }
    }

    /// Down from the root until EMPTY, a leaf, or level d.
    pub(crate) fn value_of_cell(&self, root: u64, depth: u32, [x, y, z]: [i32; 3]) -> u16 {
        let mut id = root;
        for level in 0..depth {
            id = self.eight(id)[child(x, y, z, level, depth).1 as usize];
        }
        self.value(id)
    }

    /// The children of a branch. A leaf met above level d stands for eight of itself, and EMPTY for eight EMPTY.
    pub(crate) fn eight(&self, id: u64) -> [u64; 8] {
        if id == EMPTY || is_leaf(id) {
            [id; 8]
        } else {
            self.node(id).children
        }
    }

    /// What stands in the place of the id once the cell below it is set.
    fn made_anew(&self, id: u64, level: u32, voxel: Voxel) -> Part {
        if level == voxel.depth {
            return match voxel.value {
                0 => Part::There(EMPTY),
                value => self.leaf_of(value).map_or(Part::Leaf(value), Part::There),
            };
        }
        let ids = self.eight(id);
        let mut parts = ids.map(Part::There);
        let number = voxel.child_at(level);
        parts[number] = self.made_anew(ids[number], level + 1, voxel);
        self.branch_over(parts)
    }

    /// Eight EMPTY become EMPTY, eight times one leaf become that leaf; else the live branch with these children, or one that is to be made.
    fn branch_over(&self, parts: [Part; 8]) -> Part {
        let first = &parts[0];
        let is_collapsing = *first == Part::There(EMPTY) || first.is_leaf();
        if is_collapsing && parts.iter().all(|part| part == first) {
            return first.clone();
        }
        let ids = parts.each_ref().map(|part| match part {
            Part::There(id) => Some(*id),
            _ => None,
        });
        let live = if ids.iter().all(Option::is_some) {
            self.branch_of(&ids.map(Option::unwrap))
        } else {
            None
        };
        live.map_or_else(|| Part::Branch(Box::new(parts)), Part::There)
    }

    /// Makes what is not yet live, leaf first and upward.
    fn make(&mut self, part: &Part) -> u64 {
        match part {
            Part::There(id) => *id,
            Part::Leaf(value) => self.fresh_leaf(*value),
            Part::Branch(parts) => {
                let children = parts.each_ref().map(|part| self.make(part));
                self.fresh_branch(children)
            }
        }
    }
}
