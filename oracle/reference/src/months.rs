//! Two months side by side as document 02 has them, over document 01's arena, or over the port's tables, whatever stands in them: every cell is looked up on both
//! sides, and the pairs opened are walked as that paper says.
use crate::arena::Arena;
use crate::document01::{EMPTY, cell, index, is_leaf};
use crate::reading::{self, DEEPEST};
use crate::tables::{HEIGHT, Tables};
use std::cell::OnceCell;

/// The nodes that two roots stand in.
pub trait Nodes {
    /// Are capacity and lengths as they should be?
    fn fit(&self) -> bool;
    fn is_empty_or_live(&self, id: u64) -> bool;
    /// The height of EMPTY or a live node.
    fn height(&self, id: u64) -> u64;
    /// The children of a branch. A leaf or EMPTY stands for its own eight.
    fn eight(&self, id: u64) -> [u64; 8];
    fn look(&self, id: u64, depth: u32, cell: [i32; 3]) -> u16;
    /// The levels below which nothing is opened, of roots no taller than the depth.
    fn levels(&self, depth: u32) -> u32;
}

impl Nodes for Arena {
    fn fit(&self) -> bool {
        true
    }

    fn is_empty_or_live(&self, id: u64) -> bool {
        Arena::is_empty_or_live(self, id)
    }

    fn height(&self, id: u64) -> u64 {
        Arena::height(self, id).into()
    }

    fn eight(&self, id: u64) -> [u64; 8] {
        Arena::eight(self, id)
    }

    fn look(&self, id: u64, depth: u32, cell: [i32; 3]) -> u16 {
        self.value_of_cell(id, depth, cell)
    }

    /// Its trees end by themselves.
    fn levels(&self, _: u32) -> u32 {
        u32::MAX
    }
}

impl Nodes for Tables<'_> {
    fn fit(&self) -> bool {
        Tables::fit(self, self.capacity)
    }

    fn is_empty_or_live(&self, id: u64) -> bool {
        reading::is_empty_or_live(self, id)
    }

    fn height(&self, id: u64) -> u64 {
        match id {
            EMPTY => 0,
            id => self.fact(index(id) as usize, HEIGHT).into(),
        }
    }

    fn eight(&self, id: u64) -> [u64; 8] {
        if id == EMPTY || is_leaf(id) {
            [id; 8]
        } else {
            std::array::from_fn(|number| self.child(id, number as u32))
        }
    }

    fn look(&self, id: u64, depth: u32, cell: [i32; 3]) -> u16 {
        reading::value_at(self, id, depth, cell)
    }

    /// In tables that are not well formed a branch may stand below the cells, or below itself.
    fn levels(&self, depth: u32) -> u32 {
        depth
    }
}

/// A differing cell: its path code, and both values.
#[derive(Clone, Copy, Debug, PartialEq, Eq)]
pub struct Differing {
    pub code: u32,
    pub left: u16,
    pub right: u16,
}

/// The differing cells, each once, in rising path code; and how many pairs are opened.
#[derive(Clone, Debug, PartialEq, Eq)]
pub struct Differences {
    pub cells: Vec<Differing>,
    pub opened: u64,
}

/// The cell of a path code below 2^30.
pub fn cell_of(code: u32) -> [i32; 3] {
    let (_, x, y, z) = cell(code);
    [x, y, z]
}

/// A branch other than EMPTY.
pub fn is_branch(id: u64) -> bool {
    id != EMPTY && !is_leaf(id)
}

/// A pair is opened if its ids differ and at least one is a branch other than EMPTY. Opening a pair walks its eight places, and each place may open a pair again.
fn opened(nodes: &impl Nodes, left: u64, right: u64, levels: u32) -> u64 {
    let is_opened = left != right && (is_branch(left) || is_branch(right));
    if !is_opened || levels == 0 {
        return 0;
    }
    let places = nodes.eight(left).into_iter().zip(nodes.eight(right));
    1 + places
        .map(|(left, right)| opened(nodes, left, right, levels - 1))
        .sum::<u64>()
}

/// A comparison of two roots at a depth. Its cells are looked up once.
pub struct Comparison<'a, N> {
    nodes: &'a N,
    pub left: u64,
    pub right: u64,
    pub depth: u32,
    found: OnceCell<Differences>,
}

impl<'a, N: Nodes> Comparison<'a, N> {
    pub fn new(nodes: &'a N, left: u64, right: u64, depth: u32) -> Self {
        Self {
            nodes,
            left,
            right,
            depth,
            found: OnceCell::new(),
        }
    }

    fn differences(&self) -> Differences {
        let differing = |code: u32| {
            let cell = cell_of(code);
            let [left, right] =
                [self.left, self.right].map(|root| self.nodes.look(root, self.depth, cell));
            (left != right).then_some(Differing { code, left, right })
        };
        let levels = self.nodes.levels(self.depth);
        Differences {
            cells: (0..1 << (3 * self.depth)).filter_map(differing).collect(),
            opened: opened(self.nodes, self.left, self.right, levels),
        }
    }

    /// The number of the refusal, the lowest that applies, or what is found. The parts of the lent list have these lengths.
    pub fn answer(&self, parts: [usize; 3]) -> Result<&Differences, u32> {
        let roots = [self.left, self.right];
        let room = parts[0];
        if !self.nodes.fit() || parts != [room; 3] {
            return Err(1);
        }
        if self.depth > DEEPEST {
            return Err(2);
        }
        if roots.iter().any(|id| !self.nodes.is_empty_or_live(*id)) {
            return Err(4);
        }
        if (roots.iter()).any(|id| self.nodes.height(*id) > self.depth.into()) {
            return Err(8);
        }
        let found = self.found.get_or_init(|| self.differences());
        if found.cells.len() > room {
            return Err(15);
        }
        Ok(found)
    }
}
