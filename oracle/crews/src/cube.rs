//! The plain cube: 8^d numbers in a row, changed by assignment. It knows nothing of nodes.
use reference::reading::cells;

pub type Cell = [i32; 3];

/// One entry of a list: the cell is to have the value.
#[derive(Clone, Copy, Debug, PartialEq, Eq, PartialOrd, Ord)]
pub struct Entry {
    pub cell: Cell,
    pub value: u16,
}

#[derive(Clone, Debug, PartialEq, Eq)]
pub struct Cube {
    pub depth: u32,
    pub values: Vec<u16>,
}

impl Cube {
    /// The same value in every cell.
    pub fn uniform(depth: u32, value: u16) -> Self {
        Self {
            depth,
            values: vec![value; 1 << (3 * depth)],
        }
    }

    /// Cell (x,y,z) stands at y·4^d + z·2^d + x.
    fn place(&self, [x, y, z]: Cell) -> usize {
        ((y as usize) << (2 * self.depth)) + ((z as usize) << self.depth) + x as usize
    }

    pub fn value(&self, cell: Cell) -> u16 {
        self.values[self.place(cell)]
    }

    /// Enters a list, entry by entry. Answers what each cell had just before.
    pub fn assign(&mut self, entries: &[Entry]) -> Vec<u16> {
        (entries.iter())
            .map(|entry| {
                let place = self.place(entry.cell);
                std::mem::replace(&mut self.values[place], entry.value)
            })
            .collect()
    }

    /// Takes a list back, the last entry first.
    pub fn take_back(&mut self, entries: &[Entry], before: &[u16]) {
        for (entry, value) in entries.iter().zip(before).rev() {
            let place = self.place(entry.cell);
            self.values[place] = *value;
        }
    }

    /// The cube with this list entered.
    pub fn with(&self, entries: &[Entry]) -> Self {
        let mut cube = self.clone();
        cube.assign(entries);
        cube
    }

    /// The same ground with each cell cut into eight, as often as the depth asks for.
    pub fn at_depth(&self, depth: u32) -> Self {
        let coarse = |cell: Cell| cell.map(|c| c >> (depth - self.depth));
        let values = cells(depth).map(|cell| self.value(coarse(cell))).collect();
        Self { depth, values }
    }
}
