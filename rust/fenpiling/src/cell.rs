use crate::Refusal;

/// The place of a cell.
#[derive(Clone, Copy, Debug, PartialEq, Eq, Hash)]
pub struct Cell {
    /// Along the first axis.
    pub x: i32,
    /// Along the second axis.
    pub y: i32,
    /// Along the third axis.
    pub z: i32,
}

impl Cell {
    /// The cell at (x, y, z).
    pub fn new(x: i32, y: i32, z: i32) -> Cell {
        Cell { x, y, z }
    }

    /// The path code: of the low ten bits of each axis, bit n of x to 3n, of y to 3n + 1, of z to 3n + 2. It never refuses.
    ///
    /// ```
    /// use fenpiling::Cell;
    ///
    /// assert_eq!(Cell::new(3, 0, 0).path(), 9);
    /// assert_eq!(Cell::new(7, 7, 7).path(), 511);
    /// assert_eq!(Cell::new(-1, 0, 0).path(), 153_391_689);
    /// ```
    pub fn path(self) -> u32 {
        fenpiling_sys::fenpiling_encode_child_index_path(self.x, self.y, self.z)
    }

    /// The cell of a path code, the inverse of [`path`](Cell::path) on coordinates of ten bits. Refusal: [`Position`](Refusal::Position).
    ///
    /// ```
    /// use fenpiling::{Cell, Refusal};
    ///
    /// assert_eq!(Cell::from_path(511), Ok(Cell::new(7, 7, 7)));
    /// assert_eq!(Cell::from_path(1 << 30), Err(Refusal::Position));
    /// ```
    pub fn from_path(code: u32) -> Result<Cell, Refusal> {
        let decoded = fenpiling_sys::fenpiling_decode_child_index_path(code);
        Refusal::accept(decoded.no)?;
        Ok(Cell::new(decoded.x, decoded.y, decoded.z))
    }

    /// The number of the child that leads to the cell at a level of a depth: bit depth - 1 - level of x, plus twice that of y, plus four times that of z.
    /// Refusals: [`Depth`](Refusal::Depth), [`Position`](Refusal::Position).
    ///
    /// ```
    /// use fenpiling::{Cell, Refusal};
    ///
    /// assert_eq!(Cell::new(32, 0, 1).child_index(0, 6), Ok(1));
    /// assert_eq!(Cell::new(32, 0, 1).child_index(5, 6), Ok(4));
    /// assert_eq!(Cell::new(32, 0, 1).child_index(6, 6), Err(Refusal::Depth));
    /// ```
    pub fn child_index(self, level: u32, depth: u32) -> Result<usize, Refusal> {
        let child = fenpiling_sys::fenpiling_child_index2(self.x, self.y, self.z, level, depth);
        Refusal::accept(child.no)?;
        Ok(child.index)
    }
}
