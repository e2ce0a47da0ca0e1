//! Two roots side by side: the port's comparison beside an expansion of both and a scan that lists the cells in which they differ. Both write the same lent
//! list; the scan names a cell by its place in the cube, which is cheaper than a path code, and lists in that order.
use crate::compare;
use crate::reading::{CELLS, DEPTH, Model, checkerboard, hill, root_of};
use crate::stores::{Port, Store};
use crate::work::{CAPACITY, Nanoseconds, timed};
use port::compare::{self as port_compare, List};
use std::hint::black_box;

fn empty(_: [i32; 3]) -> u16 {
    0
}

/// The hill with one cell inside it changed.
fn hill_but_one(cell: [i32; 3]) -> u16 {
    match cell {
        [31, 17, 20] => 9,
        cell => hill(cell),
    }
}

/// The hill with one in a thousand cells changed, here and there.
fn hill_but_some([x, y, z]: [i32; 3]) -> u16 {
    let mixed = ((x * 64 + y) * 64 + z) as u64;
    let mixed = mixed.wrapping_mul(0x9E37_79B9_7F4A_7C15) >> 32;
    match mixed % 1_000 {
        0 => 9,
        _ => hill([x, y, z]),
    }
}

fn inverse(cell: [i32; 3]) -> u16 {
    3 - checkerboard(cell)
}

/// The cells of a row of the cube.
const ROW: usize = 1 << DEPTH;

/// A cell in which neither of two models has anything, so that they differ in all cells but one.
const DUG: [i32; 3] = [40, 9, 50];

fn dug_checkerboard(cell: [i32; 3]) -> u16 {
    if cell == DUG { 0 } else { checkerboard(cell) }
}

fn dug_inverse(cell: [i32; 3]) -> u16 {
    if cell == DUG { 0 } else { inverse(cell) }
}

/// The pairs of models and their names.
const PAIRS: [(&str, Model, Model); 7] = [
    ("hill, one cell changed", hill, hill_but_one),
    ("hill, one in 1,000 changed", hill, hill_but_some),
    ("hill and EMPTY", hill, empty),
    ("checkerboard and inverse", checkerboard, inverse),
    ("checkerboard and EMPTY", checkerboard, empty),
    ("all but one, and inverse", dug_checkerboard, dug_inverse),
    ("all but one, and EMPTY", dug_checkerboard, empty),
];

/// Two roots in one arena, and room for every cell of a cube.
struct Months {
    port: Port,
    left: u64,
    right: u64,
    codes: Vec<u32>,
    lefts: Vec<u16>,
    rights: Vec<u16>,
    cubes: [Vec<u16>; 2],
}

impl Months {
    fn new(left: Model, right: Model) -> Self {
        let mut port = Port::fresh(CAPACITY);
        let left = root_of(&mut port, left);
        let right = root_of(&mut port, right);
        Self {
            port,
            left,
            right,
            codes: vec![0; CELLS],
            lefts: vec![0; CELLS],
            rights: vec![0; CELLS],
            cubes: [vec![0; CELLS], vec![0; CELLS]],
        }
    }

    /// The comparison into the first places of the list. Answers how many cells differ.
    #[inline(always)]
    fn by_compare(&mut self, room: usize) -> usize {
        let (state, mut tables) = self.port.parts();
        let mut list = List {
            codes: &mut self.codes[..room],
            lefts: &mut self.lefts[..room],
            rights: &mut self.rights[..room],
        };
        let (left, right) = (black_box(self.left), black_box(self.right));
        let compared = port_compare::compare(state, &mut tables, left, right, DEPTH, &mut list);
        assert_eq!(compared.no, 0);
        compared.count as usize
    }

    /// Both roots expanded, and the cells in which they differ listed; rows that are equal are passed over. Answers how many they are.
    #[inline(always)]
    fn by_scan(&mut self) -> usize {
        let [left_cube, right_cube] = &mut self.cubes;
        self.port.expand_into(black_box(self.left), left_cube);
        self.port.expand_into(black_box(self.right), right_cube);
        let values = self.lefts.iter_mut().zip(&mut self.rights);
        let mut list = self.codes.iter_mut().zip(values);
        let rows = left_cube.chunks(ROW).zip(right_cube.chunks(ROW));
        for (row, (lefts, rights)) in (0..).zip(rows) {
            if lefts == rights {
                continue;
            }
            for (place, (left, right)) in (0..).zip(lefts.iter().zip(rights)) {
                if left != right
                    && let Some((code, values)) = list.next()
                {
                    *code = row * ROW as u32 + place;
                    (*values.0, *values.1) = (*left, *right);
                }
            }
        }
        CELLS - list.len()
    }
}

fn compares(left: Model, right: Model, room: usize) -> impl FnMut() -> Nanoseconds {
    let mut months = Months::new(left, right);
    move || timed(1, || _ = black_box(months.by_compare(room)))
}

fn scans(left: Model, right: Model) -> impl FnMut() -> Nanoseconds {
    let mut months = Months::new(left, right);
    move || timed(1, || _ = black_box(months.by_scan()))
}

/// The rows of the table. Where not every cell differs, the list has room for the whole cube, and then for just the cells that differ, so that they are counted
/// first.
pub fn rows() {
    println!(
        "| {:44} | compare | scan | ratio | compare | scan | ratio |",
        ""
    );
    println!("|---|---|---|---|---|---|---|");
    for (name, left, right) in PAIRS {
        let mut months = Months::new(left, right);
        let count = months.by_scan();
        assert_eq!(months.by_compare(CELLS), count);
        compare(
            &format!("{name}, room for all"),
            compares(left, right, CELLS),
            scans(left, right),
        );
        if count < CELLS {
            compare(
                &format!("{name}, counted first"),
                compares(left, right, count),
                scans(left, right),
            );
        }
    }
}
