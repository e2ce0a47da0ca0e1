//! Readings in metres beside single calls of the port that do the same: a bar beside the edits of its cells, each passing root released after the next is
//! made, and a shot beside an edit. The original has no readings. Each side prepares an arena of its own and draws the same bars.
use crate::compare;
use crate::edits::Editing;
use crate::stores::{Port, Store};
use crate::work::{CAPACITY, Nanoseconds, SEED, timed};
use arena::edit::Voxel;
use port::readings;
use reference::Random;

const DEPTH: u32 = 6;
const SIDE: i32 = 1 << DEPTH;
/// Cells of 2^-3 metres.
const EDGE: u32 = 3;
/// How many cells are drawn together in a round, in bars or in shots.
const CELLS: i32 = 10 * SIDE;

/// A bar or a shot: its record, and what it says in cells.
struct Drawn {
    record: Vec<u8>,
    cells: Vec<[i32; 3]>,
    value: u16,
}

impl Drawn {
    /// So many cells in a row at random; one in four is dug out.
    fn new(length: i32, random: &mut Random) -> Self {
        let [y, z] = [(); 2].map(|()| random.below(SIDE as usize) as i32);
        let first = random.below((SIDE - length + 1) as usize) as i32;
        let last = first + length - 1;
        let value: u16 = random.one_of(&[0, 1, 2, 3]);
        let metres = |cell: i32| (f64::from(cell) + 0.3) / f64::from(1 << EDGE);
        let (kind, second_x) = match length {
            1 => (1u32, 0.0),
            _ => (2, metres(last)),
        };
        let mut record = kind.to_le_bytes().to_vec();
        record.extend(value.to_le_bytes());
        record.extend([0, 0]);
        for number in [metres(first), metres(y), metres(z), second_x] {
            record.extend(number.to_le_bytes());
        }
        Self {
            record,
            cells: (first..=last).map(|x| [x, y, z]).collect(),
            value,
        }
    }
}

/// The root with the reading entered.
fn by_reading(port: &mut Port, root: u64, drawn: &Drawn) -> u64 {
    let (state, mut tables) = port.parts();
    let made = readings::enter(state, &mut tables, root, DEPTH, EDGE, &drawn.record);
    assert_eq!(made.no, 0);
    port.arena.slots = made.slots;
    made.id
}

/// The same by an edit of each cell and the release of each passing root.
fn by_calls(port: &mut Port, root: u64, drawn: &Drawn) -> u64 {
    let mut passing = root;
    for (at, &cell) in drawn.cells.iter().enumerate() {
        let voxel = Voxel {
            depth: DEPTH,
            cell,
            value: drawn.value,
        };
        let made = port.edit(passing, &voxel);
        if at > 0 {
            port.release(passing);
        }
        passing = made;
    }
    passing
}

/// A model with some hundred bars of so many cells behind it. The time is that for one more, with the release of the old root.
fn rounds(
    length: i32,
    draw: impl Fn(&mut Port, u64, &Drawn) -> u64,
) -> impl FnMut() -> Nanoseconds {
    let mut port = Port::fresh(CAPACITY);
    let mut random = Random::new(SEED);
    let mut root = 0;
    let count = (CELLS / length) as usize;
    let mut round = move || {
        let list: Vec<Drawn> = (0..count)
            .map(|_| Drawn::new(length, &mut random))
            .collect();
        timed(count, || {
            for drawn in &list {
                let made = draw(&mut port, root, drawn);
                if root != 0 {
                    port.release(root);
                }
                root = made;
            }
        })
    };
    for _ in 0..10 {
        round();
    }
    round
}

/// The rows of the table.
pub fn rows() {
    println!(
        "| {:44} | reading | calls | ratio | reading | calls | ratio |",
        ""
    );
    println!("|---|---|---|---|---|---|---|");
    for (name, length) in [
        ("bar of 64 cells (enter_reading)", SIDE),
        ("bar of 4 cells (enter_reading)", 4),
        ("shot (enter_reading)", 1),
    ] {
        compare(name, rounds(length, by_reading), rounds(length, by_calls));
    }
}
