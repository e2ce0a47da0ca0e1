//! One coordinate after the other: every number at an edge of something, and numbers at random, in shots and as the ends of bars.
use crate::record::{any, bar, edges, near, odd, shot, within};
use crate::sides::{Sides, Told};
use crate::tally::Tally;
use arena::call::{Call, Entry};
use arena::lent::Lent;
use reference::Random;
use reference::document01::{EMPTY, INVALID};
use reference::reading::DEEPEST;
use reference::survey::{FINEST, Metres};

const VALUE: u16 = 5;
/// Slots enough for a bar on its way.
const CAPACITY: usize = 40;

/// Every depth with every edge.
pub fn depths_and_edges() -> impl Iterator<Item = (u32, u32)> {
    (0..=DEEPEST).flat_map(|depth| (0..=FINEST).map(move |edge| (depth, edge)))
}

/// The odd numbers, and those at and beside the lower edge of each cell from -1 to one past the first outside.
pub fn at_edges(depth: u32, edge: u32) -> Vec<u64> {
    let cells = -1..=(1 << depth) + 1;
    let beside = cells.flat_map(|cell| edges(cell, edge));
    odd().into_iter().chain(beside).collect()
}

/// Every number at an edge, at every depth and edge, on each axis of a shot, as the second x of a bar that begins at 0, and as both ends of a bar. Answers how
/// many numbers there were.
pub fn at_every_edge(seed: u64, tally: &mut Tally) -> Result<u64, String> {
    let mut random = Random::new(seed);
    let mut numbers = 0;
    for (depth, edge) in depths_and_edges() {
        let mut sides = Sides::fresh(CAPACITY, tally);
        let last = (1 << depth) - 1;
        for number in at_edges(depth, edge) {
            numbers += 1;
            let inside = [(); 3].map(|()| within(random.one_of(&[0, last]), edge, &mut random));
            let [_, y, z] = inside;
            for axis in 0..3 {
                let mut point = inside;
                point[axis] = number;
                try_record(&mut sides, depth, edge, &shot(point, VALUE))?;
            }
            for from in [0, number] {
                try_record(&mut sides, depth, edge, &bar([from, y, z], number, VALUE))?;
            }
        }
        sides.same_everywhere()?;
    }
    Ok(numbers)
}

/// Every pair of odd numbers as the two ends of a bar, at some depth and edge.
pub fn odd_pairs(seed: u64, tally: &mut Tally) -> Told {
    let mut random = Random::new(seed);
    let mut sides = Sides::fresh(CAPACITY, tally);
    for first in odd() {
        for second in odd() {
            let (depth, edge) = (random.below(7) as u32, random.below(7) as u32);
            let record = bar([first, 0, 0], second, VALUE);
            try_record(&mut sides, depth, edge, &record)?;
        }
    }
    sides.same_everywhere()
}

/// Enters a record into EMPTY, and releases what it made.
fn try_record(sides: &mut Sides, depth: u32, edge: u32, record: &[u8]) -> Told {
    let entry = Entry {
        root: EMPTY,
        depth,
        edge,
        record,
    };
    let answered = sides.enter(&entry)?;
    match answered.no {
        0 => sides.release(answered.id),
        _ => Ok(()),
    }
}

/// How many numbers at random lay in a cell, outside the cube, or nowhere.
#[derive(Default)]
pub struct Shots {
    pub inside: u64,
    pub outside: u64,
    pub not_finite: u64,
}

/// Shots of which one coordinate is a number at random, on the port alone: its number says whether the cell by document 02 lies in the cube, and if so that
/// cell has the value.
pub fn at_random(seed: u64, count: u64) -> Result<Shots, String> {
    let mut random = Random::new(seed);
    let odd = odd();
    let mut lent = Lent::fresh(8);
    let mut shots = Shots::default();
    for _ in 0..count {
        let (depth, edge) = (random.below(7) as u32, random.below(7) as u32);
        let number = match random.below(3) {
            0 => random.bits(),
            1 => near(&mut random),
            _ => any(&odd, depth, edge, &mut random),
        };
        let mut cell = [(); 3].map(|()| random.below(1 << depth) as i32);
        let mut point = cell.map(|cell| within(cell, edge, &mut random));
        let axis = random.below(3);
        point[axis] = number;
        let expected = place(number, depth, edge);
        match expected {
            Ok(there) => {
                cell[axis] = there;
                shots.inside += 1;
            }
            Err(3) => shots.outside += 1,
            Err(_) => shots.not_finite += 1,
        }
        judge(&mut lent, depth, edge, point, cell, expected.err())
            .map_err(|words| format!("{number:#x} on axis {axis} at {depth}, {edge}: {words}"))?;
    }
    Ok(shots)
}

/// The cell of a number, if it lies in the cube, or the refusal.
pub fn place(number: u64, depth: u32, edge: u32) -> Result<i32, u32> {
    let number = Metres(number);
    if !number.is_finite() {
        return Err(14);
    }
    match number.cell(edge) {
        cell if (0..1 << depth).contains(&cell) => Ok(cell as i32),
        _ => Err(3),
    }
}

/// Enters a shot into EMPTY: it is refused so, or sets that cell.
fn judge(
    lent: &mut Lent,
    depth: u32,
    edge: u32,
    point: [u64; 3],
    cell: [i32; 3],
    refusal: Option<u32>,
) -> Told {
    let record = shot(point, VALUE);
    let made = lent.enter(&Entry {
        root: EMPTY,
        depth,
        edge,
        record: &record,
    });
    let is_right = match refusal {
        Some(no) => (made.no, made.id) == (no, INVALID),
        None => made.no == 0 && lent.look(made.id, depth, cell).value == VALUE,
    };
    if made.no == 0 {
        lent.call(&Call::Release(made.id));
    }
    if is_right && lent.arena.live() == 0 && lent.is_intact() {
        return Ok(());
    }
    Err(format!("{made:x?}, not {refusal:?} or cell {cell:?}"))
}
