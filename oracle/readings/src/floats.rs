//! The reading of document 02 beside floats: its cells are those of a rounded product, and its order of numbers is theirs. And ways to be wrong about a
//! cell, which the numbers at the edges have to tell from the right one.
use crate::coordinates::{at_edges, depths_and_edges, place};
use crate::record::{any, odd};
use crate::sides::Told;
use reference::Random;
use reference::survey::Metres;

/// What a number times 2^edge is wrongly taken for.
type Wrong = fn(f64, u32) -> f64;

pub const WRONG: [(&str, Wrong); 6] = [
    ("rounded toward zero", |x, edge| times(x, edge).trunc()),
    ("rounded to the nearest", |x, edge| times(x, edge).round()),
    ("rounded up", |x, edge| times(x, edge).ceil()),
    ("minus zero below 0", |x, edge| {
        let is_minus_zero = x.to_bits() == 1 << 63;
        times(x, edge).floor() - f64::from(is_minus_zero)
    }),
    ("an edge twice as long", |x, edge| {
        times(x / 2.0, edge).floor()
    }),
    ("in 32 bits", |x, edge| {
        times((x as f32).into(), edge).floor()
    }),
];

fn times(x: f64, edge: u32) -> f64 {
    x * f64::from(1 << edge)
}

fn in_cube(cell: f64, depth: u32) -> Result<i32, u32> {
    if cell >= 0.0 && cell < f64::from(1 << depth) {
        Ok(cell as i32)
    } else {
        Err(3)
    }
}

/// Compares every number at an edge and so many at random. Answers for each wrong way how many numbers tell it from the right one.
pub fn compare(seed: u64, count: u64) -> Result<[u64; WRONG.len()], String> {
    let mut tell = [0; WRONG.len()];
    for (depth, edge) in depths_and_edges() {
        for number in at_edges(depth, edge) {
            same_cell(number, depth, edge)?;
            let x = f64::from_bits(number);
            for (tell, (_, wrong)) in tell.iter_mut().zip(WRONG) {
                let is_told = in_cube(wrong(x, edge), depth) != place(number, depth, edge);
                *tell += u64::from(x.is_finite() && is_told);
            }
        }
    }
    let mut random = Random::new(seed);
    let odd = odd();
    for _ in 0..count {
        let (depth, edge) = (random.below(7) as u32, random.below(7) as u32);
        let number = any(&odd, depth, edge, &mut random);
        let other = any(&odd, depth, edge, &mut random);
        same_cell(number, depth, edge)?;
        for other in [other, number, number ^ 1, number ^ 1 << 63] {
            same_order(number, other)?;
        }
    }
    match tell.iter().position(|times| *times == 0) {
        None => Ok(tell),
        Some(at) => Err(format!("no number tells a cell from one {}", WRONG[at].0)),
    }
}

fn same_cell(number: u64, depth: u32, edge: u32) -> Told {
    let x = f64::from_bits(number);
    let by_float = if x.is_finite() {
        in_cube(times(x, edge).floor(), depth)
    } else {
        Err(14)
    };
    if place(number, depth, edge) == by_float {
        return Ok(());
    }
    Err(format!(
        "the cell of {number:#x} at depth {depth} and edge {edge}"
    ))
}

fn same_order(number: u64, other: u64) -> Told {
    let by_float = f64::from_bits(number) < f64::from_bits(other);
    if Metres(number).is_below(Metres(other)) == by_float {
        return Ok(());
    }
    Err(format!("the order of {number:#x} and {other:#x}"))
}
