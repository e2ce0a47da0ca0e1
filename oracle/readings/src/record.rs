//! Records as an instrument writes them, and numbers in metres by their bits.
use reference::Random;
use reference::survey::RECORD;

/// A record: kind, value, two zero bytes, four numbers.
pub type Record = [u8; RECORD];

pub const PAUSE: Record = [0; RECORD];

fn record(kind: u32, value: u16, numbers: [u64; 4]) -> Record {
    let mut bytes = PAUSE;
    bytes[..4].copy_from_slice(&kind.to_le_bytes());
    bytes[4..6].copy_from_slice(&value.to_le_bytes());
    for (at, number) in bytes[8..].chunks_exact_mut(8).zip(numbers) {
        at.copy_from_slice(&number.to_le_bytes());
    }
    bytes
}

pub fn shot([x, y, z]: [u64; 3], value: u16) -> Record {
    record(1, value, [x, y, z, 0])
}

pub fn bar([x, y, z]: [u64; 3], second_x: u64, value: u16) -> Record {
    record(2, value, [x, y, z, second_x])
}

/// Bits at the edges of what an f64 can be, each with both signs: zero, the least and the largest subnormal, the least normal, ones and halves, where every
/// number is whole, where 2^64 and 2^128 are passed, the largest with and without its last digits, infinite, and NaNs of several payloads.
pub fn odd() -> Vec<u64> {
    let power = |exponent: u64| (1023 + exponent) << 52;
    let mut sizes = vec![
        0,
        1,
        2,
        (1 << 52) - 1,
        1 << 52,
        (1 << 52) + 1,
        1010 << 52,
        power(0) - 1,
        1022 << 52,
        0x7FE << 52,
        (0x7FF << 52) - 2,
        (0x7FF << 52) - 1,
        0x7FF << 52,
        (0x7FF << 52) + 1,
        (0x7FF << 52) | 1 << 51,
        u64::MAX >> 1,
    ];
    for exponent in [
        0, 1, 2, 5, 6, 7, 31, 32, 51, 52, 53, 57, 58, 63, 64, 127, 1017,
    ] {
        sizes.extend([power(exponent) - 1, power(exponent), power(exponent) + 1]);
    }
    let negative = sizes.iter().map(|size| 1 << 63 | size);
    [sizes.clone(), negative.collect()].concat()
}

/// The number at the lower edge of a cell, and its two neighbours: the next smaller number and the next greater one.
pub fn edges(cell: i32, edge: u32) -> [u64; 3] {
    let at = (f64::from(cell) / f64::from(1 << edge)).to_bits();
    match cell {
        0 => [1 << 63 | 1, at, 1],
        1.. => [at - 1, at, at + 1],
        _ => [at + 1, at, at - 1],
    }
}

/// A number in a cell of the cube: at its lower edge, just below its upper one, or between.
pub fn within(cell: i32, edge: u32, random: &mut Random) -> u64 {
    match random.below(4) {
        0 => edges(cell, edge)[1],
        1 => edges(cell + 1, edge)[0],
        _ => {
            let part = random.below(1 << 30) as f64 / f64::from(1 << 30);
            ((f64::from(cell) + part) / f64::from(1 << edge)).to_bits()
        }
    }
}

/// A number from just below to far above any cube, in size: those with which a cell can turn out otherwise.
pub fn near(random: &mut Random) -> u64 {
    let bits = random.bits();
    let exponent = 1023 - 70 + random.below(80) as u64;
    let sign = bits & u64::from(random.once_in(4)) << 63;
    sign | exponent << 52 | bits >> 12
}

/// A number at random: any bits, odd ones, a size that matters, the edge of a cell, and most often one inside the cube.
pub fn any(odd: &[u64], depth: u32, edge: u32, random: &mut Random) -> u64 {
    match random.below(12) {
        0 => random.bits(),
        1 => random.one_of(odd),
        2 => near(random),
        3 => {
            let cell = random.below((1 << depth) + 3) as i32 - 1;
            random.one_of(&edges(cell, edge))
        }
        _ => within(random.below(1 << depth) as i32, edge, random),
    }
}
