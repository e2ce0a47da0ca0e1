//! Pairs of models of depth 6: ground of several kinds, the same with some cells edited, the same not tidily made, lower models, leaves and EMPTY.
use crate::roots::Roots;
use crate::sides::{Places, Told};
use crate::tally::Tally;
use reference::Random;
use reference::document01::EMPTY;
use reference::reading::DEEPEST;

const SIDE: i32 = 1 << DEEPEST;
const CAPACITY: usize = 65_536;
/// Lists to this length are entered into their left root.
const ENTERED: usize = 600;

type Ground = Box<dyn Fn([i32; 3]) -> u16>;

/// Ground in layers: y is up, and the height falls off from some middle.
fn hill(random: &mut Random) -> Ground {
    let [x0, z0] = [(); 2].map(|()| random.below(SIDE as usize) as i32);
    let layer = random.one_of(&[1, 3, 8, 20]);
    Box::new(move |[x, y, z]| {
        let away = (x - x0).pow(2) + (z - z0).pow(2);
        match y < 4 + 50 * 400 / (400 + away) {
            true => 1 + (y / layer) as u16,
            false => 0,
        }
    })
}

/// Every cell differs from its six neighbours.
fn checkerboard(odd: u16, even: u16) -> Ground {
    Box::new(move |[x, y, z]| if (x ^ y ^ z) & 1 == 1 { odd } else { even })
}

/// Blocks of a side, each with one of some values.
fn noise(random: &mut Random) -> Ground {
    let seed = random.bits();
    let shift = random.one_of(&[0, 0, 1, 2, 4]);
    let values = random.one_of(&[2, 3]);
    Box::new(move |cell| {
        let mixed = cell.iter().fold(seed, |mixed, c| {
            (mixed ^ (c >> shift) as u64)
                .wrapping_mul(0x9E37_79B9_7F4A_7C15)
                .rotate_left(29)
        });
        ((mixed >> 20) % values) as u16
    })
}

/// Two kinds of ground that have something to do with each other.
fn two(random: &mut Random) -> [Ground; 2] {
    match random.below(5) {
        0 => [hill(random), hill(random)],
        1 => [checkerboard(1, 2), checkerboard(2, 1)],
        2 => [checkerboard(0, 65_535), noise(random)],
        3 => [noise(random), noise(random)],
        _ => [hill(random), noise(random)],
    }
}

fn compare(roots: &mut Roots, left: u64, right: u64, depth: u32) -> Told {
    if let Some(found) = roots.compare(left, right, depth)?
        && found.cells.len() <= ENTERED
    {
        roots.enter(left, right, depth, &found)?;
    }
    Ok(())
}

fn all_pairs(roots: &mut Roots) -> Told {
    let [one, other] = two(&mut roots.random);
    let first = roots.make(DEEPEST, true, &one)?;
    let second = roots.make(DEEPEST, true, &other)?;
    let untidy = roots.make(DEEPEST, false, &one)?;
    let lower = roots.random.below(5) as u32;
    let low = roots.make(lower, true, &other)?;
    let edits = roots.random.one_of(&[1, 1, 5, 60, 262]);
    roots.edit(first, DEEPEST, edits, &[0, 1, 2, 9])?;
    let edited = roots.held.last().copied().unwrap_or(EMPTY);
    let pairs = [
        (first, edited),
        (edited, first),
        (first, second),
        (untidy, first),
        (untidy, edited),
        (first, low),
        (low, second),
        (EMPTY, edited),
        (second, second),
    ];
    for (left, right) in pairs {
        compare(roots, left, right, DEEPEST)?;
    }
    let (left, right) = roots.random.one_of(&pairs);
    for depth in 0..=DEEPEST + 1 {
        if depth != DEEPEST {
            compare(roots, left, right, depth)?;
        }
    }
    roots.drop_all()
}

/// One set of models, all their pairs, and then everything is released.
pub fn run(seed: u64, places: &Places, tally: &mut Tally) -> Told {
    let mut roots = Roots::fresh(CAPACITY, seed, tally, places);
    all_pairs(&mut roots).map_err(|words| format!("ground of seed {seed:#x}: {words}"))
}
