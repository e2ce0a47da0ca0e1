//! Bars in arenas of few slots: with every number of free slots, so that they end at any of their cells; and with 1,000,000 holds on a root on the way.
use crate::record::{bar, within};
use crate::sides::{Sides, Told};
use crate::tally::Tally;
use arena::call::{Call, Entry};
use reference::Random;
use reference::arena::MOST_HOLDS;
use reference::document01::EMPTY;

/// The largest of these arenas.
const LARGEST: usize = 40;

/// A bar of some cells in a cube.
struct Bar {
    depth: u32,
    edge: u32,
    first: i32,
    last: i32,
    y: i32,
    z: i32,
    value: u16,
}

impl Bar {
    fn new(depth: u32, random: &mut Random) -> Self {
        let side = 1 << depth;
        let first = random.below(side);
        let length = random.below(side - first);
        let length = random.one_of(&[length, length, length % 4, length % 8]);
        Self {
            depth,
            edge: random.below(7) as u32,
            first: first as i32,
            last: (first + length) as i32,
            y: random.below(side) as i32,
            z: random.below(side) as i32,
            value: random.one_of(&[0, 1, 1, 2, 2, 9]),
        }
    }

    /// Its record, up to a cell.
    fn record_to(&self, last: i32, random: &mut Random) -> [u8; 40] {
        let [x, y, z] = [self.first, self.y, self.z].map(|cell| within(cell, self.edge, random));
        let second_x = within(last, self.edge, random).max(x);
        bar([x, y, z], second_x, self.value)
    }

    fn entry<'a>(&self, root: u64, record: &'a [u8]) -> Entry<'a> {
        Entry {
            root,
            depth: self.depth,
            edge: self.edge,
            record,
        }
    }
}

/// A model with some cells set and some bars drawn, as far as there is room; most often near the bar's own row.
fn ground(sides: &mut Sides, bar: &Bar, random: &mut Random) -> Result<u64, String> {
    let mut root = EMPTY;
    for _ in 0..random.below(5) {
        let other = Bar::new(bar.depth, random);
        // Its own row, or the one beside it.
        let side = (1 << bar.depth) - 1;
        let beside = bar.y ^ (1 & side);
        let row = Bar {
            y: random.one_of(&[bar.y, beside]),
            z: bar.z,
            value: random.one_of(&[1, 2, 3]),
            ..other
        };
        let record = row.record_to(row.last, random);
        let answered = sides.enter(&row.entry(root, &record))?;
        if answered.no == 0 {
            sides.release(root)?;
            root = answered.id;
        }
    }
    Ok(root)
}

/// One bar in a model that leaves so many slots free. What it made, or left, is released; then nothing of it is live.
fn with_free(
    capacity: usize,
    free: usize,
    depth: u32,
    random: &mut Random,
    tally: &mut Tally,
) -> Told {
    let mut sides = Sides::fresh(capacity, tally);
    let bar = Bar::new(depth, random);
    let root = ground(&mut sides, &bar, random)?;
    sides.leave_free(free)?;
    let record = bar.record_to(bar.last, random);
    let answered = sides.enter(&bar.entry(root, &record))?;
    if answered.no == 0 {
        sides.release(answered.id)?;
    }
    // The state goes on from there: a cell of the bar alone.
    let record = bar.record_to(bar.first, random);
    let answered = sides.enter(&bar.entry(root, &record))?;
    if answered.no == 0 {
        sides.release(answered.id)?;
    }
    sides.release(root)?;
    sides.same_everywhere()
}

/// Bars in arenas of 2 to 40 slots, with every number of free slots to 16, at depths at random.
pub fn small_arenas(seed: u64, rounds: u64, tally: &mut Tally) -> Told {
    let mut random = Random::new(seed);
    for _ in 0..rounds {
        for capacity in 2..=LARGEST {
            for free in 0..capacity.min(17) {
                let depth = random.below(7) as u32;
                with_free(capacity, free, depth, &mut random, tally)
                    .map_err(|words| format!("capacity {capacity}, {free} free: {words}"))?;
            }
        }
    }
    Ok(())
}

/// A bar that comes upon 1,000,000 holds at any of its cells: on the root that it has there, or has had.
fn with_holds(random: &mut Random, tally: &mut Tally) -> Told {
    let capacity = 5 + random.below(LARGEST - 4);
    let mut sides = Sides::fresh(capacity, tally);
    let bar = loop {
        let bar = Bar::new(2 + random.below(5) as u32, random);
        if bar.last - bar.first > 1 && bar.value > 0 {
            break bar;
        }
    };
    let root = ground(&mut sides, &bar, random)?;
    let any = random.below((bar.last - bar.first) as usize) as i32;
    let stop = random.one_of(&[bar.first, bar.first + any, bar.last - 1, bar.last]);
    let record = bar.record_to(stop, random);
    let passing = sides.enter(&bar.entry(root, &record))?;
    if passing.no != 0 || passing.id == EMPTY {
        return Ok(());
    }
    sides.beside.hold_until(passing.id, MOST_HOLDS)?;
    let record = bar.record_to(bar.last, random);
    sides.enter(&bar.entry(root, &record))?;
    if random.once_in(2) {
        let free = random.below(1 + sides.free());
        sides.leave_free(free)?;
        sides.enter(&bar.entry(root, &record))?;
    }
    sides.call(Call::Release(passing.id))?;
    sides.enter(&bar.entry(root, &record))?;
    sides.same_everywhere()
}

pub fn many_holds(seed: u64, rounds: u64, tally: &mut Tally) -> Told {
    let mut random = Random::new(seed);
    (0..rounds).try_for_each(|_| with_holds(&mut random, tally))
}
