//! The edges that document 02 names for readings: the order of the refusals, pauses, and bars that end on their way.
use crate::record::{PAUSE, bar, shot, within};
use crate::sides::{Sides, Told};
use crate::tally::Tally;
use arena::call::{Answered, Entry};
use arena::lent::Lent;
use reference::Random;
use reference::arena::MOST_HOLDS;
use reference::document01::{EMPTY, INVALID};
use reference::tables::lengths;

type Case = fn(&mut Tally) -> Told;

pub const CASES: [(&str, Case); 4] = [
    ("the first refusal of several, in their order", order),
    ("refusal 1 before every other", sizes),
    ("pauses, to 1,000,000 holds and one more", pauses),
    ("bars that come upon 1,000,000 holds", most_holds),
];

fn number(x: f64) -> u64 {
    x.to_bits()
}

/// The flaws that a reading can have, as bits, and the numbers they are refused with, in the order of the tests.
const FLAWS: [u32; 8] = [2, 2, 13, 13, 14, 3, 4, 8];

/// The number of the first flaw of a set.
fn first_of(flaws: u32, otherwise: u32) -> u32 {
    let mut numbers = FLAWS.into_iter().enumerate();
    let first = numbers.find(|(flaw, _)| flaws >> flaw & 1 == 1);
    first.map_or(otherwise, |(_, no)| no)
}

/// A reading of a root of height 6 with a set of flaws. The cell is (1, 0, 0), or (0, 0, 0) where a value is asked that is there.
fn flawed(flaws: u32, root: u64, is_bar: bool, value: u16) -> (u64, u32, u32, Vec<u8>) {
    let has = |flaw: u32| flaws >> flaw & 1 == 1;
    let depth = match (has(0), has(7)) {
        (true, _) => 7,
        (false, true) => 5,
        (false, false) => 6,
    };
    let edge = if has(1) { 7 } else { 3 };
    let y = if has(4) { f64::NAN } else { 0.01 };
    let z = if has(5) { -0.01 } else { 0.0 };
    let x = if value == 5 { 0.1 } else { 0.125 };
    let point = [number(x), number(y), number(z)];
    let mut record = if is_bar {
        // Its second x is below its first, or in the same cell.
        bar(point, number(if has(3) { x / 2.0 } else { x }), value)
    } else {
        shot(point, value)
    };
    if has(2) {
        record[7] = 1;
    }
    if has(3) && !is_bar {
        // Minus zero where no number is used.
        record[39] = 0x80;
    }
    let root = if has(6) { root ^ 1 << 32 } else { root };
    (root, depth, edge, record.to_vec())
}

/// A root of height 6 in a full arena, with 1,000,000 holds: every set of flaws, and then 10 where the cell has the value and 11 where it hasn't.
fn order(tally: &mut Tally) -> Told {
    let mut sides = Sides::fresh(9, tally);
    let root = sides.edit(EMPTY, 6, [0, 0, 0], 5)?;
    sides.leave_free(0)?;
    sides.beside.hold_until(root, MOST_HOLDS)?;
    for flaws in 0..1 << FLAWS.len() {
        for is_bar in [false, true] {
            for (value, otherwise) in [(5, 10), (7, 11)] {
                let (root, depth, edge, record) = flawed(flaws, root, is_bar, value);
                let entry = Entry {
                    root,
                    depth,
                    edge,
                    record: &record,
                };
                expect(&mut sides, &entry, first_of(flaws, otherwise))?;
            }
        }
    }
    sides.same_everywhere()
}

fn expect(sides: &mut Sides, entry: &Entry, no: u32) -> Result<u64, String> {
    let answered = sides.enter(entry)?;
    if answered.no != no {
        return Err(format!("{entry:x?} answers {}, not {no}", answered.no));
    }
    Ok(answered.id)
}

/// Tables of which one is a word too long, with a reading that has no flaw, one, or all.
fn sizes(tally: &mut Tally) -> Told {
    for long in 0..3 {
        for flaws in [0, 1, 4, 16, 32, 64, 128, 255] {
            for is_bar in [false, true] {
                let made = Lent::fresh(9);
                let mut lent = made.with_length(long, lengths(9)[long] + 1, 0);
                let before = lent.clone();
                let (root, depth, edge, record) = flawed(flaws, EMPTY, is_bar, 7);
                let record = if flaws == 4 { &record[1..] } else { &record };
                let answered = lent.enter(&Entry {
                    root,
                    depth,
                    edge,
                    record,
                });
                tally.refused[1] += 1;
                tally.others += 1;
                if answered != Answered::made(1, INVALID) || !lent.is_same(&before) {
                    return Err(format!("table {long} too long: {answered:x?}"));
                }
            }
        }
    }
    Ok(())
}

fn pauses(tally: &mut Tally) -> Told {
    let mut sides = Sides::fresh(16, tally);
    let pause = |root: u64, depth: u32, edge: u32| Entry {
        root,
        depth,
        edge,
        record: &PAUSE,
    };
    let root = sides.edit(EMPTY, 3, [1, 2, 3], 5)?;
    let other = sides.edit(root, 3, [1, 2, 4], 6)?;
    sides.release(other)?;
    for depth in 0..=6 {
        for edge in 0..=6 {
            // The root is its own answer at a depth below its height too.
            let again = expect(&mut sides, &pause(root, depth, edge), 0)?;
            let nothing = expect(&mut sides, &pause(EMPTY, depth, edge), 0)?;
            if (again, nothing) != (root, EMPTY) {
                return Err(format!("a pause answers {again:#x} and {nothing:#x}"));
            }
            for gone in [other, INVALID, root ^ 1 << 32] {
                expect(&mut sides, &pause(gone, depth, edge), 4)?;
            }
        }
    }
    for (depth, edge) in [(7, 0), (0, 7), (u32::MAX, 0), (0, u32::MAX), (7, 7)] {
        for root in [root, INVALID] {
            expect(&mut sides, &pause(root, depth, edge), 2)?;
        }
    }
    for byte in 1..PAUSE.len() {
        let mut record = PAUSE;
        record[byte] = 1;
        let entry = Entry {
            record: &record,
            ..pause(INVALID, 6, 6)
        };
        expect(&mut sides, &entry, 13)?;
    }
    sides.beside.hold_until(root, MOST_HOLDS - 1)?;
    expect(&mut sides, &pause(root, 3, 0), 0)?;
    expect(&mut sides, &pause(root, 3, 0), 10)?;
    expect(&mut sides, &pause(root, 0, 6), 10)?;
    sides.release(root)?;
    expect(&mut sides, &pause(root, 3, 0), 0)?;
    sides.same_everywhere()
}

/// A bar of eight cells in several models, with 1,000,000 holds on the root that it has after one, some or all of its cells; and where the cells have the value
/// already, on the old root.
fn most_holds(tally: &mut Tally) -> Told {
    let mut random = Random::new(11);
    let grounds: [&[[i32; 3]]; 3] = [&[], &[[2, 3, 1]], &[[7, 7, 7], [3, 3, 0], [0, 0, 0]]];
    for ground in grounds {
        for depth in [3, 6] {
            for stop in [0, 3, 6, 7] {
                let mut sides = Sides::fresh(40, tally);
                let mut root = EMPTY;
                for cell in ground {
                    let next = sides.edit(root, depth, *cell, 4)?;
                    sides.release(root)?;
                    root = next;
                }
                let [first, stop, last, y, z] =
                    [0, stop, 7, 3, 1].map(|cell| within(cell, 2, &mut random));
                let (part, whole) = (
                    bar([first, y, z], stop.max(first), 6),
                    bar([first, y, z], last, 6),
                );
                let entry = |root| Entry {
                    root,
                    depth,
                    edge: 2,
                    record: &whole,
                };
                let part = Entry {
                    record: &part,
                    ..entry(root)
                };
                let passing = expect(&mut sides, &part, 0)?;
                sides.beside.hold_until(passing, MOST_HOLDS)?;
                expect(&mut sides, &entry(root), 10)?;
                // From that root the first cells have the value: the answer of the first edit is the old root.
                expect(&mut sides, &entry(passing), 10)?;
                // One hold fewer, and the bar passes through.
                sides.release(passing)?;
                let made = expect(&mut sides, &entry(root), 0)?;
                if made != passing {
                    sides.release(made)?;
                }
                sides.same_everywhere()?;
            }
        }
    }
    Ok(())
}
