//! Comparisons of which the answer is worked out by hand, and the order of the refusals.
use crate::roots::Roots;
use crate::sides::{Places, Sides, Told};
use crate::tally::Tally;
use arena::call::Call;
use arena::edit::Voxel;
use arena::lent::Lent;
use reference::document01::{EMPTY, INVALID};
use reference::months::{Comparison, Differences, Differing};
use reference::tables::lengths;

type Case = fn(&Places, &mut Tally) -> Told;

pub const CASES: [(&str, Case); 3] = [
    ("answers worked out by hand", by_hand),
    ("the lowest refusal of several", order),
    ("every root that is no root, at every depth", not_there),
];

/// What has to be found: how many cells, the first and the last of them, and the pairs opened.
struct Expected {
    count: usize,
    ends: Option<(Differing, Differing)>,
    opened: u64,
}

fn expected(count: usize, ends: Option<[(u32, u16, u16); 2]>, opened: u64) -> Expected {
    let cell = |(code, left, right)| Differing { code, left, right };
    Expected {
        count,
        ends: ends.map(|[first, last]| (cell(first), cell(last))),
        opened,
    }
}

impl Expected {
    fn is(&self, found: &Differences) -> bool {
        let cells = &found.cells;
        let ends = cells.first().copied().zip(cells.last().copied());
        (cells.len(), ends, found.opened) == (self.count, self.ends, self.opened)
    }
}

/// Compares two roots on all sides, and sees that document 02's reading finds what was worked out.
fn finds(roots: &mut Roots, left: u64, right: u64, depth: u32, expected: &Expected) -> Told {
    match roots.compare(left, right, depth)? {
        Some(found) if expected.is(&found) => Ok(()),
        found => Err(format!(
            "{left:#x} and {right:#x} at depth {depth}: {} cells and {} pairs opened were worked out, not {found:?}",
            expected.count, expected.opened
        )),
    }
}

fn by_hand(places: &Places, tally: &mut Tally) -> Told {
    let mut roots = Roots::fresh(64, 7, tally, places);
    let leaf = roots.make(0, true, &|_| 5)?;
    let other = roots.make(0, true, &|_| 6)?;
    for depth in 0..=6 {
        let cells = 1 << (3 * depth);
        let nothing = expected(0, None, 0);
        finds(&mut roots, EMPTY, EMPTY, depth, &nothing)?;
        finds(&mut roots, leaf, leaf, depth, &nothing)?;
        // Two leaves, or a leaf and EMPTY, are no pair to open, but differ in every cell.
        let last = cells - 1;
        let all = |left, right| {
            let ends = [(0, left, right), (last, left, right)];
            expected(cells as usize, Some(ends), 0)
        };
        finds(&mut roots, leaf, other, depth, &all(5, 6))?;
        finds(&mut roots, EMPTY, leaf, depth, &all(0, 5))?;
        // One cell in the last corner: a pair is opened at each level above it.
        let corner = (1 << depth) - 1;
        let single = roots.make(depth, true, &|cell| {
            if cell == [corner; 3] { 7 } else { 0 }
        })?;
        let one = expected(1, Some([(last, 0, 7); 2]), depth.into());
        finds(&mut roots, EMPTY, single, depth, &one)?;
    }
    // Bit 0 of x, y and z stands at 0, 1 and 2 of the path code, bit 1 at 3, 4 and 5.
    for (cell, code) in [
        ([1, 0, 0], 1),
        ([0, 1, 0], 2),
        ([0, 0, 1], 4),
        ([2, 0, 0], 8),
        ([0, 2, 0], 16),
        ([0, 0, 2], 32),
    ] {
        let one_cell = roots.make(2, true, &|at| if at == cell { 9 } else { 5 })?;
        let one = expected(1, Some([(code, 9, 5); 2]), 2);
        finds(&mut roots, one_cell, leaf, 2, &one)?;
    }
    // Eight times one leaf, and eight times that: opened in vain beside the leaf, all of it.
    for (height, opened) in [(1, 1), (2, 9), (3, 73), (6, 37_449)] {
        let untidy = roots.make(height, false, &|_| 5)?;
        let in_vain = expected(0, None, opened);
        finds(&mut roots, untidy, leaf, 6, &in_vain)?;
        let ends = [(0, 5, 0), (262_143, 5, 0)];
        let all = expected(262_144, Some(ends), opened);
        finds(&mut roots, untidy, EMPTY, 6, &all)?;
    }
    roots.drop_all()
}

/// The flaws that a comparison can have, as bits, and the numbers they are refused with.
const FLAWS: [u32; 8] = [1, 1, 2, 4, 4, 8, 8, 15];

/// The lowest number of a set of flaws, or 0.
fn lowest(flaws: u32) -> u32 {
    let numbers = FLAWS.into_iter().enumerate();
    let given = numbers.filter(|(flaw, _)| flaws >> flaw & 1 == 1);
    given.map(|(_, no)| no).min().unwrap_or(0)
}

/// The tables with one table, or none, a word too long or too short.
fn with_length(lent: &Lent, table: Option<usize>, is_longer: bool) -> Lent {
    let Some(table) = table else {
        return lent.clone();
    };
    let length = lengths(lent.arena.capacity)[table];
    let other = if is_longer { length + 1 } else { length - 1 };
    lent.with_length(table, other, 0)
}

/// Two roots of height 2 and two of height 3, in one arena.
fn four_roots(lent: &mut Lent) -> Result<[u64; 4], String> {
    let mut edit = |depth: u32, cell: [i32; 3], value: u16| {
        let answered = lent.call(&Call::Edit(EMPTY, Voxel { depth, cell, value }));
        match answered.no {
            0 => Ok(answered.id),
            no => Err(format!("an edit is refused with {no}")),
        }
    };
    Ok([
        edit(2, [1, 2, 3], 5)?,
        edit(2, [3, 2, 3], 6)?,
        edit(3, [1, 2, 3], 5)?,
        edit(3, [7, 2, 3], 6)?,
    ])
}

/// Every set of flaws, each table and each part of the list too long and too short.
fn order(places: &Places, tally: &mut Tally) -> Told {
    let mut lent = Lent::fresh(32);
    let [low_left, low_right, tall_left, tall_right] = four_roots(&mut lent)?;
    let mut sides = Sides { tally, places };
    for flaws in 0..1 << FLAWS.len() {
        let has = |flaw: u32| flaws >> flaw & 1 == 1;
        let depth = if has(2) { 7 } else { 2 };
        let dead = |is_dead: bool, id: u64| if is_dead { id ^ 1 << 32 } else { id };
        let left = dead(has(3), if has(5) { tall_left } else { low_left });
        let right = dead(has(4), if has(6) { tall_right } else { low_right });
        // The two roots of height 2 differ in two cells.
        let room = if has(7) { 1 } else { 2 };
        for table in 0..3 {
            for part in 0..3 {
                for is_longer in [false, true] {
                    let tables = with_length(&lent, has(0).then_some(table), is_longer);
                    let mut lengths = [room; 3];
                    if has(1) {
                        lengths[part] = if is_longer { room + 1 } else { room - 1 };
                    }
                    let mut copy = tables.clone();
                    let view = tables.view();
                    let comparison = Comparison::new(&view, left, right, depth);
                    let no = comparison.answer(lengths).err().unwrap_or(0);
                    if no != lowest(flaws) {
                        return Err(format!("flaws {flaws:#b}: document 02's reading says {no}"));
                    }
                    sides.call(&mut copy, &comparison, lengths, false, 11)?;
                    if !copy.is_intact() || !copy.is_same(&tables) {
                        return Err(format!("flaws {flaws:#b}: the tables are changed"));
                    }
                }
            }
        }
    }
    Ok(())
}

/// Dead ids, INVALID and turned bits on either side or both, at depths to 2^32 - 1.
fn not_there(places: &Places, tally: &mut Tally) -> Told {
    let mut roots = Roots::fresh(16, 9, tally, places);
    let there = roots.make(2, true, &|[x, _, _]| x as u16)?;
    roots.make(1, true, &|[_, y, _]| 2 + y as u16)?;
    let gone = roots.held[1];
    roots.drop_root(1)?;
    let turned = (0..64).map(|bit| there ^ 1 << bit);
    let odd: Vec<u64> = [gone, INVALID, 1, 1 << 47, 1 << 63]
        .into_iter()
        .chain(turned)
        .collect();
    for depth in (0..=7).chain([8, 1 << 31, u32::MAX]) {
        for &id in &odd {
            for [left, right] in [[id, there], [there, id], [EMPTY, id], [id, EMPTY], [id, id]] {
                if roots.compare(left, right, depth)?.is_some() {
                    return Err(format!("{left:#x} and {right:#x} are compared"));
                }
            }
        }
        roots.compare(there, EMPTY, depth)?;
    }
    roots.drop_all()
}
