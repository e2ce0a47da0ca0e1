//! The edges that document 01 names for the edit, each run on the port, document 01 and the original.
use crate::tally::Tally;
use arena::beside::{Beside, Original};
use arena::call::{Answered, Call};
use arena::edit::Voxel;
use arena::lent::Lent;
use port::arena::Arena;
use reference::arena::{GENERATIONS, MOST_CAPACITY, MOST_HOLDS};
use reference::document01::{EMPTY, INVALID, generation, text};
use reference::tables::lengths;

type Told = Result<(), String>;

pub const CASES: [(&str, fn(&mut Tally) -> Told); 7] = [
    ("the four records of document 01", four_records),
    (
        "1,000,000 holds on the result, on its parts and on the root",
        most_holds,
    ),
    ("each number of free slots at each depth", free_slots),
    ("roots of each height at each depth", heights),
    ("the lowest number of several", lowest),
    ("generation 0x7FFD and its successor", generations),
    ("capacities and lengths of tables", sizes),
];

/// An arena on all sides, whose calls are expected to answer a number.
struct Case<'a> {
    beside: Beside,
    tally: &'a mut Tally,
}

impl<'a> Case<'a> {
    fn new(capacity: usize, tally: &'a mut Tally) -> Self {
        let beside = Beside::fresh(capacity, Original::Beside);
        Self { beside, tally }
    }

    fn expect(&mut self, call: Call<u64>, no: u32) -> Result<u64, String> {
        let answered = self.tally.call(&mut self.beside, call)?;
        if answered.no != no {
            return Err(format!("{call:x?} answers {}, not {no}", answered.no));
        }
        Ok(answered.id)
    }

    /// An edit that is accepted.
    fn edit(&mut self, root: u64, depth: u32, cell: [i32; 3], value: u16) -> Result<u64, String> {
        self.expect(edit(root, depth, cell, value), 0)
    }

    /// An edit that is accepted with this id.
    fn edit_is(&mut self, id: u64, call: Call<u64>) -> Told {
        let made = self.expect(call, 0)?;
        if made != id {
            return Err(format!("{call:x?} answers {made:#x}, not {id:#x}"));
        }
        Ok(())
    }

    /// Leaves of values from 60,000 on until so many slots are free.
    fn leave_free(&mut self, free: usize) -> Told {
        let mut value = 60_000;
        while self.beside.document().capacity() - 1 - self.beside.document().live() > free {
            self.expect(Call::Leaf(value), 0)?;
            value += 1;
        }
        Ok(())
    }

    fn finish(mut self) -> Told {
        self.beside.same_everywhere(&mut self.tally.calls)
    }
}

fn edit(root: u64, depth: u32, cell: [i32; 3], value: u16) -> Call<u64> {
    Call::Edit(root, Voxel { depth, cell, value })
}

/// Edits at depth 6 from EMPTY, the old root released after each accepted one.
fn four_records(tally: &mut Tally) -> Told {
    const RECORDS: [([i32; 3], u16, u32, &str); 4] = [
        ([0, 0, 0], 5, 0, "Id(B, i: 00000007, g: 0000, m: 01, t: 00)"),
        (
            [64, 0, 0],
            5,
            3,
            "Id(B, i: 00000007, g: 0000, m: 01, t: 00)",
        ),
        ([0, 0, 0], 0, 0, "Id(EMPTY)"),
        ([1, 0, 0], 5, 0, "Id(B, i: 00000007, g: 0001, m: 01, t: 00)"),
    ];
    let mut case = Case::new(512, tally);
    let mut root = EMPTY;
    for (cell, value, no, words) in RECORDS {
        let made = case.expect(edit(root, 6, cell, value), no)?;
        if no == 0 {
            case.expect(Call::Release(root), 0)?;
            root = made;
        }
        if text(root) != words {
            return Err(format!("{} after {cell:?}, not {words}", text(root)));
        }
    }
    if case.beside.document().live() != 7 {
        return Err(format!("live {}", case.beside.document().live()));
    }
    case.finish()
}

fn most_holds(tally: &mut Tally) -> Told {
    let mut case = Case::new(16, tally);
    let here = [0, 0, 0];
    let root = case.edit(EMPTY, 1, here, 5)?;
    let other = case.edit(root, 1, [1, 0, 0], 6)?;
    for _ in 1..MOST_HOLDS {
        case.expect(Call::Hold(root), 0)?;
    }
    // The old root, a root made before from EMPTY, and one that comes back.
    case.expect(edit(root, 1, here, 5), 10)?;
    case.expect(edit(EMPTY, 1, here, 5), 10)?;
    case.expect(edit(other, 1, [1, 0, 0], 0), 10)?;
    // A root that has so many may be edited, and may be a part of the result.
    case.edit_is(other, edit(root, 1, [1, 0, 0], 6))?;
    case.edit(EMPTY, 2, here, 5)?;
    // Of a leaf: as a result, and as a part of one.
    let leaf = case.edit(EMPTY, 0, here, 5)?;
    for _ in 1..MOST_HOLDS {
        case.expect(Call::Hold(leaf), 0)?;
    }
    case.expect(edit(leaf, 0, here, 5), 10)?;
    case.expect(edit(EMPTY, 0, here, 5), 10)?;
    case.expect(edit(leaf, 3, [7, 7, 7], 5), 10)?;
    case.edit(EMPTY, 1, [0, 1, 0], 5)?;
    case.expect(edit(leaf, 0, here, 0), 0)?;
    // Eight times that leaf become it.
    let eight = case.edit(leaf, 1, here, 9)?;
    case.expect(edit(eight, 1, here, 5), 10)?;
    case.expect(Call::Release(leaf), 0)?;
    case.edit_is(leaf, edit(eight, 1, here, 5))?;
    case.expect(edit(eight, 1, here, 5), 10)?;
    case.expect(Call::Release(root), 0)?;
    case.edit_is(root, edit(EMPTY, 1, here, 5))?;
    case.expect(edit(EMPTY, 1, here, 5), 10)?;
    case.finish()
}

/// A voxel set in EMPTY takes a leaf and a branch for each level, fewer by those that are live; one slot too few is refused.
fn free_slots(tally: &mut Tally) -> Told {
    for depth in 0..=6 {
        for shared in 0..=depth + 1 {
            for free in 0..=8 {
                let mut case = Case::new(24, tally);
                // The lowest `shared` nodes of the result are live: the leaf, the branch over it, and so on.
                if shared > 0 {
                    case.edit(EMPTY, shared - 1, [0, 0, 0], 5)?;
                }
                case.leave_free(free)?;
                let is_refused = (depth + 1 - shared) as usize > free;
                let no = if is_refused { 11 } else { 0 };
                case.expect(edit(EMPTY, depth, [0, 0, 0], 5), no)?;
                case.finish()?;
            }
        }
    }
    Ok(())
}

fn heights(tally: &mut Tally) -> Told {
    for height in 0..=6 {
        let mut case = Case::new(64, tally);
        let root = case.edit(EMPTY, height, [0, 0, 0], 5)?;
        for depth in 0..=6 {
            let no = if height > depth { 8 } else { 0 };
            let side = 1 << depth;
            case.expect(edit(root, depth, [0, 0, 0], 6), no)?;
            case.expect(edit(root, depth, [side - 1, 0, side - 1], 6), no)?;
            case.expect(edit(root, depth, [0, side, 0], 6), 3)?;
        }
        case.expect(edit(root, 7, [0, 0, 0], 6), 2)?;
        case.finish()?;
    }
    Ok(())
}

/// A full arena and a root of height 6: every set of flaws in the arguments.
fn lowest(tally: &mut Tally) -> Told {
    let mut case = Case::new(9, tally);
    let root = case.edit(EMPTY, 6, [0, 0, 0], 5)?;
    case.leave_free(0)?;
    for flaws in 0..16 {
        let has = |flaw: u32| flaws >> flaw & 1 == 1;
        let depth = match (has(0), has(3)) {
            (true, _) => 7,
            (false, true) => 5,
            (false, false) => 6,
        };
        let cell = if has(1) { [1, -1, 0] } else { [1, 0, 0] };
        let root = if has(2) { root ^ 1 << 32 } else { root };
        let flaw = [2, 3, 4, 8]
            .into_iter()
            .enumerate()
            .find(|(flaw, _)| has(*flaw as u32));
        let no = flaw.map_or(11, |(_, no)| no);
        case.expect(edit(root, depth, cell, 7), no)?;
    }
    case.finish()
}

/// One slot is recycled again and again by edits at depth 0: its first id is refused until it comes round.
fn generations(tally: &mut Tally) -> Told {
    let mut case = Case::new(2, tally);
    let first = case.edit(EMPTY, 0, [0, 0, 0], 1)?;
    case.expect(Call::Release(first), 0)?;
    for recycled in 1..GENERATIONS {
        let id = case.edit(EMPTY, 0, [0, 0, 0], 1 + recycled % 5)?;
        if generation(id) != recycled {
            return Err(format!("{id:#x} after {recycled} recyclings"));
        }
        case.expect(edit(first, 0, [0, 0, 0], 3), 4)?;
        case.expect(Call::Release(id), 0)?;
    }
    let again = case.edit(EMPTY, 0, [0, 0, 0], 9)?;
    if again != first {
        return Err(format!("{again:#x} is not the first id {first:#x}"));
    }
    case.finish()
}

/// Refusal 1 goes before every other.
fn sizes(tally: &mut Tally) -> Told {
    for (capacity, no) in [
        (0, 1),
        (1, 1),
        (2, 0),
        (MOST_CAPACITY, 0),
        (MOST_CAPACITY + 1, 1),
    ] {
        let state = Arena { capacity, slots: 1 };
        // No table, or one of the three, is one word too long.
        for (long, no) in [(3, no), (0, 1), (1, 1), (2, 1)] {
            let mut lengths = lengths(capacity);
            if let Some(length) = lengths.get_mut(long) {
                *length += 1;
            }
            let mut lent = Lent::full_of(state, lengths, 0);
            let before = lent.clone();
            let answered = lent.call(&edit(EMPTY, 0, [0, 0, 0], 5));
            let is_right = match no {
                0 => answered.no == 0 && lent.is_intact(),
                _ => answered == Answered::made(1, INVALID) && lent.is_same(&before),
            };
            if !is_right {
                return Err(format!(
                    "capacity {capacity}, table {long} too long: {answered:x?}"
                ));
            }
            tally.edits += 2;
            let odd = before.clone().call(&edit(INVALID, 7, [-1, 0, 0], 5));
            if odd.no != if no == 0 { 2 } else { 1 } {
                return Err(format!("capacity {capacity}, odd arguments: {odd:x?}"));
            }
        }
    }
    Ok(())
}
