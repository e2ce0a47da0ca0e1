//! The edges that document 01 names, each run on the port, document 01 and the original.
use crate::beside::{Beside, Original};
use crate::call::{Answered, Call};
use crate::lent::Lent;
use crate::tally::Tally;
use reference::arena::{GENERATIONS, MOST_CAPACITY, MOST_HOLDS, TALLEST};
use reference::document01::{EMPTY, INVALID, generation, index};
use reference::tables::lengths;

type Told = Result<(), String>;

pub const CASES: [(&str, fn(&mut Tally) -> Told); 8] = [
    ("1,000,000 holds and one more", most_holds),
    (
        "1,000,000 holds on a branch that is interned again",
        most_holds_of_a_branch,
    ),
    ("a full arena on a hit and on a miss", full),
    ("height 6 and one more", tallest),
    ("a release that frees two subtrees", freeing),
    ("generation 0x7FFD and its successor", generations),
    ("capacity 2 and 65,536, and one beyond each", capacities),
    ("a full arena of 65,536 slots", full_of_leaves),
];

/// An arena on all sides, whose calls are expected to answer a number.
struct Case<'a> {
    beside: Beside,
    tally: &'a mut Tally,
}

impl<'a> Case<'a> {
    fn new(capacity: usize, tally: &'a mut Tally) -> Self {
        let beside = Beside::fresh(capacity, Original::Beside);
        Self { beside, tally }
    }

    fn expect(&mut self, call: Call<u64>, no: u32) -> Result<Answered, String> {
        let answered = self.beside.call(&call, self.tally)?;
        if answered.no != no {
            return Err(format!("{call:x?} answers {}, not {no}", answered.no));
        }
        Ok(answered)
    }

    fn leaf(&mut self, value: u16) -> Result<u64, String> {
        Ok(self.expect(Call::Leaf(value), 0)?.id)
    }

    fn expect_counts(&mut self, id: u64, holds: u64, places: u64) -> Told {
        let counted = self.expect(Call::Counts(id), 0)?;
        if (counted.holds, counted.places) != (holds, places) {
            return Err(format!(
                "{counted:?}, not {holds} holds and {places} places"
            ));
        }
        Ok(())
    }

    fn finish(mut self) -> Told {
        self.beside.same_everywhere(self.tally)
    }
}

fn only(child: u64) -> [u64; 8] {
    let mut children = [EMPTY; 8];
    children[0] = child;
    children
}

fn most_holds(tally: &mut Tally) -> Told {
    let mut case = Case::new(4, tally);
    let leaf = case.leaf(1)?;
    for _ in 1..MOST_HOLDS {
        case.expect(Call::Hold(leaf), 0)?;
    }
    case.expect_counts(leaf, MOST_HOLDS.into(), 0)?;
    case.expect(Call::Hold(leaf), 10)?;
    case.expect(Call::Leaf(1), 10)?;
    case.expect(Call::Release(leaf), 0)?;
    case.expect(Call::Leaf(1), 0)?;
    // A place is no hold: with one hold used up for a place there is room for one more.
    case.expect(Call::Branch(only(leaf)), 0)?;
    case.expect(Call::Hold(leaf), 0)?;
    case.expect(Call::Hold(leaf), 10)?;
    case.expect_counts(leaf, MOST_HOLDS.into(), 1)?;
    for _ in 0..MOST_HOLDS {
        case.expect(Call::Release(leaf), 0)?;
    }
    case.expect(Call::Release(leaf), 5)?;
    case.expect_counts(leaf, 0, 1)?;
    case.finish()
}

fn most_holds_of_a_branch(tally: &mut Tally) -> Told {
    let mut case = Case::new(4, tally);
    let leaf = case.leaf(1)?;
    let branch = case.expect(Call::Branch(only(leaf)), 0)?.id;
    for _ in 1..MOST_HOLDS {
        case.expect(Call::Hold(branch), 0)?;
    }
    case.leaf(1)?;
    case.expect(Call::Branch(only(leaf)), 10)?;
    case.expect_counts(leaf, 1, 1)?;
    case.expect(Call::Release(branch), 0)?;
    case.expect(Call::Branch(only(leaf)), 0)?;
    case.expect_counts(leaf, 0, 1)?;
    case.expect_counts(branch, MOST_HOLDS.into(), 0)?;
    case.finish()
}

fn full(tally: &mut Tally) -> Told {
    let mut case = Case::new(2, tally);
    let leaf = case.leaf(1)?;
    case.leaf(1)?;
    case.expect(Call::Leaf(2), 11)?;
    case.expect(Call::Branch(only(leaf)), 11)?;
    case.expect_counts(leaf, 2, 0)?;
    case.finish()?;

    let mut case = Case::new(3, tally);
    let leaf = case.leaf(1)?;
    let branch = case.expect(Call::Branch(only(leaf)), 0)?.id;
    case.leaf(1)?;
    case.expect(Call::Branch(only(leaf)), 0)?;
    case.expect_counts(branch, 2, 0)?;
    case.expect(Call::Leaf(2), 11)?;
    case.expect(Call::Branch(only(branch)), 11)?;
    case.expect(Call::Release(branch), 0)?;
    case.expect(Call::Release(branch), 0)?;
    case.expect(Call::Leaf(2), 0)?;
    case.finish()
}

/// A chain of branches up to the tallest; one more is refused, and its release frees the whole chain.
fn tallest(tally: &mut Tally) -> Told {
    let mut case = Case::new(9, tally);
    let mut top = case.leaf(5)?;
    for _ in 0..TALLEST {
        top = case.expect(Call::Branch(only(top)), 0)?.id;
    }
    case.expect(Call::Branch(only(top)), 8)?;
    case.expect_counts(top, 1, 0)?;
    case.expect(Call::Release(top), 0)?;
    if case.beside.document().live() != 0 {
        return Err("the chain is not freed".to_string());
    }
    case.finish()
}

/// A root over a branch of a leaf and a second leaf: the branch's leaf is freed before the second one (D1).
fn freeing(tally: &mut Tally) -> Told {
    let mut case = Case::new(16, tally);
    let one = case.leaf(1)?;
    let below = case.expect(Call::Branch(only(one)), 0)?.id;
    let two = case.leaf(2)?;
    let mut children = only(below);
    children[1] = two;
    let root = case.expect(Call::Branch(children), 0)?.id;
    case.expect(Call::Release(root), 0)?;
    let freed = [root, below, one, two].map(index);
    if case.beside.document().freed() != freed {
        return Err(format!("freed {:?}", case.beside.document().freed()));
    }
    let next = case.leaf(9)?;
    if index(next) != index(two) {
        return Err(format!("{next:#x} is not in the slot freed last"));
    }
    case.finish()
}

/// One slot is recycled again and again: its first id is refused until it comes round.
fn generations(tally: &mut Tally) -> Told {
    let mut case = Case::new(2, tally);
    let first = case.leaf(1)?;
    case.expect(Call::Release(first), 0)?;
    for recycled in 1..GENERATIONS {
        case.expect(Call::Hold(first), 4)?;
        case.expect(Call::Counts(first), 4)?;
        let id = case.leaf(1 + recycled % 5)?;
        if generation(id) != recycled {
            return Err(format!("{id:#x} after {recycled} recyclings"));
        }
        case.expect(Call::Release(first), 4)?;
        case.expect(Call::Release(id), 0)?;
    }
    let again = case.leaf(9)?;
    if again != first {
        return Err(format!("{again:#x} is not the first id {first:#x}"));
    }
    case.expect(Call::Hold(first), 0)?;
    case.expect_counts(first, 2, 0)?;
    case.finish()
}

fn capacities(_: &mut Tally) -> Told {
    for (capacity, no) in [
        (0, 1),
        (1, 1),
        (2, 0),
        (MOST_CAPACITY, 0),
        (MOST_CAPACITY + 1, 1),
    ] {
        let state = Lent::fresh(2).arena;
        let mut lent = Lent::full_of(state, lengths(capacity), 7);
        let before = lent.clone();
        if lent.make_fresh(capacity) != no || !lent.is_intact() {
            return Err(format!("a fresh arena of {capacity} slots"));
        }
        if no == 0 {
            continue;
        }
        for call in [
            Call::Leaf(1),
            Call::Branch([EMPTY; 8]),
            Call::Hold(EMPTY),
            Call::Release(EMPTY),
            Call::Counts(EMPTY),
        ] {
            let id = match call {
                Call::Leaf(_) | Call::Branch(_) => INVALID,
                _ => EMPTY,
            };
            if lent.call(&call) != Answered::made(1, id) {
                return Err(format!("{call:?} with {capacity} slots"));
            }
        }
        let mut after = lent.clone();
        after.arena = before.arena;
        if !after.is_same(&before) {
            return Err(format!("refusal 1 with {capacity} slots changed something"));
        }
    }
    Ok(())
}

/// Every value a leaf: the arena is full, every value hits, and nothing else has room.
fn full_of_leaves(tally: &mut Tally) -> Told {
    let mut case = Case::new(MOST_CAPACITY, tally);
    let mut ids = vec![EMPTY];
    for value in 1..=65_535 {
        ids.push(case.leaf(value)?);
    }
    for value in (1..=65_535).rev() {
        let id = case.leaf(value)?;
        if id != ids[usize::from(value)] {
            return Err(format!("leaf {value} is {id:#x} now"));
        }
    }
    case.expect(Call::Branch(only(ids[1])), 11)?;
    case.expect(Call::Release(ids[2]), 0)?;
    case.expect(Call::Release(ids[2]), 0)?;
    let branch = case
        .expect(
            Call::Branch([
                ids[1],
                ids[3],
                ids[65_535],
                ids[1],
                EMPTY,
                EMPTY,
                EMPTY,
                ids[9],
            ]),
            0,
        )?
        .id;
    case.expect(Call::Leaf(2), 11)?;
    case.expect(Call::Release(branch), 0)?;
    case.expect(Call::Leaf(2), 0)?;
    case.finish()
}
