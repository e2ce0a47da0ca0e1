//! Pairs of roots at random in small arenas: of edits, of branches of any roots, of eight times one node, leaves, EMPTY, and ids that are neither.
use crate::roots::Roots;
use crate::sides::{Places, Told};
use crate::tally::Tally;
use reference::Random;
use reference::arena::TALLEST;
use reference::reading::DEEPEST;
use std::fmt;

/// How many roots are held at a time.
const MOST_ROOTS: usize = 12;
/// How many pairs are compared after each step.
const PAIRS: u64 = 6;
/// Lists to this length are entered into their left root, one in so many.
const ENTERED: usize = 40;
const ENTERED_ONE_IN: usize = 16;

/// What one run does.
pub struct Plan {
    pub capacity: usize,
    /// Models are edited at depths to this one.
    pub deepest: u32,
    pub pairs: u64,
    pub seed: u64,
}

impl fmt::Display for Plan {
    fn fmt(&self, f: &mut fmt::Formatter<'_>) -> fmt::Result {
        write!(
            f,
            "capacity {}, depth to {}, seed {:#x}",
            self.capacity, self.deepest, self.seed
        )
    }
}

/// The values of one run: few, so that nodes meet, or many; 0 digs out.
fn values(random: &mut Random) -> Vec<u16> {
    match random.below(4) {
        0 => vec![0, 1],
        1 => vec![0, 1, 2],
        2 => vec![0, 7, 8, 0x7FFF, 0x8000, 65_535],
        _ => (0..20).map(|_| random.bits() as u16).collect(),
    }
}

/// A depth, most often one that both roots fit; the larger ones are rare, since each of their cells is looked up.
fn depth(roots: &mut Roots, left: u64, right: u64) -> u32 {
    let document = roots.beside.document();
    let height = |id: u64| match document.is_live(id) {
        true => document.height(id),
        false => 0,
    };
    let taller = u32::from(height(left).max(height(right)));
    match roots.random.below(4_000) {
        0 => DEEPEST,
        1..5 => 5,
        5..30 => 4,
        30..40 => 7,
        40 => roots.random.one_of(&[8, 31, 64, 1 << 31, u32::MAX]),
        41..400 => roots.random.below(4) as u32,
        400..1_000 if taller < 3 => taller + 1,
        _ => taller.min(3),
    }
}

fn step(roots: &mut Roots, plan: &Plan, values: &[u16]) -> Told {
    if roots.held.len() == MOST_ROOTS || roots.random.once_in(10) && !roots.held.is_empty() {
        let at = roots.random.below(roots.held.len());
        roots.drop_root(at)?;
    }
    let before = roots.held.len();
    let tallest = match roots.random.once_in(100) {
        true => TALLEST,
        false => plan.deepest as u8,
    };
    match roots.random.below(10) {
        0..5 => {
            let root = roots.any();
            let depth = roots.random.below(1 + plan.deepest as usize) as u32;
            let edits = roots.random.one_of(&[1, 1, 1, 2, 3, 8, 40]);
            roots.edit(root, depth, edits, values)?;
        }
        5 => {
            let value = roots.random.one_of(values);
            roots.leaf(value)?;
        }
        6 => {
            let child = roots.any();
            roots.branch([child; 8], tallest)?;
        }
        _ => {
            let few = [roots.any(), roots.any(), roots.any()];
            let children = [(); 8].map(|()| roots.random.one_of(&few));
            roots.branch(children, tallest)?;
        }
    }
    if roots.held.len() == before && before > 0 && roots.random.once_in(2) {
        // The arena may be full.
        let at = roots.random.below(before);
        roots.drop_root(at)?;
    }
    Ok(())
}

/// Compares the newest root with another, or any two ids.
fn pair(roots: &mut Roots) -> Told {
    let mut ids = [roots.any(), roots.any()];
    if let Some(newest) = roots.held.last()
        && roots.random.once_in(2)
    {
        ids[0] = *newest;
    }
    if roots.random.once_in(20) {
        ids[roots.random.below(2)] = roots.odd();
    }
    let [left, right] = ids;
    let depth = depth(roots, left, right);
    if let Some(found) = roots.compare(left, right, depth)?
        && found.cells.len() <= ENTERED
        && roots.random.once_in(ENTERED_ONE_IN)
    {
        roots.enter(left, right, depth, &found)?;
    }
    Ok(())
}

/// Runs one plan to its end, and then releases every root: nothing is live then.
pub fn run(plan: &Plan, places: &Places, tally: &mut Tally) -> Told {
    let mut roots = Roots::fresh(plan.capacity, plan.seed, tally, places);
    let values = values(&mut roots.random);
    let mut done = 0;
    (|| {
        while done < plan.pairs {
            step(&mut roots, plan, &values)?;
            for _ in 0..PAIRS {
                pair(&mut roots)?;
                done += 1;
            }
        }
        roots.drop_all()
    })()
    .map_err(|words| format!("{plan}, after {done} pairs: {words}"))
}
